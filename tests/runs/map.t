The map of a run, as a picture: a row for each instruction that was executed, a column for each of these 12 changes, a box where it was executed. A column is
60 wide, a row 12 high.

  $ printf ' ENT1 3\nLOOP INCA 0,1\n DEC1 1\n J1P LOOP\n STA SUM\n HLT\nSUM CON 0\n END 0\n' >sum.mixal
  $ mixrev run sum.mixal --svg map.svg </dev/null
  $ cat map.svg
  <?xml version="1.0" encoding="UTF-8"?>
  <svg xmlns="http://www.w3.org/2000/svg" viewBox="0 0 760 84" width="760" height="84" role="img" aria-labelledby="map-title map-desc" font-family="ui-monospace, Menlo, Consolas, monospace" font-size="10">
  <title id="map-title">Map of 12 changes</title>
  <desc id="map-desc">Line 1: 1 time, between changes 1 and 1.
  Line 2: 3 times, between changes 2 and 8.
  Line 3: 3 times, between changes 3 and 9.
  Line 4: 3 times, between changes 4 and 10.
  Line 5: 1 time, between changes 11 and 11.
  Line 6: 1 time, between changes 12 and 12.
  </desc>
  <text x="32" y="14" fill="#5e5648" text-anchor="end">1</text>
  <rect x="36" y="4" width="60" height="12" fill="#224a69" fill-opacity="1.0"/>
  <text x="32" y="26" fill="#5e5648" text-anchor="end">2</text>
  <rect x="96" y="16" width="60" height="12" fill="#224a69" fill-opacity="1.0"/>
  <rect x="276" y="16" width="60" height="12" fill="#224a69" fill-opacity="1.0"/>
  <rect x="456" y="16" width="60" height="12" fill="#224a69" fill-opacity="1.0"/>
  <text x="32" y="38" fill="#5e5648" text-anchor="end">3</text>
  <rect x="156" y="28" width="60" height="12" fill="#224a69" fill-opacity="1.0"/>
  <rect x="336" y="28" width="60" height="12" fill="#224a69" fill-opacity="1.0"/>
  <rect x="516" y="28" width="60" height="12" fill="#224a69" fill-opacity="1.0"/>
  <text x="32" y="50" fill="#5e5648" text-anchor="end">4</text>
  <rect x="216" y="40" width="60" height="12" fill="#224a69" fill-opacity="1.0"/>
  <rect x="396" y="40" width="60" height="12" fill="#224a69" fill-opacity="1.0"/>
  <rect x="576" y="40" width="60" height="12" fill="#224a69" fill-opacity="1.0"/>
  <text x="32" y="62" fill="#5e5648" text-anchor="end">5</text>
  <rect x="636" y="52" width="60" height="12" fill="#224a69" fill-opacity="1.0"/>
  <text x="32" y="74" fill="#5e5648" text-anchor="end">6</text>
  <rect x="696" y="64" width="60" height="12" fill="#224a69" fill-opacity="1.0"/>
  <rect x="36" y="2" width="720" height="80" fill="none" stroke="#5e5648"/>
  </svg>

Where an instruction follows itself there is one box. No line of the source put a word into cell 1.

  $ printf ' JMP 0\n END 0\n' >loop.mixal
  $ mixrev run loop.mixal --svg map.svg --steps 5 </dev/null
  stderr: loop.mixal:1: steps used up at 0000 clock 5
  [3]
  $ sed -n '3,$p' map.svg
  <title id="map-title">Map of 5 changes</title>
  <desc id="map-desc">Line 1: 5 times, between changes 1 and 5.
  </desc>
  <text x="32" y="14" fill="#5e5648" text-anchor="end">1</text>
  <rect x="36" y="4" width="720" height="12" fill="#224a69" fill-opacity="1.0"/>
  <rect x="36" y="2" width="720" height="20" fill="none" stroke="#5e5648"/>
  </svg>
  $ printf ' NOP\n ORIG 2\n HLT\n END 0\n' >gap.mixal
  $ mixrev run gap.mixal --svg map.svg </dev/null
  $ sed -n '5p;9p' map.svg
  Location 0001: 1 time, between changes 2 and 2.
  <rect x="36" y="4" width="240" height="12" fill="#224a69" fill-opacity="1.0"/>
  $ sed -n '10p' map.svg
  <text x="32" y="26" fill="#5e5648" text-anchor="end">0001</text>

Of 241 changes in 240 columns the first two are in the first column: 2 has two binary digits and 1 has one, so the others are drawn in 0.3 + 0.7 / 2, cut to tenths.

  $ mixrev run loop.mixal --svg map.svg --steps 241 </dev/null >/dev/null
  [3]
  $ sed -n '4p;7,8p' map.svg
  <desc id="map-desc">Line 1: 241 times, between changes 1 and 241.
  <rect x="36" y="4" width="3" height="12" fill="#224a69" fill-opacity="1.0"/>
  <rect x="39" y="4" width="717" height="12" fill="#224a69" fill-opacity="0.6"/>

A fault at the first step leaves a map without rows.

  $ printf ' LDX -1,1\n END 0\n' >first.mixal
  $ mixrev run first.mixal --svg map.svg </dev/null
  stderr: first.mixal:1: M5 no such cell at 0000 clock 0
  [3]
  $ sed -n '3,$p' map.svg
  <title id="map-title">Map of 0 changes</title>
  <desc id="map-desc"></desc>
  <rect x="36" y="2" width="720" height="8" fill="none" stroke="#5e5648"/>
  </svg>

What the program prints is written as without a map, and so is its table of counts. Both files are written, in the order of their options or in the other one.

  $ printf ' OUT 9(19)\n HLT\n ORIG 9\n ALF PRINT\n END 0\n' >print.mixal
  $ mixrev run print.mixal --svg map.svg --keep left --trace </dev/null >with
  $ mixrev run print.mixal --trace </dev/null | cmp - with
  $ mixrev run print.mixal --keep left --svg other.svg --counts --csv </dev/null
  line,location,count,time
  1,0,1,1
  2,1,1,10
  $ cmp map.svg other.svg

Each file that can't be written is told, and the other one is written.

  $ rm map.svg
  $ mixrev run print.mixal --keep none/deck --svg map.svg </dev/null
  PRINT
  stderr: mixrev: T4 not opened: none/deck: No such file or directory
  [2]
  $ cmp map.svg other.svg
  $ mixrev run print.mixal --keep left --svg /dev/full </dev/null
  PRINT
  stderr: mixrev: T3 write failed: /dev/full: No space left on device
  [2]
  $ mixrev run print.mixal --keep none/deck --svg none/map.svg </dev/null
  PRINT
  stderr: mixrev: T4 not opened: none/deck: No such file or directory
  stderr: mixrev: T4 not opened: none/map.svg: No such file or directory
  [2]

After a refused source or deck the file is as it was.

  $ printf ' JUMP\n END 0\n' | mixrev run - --svg map.svg >/dev/null
  [1]
  $ printf 'X\n' | mixrev run print.mixal --devices - --svg map.svg
  stderr: mixrev: T5 deck refused at line 1: K1 bad header
  [2]
  $ cmp map.svg other.svg
