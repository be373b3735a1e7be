What a run leaves in the units: a tape that one program wrote is read by the next one.

  $ printf ' IN 100(16)\n OUT 100(0)\n HLT\n END 0\n' >write.mixal
  $ printf ' IN 100(0)\n OUT 100(19)\n HLT\n END 0\n' >read.mixal
  $ printf 'A CARD\n\nnot read  \n' | mixrev run write.mixal --cards - --keep tapes
  $ mixrev run read.mixal --devices tapes </dev/null
  A CARD

The block has 20 lines of five words. The card that was read is used up, of the others the blank one is a blank line.

  $ wc -l <tapes
  24
  $ sed -n '1,3p;21,$p' tapes
  %UNIT 0
  +0100030119 +0400000000 +0000000000 +0000000000 +0000000000
  +0000000000 +0000000000 +0000000000 +0000000000 +0000000000
  +0000000000 +0000000000 +0000000000 +0000000000 +0000000000
  %UNIT 16
  
  NOT READ

A deck that is read and kept again is the same, in the same file too.

  $ printf ' HLT\n END 0\n' >halt.mixal
  $ cp tapes same
  $ mixrev run halt.mixal --devices same --keep same </dev/null
  $ cmp tapes same

A sign is kept, also of zero, and each byte up to 63. A disk is kept up to its last block.

  $ printf ' ENTX 1\n OUT 10(8)\n HLT\n ORIG 10\n CON -1\n ALF HELLO\n CON -0\n CON 1073741823\n END 0\n' >disk.mixal
  $ mixrev run disk.mixal --keep=disk </dev/null
  $ wc -l <disk
  41
  $ sed -n '1,2p;22p' disk
  %UNIT 8
  +0000000000 +0000000000 +0000000000 +0000000000 +0000000000
  -0000000001 +0805131316 -0000000000 +6363636363 +0000000000

Lines for the typewriter that were read are used up, a paper tape is not. A delay is kept.

  $ printf ' IN 100(19)\n IN 200(20)\n HLT\n END 0\n' >lines.mixal
  $ printf '%%UNIT 17 delay 5\n%%UNIT 20\nTAPE\n%%unit 19 DELAY 007\nread\nnot read\n%%UNIT 3 delay 999999999999999999\n' >deck
  $ mixrev run lines.mixal --devices deck --keep left </dev/null
  $ cat left
  %UNIT 3 delay 999999999999999999
  %UNIT 17 delay 5
  %UNIT 19 delay 7
  NOT READ
  %UNIT 20
  TAPE

All characters are kept.

  $ printf '%%UNIT 16\n~[# a.,()+-*/=$<>@;:\047 9\n' >deck
  $ mixrev run halt.mixal --devices deck --keep left </dev/null
  $ cat left
  %UNIT 16
  ~[# A.,()+-*/=$<>@;:' 9

Where nothing is left, the deck is empty. It is kept after a fault, and where the steps are used up.

  $ mixrev run halt.mixal --keep left </dev/null
  $ wc -c <left
  0
  $ printf ' IN 100(16)\n OUT 100(7)\n JMP 0\n END 0\n' >all.mixal
  $ printf 'A\nB\n' | mixrev run all.mixal --cards - --keep left
  stderr: all.mixal:1: M11 no block at 0000 clock 6
  [3]
  $ sed -n '1,2p;22p' left
  %UNIT 7
  +0100000000 +0000000000 +0000000000 +0000000000 +0000000000
  +0200000000 +0000000000 +0000000000 +0000000000 +0000000000
  $ printf 'A\nB\n' | mixrev run all.mixal --cards - --keep left --steps 1
  stderr: all.mixal:2: steps used up at 0001 clock 1
  [3]
  $ cat left
  %UNIT 16
  B

What the program printed is written, also if the deck can't be.

  $ printf ' OUT 9(19)\n HLT\n ORIG 9\n ALF PRINT\n END 0\n' >print.mixal
  $ mixrev run print.mixal --keep none/deck </dev/null
  PRINT
  stderr: mixrev: T4 not opened: none/deck: No such file or directory
  [2]
  $ mkdir folder
  $ mixrev run print.mixal --keep folder </dev/null
  PRINT
  stderr: mixrev: T4 not opened: folder: Is a directory
  [2]
  $ mixrev run halt.mixal --devices deck --keep /dev/full </dev/null
  stderr: mixrev: T3 write failed: /dev/full: No space left on device
  [2]

After a refused source or deck the file is as it was; a name is asked for.

  $ printf '%%UNIT 20\nOLD\n' >old
  $ printf ' JUMP\n END 0\n' | mixrev run - --keep old
  stderr: -:1:2: error: A2 no such operation: JUMP
  stderr:  JUMP
  stderr:  ^^^^
  stderr: help: perhaps JMP is meant
  [1]
  $ printf 'X\n' | mixrev run halt.mixal --devices - --keep old
  stderr: mixrev: T5 deck refused at line 1: K1 bad header
  [2]
  $ cat old
  %UNIT 20
  OLD
  $ mixrev run print.mixal --keep /dev/stdout </dev/null
  PRINT

On standard output it comes after what is printed. If that is a file, nothing of it is lost, and what is written next comes after it.

  $ printf '%%UNIT 20\nTAPE\n' >tape
  $ { mixrev run print.mixal --devices tape --keep /dev/stdout </dev/null; echo AFTER; } >all
  $ cat all
  PRINT
  %UNIT 20
  TAPE
  AFTER
  $ mixrev run print.mixal --devices tape --keep /dev/stdout </dev/null >>all
  $ sed -n '4,$p' all
  AFTER
  PRINT
  %UNIT 20
  TAPE
  $ mixrev run print.mixal --svg /dev/stdout </dev/null >all
  $ sed -n '1p' all
  PRINT

A dash is standard output too, and no file of that name is made.

  $ mixrev run disk.mixal --keep - </dev/null >all
  $ cmp disk all
  $ mixrev run halt.mixal --svg - </dev/null | sed -n '$p'
  </svg>
  $ ls ./- 2>&1 | wc -l
  1
  $ [ -e ./- ]
  [1]

Each file that is not saved is told, the deck first; the other one is saved all the same. Above them stands what is told of the run.

  $ mixrev run disk.mixal --keep none/deck --svg none/map </dev/null
  stderr: mixrev: T4 not opened: none/deck: No such file or directory
  stderr: mixrev: T4 not opened: none/map: No such file or directory
  [2]
  $ mixrev run disk.mixal --keep none/deck --svg map </dev/null
  stderr: mixrev: T4 not opened: none/deck: No such file or directory
  [2]
  $ sed -n '$p' map
  </svg>
  $ mixrev run disk.mixal --keep deck --svg /dev/full </dev/null
  stderr: mixrev: T3 write failed: /dev/full: No space left on device
  [2]
  $ cmp disk deck
  $ printf ' OUT 9(18)\n STZ 9\n JMP 2\n ORIG 9\n ALF "LINES"\n END 0\n%%DEVICES\n%%UNIT 18 delay 10\n' >line.mixal
  $ mixrev run line.mixal --steps 2 --keep none/deck </dev/null
  LINES
  stderr: line.mixal:2: warning: at 0001 clock 1 cell 0009 is altered while unit 18 prints it until 11
  stderr: line.mixal: warning: 1 step conflicts with a transfer under way
  stderr: line.mixal:3: steps used up at 0002 clock 3
  stderr: mixrev: T4 not opened: none/deck: No such file or directory
  [2]
  $ mixrev run line.mixal --strict --steps 9 --svg folder </dev/null
  LINES
  stderr: line.mixal:2: error: at 0001 clock 1 cell 0009 is altered while unit 18 prints it until 11
  stderr: mixrev: T4 not opened: folder: Is a directory
  [2]

A file that no more can be written to holds what it held, and a new one is not there.

  $ printf '%%UNIT 20\nOLD\n' >old
  $ (trap '' XFSZ; ulimit -f 1; mixrev run disk.mixal --keep old --svg none/map </dev/null)
  stderr: mixrev: T3 write failed: old
  stderr: mixrev: T4 not opened: none/map: No such file or directory
  [2]
  $ cat old
  %UNIT 20
  OLD
  $ (trap '' XFSZ; ulimit -f 1; mixrev run disk.mixal --keep new </dev/null)
  stderr: mixrev: T3 write failed: new
  [2]
  $ ls -a | grep -e new -e mixrev
  [1]

What is closed, or open for reading alone, is not written to; nothing is saved after a run whose output failed.

  $ program=$(dirname "$(command -v mixrev)")/../program/mixrev
  $ "$program" run halt.mixal --devices tape --keep /dev/stdout </dev/null 2>&1 >&-
  mixrev: T3 write failed: /dev/stdout
  [2]
  $ "$program" run halt.mixal --devices tape --keep /dev/stdout 2>&1 </dev/null 1</dev/null
  mixrev: T3 write failed: /dev/stdout
  [2]
  $ "$program" run print.mixal --devices tape --keep new </dev/null 2>&1 >&-
  mixrev: T3 write failed
  [2]
  $ ls new 2>&1 | wc -l
  1
