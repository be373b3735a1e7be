Breakpoints, and runs that go back and forth.

  $ set -o pipefail
  $ session() { printf "$1\n${3:+%%DEVICES\n$3\n}%%SCRIPT\n$2\n" | mixrev; }

Where no change was made.
  $ session ' END' 'forth all\ngoto 0\nback all\nshow last 1\nshow diff 0'
  forth 0 to 0000 clock 0
  forth 0 to 0000 clock 0
  back 0 to 0000 clock 0
  diff 0 to 0

`run` stops at a breakpoint, `step` at none.
  $ session ' END' 'break 1\nrun 1\nback 1\nstep 2'
  ok
  ran 1 to 0001 clock 1: break
  back 1 to 0000 clock 0
  ran 2 to 0002 clock 2: limit

Breakpoints are changes.
  $ session ' END' 'break 10\nbreak 2\nclear 10\nshow breaks\nshow changes'
  ok
  ok
  ok
  breaks 0002
  changes 3

A breakpoint that was set later is not one of the machine that is come back to.
  $ session ' END' 'step 3\nbreak 1\nback break'
  ran 3 to 0003 clock 3: limit
  ok
  back 4 to 0000 clock 0

One that was taken away later is.
  $ session ' END' 'break 1\nstep 3\nclear 1\nshow breaks\nback break\nshow breaks'
  ok
  ran 3 to 0003 clock 3: limit
  ok
  breaks
  back 3 to 0001 clock 1
  breaks 0001

At least one change is taken back, even at a breakpoint.
  $ session ' END' 'break 1\nstep 1\nback break\nback break\nBACK Break\nshow changes'
  ok
  ran 1 to 0001 clock 1: limit
  back 2 to 0000 clock 0
  back 0 to 0000 clock 0
  back 0 to 0000 clock 0
  changes 0

One breakpoint after the other.
  $ session ' END' 'break 0\nset cell 0 39\nstep 3\nback break\nback break\nback break\nback break'
  ok
  ok
  ran 3 to 0000 clock 3: limit
  back 1 to 0000 clock 2
  back 1 to 0000 clock 1
  back 1 to 0000 clock 0
  back 1 to 0000 clock 0

Breakpoints that are set twice or taken away where there is none are changes too.
  $ session ' END' \
  >   'show breaks\nbreak 3999\nbreak 0\nbreak -0\nclear 7\nshow breaks\nback 3\nshow breaks\nback all\nshow breaks'
  breaks
  ok
  ok
  ok
  ok
  breaks 0000 3999
  back 3 to 0000 clock 0
  breaks 3999
  back 1 to 0000 clock 0
  breaks

Breakpoints side by side.
  $ session ' END' 'break 63\nbreak 64\nbreak 128\nclear 64\nclear 63\nbreak 65\nshow breaks' | uniq -c
        6 ok
        1 breaks 0065 0128

The location after the last cell has no breakpoint.
  $ session ' END' 'break 3999\nset loc 3998\nrun 5\nrun 5\nback break'
  ok
  ok
  ran 1 to 3999 clock 1: break
  ran 1 to 4000 clock 2: fault M15 no cell at the location
  back 1 to 3999 clock 1
  [3]

Breakpoints come back with `forth`.
  $ session ' END' 'break 5\nset A 1\nback 2\nshow breaks\nforth 1\nshow breaks\nshow changes\nforth 1\nshow changes'
  ok
  ok
  back 2 to 0000 clock 0
  breaks
  forth 1 to 0000 clock 0
  breaks 0005
  changes 1
  forth 1 to 0000 clock 0
  changes 2

A new change drops what is ahead, even one that equals it.
  $ session ' END' 'set A 1\nback 1\nset A 1\nforth 1\nback 1\nstep\nforth 1'
  ok
  back 1 to 0000 clock 0
  ok
  ? C4 fewer changes than asked
  back 1 to 0000 clock 0
  ran 1 to 0001 clock 1: limit
  ? C4 fewer changes than asked
  [3]

Also a breakpoint.
  $ session ' END' 'break 1\nback 1\nclear 9\nforth 1\nback 1\nforth 1\nforth 1'
  ok
  back 1 to 0000 clock 0
  ok
  ? C4 fewer changes than asked
  back 1 to 0000 clock 0
  forth 1 to 0000 clock 0
  ? C4 fewer changes than asked
  [3]

Words are judged first.
  $ mixrev <<EOF | uniq -c
  >  END
  > %SCRIPT
  > run
  > run x
  > run 1 2
  > run -1
  > run 12345678901
  > forth
  > forth x
  > forth 1 1
  > forth back
  > break
  > break x
  > break 1 2
  > break 1073741824
  > clear
  > clear 4000 1
  > back break 1
  > show breaks 1
  > runs 1
  > EOF
       17 ? C2 bad argument
        1 ? C1 no such command
  [3]

Each range.
  $ session ' END' \
  >   'run 0\nrun 1000001\nforth 0\nforth 9999999999\nbreak 4000\nbreak -1\nclear 4000\nclear -1\nshow changes' | uniq -c
        3 ? C3 number out of range
        1 ? C4 fewer changes than asked
        4 ? C3 number out of range
        1 changes 0
  [3]

`run` goes on from a breakpoint.
  $ session ' NOP\n NOP\n HLT\n END 0' 'break 1\nstep 10\nback 3\nrun 10\nRUN 10'
  ok
  ran 3 to 0003 clock 12: halt
  back 3 to 0000 clock 0
  ran 1 to 0001 clock 1: break
  ran 2 to 0003 clock 12: halt

A halt is reported before a breakpoint, a breakpoint before the limit.
  $ session ' HLT\n END 0' 'break 1\nrun 1'
  ok
  ran 1 to 0001 clock 10: halt

Back to a breakpoint, and then to the start.
  $ session ' NOP\n NOP\n HLT\n END 0' 'break 1\nstep 10\nback break\nback break'
  ok
  ran 3 to 0003 clock 12: halt
  back 2 to 0001 clock 1
  back 2 to 0000 clock 0

`forth` stops at no breakpoint and no halt.
  $ session ' NOP\n NOP\n HLT\n END 0' 'break 1\nstep 3\nset A 1\nback all\nforth 5\nshow breaks\nforth 1'
  ok
  ran 3 to 0003 clock 12: halt
  ok
  back 5 to 0000 clock 0
  forth 5 to 0003 clock 12
  breaks 0001
  ? C4 fewer changes than asked
  [3]

A fault and refusals leave what is ahead.
  $ session ' STA 4000\n END 0' \
  >   'set A 1\nset A 2\nback 1\nstep\nrun 9\nset I1 4096\nback 5\nbreak 4000\nforth 1\nshow changes'
  ok
  ok
  back 1 to 0000 clock 0
  ran 0 to 0000 clock 0: fault M5 no such cell
  ran 0 to 0000 clock 0: fault M5 no such cell
  ? C5 refused by the machine: M7 index overflow
  ? C4 fewer changes than asked
  ? C3 number out of range
  forth 1 to 0000 clock 0
  changes 2
  [3]

A run of a jump to itself, and back but one.
  $ session ' JMP *\n END 0' 'run 1000\nback 999\nshow changes'
  ran 1000 to 0000 clock 1000: limit
  back 999 to 0000 clock 1
  changes 1

A long one.
  $ session ' JMP *\n END 0' 'run 100000\nback 99999\nshow changes'
  ran 100000 to 0000 clock 100000: limit
  back 99999 to 0000 clock 1
  changes 1

A run never stops where it starts.
  $ session ' JMP *\n END 0' 'break 0\nrun 1000000\nshow changes'
  ok
  ran 1 to 0000 clock 1: break
  changes 2

Forward again, until a new change drops what is ahead.
  $ session ' ENTA 5\n INCA 7\n STA 100\n HLT\n END 0' \
  >   'step 4\nback 3\nforth 2\nshow changes\nforth 2\nset J -1\nforth 1\nback 1\nset A 1\nforth 1'
  ran 4 to 0004 clock 14: halt
  back 3 to 0001 clock 1
  forth 2 to 0003 clock 4
  changes 3
  ? C4 fewer changes than asked
  ? C5 refused by the machine: M7 index overflow
  forth 1 to 0004 clock 14
  back 1 to 0003 clock 4
  ok
  ? C4 fewer changes than asked
  [3]

Longer runs.

Back and forth again, a refusal between, over 300,000 steps and over a MOVE of 63 words.
  $ mixrev <<EOF
  >  ENTA 5
  >  INCA 7
  >  STA 100
  >  HLT
  >  END 0
  > %SCRIPT
  > step 4
  > back 3
  > forth 2
  > show changes
  > forth 2
  > set J -1
  > forth 1
  > back 1
  > set A 1
  > forth 1
  > back all
  > set cell 0 39
  > run 300000
  > back 299999
  > forth 299999
  > back all
  > set cell 0 26476721
  > set cell 1 26218439
  > set cell 100 7
  > step 2
  > back 1
  > EOF
  ran 4 to 0004 clock 14: halt
  back 3 to 0001 clock 1
  forth 2 to 0003 clock 4
  changes 3
  ? C4 fewer changes than asked
  ? C5 refused by the machine: M7 index overflow
  forth 1 to 0004 clock 14
  back 1 to 0003 clock 4
  ok
  ? C4 fewer changes than asked
  back 4 to 0000 clock 0
  ok
  ran 300000 to 0000 clock 300000: limit
  back 299999 to 0000 clock 1
  forth 299999 to 0000 clock 300000
  back 300001 to 0000 clock 0
  ok
  ok
  ok
  ran 2 to 0002 clock 128: limit
  back 1 to 0001 clock 1
  [3]

Counts of a loop, of which steps are taken back and done again.
  $ mixrev <<EOF
  >  ENT1 3
  > L DEC1 1
  >  J1P L
  >  HLT
  >  END 0
  > %SCRIPT
  > step 8
  > show counts
  > back 4
  > show counts
  > forth 2
  > show counts
  > set cell 3 0
  > set loc 100
  > step
  > show counts
  > show changes
  > EOF
  ran 8 to 0004 clock 17: halt
           1           1  0000      1   ENT1 3
           3           3  0001      2  L DEC1 1
           3           3  0002      3   J1P L
           1          10  0003      4   HLT
           8          17  total
  back 4 to 0002 clock 4
           1           1  0000      1   ENT1 3
           2           2  0001      2  L DEC1 1
           1           1  0002      3   J1P L
           0           0  0003      4   HLT
           4           4  total
  forth 2 to 0002 clock 6
           1           1  0000      1   ENT1 3
           3           3  0001      2  L DEC1 1
           2           2  0002      3   J1P L
           0           0  0003      4   HLT
           6           6  total
  ok
  ok
  ran 1 to 0101 clock 7: limit
           1           1  0000      1   ENT1 3
           3           3  0001      2  L DEC1 1
           2           2  0002      3   J1P L
           0           0  0003      4*  HLT
           1           1  0100
           7           7  total
  changes 9

Runs that wait for one of several conditions.
  $ mixrev <<EOF
  >  ENT1 3
  > LOOP INCA 0,1
  >  DEC1 1
  >  J1P LOOP
  >  STA SUM
  >  HLT
  > SUM CON 0
  > OR CON 0
  >  END 0
  > %SCRIPT
  > run 100 until cell SUM or J OR loc 99
  > run 100 until cell SUM or over
  > back until A or X
  > back until cell SUM or J or I1
  > forth until loc 4 or cell SUM or cell OR
  > forth until over or cmp or unit 18
  > back until X or over
  > run 9 until cell OR or loc 5
  > run 9 until A or
  > run 9 until or A
  > run 9 until A or or X
  > run 9 until A X
  > run 9 until A and X
  > run 9 until A or X or I1 or I2 or I3 or I4 or I5 or I6 or J
  > run 9 until X or I1 or I2 or I3 or I4 or I5 or I6 or loc 6
  > back until A or unit 21
  > back until cell 4000 or FOO
  > run 0 until A or X
  > back until cell 4000 or A
  > BACK UNTIL CELL SUM OR LOC 3
  > EOF
        4  0003  J1P 1                1u  J + 00 00 -> + 00 04
  ran 4 to 0001 clock 4: until
       11  0004  STA 6                2u  0006 + 00 00 00 00 00 -> + 00 00 00 00 06
  ran 7 to 0005 clock 12: until
        8  0001  INCA 0,1             1u  A + 00 00 00 00 05 -> + 00 00 00 00 06
  back 4 to 0001 clock 7
        6  0002  DEC1 1               1u  I1 + 00 02 -> + 00 01
  back 2 to 0002 clock 5
       10  0003  J1P 1                1u
  forth 5 to 0004 clock 10
  ? C6 no such change
  ? C6 no such change
       11  0004  STA 6                2u  0006 + 00 00 00 00 00 -> + 00 00 00 00 06
  ran 1 to 0005 clock 12: until
  ? C2 bad argument
  ? C2 bad argument
  ? C2 bad argument
  ? C2 bad argument
  ? C2 bad argument
  ? C2 bad argument
  ran 1 to 0006 clock 22: halt
  ? C3 number out of range
  ? C2 bad argument
  ? C3 number out of range
  ? C3 number out of range
       11  0004  STA 6                2u  0006 + 00 00 00 00 00 -> + 00 00 00 00 06
  back 2 to 0004 clock 10
  [3]

Runs that stop when a register or a cell is altered and when a location is reached, `halt` before `until`; how often each instruction was executed.
  $ mixrev <<EOF
  >  ENT1 3
  > LOOP INCA 0,1
  >  DEC1 1
  >  J1P LOOP
  >  STA SUM
  >  HLT
  > SUM CON 0
  >  END 0
  > %SCRIPT
  > run 100 until I1
  > run 100 until loc LOOP
  > break line 5
  > run 100 until cell SUM
  > run 100 until cell SUM
  > run 100 until loc 6
  > show counts
  > back until loc LOOP
  > show last 2
  > EOF
        1  0000  ENT1 3               1u  I1 + 00 00 -> + 00 03
  ran 1 to 0001 clock 1: until
        4  0003  J1P 1                1u  J + 00 00 -> + 00 04
  ran 3 to 0001 clock 4: until
  ok
  ran 6 to 0004 clock 10: break
       12  0004  STA 6                2u  0006 + 00 00 00 00 00 -> + 00 00 00 00 06
  ran 1 to 0005 clock 12: until
  ran 1 to 0006 clock 22: halt
           1           1  0000      1   ENT1 3
           3           3  0001      2  LOOP INCA 0,1
           3           3  0002      3   DEC1 1
           3           3  0003      4   J1P LOOP
           1           2  0004      5   STA SUM
           1          10  0005      6   HLT
          12          22  total
        9  0001  INCA 0,1             1u  A + 00 00 00 00 05 -> + 00 00 00 00 06
  back 5 to 0001 clock 7
        7  0002  DEC1 1               1u  I1 + 00 02 -> + 00 01
        8  0003  J1P 1                1u

From +0 to -0 is altered, a store of the same word is not; `until` is reported before `break`.
  $ mixrev <<EOF
  >  ENTA 0
  >  ENNA 0
  >  STA 100
  >  STA 100
  >  OUT 100(18)
  >  HLT
  >  END 0
  > %SCRIPT
  > break 3
  > run 9 until A
  > run 9 until cell 100
  > run 9 until cell 100
  > back until cell 100
  > back until loc 9
  > set A 1(0:5),-0(0:0)
  > set cell 3 -0
  > show last 2
  > show diff 0
  > show code 3 6
  > EOF
  ok
        3  0001  ENNA 0               1u  A + 00 00 00 00 00 -> - 00 00 00 00 00
  ran 2 to 0002 clock 2: until
        4  0002  STA 100              2u  0100 + 00 00 00 00 00 -> - 00 00 00 00 00
  ran 1 to 0003 clock 4: until
  ran 3 to 0006 clock 17: halt
        4  0002  STA 100              2u  0100 + 00 00 00 00 00 -> - 00 00 00 00 00
  back 4 to 0002 clock 2
  ? C6 no such change
  ok
  ok
        4  0002  set A                0u  A - 00 00 00 00 00 -> - 00 00 00 00 01
        5  0002  set cell 0003        0u  0003 + 01 36 00 05 24 -> - 00 00 00 00 00
  diff 0 to 5
  A + 00 00 00 00 00 -> - 00 00 00 00 01
  loc 0000 -> 0002
  clock 0 -> 2
  0003 + 01 36 00 05 24 -> - 00 00 00 00 00
  break 0003 off -> on
  0003  - 00 00 00 00 00  NOP -0                 4*  STA 100
  0004  + 01 36 00 18 37  OUT 100(18)            5   OUT 100(18)
  0005  + 00 00 00 02 05  HLT                    6   HLT
  0006  + 00 00 00 00 00  NOP
  [3]

A long run of a jump to itself, and ten thousand single changes taken back: the clock falls by one at each.
  $ (printf ' JMP *\n END 0\n%%SCRIPT\nrun 100000\n'; seq 10000 | sed 's/.*/back 1/') >back_ten_thousand_times.mixal
  $ (echo 'ran 100000 to 0000 clock 100000: limit'; seq -f 'back 1 to 0000 clock %.0f' 99999 -1 90000) >wanted
  $ mixrev <back_ten_thousand_times.mixal | diff wanted -
