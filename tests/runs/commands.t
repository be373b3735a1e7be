The lines of a script: how they are read, which are refused and by which rule, and what is shown.

  $ set -o pipefail
  $ session() { printf "$1\n${3:+%%DEVICES\n$3\n}%%SCRIPT\n$2\n" | mixrev; }

A comment begins at the first byte; names are whole.
  $ session ' END' ' * step\njump\nsteps 1\nst' | uniq -c
        4 ? C1 no such command
  [3]

From 1 to a million.
  $ session ' END' 'step 1000001\nstep 9999999999\nstep 0'
  ? C3 number out of range
  ? C3 number out of range
  ? C3 number out of range
  [3]

Eleven digits, a sign, a word, words too many.
  $ session ' END' 'step 00000000001\nstep +1\nstep all\nstep 0 0\nstep 1 x y' | uniq -c
        5 ? C2 bad argument
  [3]
  $ session ' END' 'back\nback 0 x\nback all 1\nback al\nback -1' | uniq -c
        5 ? C2 bad argument
  [3]

As many changes as there are, and at least one.
  $ session ' END' 'back 0\nback 1\nBack 9999999999'
  ? C3 number out of range
  ? C4 fewer changes than asked
  ? C4 fewer changes than asked
  [3]

Small letters and capitals.
  $ session ' END' 'back all\nBACK ALL'
  back 0 to 0000 clock 0
  back 0 to 0000 clock 0

No such register, no word, two.
  $ session ' END' 'set\nset B 1\nset I0 1\nset I7 1\nset A\nset A 1 2\nset A x' | uniq -c
        7 ? C2 bad argument
  [3]

What is no word.
  $ session ' END' \
  >   'set A 1,\nset A +\nset A --1\nset A 1073741824\nset A -1073741824\nset A 9999999999\nset A 00000000001' | uniq -c
        7 ? C2 bad argument
  [3]
  $ session ' END' \
  >   'set cell\nset cell 1\nset cell 1 2 3\nset cell x 1\nset cell 1 x\nset cell 1073741824 1\nset cell 4000 1 2' | uniq -c
        7 ? C2 bad argument
  [3]
  $ session ' END' \
  >   'set loc\nset loc x\nset loc 4000 1\nset over\nset over 1\nset over on off\nset cmp\nset cmp less\nset cmp L E' | uniq -c
        9 ? C2 bad argument
  [3]
  $ session ' END' 'set cell 1073741823 1\nset loc 4000\nshow cells 2 1\nshow cells -1 0' | uniq -c
        4 ? C3 number out of range
  [3]
  $ mixrev <<EOF | uniq -c
  >  END
  > %SCRIPT
  > show
  > show regs regs
  > show register
  > show cells
  > show cells 1
  > show cells 1 2 3
  > show cells 2 1 0
  > show clock 1
  > show changes 1
  > show all 1
  > show everything
  > EOF
       11 ? C2 bad argument
  [3]

From 0 to 20.
  $ mixrev <<EOF | uniq -c
  >  END
  > %SCRIPT
  > show unit 0
  > show unit 0000000020
  > show unit 21
  > show unit 256
  > show unit 9999999999
  > show unit 00000000001
  > show unit
  > show unit 1 2
  > show unit 21 2
  > show unit A
  > show units 1
  > EOF
        1 unit 0 place 0 blocks 0 output 0
        1 unit 20 place 0 blocks 0 output 0
        3 ? C3 number out of range
        6 ? C2 bad argument
  [3]

A blank at the end.
  $ session ' END' 'SHOW CLOCK\nshow Changes '
  clock 0
  changes 0

The most steps: the word is JMP 0.
  $ session ' END' 'set cell 0 39\nstep 1000000'
  ok
  ran 1000000 to 0000 clock 1000000: limit

Blank lines, comments, tabs, ten digits.
  $ session ' END' '\n \t \n*\n* step\nstep\n\tSTEP  7 \nsTeP 0000000007'
  ran 1 to 0001 clock 1: limit
  ran 7 to 0008 clock 8: limit
  ran 7 to 0015 clock 15: limit

Tabs between words.
  $ session ' END' 'set\tcell\t0000003999\t-2\nshow cells 3999 3999'
  ok
  3999 - 00 00 00 00 02

Capitals, a tab, and a blank at the end.
  $ session ' END' 'SHOW\tUnit 20 '
  unit 20 place 0 blocks 0 output 0
  $ session ' END' 'SHOW\tRegs' >all
  $ wc -l <all
  10
  $ tail -n 1 all
  over off cmp E loc 0000 clock 0

What commands do.

No change to take back.
  $ session ' END' 'back 1\nstep 0\nback all'
  ? C4 fewer changes than asked
  ? C3 number out of range
  back 0 to 0000 clock 0
  [3]

Each refusal of a line's words.
  $ session ' END' 'jump\nstep 1 2\nstep 99999999999\nstep 1000001\nback\nback 0\nshow'
  ? C1 no such command
  ? C2 bad argument
  ? C2 bad argument
  ? C3 number out of range
  ? C2 bad argument
  ? C3 number out of range
  ? C2 bad argument
  [3]

ENT1 101 and MOVE 100(63) copy cell 100 over 63 cells; taken back.
  $ session ' END' \
  >   'set cell 0 26476721\nset cell 1 26218439\nset cell 100 7\nstep 2\nshow cells 163 164\nback 1\nshow cells 163 163'
  ok
  ok
  ok
  ran 2 to 0002 clock 128: limit
  0163 + 00 00 00 00 07
  0164 + 00 00 00 00 00
  back 1 to 0001 clock 1
  0163 + 00 00 00 00 00

A refusal by the machine among others.
  $ session ' END' 'set I1 4096\nset loc 4000\njump\nback 0'
  ? C5 refused by the machine: M7 index overflow
  ? C3 number out of range
  ? C1 no such command
  ? C3 number out of range
  [3]

-0 is a word of its own, and the number 0.
  $ session ' END' 'set A -0\nset I1 -0\nset cell -0 -0\nshow cells 0 1\nset loc -0\nback 4\nshow cells 0 0'
  ok
  ok
  ok
  0000 - 00 00 00 00 00
  0001 + 00 00 00 00 00
  ok
  back 4 to 0000 clock 0
  0000 + 00 00 00 00 00

The same word set twice is two changes.
  $ mixrev <<EOF
  >  END
  > %SCRIPT
  > set cell 3999 -1
  > show cells 3998 3999
  > set cell 3999 -1
  > back 1
  > show cells 3999 3999
  > back 1
  > show cells 3999 3999
  > EOF
  ok
  3998 + 00 00 00 00 00
  3999 - 00 00 00 00 01
  ok
  back 1 to 0000 clock 0
  3999 - 00 00 00 00 01
  back 1 to 0000 clock 0
  3999 + 00 00 00 00 00

A change but a step leaves the clock.
  $ session ' END' 'set loc 7\nshow clock\nstep\nshow clock\nback all\nshow clock'
  ok
  clock 0
  ran 1 to 0008 clock 1: limit
  clock 1
  back 2 to 0000 clock 0
  clock 0

How many changes are done.
  $ session ' END' \
  >   'show changes\nstep 3\nset A 1\nshow changes\nset A 1\nshow changes\nback 1\nshow changes\nback all\nshow changes'
  changes 0
  ran 3 to 0003 clock 3: limit
  ok
  changes 4
  ok
  changes 5
  back 1 to 0003 clock 3
  changes 4
  back 4 to 0000 clock 0
  changes 0

What an index register and rJ cannot hold.
  $ session ' END' 'set I3 -4096\nset J -0\nset J -1\nset J 4096\nset I6 1073741823\nshow changes\nback 1' | uniq -c
        5 ? C5 refused by the machine: M7 index overflow
        1 changes 0
        1 ? C4 fewer changes than asked
  [3]

Words are judged before ranges.
  $ session ' END' \
  >   'set I1 4096 x\nset I1 1073741824\nset J -1 -1\nset\nset cell 4000 x\nset loc 4000 x\nshow cells 4000 x' | uniq -c
        7 ? C2 bad argument
  [3]

Each range.
  $ session ' END' 'set cell 4000 1\nset cell -1 1\nset loc -1\nshow cells 1 0\nshow cells 0 4000\nback 0\nstep 1000001' | uniq -c
        7 ? C3 number out of range
  [3]

Words by their numbers.
  $ session ' END' 'set A 1073741823\nset cell 0 65536\nset cell 1 66240\nshow cells 0 1'
  ok
  ok
  ok
  0000 + 00 00 16 00 00
  0001 + 00 00 16 11 00

Location 4000 is left by `set loc`.
  $ session ' END' 'set loc 3999\nstep 2\nset loc 0\nback 2'
  ok
  ran 1 to 4000 clock 1: fault M15 no cell at the location
  ok
  back 2 to 3999 clock 0
  [3]

How cells and words are written.
  $ mixrev <<EOF
  >  END
  > %SCRIPT
  > SET CELL +3999 1
  > show cells 3999 3999
  > set cell 0000003999 -2
  > show cells 3999 3999
  > set cell 100 1073741823
  > show cells 100 100
  > EOF
  ok
  3999 + 00 00 00 00 01
  ok
  3999 - 00 00 00 00 02
  ok
  0100 + 63 63 63 63 63

Locations.
  $ session ' END' 'set loc 0\nset loc -0\nSET LOC 3999\nstep' | uniq -c
        3 ok
        1 ran 1 to 4000 clock 1: limit

Ranges of cells.
  $ session ' END' 'show cells -0 +0\nshow Cells 3998 3999'
  0000 + 00 00 00 00 00
  3998 + 00 00 00 00 00
  3999 + 00 00 00 00 00

All cells.
  $ session ' END' 'show Cells 0 3999' >all
  $ wc -l <all
  4000
  $ tail -n 1 all
  3999 + 00 00 00 00 00

A change that alters nothing is one too.
  $ session ' END' 'set over on\nset over on\nback 1\nshow changes'
  ok
  ok
  back 1 to 0000 clock 0
  changes 1

To show is no change.
  $ session ' END' 'show clock\nshow changes\nshow cells 0 0\nback all'
  clock 0
  changes 0
  0000 + 00 00 00 00 00
  back 0 to 0000 clock 0

Registers and flags that are set, and how many changes that is.
  $ mixrev <<EOF
  >  END 0
  > %SCRIPT
  > set A -5
  > set x 1073741823
  > set i6 -4095
  > SET J 4095
  > set over ON
  > set cmp g
  > set loc 3999
  > show regs
  > show changes
  > EOF
  ok
  ok
  ok
  ok
  ok
  ok
  ok
  A  - 00 00 00 00 05
  X  + 63 63 63 63 63
  I1 + 00 00
  I2 + 00 00
  I3 + 00 00
  I4 + 00 00
  I5 + 00 00
  I6 - 63 63
  J  + 63 63
  over on cmp G loc 3999 clock 0
  changes 7
  $ session ' END 0' \
  >   'set I1 1\nset I2 2\nset I3 3\nset I4 4\nset I5 5\nset I6 64\nset cmp L\nset over on\nset over off\nshow regs'
  ok
  ok
  ok
  ok
  ok
  ok
  ok
  ok
  ok
  A  + 00 00 00 00 00
  X  + 00 00 00 00 00
  I1 + 00 01
  I2 + 00 02
  I3 + 00 03
  I4 + 00 04
  I5 + 00 05
  I6 + 01 00
  J  + 00 00
  over off cmp L loc 0000 clock 0
  $ mixrev <<EOF
  >  END 0
  > %SCRIPT
  > set a -0
  > SET X +7
  > set I1 4095
  > set I3 -1
  > set i4 0000000009
  > set I5 -0000000009
  > set I6 +0
  > set J 1
  > set cmp L
  > set cmp e
  > show regs
  > set A 0
  > set x 1073741823
  > set i2 4096
  > set j -0
  > set j 4095
  > Set Cmp G
  > set over on
  > show regs
  > set x -1073741823
  > set OVER Off
  > show regs
  > EOF
  ok
  ok
  ok
  ok
  ok
  ok
  ok
  ok
  ok
  ok
  A  - 00 00 00 00 00
  X  + 00 00 00 00 07
  I1 + 63 63
  I2 + 00 00
  I3 - 00 01
  I4 + 00 09
  I5 - 00 09
  I6 + 00 00
  J  + 00 01
  over off cmp E loc 0000 clock 0
  ok
  ok
  ? C5 refused by the machine: M7 index overflow
  ? C5 refused by the machine: M7 index overflow
  ok
  ok
  ok
  A  + 00 00 00 00 00
  X  + 63 63 63 63 63
  I1 + 63 63
  I2 + 00 00
  I3 - 00 01
  I4 + 00 09
  I5 - 00 09
  I6 + 00 00
  J  + 63 63
  over on cmp G loc 0000 clock 0
  ok
  ok
  A  + 00 00 00 00 00
  X  - 63 63 63 63 63
  I1 + 63 63
  I2 + 00 00
  I3 - 00 01
  I4 + 00 09
  I5 - 00 09
  I6 + 00 00
  J  + 63 63
  over off cmp G loc 0000 clock 0
  [3]

Overflow, seen in the toggle and taken back with the step (the word of cell 0 is INCA 1).
  $ session ' END 0' 'set cell 0 262192\nset A 1073741823\nstep\nshow regs\nback 1'
  ok
  ok
  ran 1 to 0001 clock 1: limit
  A  + 00 00 00 00 00
  X  + 00 00 00 00 00
  I1 + 00 00
  I2 + 00 00
  I3 + 00 00
  I4 + 00 00
  I5 + 00 00
  I6 + 00 00
  J  + 00 00
  over on cmp E loc 0001 clock 1
  back 1 to 0000 clock 0

Words and numbers that are refused, in the order in which they are tested.
  $ mixrev <<EOF
  >  ENTA 5
  >  HLT
  >  END 0
  > %SCRIPT
  > step 2
  > step 3 until A
  > run 3 until
  > run 3 until reg A
  > run 0 until cell Y
  > run 0 until cell 4000
  > run 3 until unit 21
  > back until break
  > back until unit 0
  > goto 3
  > trace 0
  > show last 0
  > show diff 3
  > show code 0
  > show code 1 0
  > break line 0
  > break line 3
  > clear all
  > show changes
  > EOF
  ran 2 to 0002 clock 11: halt
  ? C2 bad argument
  ? C2 bad argument
  ? C2 bad argument
  ? C2 bad argument
  ? C3 number out of range
  ? C3 number out of range
  ? C2 bad argument
  ? C6 no such change
  ? C4 fewer changes than asked
  ? C3 number out of range
  ? C3 number out of range
  ? C4 fewer changes than asked
  ? C2 bad argument
  ? C3 number out of range
  ? C3 number out of range
  ? C3 number out of range
  ? C2 bad argument
  changes 2
  [3]

Each kind of answer, one after the other.
  $ mixrev <<EOF
  >  ENTA 5
  >  INCA 7
  >  STA 100
  >  HLT
  >  END 0
  > %SCRIPT
  > step 4
  > back 3
  > forth 2
  > set over on
  > show changes
  > back break
  > back all
  > * none
  > forth 9
  > run 2
  > show clock
  > goto 1
  > Forth ALL
  > goto 3
  > show value 0
  > show symbols
  > trace
  > back until A
  > forth until A
  > run 9 until cmp
  > back until cmp
  > show last 1
  > show diff 3
  > show diff 5
  > goto 2
  > EOF
  ran 4 to 0004 clock 14: halt
  back 3 to 0001 clock 1
  forth 2 to 0003 clock 4
  ok
  changes 4
  back 4 to 0000 clock 0
  back 0 to 0000 clock 0
  ? C4 fewer changes than asked
  ran 2 to 0002 clock 2: limit
  clock 2
  back 1 to 0001 clock 1
  forth 1 to 0002 clock 2
  ? C4 fewer changes than asked
  + 00 00 00 00 00           0  "     "
  symbols 0
        3  0002  STA 100              2u  0100 + 00 00 00 00 00 -> + 00 00 00 00 12
  ran 1 to 0003 clock 4: limit
        2  0001  INCA 7               1u  A + 00 00 00 00 05 -> + 00 00 00 00 12
  back 2 to 0001 clock 1
        2  0001  INCA 7               1u  A + 00 00 00 00 05 -> + 00 00 00 00 12
  forth 1 to 0002 clock 2
  ran 2 to 0004 clock 14: halt
  ? C6 no such change
        4  0003  HLT                 10u
  diff 3 to 4
  loc 0003 -> 0004
  clock 4 -> 14
  ? C4 fewer changes than asked
  back 2 to 0002 clock 2
  [3]
