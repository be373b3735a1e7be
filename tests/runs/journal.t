What a machine holds at first, what changes alter, and what is there again when they are taken back.

  $ set -o pipefail
  $ session() { printf "$1\n${3:+%%DEVICES\n$3\n}%%SCRIPT\n$2\n" | mixrev; }

A MOVE over itself: 64 cells from 100 on hold the word of cell 100, and one when it is taken back.
  $ session ' ENT1 101\n MOVE 100(63)\n END 0' 'set cell 100 7\nstep 2\nshow last 1\nshow cells 100 164\nback 1\nshow cells 100 164' | uniq -c -s 4
        1 ok
        1 ran 2 to 0002 clock 128: limit
        1       3  0001  MOVE 100(63)       127u  I1 + 01 37 -> + 02 36  63 cells 0101 to 0163
       64 0100 + 00 00 00 00 07
        1 0164 + 00 00 00 00 00
        1 back 1 to 0001 clock 1
        1 0100 + 00 00 00 00 07
       64 0101 + 00 00 00 00 00

Breakpoints at cells of one number and of the next; one of them is cleared, and that is taken back.
  $ session ' END 0' 'break 0\nbreak 62\nbreak 63\nbreak 64\nbreak 3999\nshow breaks\nclear 63\nshow breaks\nback 1\nshow breaks' | grep breaks
  breaks 0000 0062 0063 0064 3999
  breaks 0000 0062 0064 3999
  breaks 0000 0062 0063 0064 3999

A loaded machine: of two words for a cell the later one wins, and all else is zero.
  $ session ' ORIG 3998\n CON 1\n ORIG 3998\n HLT\n END 3998' 'show all\nstep'
  A  + 00 00 00 00 00
  X  + 00 00 00 00 00
  I1 + 00 00
  I2 + 00 00
  I3 + 00 00
  I4 + 00 00
  I5 + 00 00
  I6 + 00 00
  J  + 00 00
  over off cmp E loc 3998 clock 0
  3998 + 00 00 00 02 05
  breaks
  ran 1 to 3999 clock 10: halt

Changes that are taken back at once, and one that is refused: nothing is left of them. Then the first is done again.
  $ session ' ENTA -9\n END 0' 'step\nback 1\nset over on\nback 1\nset I1 4096\nshow diff 0\nstep\nshow diff 0'
  ran 1 to 0001 clock 1: limit
  back 1 to 0000 clock 0
  ok
  back 1 to 0000 clock 0
  ? C5 refused by the machine: M7 index overflow
  diff 0 to 0
  ran 1 to 0001 clock 1: limit
  diff 0 to 1
  A + 00 00 00 00 00 -> - 00 00 00 00 09
  loc 0000 -> 0001
  clock 0 -> 1
  [3]

A state with a value of each kind, late in its clock, is no other than itself, and differs from the loaded one by those values.
  $ session ' IOC 0(8)\n IOC 0(8)\n END 0' 'step 2\nset A -1\nset I1 7\nset I6 -9\nset J 3\nset cell 5 6\nset over on\nset cmp L\nbreak 63\nshow diff 10\nshow diff 0' '%%UNIT 8 delay 999999999999998998\n%%UNIT 19 delay 5\nA' | grep -v ok
  ran 2 to 0002 clock 999999999999999000: limit
  diff 10 to 10
  diff 0 to 10
  A + 00 00 00 00 00 -> - 00 00 00 00 01
  I1 + 00 00 -> + 00 07
  I6 + 00 00 -> - 00 09
  J + 00 00 -> + 00 03
  over off -> on
  cmp E -> L
  loc 0000 -> 0002
  clock 0 -> 999999999999999000
  0005 + 00 00 00 00 00 -> + 00 00 00 00 06
  break 0063 off -> on
  unit 8 until 0 -> 1999999999999997998

+0 and -0 are two values, and a part that is set to what it was is not altered.
  $ session ' END 0' 'set loc 7\nset A -1\nset A -0\nset over on\nset loc 7\nshow diff 1\nback until A\nback until A\nback until over'
  ok
  ok
  ok
  ok
  ok
  diff 1 to 5
  A + 00 00 00 00 00 -> - 00 00 00 00 00
  over off -> on
        3  0007  set A                0u  A - 00 00 00 00 01 -> - 00 00 00 00 00
  back 3 to 0007 clock 0
        2  0007  set A                0u  A + 00 00 00 00 00 -> - 00 00 00 00 01
  back 1 to 0007 clock 0
  ? C6 no such change
  [3]

Clocks around 2^32, and the last one, are there again when steps are taken back.
  $ session ' OUT 100(19)\n OUT 100(19)\n NOP\n END 0' 'step 2\nstep 1\nback 1\nback 1\nforth 2' '%%UNIT 19 delay 4294967293'
  ran 2 to 0002 clock 4294967295: limit
  ran 1 to 0003 clock 4294967296: limit
  back 1 to 0002 clock 4294967295
  back 1 to 0001 clock 1
  forth 2 to 0003 clock 4294967296
  $ session ' OUT 100(19)\n OUT 100(19)\n NOP\n END 0' 'step 2\nstep 1\nback 1\nback 1\nforth 2' '%%UNIT 19 delay 999999999999999998'
  ran 2 to 0002 clock 1000000000000000000: limit
  ran 0 to 0002 clock 1000000000000000000: fault M14 clock full
  back 1 to 0001 clock 1
  back 1 to 0000 clock 0
  forth 2 to 0002 clock 1000000000000000000
  [3]
