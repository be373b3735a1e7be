Sessions: what each kind of command writes.

  $ session() { printf "$1\n${3:+%%DEVICES\n$3\n}%%SCRIPT\n$2\n" | mixrev; }

A source that is refused.
  $ printf ' JUMP 0\n END 0\n' | mixrev
  line 1: A2 no such operation
  [1]

A deck that names no unit: its line is counted from the marker, and nothing is executed.
  $ session ' END 0' 'step' '\n%%UNIT 21'
  stderr: mixrev: T5 deck refused at line 2: K1 bad header
  [2]

`step` stops at a halt alone, `run` at a breakpoint too.
  $ session ' ENTA 0\n ENTA 0\n HLT\n END 0' 'break 1\nstep 10\nback 3\nrun 10\nrun 10'
  ok
  ran 3 to 0003 clock 12: halt
  back 3 to 0000 clock 0
  ran 1 to 0001 clock 1: break
  ran 2 to 0003 clock 12: halt

Back where nothing was done, and over a halt.
  $ session ' HLT\n END' 'back all\nstep\nback 1'
  back 0 to 0000 clock 0
  ran 1 to 0001 clock 10: halt
  back 1 to 0000 clock 0

Breakpoints, back and forth: one that was set later does not count, and one that was removed later does.
  $ session ' ENTA 5\n INCA 7\n STA 100\n HLT\n END 0' \
  >   'break 2\nstep 4\nback break\nback break\nforth 5\nback 3\nforth 2\nset A 1\nforth 1'
  ok
  ran 4 to 0004 clock 14: halt
  back 2 to 0002 clock 2
  back 3 to 0000 clock 0
  forth 5 to 0004 clock 14
  back 3 to 0001 clock 1
  forth 2 to 0003 clock 4
  ok
  ? C4 fewer changes than asked
  [3]

`set`: the words of ` ENT1 101` and ` MOVE 100(63)` by their numbers.
  $ mixrev <<EOF
  >  END 0
  > %SCRIPT
  > set cell 0 26476721
  > set cell 1 26218439
  > set cell 100 7
  > step 2
  > show cells 163 164
  > back 1
  > show cells 163 163
  > show changes
  > EOF
  ok
  ok
  ok
  ran 2 to 0002 clock 128: limit
  0163 + 00 00 00 00 07
  0164 + 00 00 00 00 00
  back 1 to 0001 clock 1
  0163 + 00 00 00 00 00
  changes 4

Breakpoints are shown in rising order; they are changes, and `back` takes them away.
  $ session ' END 0' 'break 10\nbreak 2\nshow breaks\nclear 10\nshow breaks\nshow changes\nback all\nshow breaks'
  ok
  ok
  breaks 0002 0010
  ok
  breaks 0002
  changes 3
  back 3 to 0000 clock 0
  breaks

All that is not as in an empty machine: registers, cells, breakpoints, units.
  $ session ' IN 100(16)\n OUT 100(19)\n END 0' \
  >   'break 7\nset cell 3999 -0\nset A -5\nstep 2\nshow all' '%%UNIT 16\nA\n%%UNIT 17 delay 5\n%%UNIT 20'
  ok
  ok
  ok
  ran 2 to 0002 clock 2: limit
  A  - 00 00 00 00 05
  X  + 00 00 00 00 00
  I1 + 00 00
  I2 + 00 00
  I3 + 00 00
  I4 + 00 00
  I5 + 00 00
  I6 + 00 00
  J  + 00 00
  over off cmp E loc 0002 clock 2
  0000 + 01 36 00 16 36
  0001 + 01 36 00 19 37
  0100 + 01 00 00 00 00
  3999 - 00 00 00 00 00
  breaks 0007
  unit 16 place 1 blocks 1 output 0
  < A                                                                               
  unit 17 place 0 blocks 0 output 0 delay 5 until 0
  unit 19 place 0 blocks 0 output 1
  \x3e A                                                                      (esc)

Registers, cells, the clock, and how many changes are done.
  $ session ' ENTA 4095\n INCA 1\n END 0' 'step 2\nshow regs\nshow cells 0 1\nshow clock\nshow changes'
  ran 2 to 0002 clock 2: limit
  A  + 00 00 01 00 00
  X  + 00 00 00 00 00
  I1 + 00 00
  I2 + 00 00
  I3 + 00 00
  I4 + 00 00
  I5 + 00 00
  I6 + 00 00
  J  + 00 00
  over off cmp E loc 0002 clock 2
  0000 + 63 63 00 02 48
  0001 + 00 01 00 00 48
  clock 2
  changes 2

Instructions and lines of the source; END inserts a cell that has no line.
  $ session ' LDA =3=\n JMP NOWHERE\n ORIG 1\nX STA 9,1(4:5) same cell\n END 0' \
  >   'show code 0 4\nset cell X 24\nshow code X X\nshow code\nset loc 3999\nstep\nshow code\nshow symbols'
  0000  + 00 02 00 05 08  LDA 2                  1   LDA =3=
  0001  + 00 09 01 37 24  STA 9,1(4:5)           4  X STA 9,1(4:5) same cell
  0002  + 00 00 00 00 03  MUL 0(0:0)                =3=
  0003  + 00 00 00 00 00  NOP                       NOWHERE
  0004  + 00 00 00 00 00  NOP
  ok
  0001  + 00 00 00 00 24  STA 0(0:0)             4* X STA 9,1(4:5) same cell
  0000  + 00 02 00 05 08  LDA 2                  1   LDA =3=
  ok
  ran 1 to 4000 clock 1: limit
  ? C3 number out of range
  symbols 2
  X           + 00 00 00 00 01
  NOWHERE     + 00 00 00 00 03
  [3]

Values: a word, its number and its characters.
  $ session 'X CON 1(4:5)\n END 0' 'show value X*8+2\nshow value -0\nset A -1073741823\nshow values\nshow values X X+1'
  + 00 00 00 00 02           2  "    B"
  - 00 00 00 00 00          -0  "     "
  ok
  A  - 63 63 63 63 63 -1073741823  "?????"
  X  + 00 00 00 00 00           0  "     "
  I1 + 00 00                    0  "  "
  I2 + 00 00                    0  "  "
  I3 + 00 00                    0  "  "
  I4 + 00 00                    0  "  "
  I5 + 00 00                    0  "  "
  I6 + 00 00                    0  "  "
  J  + 00 00                    0  "  "
  0000 + 00 00 00 00 01           1  "    A"
  0001 + 00 00 00 00 00           0  "     "

A breakpoint by a line of the source.
  $ session ' ENTA 5\n\n* two lines that give no word\n INCA 7\n HLT\n END 0' \
  >   'break line 2\nrun 9\nclear line 4\nshow breaks\nbreak line 6\nbreak line 0\nbreak line'
  ok
  ran 1 to 0001 clock 1: break
  ok
  breaks
  ? C3 number out of range
  ? C3 number out of range
  ? C2 bad argument
  [3]

The line of each change that a watch stops at, and a difference.
  $ session ' ENTA 5\n INCA 7\n STA 100\n HLT\n END 0' \
  >   'trace 4\nback until cell 100\nforth until A\nforth all\nback until A\ngoto 3\nshow diff 2'
        1  0000  ENTA 5               1u  A + 00 00 00 00 00 -> + 00 00 00 00 05
        2  0001  INCA 7               1u  A + 00 00 00 00 05 -> + 00 00 00 00 12
        3  0002  STA 100              2u  0100 + 00 00 00 00 00 -> + 00 00 00 00 12
        4  0003  HLT                 10u
  ran 4 to 0004 clock 14: halt
        3  0002  STA 100              2u  0100 + 00 00 00 00 00 -> + 00 00 00 00 12
  back 2 to 0002 clock 2
  ? C6 no such change
  forth 2 to 0004 clock 14
        2  0001  INCA 7               1u  A + 00 00 00 00 05 -> + 00 00 00 00 12
  back 3 to 0001 clock 1
  forth 2 to 0003 clock 4
  diff 2 to 3
  loc 0002 -> 0003
  clock 2 -> 4
  0100 + 00 00 00 00 00 -> + 00 00 00 00 12
  [3]

From +0 to -0 is altered, and a store of the same word is not; a cell that was set has a star.
  $ session ' ENTA 0\n ENNA 0\n STA 100\n STA 100\n HLT\n END 0' \
  >   'break 3\nrun 9 until A\nrun 9 until cell 100\nrun 9 until cell 100\nset cell 3 -0\nshow code 3 4'
  ok
        3  0001  ENNA 0               1u  A + 00 00 00 00 00 -> - 00 00 00 00 00
  ran 2 to 0002 clock 2: until
        4  0002  STA 100              2u  0100 + 00 00 00 00 00 -> - 00 00 00 00 00
  ran 1 to 0003 clock 4: until
  ran 2 to 0005 clock 16: halt
  ok
  0003  - 00 00 00 00 00  NOP -0                 4*  STA 100
  0004  + 00 00 00 02 05  HLT                    5   HLT

An IN over the instruction itself, which is shown as it was, and a transfer that waits for its unit.
  $ session ' ORIG 15\n IN 0(16)\n OUT 100(19)\n OUT 100(19)\n END 15' \
  >   'trace 3\nshow counts\nback until unit 19' '%%UNIT 16\nHELLO\n%%UNIT 19 delay 9'
        1  0015  IN 0(16)             1u  2 cells 0000 to 0015  unit 16 place 0 -> 1 until 0 -> 1
        2  0016  OUT 100(19)          1u  unit 19 output 0 -> 1 until 0 -> 11
        3  0017  OUT 100(19)         10u  unit 19 output 1 -> 2 until 11 -> 21
  ran 3 to 0018 clock 12: limit
           1           1  0015      2*  IN 0(16)
           1           1  0016      3   OUT 100(19)
           1          10  0017      4   OUT 100(19)
           3          12  total
        3  0017  OUT 100(19)         10u  unit 19 output 1 -> 2 until 11 -> 21
  back 1 to 0017 clock 2

A conflict: `run until conflict` stops at it, and `back until conflict` goes to before it.
  $ session 'BUF EQU 2000\nSTART OUT BUF(18)\n STZ BUF+1\n LDA BUF+1\n IOC 0(18)\n STZ BUF\n HLT\n END START' \
  >   'run 100 until conflict\nrun 100 until conflict\nshow conflicts\nback until conflict' '%%UNIT 18 delay 40'
        2  0001  STZ 2001             2u
  ran 2 to 0002 clock 3: until
  ran 4 to 0006 clock 54: halt
        2  0001  STZ 2001             2u  cell 2001, unit 18 until 41
        2  0001  STZ 2001             2u
  back 5 to 0001 clock 1

Counts of each line, and their sums.
  $ mixrev <<EOF
  >  ENT1 3
  > LOOP INCA 0,1
  >  DEC1 1
  >  J1P LOOP
  >  STA SUM
  >  HLT
  > SUM CON 0
  >  END 0
  > %SCRIPT
  > run 100 until loc LOOP
  > break line 5
  > run 100 until cell SUM
  > run 100 until cell SUM
  > run 100 until loc 6
  > show counts
  > back until loc LOOP
  > EOF
        1  0000  ENT1 3               1u  I1 + 00 00 -> + 00 03
  ran 1 to 0001 clock 1: until
  ok
  ran 9 to 0004 clock 10: break
       12  0004  STA 6                2u  0006 + 00 00 00 00 00 -> + 00 00 00 00 06
  ran 1 to 0005 clock 12: until
  ran 1 to 0006 clock 22: halt
           1           1  0000      1   ENT1 3
           3           3  0001      2  LOOP INCA 0,1
           3           3  0002      3   DEC1 1
           3           3  0003      4   J1P LOOP
           1           2  0004      5   STA SUM
           1          10  0005      6   HLT
          12          22  total
        9  0001  INCA 0,1             1u  A + 00 00 00 00 05 -> + 00 00 00 00 06
  back 5 to 0001 clock 7

Refusals: which comes first.
  $ mixrev <<EOF
  >  END 0
  > %SCRIPT
  > back 1
  > step 0
  > step 0 x
  > step 12345678901
  > jump
  > set loc 4000
  > set loc 4000 5
  > set I1 4096
  > show cells 5 4
  > show cells -1 4
  > show unit 21
  > back all
  > run 9 until
  > run 0 until cell Y
  > run 0 until cell 4000
  > back until unit 21
  > trace 0
  > show last 0
  > show diff 1
  > back until A
  > forth until loc 0
  > EOF
  ? C4 fewer changes than asked
  ? C3 number out of range
  ? C2 bad argument
  ? C2 bad argument
  ? C1 no such command
  ? C3 number out of range
  ? C2 bad argument
  ? C5 refused by the machine: M7 index overflow
  ? C3 number out of range
  ? C3 number out of range
  ? C3 number out of range
  back 0 to 0000 clock 0
  ? C2 bad argument
  ? C2 bad argument
  ? C3 number out of range
  ? C3 number out of range
  ? C3 number out of range
  ? C3 number out of range
  ? C4 fewer changes than asked
  ? C6 no such change
  ? C6 no such change
  [3]
