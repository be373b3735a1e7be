What was altered, when, and by what.

  $ session() { printf "$1\n${3:+%%DEVICES\n$3\n}%%SCRIPT\n$2\n" | mixrev; }

The last changes, and what differs.
  $ session ' ENTA 5\n INCA 7\n STA 100\n HLT\n END 0' 'step 4\nshow last 2\nshow diff 2\nshow diff 4'
  ran 4 to 0004 clock 14: halt
        3  0002  STA 100              2u  0100 + 00 00 00 00 00 -> + 00 00 00 00 12
        4  0003  HLT                 10u
  diff 2 to 4
  loc 0002 -> 0004
  clock 2 -> 14
  0100 + 00 00 00 00 00 -> + 00 00 00 00 12
  diff 4 to 4

How often each instruction was executed, before and after.
  $ session ' ENTA 5\n INCA 7\n STA 100\n HLT\n END 0' 'show counts\nstep 4\nshow counts'
           0           0  0000      1   ENTA 5
           0           0  0001      2   INCA 7
           0           0  0002      3   STA 100
           0           0  0003      4   HLT
           0           0  total
  ran 4 to 0004 clock 14: halt
           1           1  0000      1   ENTA 5
           1           1  0001      2   INCA 7
           1           2  0002      3   STA 100
           1          10  0003      4   HLT
           4          14  total

Longer runs.

The line of the source that put a word into a cell, the last one where two did, and words as numbers and characters.
  $ mixrev <<EOF
  >  LDA =3=
  >  JMP NOWHERE
  >  ORIG 1
  > X STA 9,1(4:5) later line, same cell
  >  END 0
  > %SCRIPT
  > show code 0 4
  > set cell X 24
  > show code X X
  > show value X*8+2
  > show value -0
  > show symbols
  > set A -1073741823
  > show values
  > show counts
  > EOF
  0000  + 00 02 00 05 08  LDA 2                  1   LDA =3=
  0001  + 00 09 01 37 24  STA 9,1(4:5)           4  X STA 9,1(4:5) later line, same cell
  0002  + 00 00 00 00 03  MUL 0(0:0)                =3=
  0003  + 00 00 00 00 00  NOP                       NOWHERE
  0004  + 00 00 00 00 00  NOP
  ok
  0001  + 00 00 00 00 24  STA 0(0:0)             4* X STA 9,1(4:5) later line, same cell
  + 00 00 00 00 10          10  "    ~"
  - 00 00 00 00 00          -0  "     "
  symbols 2
  X           + 00 00 00 00 01
  NOWHERE     + 00 00 00 00 03
  ok
  A  - 63 63 63 63 63 -1073741823  "?????"
  X  + 00 00 00 00 00           0  "     "
  I1 + 00 00                    0  "  "
  I2 + 00 00                    0  "  "
  I3 + 00 00                    0  "  "
  I4 + 00 00                    0  "  "
  I5 + 00 00                    0  "  "
  I6 + 00 00                    0  "  "
  J  + 00 00                    0  "  "
           0           0  0000      1   LDA =3=
           0           0  0001      4* X STA 9,1(4:5) later line, same cell
           0           0  total

Words as lines of MIXAL: fields, indexes, -0, the normal F left out, and words that are no instruction.
  $ mixrev <<EOF
  >  CON 31(0:1),16(2:2),2(3:3),3(4:4),8(5:5)
  >  CON 31(0:1),16(2:2),2(3:3),5(4:4),8(5:5)
  >  CON -0(0:1),2(4:4),48(5:5)
  >  CON -0(0:1)
  >  CON 0(0:1),5(2:2),2(4:4),32(5:5)
  >  CON 0(0:1),5(2:2),5(4:4),32(5:5)
  >  CON 1(0:1),36(2:2),1(4:4),7(5:5)
  >  CON 1(0:1),36(2:2),63(4:4),7(5:5)
  >  CON 15(0:1),42(2:2),19(4:4),37(5:5)
  >  CON 15(0:1),42(2:2),21(4:4),37(5:5)
  >  CON 0(0:1),2(4:4),5(5:5)
  >  CON 0(0:1),3(4:4),5(5:5)
  >  CON 0(0:1),6(4:4),1(5:5)
  >  CON -0(0:1),5(2:2),7(3:3),5(4:4),8(5:5)
  >  END 0
  > %SCRIPT
  > show code 0 13
  > EOF
  0000  + 31 16 02 03 08  LDA 2000,2(0:3)        1   CON 31(0:1),16(2:2),2(3:3),3(4:4),8(5:5)
  0001  + 31 16 02 05 08  LDA 2000,2             2   CON 31(0:1),16(2:2),2(3:3),5(4:4),8(5:5)
  0002  - 00 00 00 02 48  ENTA -0                3   CON -0(0:1),2(4:4),48(5:5)
  0003  - 00 00 00 00 00  NOP -0                 4   CON -0(0:1)
  0004  + 00 05 00 02 32  STJ 5                  5   CON 0(0:1),5(2:2),2(4:4),32(5:5)
  0005  + 00 05 00 05 32  STJ 5(0:5)             6   CON 0(0:1),5(2:2),5(4:4),32(5:5)
  0006  + 01 36 00 01 07  MOVE 100               7   CON 1(0:1),36(2:2),1(4:4),7(5:5)
  0007  + 01 36 00 63 07  MOVE 100(63)           8   CON 1(0:1),36(2:2),63(4:4),7(5:5)
  0008  + 15 42 00 19 37  OUT 1002(19)           9   CON 15(0:1),42(2:2),19(4:4),37(5:5)
  0009  + 15 42 00 21 37  CON 262669669         10   CON 15(0:1),42(2:2),21(4:4),37(5:5)
  0010  + 00 00 00 02 05  HLT                   11   CON 0(0:1),2(4:4),5(5:5)
  0011  + 00 00 00 03 05  CON 197               12   CON 0(0:1),3(4:4),5(5:5)
  0012  + 00 00 00 06 01  CON 385               13   CON 0(0:1),6(4:4),1(5:5)
  0013  - 00 05 07 05 08  CON -1339720          14   CON -0(0:1),5(2:2),7(3:3),5(4:4),8(5:5)

A trace; back to the step that wrote a cell, forward again, and by number to any moment.
  $ mixrev <<EOF
  >  ENTA 5
  >  INCA 7
  >  STA 100
  >  HLT
  >  END 0
  > %SCRIPT
  > trace 4
  > back until cell 100
  > forth until A
  > forth all
  > back until X
  > back until A
  > goto 0
  > goto 5
  > goto 3
  > show diff 1
  > EOF
        1  0000  ENTA 5               1u  A + 00 00 00 00 00 -> + 00 00 00 00 05
        2  0001  INCA 7               1u  A + 00 00 00 00 05 -> + 00 00 00 00 12
        3  0002  STA 100              2u  0100 + 00 00 00 00 00 -> + 00 00 00 00 12
        4  0003  HLT                 10u
  ran 4 to 0004 clock 14: halt
        3  0002  STA 100              2u  0100 + 00 00 00 00 00 -> + 00 00 00 00 12
  back 2 to 0002 clock 2
  ? C6 no such change
  forth 2 to 0004 clock 14
  ? C6 no such change
        2  0001  INCA 7               1u  A + 00 00 00 00 05 -> + 00 00 00 00 12
  back 3 to 0001 clock 1
  back 1 to 0000 clock 0
  ? C4 fewer changes than asked
  forth 3 to 0003 clock 4
  diff 1 to 3
  A + 00 00 00 00 05 -> + 00 00 00 00 12
  loc 0001 -> 0003
  clock 1 -> 4
  0100 + 00 00 00 00 00 -> + 00 00 00 00 12
  [3]

All changes done that alter a cell, a register, a unit or the toggle, or lead to a location; of what is taken back none; what is refused.
  $ mixrev <<EOF
  >  ENT1 3
  > LOOP ST1 CELL
  >  STA CELL
  >  DEC1 1
  >  J1P LOOP
  >  OUT 0(18)
  >  HLT
  > CELL CON 0
  >  END 0
  > %SCRIPT
  > show writes A
  > run 14
  > show writes cell CELL
  > show writes I1
  > show writes loc LOOP
  > show writes unit 18
  > show writes J
  > show writes over
  > set cell CELL -0
  > show writes cell CELL
  > back 6
  > show writes cell CELL
  > show writes unit 18
  > show writes I1
  > show writes
  > show writes 3
  > show writes cell 4000
  > show writes unit 21
  > show writes A 1
  > EOF
  ran 14 to 0006 clock 20: limit
        2  0001  ST1 7                2u  0007 + 00 00 00 00 00 -> + 00 00 00 00 03
        3  0002  STA 7                2u  0007 + 00 00 00 00 03 -> + 00 00 00 00 00
        6  0001  ST1 7                2u  0007 + 00 00 00 00 00 -> + 00 00 00 00 02
        7  0002  STA 7                2u  0007 + 00 00 00 00 02 -> + 00 00 00 00 00
       10  0001  ST1 7                2u  0007 + 00 00 00 00 00 -> + 00 00 00 00 01
       11  0002  STA 7                2u  0007 + 00 00 00 00 01 -> + 00 00 00 00 00
        1  0000  ENT1 3               1u  I1 + 00 00 -> + 00 03
        4  0003  DEC1 1               1u  I1 + 00 03 -> + 00 02
        8  0003  DEC1 1               1u  I1 + 00 02 -> + 00 01
       12  0003  DEC1 1               1u  I1 + 00 01 -> + 00 00
        1  0000  ENT1 3               1u  I1 + 00 00 -> + 00 03
        5  0004  J1P 1                1u  J + 00 00 -> + 00 05
        9  0004  J1P 1                1u
       14  0005  OUT 0(18)            1u  unit 18 output 0 -> 1 until 0 -> 20
        5  0004  J1P 1                1u  J + 00 00 -> + 00 05
  ok
        2  0001  ST1 7                2u  0007 + 00 00 00 00 00 -> + 00 00 00 00 03
        3  0002  STA 7                2u  0007 + 00 00 00 00 03 -> + 00 00 00 00 00
        6  0001  ST1 7                2u  0007 + 00 00 00 00 00 -> + 00 00 00 00 02
        7  0002  STA 7                2u  0007 + 00 00 00 00 02 -> + 00 00 00 00 00
       10  0001  ST1 7                2u  0007 + 00 00 00 00 00 -> + 00 00 00 00 01
       11  0002  STA 7                2u  0007 + 00 00 00 00 01 -> + 00 00 00 00 00
       15  0006  set cell 0007        0u  0007 + 00 00 00 00 00 -> - 00 00 00 00 00
  back 6 to 0001 clock 13
        2  0001  ST1 7                2u  0007 + 00 00 00 00 00 -> + 00 00 00 00 03
        3  0002  STA 7                2u  0007 + 00 00 00 00 03 -> + 00 00 00 00 00
        6  0001  ST1 7                2u  0007 + 00 00 00 00 00 -> + 00 00 00 00 02
        7  0002  STA 7                2u  0007 + 00 00 00 00 02 -> + 00 00 00 00 00
        1  0000  ENT1 3               1u  I1 + 00 00 -> + 00 03
        4  0003  DEC1 1               1u  I1 + 00 03 -> + 00 02
        8  0003  DEC1 1               1u  I1 + 00 02 -> + 00 01
  ? C2 bad argument
  ? C2 bad argument
  ? C3 number out of range
  ? C3 number out of range
  ? C2 bad argument
  [3]

63 words of one MOVE in a line, and one by one as a difference.
  $ session ' ENT1 101\n MOVE 100(63)\n END 0' 'set cell 100 7\ntrace 2\nshow diff 2'
  ok
        2  0000  ENT1 101             1u  I1 + 00 00 -> + 01 37
        3  0001  MOVE 100(63)       127u  I1 + 01 37 -> + 02 36  63 cells 0101 to 0163
  ran 2 to 0002 clock 128: limit
  diff 2 to 3
  I1 + 01 37 -> + 02 36
  loc 0001 -> 0002
  clock 1 -> 128
  0101 + 00 00 00 00 00 -> + 00 00 00 00 07
  0102 + 00 00 00 00 00 -> + 00 00 00 00 07
  0103 + 00 00 00 00 00 -> + 00 00 00 00 07
  0104 + 00 00 00 00 00 -> + 00 00 00 00 07
  0105 + 00 00 00 00 00 -> + 00 00 00 00 07
  0106 + 00 00 00 00 00 -> + 00 00 00 00 07
  0107 + 00 00 00 00 00 -> + 00 00 00 00 07
  0108 + 00 00 00 00 00 -> + 00 00 00 00 07
  0109 + 00 00 00 00 00 -> + 00 00 00 00 07
  0110 + 00 00 00 00 00 -> + 00 00 00 00 07
  0111 + 00 00 00 00 00 -> + 00 00 00 00 07
  0112 + 00 00 00 00 00 -> + 00 00 00 00 07
  0113 + 00 00 00 00 00 -> + 00 00 00 00 07
  0114 + 00 00 00 00 00 -> + 00 00 00 00 07
  0115 + 00 00 00 00 00 -> + 00 00 00 00 07
  0116 + 00 00 00 00 00 -> + 00 00 00 00 07
  0117 + 00 00 00 00 00 -> + 00 00 00 00 07
  0118 + 00 00 00 00 00 -> + 00 00 00 00 07
  0119 + 00 00 00 00 00 -> + 00 00 00 00 07
  0120 + 00 00 00 00 00 -> + 00 00 00 00 07
  0121 + 00 00 00 00 00 -> + 00 00 00 00 07
  0122 + 00 00 00 00 00 -> + 00 00 00 00 07
  0123 + 00 00 00 00 00 -> + 00 00 00 00 07
  0124 + 00 00 00 00 00 -> + 00 00 00 00 07
  0125 + 00 00 00 00 00 -> + 00 00 00 00 07
  0126 + 00 00 00 00 00 -> + 00 00 00 00 07
  0127 + 00 00 00 00 00 -> + 00 00 00 00 07
  0128 + 00 00 00 00 00 -> + 00 00 00 00 07
  0129 + 00 00 00 00 00 -> + 00 00 00 00 07
  0130 + 00 00 00 00 00 -> + 00 00 00 00 07
  0131 + 00 00 00 00 00 -> + 00 00 00 00 07
  0132 + 00 00 00 00 00 -> + 00 00 00 00 07
  0133 + 00 00 00 00 00 -> + 00 00 00 00 07
  0134 + 00 00 00 00 00 -> + 00 00 00 00 07
  0135 + 00 00 00 00 00 -> + 00 00 00 00 07
  0136 + 00 00 00 00 00 -> + 00 00 00 00 07
  0137 + 00 00 00 00 00 -> + 00 00 00 00 07
  0138 + 00 00 00 00 00 -> + 00 00 00 00 07
  0139 + 00 00 00 00 00 -> + 00 00 00 00 07
  0140 + 00 00 00 00 00 -> + 00 00 00 00 07
  0141 + 00 00 00 00 00 -> + 00 00 00 00 07
  0142 + 00 00 00 00 00 -> + 00 00 00 00 07
  0143 + 00 00 00 00 00 -> + 00 00 00 00 07
  0144 + 00 00 00 00 00 -> + 00 00 00 00 07
  0145 + 00 00 00 00 00 -> + 00 00 00 00 07
  0146 + 00 00 00 00 00 -> + 00 00 00 00 07
  0147 + 00 00 00 00 00 -> + 00 00 00 00 07
  0148 + 00 00 00 00 00 -> + 00 00 00 00 07
  0149 + 00 00 00 00 00 -> + 00 00 00 00 07
  0150 + 00 00 00 00 00 -> + 00 00 00 00 07
  0151 + 00 00 00 00 00 -> + 00 00 00 00 07
  0152 + 00 00 00 00 00 -> + 00 00 00 00 07
  0153 + 00 00 00 00 00 -> + 00 00 00 00 07
  0154 + 00 00 00 00 00 -> + 00 00 00 00 07
  0155 + 00 00 00 00 00 -> + 00 00 00 00 07
  0156 + 00 00 00 00 00 -> + 00 00 00 00 07
  0157 + 00 00 00 00 00 -> + 00 00 00 00 07
  0158 + 00 00 00 00 00 -> + 00 00 00 00 07
  0159 + 00 00 00 00 00 -> + 00 00 00 00 07
  0160 + 00 00 00 00 00 -> + 00 00 00 00 07
  0161 + 00 00 00 00 00 -> + 00 00 00 00 07
  0162 + 00 00 00 00 00 -> + 00 00 00 00 07
  0163 + 00 00 00 00 00 -> + 00 00 00 00 07

Changes that are no steps, with their lines; differences to a state ahead.
  $ mixrev <<EOF
  >  HLT
  >  END 0
  > %SCRIPT
  > break 7
  > clear 7
  > clear 7
  > set over on
  > set cmp G
  > set loc 9
  > set I3 -5
  > show last 99
  > run 1 until A
  > back until over
  > forth all
  > show diff 0
  > goto 8
  > goto 4
  > show diff 7
  > step
  > forth 1
  > trace 2
  > show counts
  > EOF
  ok
  ok
  ok
  ok
  ok
  ok
  ok
        1  0000  break 0007           0u  break 0007 off -> on
        2  0000  clear 0007           0u  break 0007 on -> off
        3  0000  clear 0007           0u
        4  0000  set over             0u  over off -> on
        5  0000  set cmp              0u  cmp E -> G
        6  0000  set loc              0u  loc 0000 -> 0009
        7  0009  set I3               0u  I3 + 00 00 -> - 00 05
  ran 1 to 0010 clock 1: limit
        4  0000  set over             0u  over off -> on
  back 5 to 0000 clock 0
  forth 5 to 0010 clock 1
  diff 0 to 8
  I3 + 00 00 -> - 00 05
  over off -> on
  cmp E -> G
  loc 0000 -> 0010
  clock 0 -> 1
  forth 0 to 0010 clock 1
  back 4 to 0000 clock 0
  diff 7 to 4
  I3 - 00 05 -> + 00 00
  cmp G -> E
  loc 0009 -> 0000
  ran 1 to 0001 clock 10: halt
  ? C4 fewer changes than asked
        6  0001  NOP                  1u
        7  0002  NOP                  1u
  ran 2 to 0003 clock 12: limit
           1          10  0000      1   HLT
           1           1  0001
           1           1  0002
           3          12  total
  [3]

A trace and a watched run that end by a fault.
  $ session ' ENTA 5\n LD1 0(6)\n END 0' 'trace 3\nrun 3 until X\nshow code 0 1\nshow counts'
        1  0000  ENTA 5               1u  A + 00 00 00 00 00 -> + 00 00 00 00 05
  ran 1 to 0001 clock 1: fault M6 no such field
  ran 0 to 0001 clock 1: fault M6 no such field
  0000  + 00 05 00 02 48  ENTA 5                 1   ENTA 5
  0001  + 00 00 00 06 09  CON 393                2   LD1 0(6)
           1           1  0000      1   ENTA 5
           0           0  0001      2   LD1 0(6)
           1           1  total
  [3]
