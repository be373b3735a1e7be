What instructions do to registers, cells and the clock, what their faults leave, and that `back` gives all of it back.

  $ session() { printf "$1\n${3:+%%DEVICES\n$3\n}%%SCRIPT\n$2\n" | mixrev; }

Fields of a word (1.3.1, loading operators).
  $ mixrev <<EOF
  >  LDA 2000
  >  STA 3000
  >  LDA 2000(1:5)
  >  STA 3001
  >  LDA 2000(3:5)
  >  STA 3002
  >  LDA 2000(0:3)
  >  STA 3003
  >  LDA 2000(4:4)
  >  STA 3004
  >  LDA 2000(0:0)
  >  STA 3005
  >  HLT
  >  ORIG 2000
  >  CON -1(0:1),16(2:2),3(3:3),5(4:4),4(5:5)
  >  END 0
  > %SCRIPT
  > run 20
  > show cells 2000 2000
  > show cells 3000 3005
  > EOF
  ran 13 to 0013 clock 34: halt
  2000 - 01 16 03 05 04
  3000 - 01 16 03 05 04
  3001 + 01 16 03 05 04
  3002 + 00 00 03 05 04
  3003 - 00 00 01 16 03
  3004 + 00 00 00 00 05
  3005 - 00 00 00 00 00

One shift after the other (1.3.1, miscellaneous operators).
  $ mixrev <<EOF
  >  LDA A
  >  LDX X
  >  SRAX 1
  >  STA 3000
  >  STX 3001
  >  SLA 2
  >  STA 3002
  >  SRC 4
  >  STA 3003
  >  STX 3004
  >  SRA 2
  >  STA 3005
  >  SLC 501
  >  STA 3006
  >  STX 3007
  >  HLT
  > A CON 1(1:1),2(2:2),3(3:3),4(4:4),5(5:5)
  > X CON -6(0:1),7(2:2),8(3:3),9(4:4),10(5:5)
  >  END 0
  > %SCRIPT
  > run 20
  > show cells A X
  > show cells 3000 3007
  > EOF
  ran 16 to 0016 clock 40: halt
  0016 + 01 02 03 04 05
  0017 - 06 07 08 09 10
  3000 + 00 01 02 03 04
  3001 - 05 06 07 08 09
  3002 + 02 03 04 00 00
  3003 + 06 07 08 09 02
  3004 - 03 04 00 00 05
  3005 + 00 00 06 07 08
  3006 + 00 06 07 08 03
  3007 - 04 00 00 05 00

NUM gives -12977700, and CHAR the digits of -12977699.
  $ mixrev <<EOF
  >  LDA A
  >  LDX X
  >  NUM
  >  STA 3000
  >  INCA 1
  >  CHAR
  >  STA 3001
  >  STX 3002
  >  HLT
  > A CON -0(0:1),0(2:2),31(3:3),32(4:4),39(5:5)
  > X CON 37(1:1),57(2:2),47(3:3),30(4:4),30(5:5)
  >  END 0
  > %SCRIPT
  > run 20
  > show cells A X
  > show cells 3000 3002
  > EOF
  ran 9 to 0009 clock 41: halt
  0009 - 00 00 31 32 39
  0010 + 37 57 47 30 30
  3000 - 00 49 32 24 36
  3001 - 30 30 31 32 39
  3002 + 37 37 36 39 39

No operation, which is judged before the index.
  $ session ' CON 7(3:3),9(4:4),5(5:5)\n END 0' 'step'
  ran 0 to 0000 clock 0: fault M1 no such operation
  [3]

An LDA with the index 7.
  $ session ' CON 7(3:3),5(4:4),8(5:5)\n END 0' 'step'
  ran 0 to 0000 clock 0: fault M3 index over 6
  [3]

Past the last cell.
  $ session ' ORIG 3999\n NOP\n END 3999' 'step 2'
  ran 1 to 4000 clock 1: fault M15 no cell at the location
  [3]

A sum of zero keeps the sign of rA, and -0 is not negative.
  $ session ' ENTA -5\n ADD =5=\n JAN 9\n JAZ 9\n END 0' 'step 4\nshow all'
  ran 4 to 0009 clock 5: limit
  A  - 00 00 00 00 00
  X  + 00 00 00 00 00
  I1 + 00 00
  I2 + 00 00
  I3 + 00 00
  I4 + 00 00
  I5 + 00 00
  I6 + 00 00
  J  + 00 04
  over off cmp E loc 0009 clock 5
  0000 - 00 05 00 02 48
  0001 + 00 04 00 05 01
  0002 + 00 09 00 00 40
  0003 + 00 09 00 01 40
  0004 + 00 00 00 00 05
  breaks

JNOV turns the toggle off and does not jump; taken back, it is on.
  $ session ' INCA 1\n JNOV 9\n END 0' 'set A 1073741823\nstep 2\nshow regs\nback 1\nshow regs'
  ok
  ran 2 to 0002 clock 2: limit
  A  + 00 00 00 00 00
  X  + 00 00 00 00 00
  I1 + 00 00
  I2 + 00 00
  I3 + 00 00
  I4 + 00 00
  I5 + 00 00
  I6 + 00 00
  J  + 00 00
  over off cmp E loc 0002 clock 2
  back 1 to 0001 clock 1
  A  + 00 00 00 00 00
  X  + 00 00 00 00 00
  I1 + 00 00
  I2 + 00 00
  I3 + 00 00
  I4 + 00 00
  I5 + 00 00
  I6 + 00 00
  J  + 00 00
  over on cmp E loc 0001 clock 1

A sum that is too large on the other side keeps the sign -.
  $ session ' DECA 1\n END 0' 'set A -1073741823\nstep\nshow regs'
  ok
  ran 1 to 0001 clock 1: limit
  A  - 00 00 00 00 00
  X  + 00 00 00 00 00
  I1 + 00 00
  I2 + 00 00
  I3 + 00 00
  I4 + 00 00
  I5 + 00 00
  I6 + 00 00
  J  + 00 00
  over on cmp E loc 0001 clock 1

MOVE copies one word after the other, so that one word goes over 64 cells; taken back, they are +0 again.
  $ session ' ENT1 101\n MOVE 100(63)\n END 0' \
  >   'set cell 100 7\nstep 2\nshow cells 100 101\nshow cells 163 164\nshow regs\nback 1\nshow all'
  ok
  ran 2 to 0002 clock 128: limit
  0100 + 00 00 00 00 07
  0101 + 00 00 00 00 07
  0163 + 00 00 00 00 07
  0164 + 00 00 00 00 00
  A  + 00 00 00 00 00
  X  + 00 00 00 00 00
  I1 + 02 36
  I2 + 00 00
  I3 + 00 00
  I4 + 00 00
  I5 + 00 00
  I6 + 00 00
  J  + 00 00
  over off cmp E loc 0002 clock 128
  back 1 to 0001 clock 1
  A  + 00 00 00 00 00
  X  + 00 00 00 00 00
  I1 + 01 37
  I2 + 00 00
  I3 + 00 00
  I4 + 00 00
  I5 + 00 00
  I6 + 00 00
  J  + 00 00
  over off cmp E loc 0001 clock 1
  0000 + 01 37 00 02 49
  0001 + 01 36 00 63 07
  0100 + 00 00 00 00 07
  breaks

A DIV by zero, and one by as much as rA holds, leave rA and rX.
  $ session ' ENTA 3\n DIV 9\n DIV 10\n END 0' 'set cell 10 -3\nstep 2\nshow regs\nset over off\nstep\nshow regs'
  ok
  ran 2 to 0002 clock 13: limit
  A  + 00 00 00 00 03
  X  + 00 00 00 00 00
  I1 + 00 00
  I2 + 00 00
  I3 + 00 00
  I4 + 00 00
  I5 + 00 00
  I6 + 00 00
  J  + 00 00
  over on cmp E loc 0002 clock 13
  ok
  ran 1 to 0003 clock 25: limit
  A  + 00 00 00 00 03
  X  + 00 00 00 00 00
  I1 + 00 00
  I2 + 00 00
  I3 + 00 00
  I4 + 00 00
  I5 + 00 00
  I6 + 00 00
  J  + 00 00
  over on cmp E loc 0003 clock 25

A jump to no cell leaves rJ.
  $ session ' JMP 4000\n END 0' 'set J 7\nstep\nshow regs'
  ok
  ran 0 to 0000 clock 0: fault M5 no such cell
  A  + 00 00 00 00 00
  X  + 00 00 00 00 00
  I1 + 00 00
  I2 + 00 00
  I3 + 00 00
  I4 + 00 00
  I5 + 00 00
  I6 + 00 00
  J  + 00 07
  over off cmp E loc 0000 clock 0
  [3]

The whole machine.

A line that is typed, and a machine that is the loaded one again, in every part.
  $ mixrev <<EOF
  > TERM    EQU    19          the console
  >         ORIG   1000
  > START   OUT    MSG(TERM)   output
  >         HLT                halt execution
  > MSG     ALF    "MIXAL"
  >         ALF    " HELL"
  >         ALF    "O WOR"
  >         ALF    "LD   "
  >         END    START
  > %SCRIPT
  > show all
  > run 100
  > show unit 19
  > back all
  > show changes
  > show all
  > EOF
  A  + 00 00 00 00 00
  X  + 00 00 00 00 00
  I1 + 00 00
  I2 + 00 00
  I3 + 00 00
  I4 + 00 00
  I5 + 00 00
  I6 + 00 00
  J  + 00 00
  over off cmp E loc 1000 clock 0
  1000 + 15 42 00 19 37
  1001 + 00 00 00 02 05
  1002 + 14 09 27 01 13
  1003 + 00 08 05 13 13
  1004 + 16 00 26 16 19
  1005 + 13 04 00 00 00
  breaks
  ran 2 to 1002 clock 11: halt
  unit 19 place 0 blocks 0 output 1
  \x3e MIXAL HELLO WORLD                                                      (esc)
  back 2 to 1000 clock 0
  changes 0
  A  + 00 00 00 00 00
  X  + 00 00 00 00 00
  I1 + 00 00
  I2 + 00 00
  I3 + 00 00
  I4 + 00 00
  I5 + 00 00
  I6 + 00 00
  J  + 00 00
  over off cmp E loc 1000 clock 0
  1000 + 15 42 00 19 37
  1001 + 00 00 00 02 05
  1002 + 14 09 27 01 13
  1003 + 00 08 05 13 13
  1004 + 16 00 26 16 19
  1005 + 13 04 00 00 00
  breaks

Of an empty machine there is nothing but registers and breakpoints to be shown; -0 is something, and so is a place or a delay.
  $ mixrev <<EOF
  >  IN 100(16)
  >  END 1
  > %DEVICES
  > %UNIT 16
  > A
  > %UNIT 3 delay 1
  > %UNIT 4
  > %UNIT 20
  > %SCRIPT
  > show all
  > break 3999
  > break 0
  > set cell 3999 -0
  > set cell 5 1
  > set cell 5 0
  > Show All
  > set loc 0
  > step
  > back 1
  > show all
  > EOF
  A  + 00 00 00 00 00
  X  + 00 00 00 00 00
  I1 + 00 00
  I2 + 00 00
  I3 + 00 00
  I4 + 00 00
  I5 + 00 00
  I6 + 00 00
  J  + 00 00
  over off cmp E loc 0001 clock 0
  0000 + 01 36 00 16 36
  breaks
  unit 3 place 0 blocks 0 output 0 delay 1 until 0
  unit 16 place 0 blocks 1 output 0
  < A                                                                               
  ok
  ok
  ok
  ok
  ok
  A  + 00 00 00 00 00
  X  + 00 00 00 00 00
  I1 + 00 00
  I2 + 00 00
  I3 + 00 00
  I4 + 00 00
  I5 + 00 00
  I6 + 00 00
  J  + 00 00
  over off cmp E loc 0001 clock 0
  0000 + 01 36 00 16 36
  3999 - 00 00 00 00 00
  breaks 0000 3999
  unit 3 place 0 blocks 0 output 0 delay 1 until 0
  unit 16 place 0 blocks 1 output 0
  < A                                                                               
  ok
  ran 1 to 0001 clock 1: limit
  back 1 to 0000 clock 0
  A  + 00 00 00 00 00
  X  + 00 00 00 00 00
  I1 + 00 00
  I2 + 00 00
  I3 + 00 00
  I4 + 00 00
  I5 + 00 00
  I6 + 00 00
  J  + 00 00
  over off cmp E loc 0000 clock 0
  0000 + 01 36 00 16 36
  3999 - 00 00 00 00 00
  breaks 0000 3999
  unit 3 place 0 blocks 0 output 0 delay 1 until 0
  unit 16 place 0 blocks 1 output 0
  < A                                                                               

Steps, forward and back.

One by one, and one too many.
  $ session ' ENTA 5\n INCA 7\n STA 100\n HLT\n END 0' 'step 4\n\n* nothing\nback 1\nback 1\nback 2\nback 1'
  ran 4 to 0004 clock 14: halt
  back 1 to 0003 clock 4
  back 1 to 0002 clock 2
  back 2 to 0000 clock 0
  ? C4 fewer changes than asked
  [3]

A last line without its end.
  $ printf ' ENTA 5\n INCA 7\n STA 100\n HLT\n END 0\n%%SCRIPT\nstep 2\nstep 9\nback all' | mixrev
  ran 2 to 0002 clock 2: limit
  ran 2 to 0004 clock 14: halt
  back 4 to 0000 clock 0

A refused `back` changes nothing; after HLT it goes on.
  $ session ' ENTA 5\n INCA 7\n STA 100\n HLT\n END 0' 'step 4\nback 5\nstep'
  ran 4 to 0004 clock 14: halt
  ? C4 fewer changes than asked
  ran 1 to 0005 clock 15: limit
  [3]

A fault of the first step.
  $ session ' STA 4000\n END 0' 'step 2'
  ran 0 to 0000 clock 0: fault M5 no such cell
  [3]

The word that a program stored is executed.
  $ session ' ENTA 197\n STA 2\n END 0' 'step 3'
  ran 2 to 0002 clock 3: fault M1 no such operation
  [3]

Past the last cell, and back.
  $ session ' END 3999' 'step 2\nback 1'
  ran 1 to 4000 clock 1: fault M15 no cell at the location
  back 1 to 3999 clock 0
  [3]

Through all cells, and all the way back.
  $ session ' END 0' 'step 1000000\nback all'
  ran 4000 to 4000 clock 4000: fault M15 no cell at the location
  back 4000 to 0000 clock 0
  [3]

The accumulator at 4096, and a word stored over an instruction that has not been executed yet.
  $ session ' ENTA 4095\n INCA 1\n END 0' 'step 2\nshow regs'
  ran 2 to 0002 clock 2: limit
  A  + 00 00 01 00 00
  X  + 00 00 00 00 00
  I1 + 00 00
  I2 + 00 00
  I3 + 00 00
  I4 + 00 00
  I5 + 00 00
  I6 + 00 00
  J  + 00 00
  over off cmp E loc 0002 clock 2
  $ session ' STA 1\n ENTA 5\n END 0' 'STEP 2\nShow Regs'
  ran 2 to 0002 clock 3: limit
  A  + 00 00 00 00 00
  X  + 00 00 00 00 00
  I1 + 00 00
  I2 + 00 00
  I3 + 00 00
  I4 + 00 00
  I5 + 00 00
  I6 + 00 00
  J  + 00 00
  over off cmp E loc 0002 clock 3

Faults of steps: each is named and changes nothing.

M1.
  $ session ' END' 'set cell 0 197\nstep'
  ok
  ran 0 to 0000 clock 0: fault M1 no such operation
  [3]

M2.
  $ session ' END' 'set cell 0 385\nstep'
  ok
  ran 0 to 0000 clock 0: fault M2 floating operation
  [3]

M3.
  $ session ' END' 'set cell 0 28720\nstep'
  ok
  ran 0 to 0000 clock 0: fault M3 index over 6
  [3]

M4.
  $ session ' END' 'set cell 0 266416\nset I1 4095\nstep'
  ok
  ok
  ran 0 to 0000 clock 0: fault M4 address beyond two bytes
  [3]

M5.
  $ session ' END' 'set cell 0 1048576039\nstep'
  ok
  ran 0 to 0000 clock 0: fault M5 no such cell
  [3]

M6.
  $ session ' END' 'set cell 0 392\nstep'
  ok
  ran 0 to 0000 clock 0: fault M6 no such field
  [3]

M7.
  $ session ' END' 'set cell 0 262193\nset I1 4095\nstep'
  ok
  ok
  ran 0 to 0000 clock 0: fault M7 index overflow
  [3]

M8.
  $ session ' END' 'set cell 0 -262150\nstep'
  ok
  ran 0 to 0000 clock 0: fault M8 negative shift
  [3]

M9.
  $ session ' END' 'set cell 0 1378\nstep'
  ok
  ran 0 to 0000 clock 0: fault M9 no such unit
  [3]

M10.
  $ session ' END' 'set cell 0 1124\nstep'
  ok
  ran 0 to 0000 clock 0: fault M10 wrong direction
  [3]

M11.
  $ session ' END' 'set cell 0 36\nstep'
  ok
  ran 0 to 0000 clock 0: fault M11 no block
  [3]

M12.
  $ session ' END' 'set cell 0 1059\nstep'
  ok
  ran 0 to 0000 clock 0: fault M12 bad control
  [3]

M13.
  $ session ' END' 'set X 1000\nset cell 0 549\nstep'
  ok
  ok
  ran 0 to 0000 clock 0: fault M13 unit full
  [3]

An address is at most 4095 in a source too, and the last cell is 3999.
  $ session ' STA 4000\n END' 'step'
  ran 0 to 0000 clock 0: fault M5 no such cell
  [3]

The step at cell 3999 is done, and there is no cell after it.
  $ session ' END 3999' 'step 2'
  ran 1 to 4000 clock 1: fault M15 no cell at the location
  [3]
