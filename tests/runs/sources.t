What people write at first, and what a check says of it: line, column, severity and text. Where nothing stands below a row, there is nothing to say.

  $ said() { printf "$1" | mixrev check - | sed -n 's/^-:\([0-9]\)/\1/p'; }

Programs as they are: tabs, ALF in each form, fields, local symbols, literals, remarks, and what follows END.

  $ said '\tLDA\t100\n\tHLT\n\tEND\t0\n'
  $ said '      ENTA 5\n      HLT\n      END 0\n'
  $ said 'START  ENTA 5        put 5 into rA\n       END  START\n'
  $ said ' ALF HELLO\n END 0\n'
  $ said ' ALF  HELLO\n END 0\n'
  $ said ' ALF   FIVE\n END 0\n'
  $ said ' ALF\n END 0\n'
  $ said ' ALF "HELLO"\n END 0\n'
  $ said '       ALF  HELLO  what is printed\n END 0\n'
  $ said ' CON 5(0:2),3(5:5)\n END 0\n'
  $ said ' CON -0\n END 0\n'
  $ said '2H JMP 2F\n2H JMP 2B\n END 0\n'
  $ said '1H JMP 1F\n1H HLT\n END 0\n'
  $ said 'START HLT\n END START\n'
  $ said ' HLT\nLAST END 0\n'
  $ said ' JMP LAST\nLAST END 0\n'
  $ said ' LDA =-1=\n END 0\n'
  $ said ' LDA =1(1:1),2(5:5)=\n END 0\n'
  $ said ' LDA =3=\n ADD =3=\n END 0\n'
  $ said 'TERM EQU 0:2\n LDA 100(TERM)\n END 0\n'
  $ said 'LR EQU 1:3\n LDA 100(LR)\n END 0\n'
  $ said ' JMP *+1\n HLT\n END 0\n'
  $ said ' ORIG *+100\n HLT\n END 0\n'
  $ said ' LDA 100 the first word\n END 0\n'
  $ said " LDA 100 $(printf %05000d 0)\n END 0\n"
  $ said ' LDA 100 \351t\351\n END 0\n'
  $ said '* \303\251t\303\251\n LDA 100 \303\251t\303\251\n END 0\n'
  $ said ' HLT\n END 0\nno MIXAL here?\n'
  $ said ' HLT\n END 0\n\032'
  $ said ' enta 5\n hlt\n end 0\n'
  $ said ' ENTA 5\r\n HLT\r\n END 0\r\n'
  $ said ' HLT\n END 0'
  $ said ' HLT\n END\n'
  $ said ' ENTA ,1\n END 0\n'
  $ said ' LDA (1:3)\n END 0\n'
  $ said ' HLT\n   \n\t\n\n END 0\n'
  $ said ' HLT  the end\n NUM  ten digits\n CHAR  digits\n END 0\n'
  $ said 'X JMP X+1\n END 0\n'

What other assemblers take: operations of a binary MIX, floating point, and numbers that do not fit.

  $ said ' SLB 1\n END 0\n'
  1:2: error: A2 no such operation: SLB: the operations of binary computers are left out of this machine
  $ said ' SRB 1\n END 0\n'
  1:2: error: A2 no such operation: SRB: the operations of binary computers are left out of this machine
  $ said ' JAE 0\n END 0\n'
  1:2: error: A2 no such operation: JAE: the operations of binary computers are left out of this machine
  $ said ' JAO 0\n END 0\n'
  1:2: error: A2 no such operation: JAO: the operations of binary computers are left out of this machine
  $ said ' JXE 0\n END 0\n'
  1:2: error: A2 no such operation: JXE: the operations of binary computers are left out of this machine
  $ said ' JXO 0\n END 0\n'
  1:2: error: A2 no such operation: JXO: the operations of binary computers are left out of this machine
  $ said ' FADD 100\n END 0\n'
  1:2: error: A2 no such operation: FADD: floating-point arithmetic is left out of this machine
  $ said ' FSUB 100\n END 0\n'
  1:2: error: A2 no such operation: FSUB: floating-point arithmetic is left out of this machine
  $ said ' FMUL 100\n END 0\n'
  1:2: error: A2 no such operation: FMUL: floating-point arithmetic is left out of this machine
  $ said ' FDIV 100\n END 0\n'
  1:2: error: A2 no such operation: FDIV: floating-point arithmetic is left out of this machine
  $ said ' FCMP 100\n END 0\n'
  1:2: error: A2 no such operation: FCMP: floating-point arithmetic is left out of this machine
  $ said ' FLOT\n END 0\n'
  1:2: error: A2 no such operation: FLOT: floating-point arithmetic is left out of this machine
  $ said ' FIX\n END 0\n'
  1:2: error: A2 no such operation: FIX: floating-point arithmetic is left out of this machine
  $ said 'X EQU 1\nX EQU 2\n END 0\n'
  2:1: error: A4 defined twice: X is defined at line 1
  $ said ' ENTA 4096\n END 0\n'
  1:7: error: A9 address beyond two bytes: it is -4095 to 4095
  $ said ' ENTA 5000\n END 0\n'
  1:7: error: A9 address beyond two bytes: it is -4095 to 4095
  $ said ' ENTA -4096\n END 0\n'
  1:7: error: A9 address beyond two bytes: it is -4095 to 4095
  $ said ' JMP X\nX EQU 5000\n END 0\n'
  2:7: error: A9 address beyond two bytes: it is -4095 to 4095
  $ said ' CON 1073741824\n END 0\n'
  1:6: error: A6 number too large: 1073741824: a number has at most 10 digits, and is at most 1073741823
  $ said ' CON 12345678901\n END 0\n'
  1:6: error: A6 number too large: 12345678901: a number has at most 10 digits, and is at most 1073741823
  $ said ' CON 1/0\n END 0\n'
  1:6: error: A8 overflow in expression: a value is at most 1073741823, and no divisor is 0
  $ said ' CON 1073741823+1\n END 0\n'
  1:6: error: A8 overflow in expression: a value is at most 1073741823, and no divisor is 0
  $ said ' CON 1000(0:2)+5\n END 0\n'
  1:15: error: A5 bad expression: +5
  $ said ' ORIG -1\n END 0\n'
  1:7: error: A11 location outside 0 to 3999
  $ said ' ORIG 4001\n END 0\n'
  1:7: error: A11 location outside 0 to 3999
  $ said ' ORIG 4000\n HLT\n END 0\n'
  2:2: error: A11 location outside 0 to 3999
  $ said ' LDA 5,7\n END 0\n'
  1:8: error: A10 index, field or F out of range: an index is 0 to 6, an F 0 to 63, and a field L:R has L at most R, and R at most 5
  $ said ' LDA 5(64)\n END 0\n'
  1:8: error: A10 index, field or F out of range: an index is 0 to 6, an F 0 to 63, and a field L:R has L at most R, and R at most 5
  $ said ' CON 1(6:6)\n END 0\n'
  1:8: error: A10 index, field or F out of range: an index is 0 to 6, an F 0 to 63, and a field L:R has L at most R, and R at most 5
  $ said ' END 4000\n'
  1:6: error: A15 start outside 0 to 3999
  $ said "$(yes '*' | head -n 20002)"
  20001: error: A16 source too long: at most 20000 lines and 1048576 bytes
  $ head -c 1048577 /dev/zero | mixrev check -
  -:1: error: A16 source too long: at most 20000 lines and 1048576 bytes
  [1]

Signs of word processors, and bytes that MIX does not have.

  $ said '\357\273\277 HLT\n END 0\n'
  1:1: error: A1 bad byte: a byte order mark: save the source without it
  $ said ' ENTA \342\210\2225\n END 0\n'
  1:7: error: A1 bad byte: a minus sign of a word processor: write -
  $ said ' ENTA 5\342\200\2231\n END 0\n'
  1:8: error: A1 bad byte: a dash of a word processor: write -
  $ said ' ALF \342\200\234HELLO\342\200\235\n END 0\n'
  1:6: error: A1 bad byte: a quotation mark of a word processor: write "
  $ said ' ENTA\302\2405\n END 0\n'
  1:6: error: A1 bad byte: a blank of a word processor: write a blank
  $ said ' ALF "\316\224\316\243\316\240  "\n END 0\n'
  1:7: error: A12 bad ALF: at most five characters, between two quotation marks
  $ said ' ALF \316\224\316\243\n END 0\n'
  1:6: error: A1 bad byte: the Greek letter delta: write ~
  $ said ' CON \316\243\n END 0\n'
  1:6: error: A1 bad byte: the Greek letter sigma: write [
  $ said ' CON \316\240\n END 0\n'
  1:6: error: A1 bad byte: the Greek letter pi: write #
  $ said ' ALF \342\200\230A\342\200\231\n END 0\n'
  1:6: error: A1 bad byte: a quotation mark of a word processor: write '
  $ said ' ALF "HELLO\n END 0\n'
  1:7: error: A12 bad ALF: at most five characters, between two quotation marks
  $ said ' ALF "HELLO "\n END 0\n'
  1:7: error: A12 bad ALF: at most five characters, between two quotation marks
  $ said 'MY_LOOP HLT\n END 0\n'
  1:3: error: A1 bad byte: _
  $ said ' ENTA 5!\n END 0\n'
  1:8: error: A1 bad byte: !
  $ said ' ENTA \0335\n END 0\n'
  1:7: error: A1 bad byte: U+001B, which cannot be seen: leave it out
  $ said '\377\376 \000H\000L\000T\000\n\000 \000E\000N\000D\000' | head -n 1
  1:1: error: A1 bad byte: a byte of UTF-16: save the source as UTF-8
  $ said '\376\377\000 \000E\000N\000D' | head -n 1
  1:1: error: A1 bad byte: a byte of UTF-16: save the source as UTF-8
  $ said '\000 \000E\000N\000D' | head -n 1
  1:1: error: A1 bad byte: a byte of UTF-16: save the source as UTF-8
  $ said ' HLT\r END 0\r' | head -n 1
  1:5: error: A1 bad byte: a carriage return alone: end each line with a line feed
  $ said ' HLT\n\f\n END 0\n'
  2:1: error: A1 bad byte: a form feed: leave it out

Columns and labels: an operation in the first column, signs after a label, and names that are no symbols.

  $ said 'HLT\n END 0\n'
  1:4: error: A2 no such operation: nothing is written here
  1:1: warning: the label is the name of an operation: if that is meant, begin the line with a blank [operation-as-label]
  $ said ' HLT\nEND\n'
  2:4: error: A2 no such operation: nothing is written here
  2:1: warning: the label is the name of an operation: if that is meant, begin the line with a blank [operation-as-label]
  3: error: A13 no END: the last line of a program is END
  $ said 'ENTA 5\n END 0\n'
  1:6: error: A2 no such operation: 5
  1:1: warning: the label is the name of an operation: if that is meant, begin the line with a blank [operation-as-label]
  $ said 'ADD JAN DONE\nDONE HLT\n END 0\n'
  1:1: warning: the label is the name of an operation: if that is meant, begin the line with a blank [operation-as-label]
  $ said 'OUT HLT\n END 0\n'
  1:1: warning: the label is the name of an operation: if that is meant, begin the line with a blank [operation-as-label]
  $ said 'LOOP\n END 0\n'
  1:5: error: A2 no such operation: nothing is written here
  $ said 'LOOP: HLT\n END 0\n'
  1:1: error: A3 bad symbol: LOOP:: a label has no colon
  $ said 'PRINTNUMBER HLT\n END 0\n'
  1:1: error: A3 bad symbol: PRINTNUMBER: a symbol has at most 10 letters and digits, one of them a letter
  $ said ' JMP PRINTNUMBER\n END 0\n'
  1:6: error: A3 bad symbol: PRINTNUMBER: a symbol has at most 10 letters and digits, one of them a letter
  $ said '123 HLT\n END 0\n'
  1:1: error: A3 bad symbol: 123: a symbol has at most 10 letters and digits, one of them a letter
  $ said '2F HLT\n END 0\n'
  1:1: error: A3 bad symbol: 2F: a symbol has at most 10 letters and digits, one of them a letter
  $ said ' JMP 2H\n END 0\n'
  1:6: error: A3 bad symbol: 2H: a symbol has at most 10 letters and digits, one of them a letter
  $ said '; comment\n END 0\n'
  1:1: error: A3 bad symbol: ;: a comment begins with * in column 1
  $ said '# comment\n END 0\n'
  1:1: error: A3 bad symbol: #: a comment begins with * in column 1
  $ said '   * comment\n END 0\n'
  1:4: error: A2 no such operation: *: a comment begins with * in column 1
  $ said '  ;comment\n END 0\n'
  1:3: error: A2 no such operation: ;comment: a comment begins with * in column 1
  $ said '// comment\n END 0\n'
  1:1: error: A3 bad symbol: //: a comment begins with * in column 1
  $ said '/ comment\n END 0\n'
  1:1: error: A3 bad symbol: /: a symbol has at most 10 letters and digits, one of them a letter
  $ said ' PRNT 5\n END 0\n'
  1:2: error: A2 no such operation: PRNT
  $ said '\tPRNT 5\n END 0\n'
  1:2: error: A2 no such operation: PRNT

Symbols that are not defined yet, or nowhere; and remarks that are taken for an ADDRESS. What END meets is marked where it is
used first.

  $ said ' ENTA X+1\nX HLT\n END 0\n'
  1:7: error: A7 undefined symbol: X is defined later, at line 2; before that it can only be the whole A-part of an instruction
  $ said ' LDA 5(X)\nX EQU 3\n END 0\n'
  1:8: error: A7 undefined symbol: X is defined later, at line 2; before that it can only be the whole A-part of an instruction
  $ said ' LDA 5,X\nX EQU 3\n END 0\n'
  1:8: error: A7 undefined symbol: X is defined later, at line 2; before that it can only be the whole A-part of an instruction
  $ said ' CON TAB\nTAB HLT\n END 0\n'
  1:6: error: A7 undefined symbol: TAB is defined later, at line 2; before that it can only be the whole A-part of an instruction
  $ said ' ORIG TAB\nTAB HLT\n END 0\n'
  1:7: error: A7 undefined symbol: TAB is defined later, at line 2; before that it can only be the whole A-part of an instruction
  $ said 'X EQU Y\nY EQU 1\n END 0\n'
  1:7: error: A7 undefined symbol: Y is defined later, at line 2; before that it can only be the whole A-part of an instruction
  $ said ' HLT\n END START\n'
  2:6: error: A7 undefined symbol: START is defined nowhere
  $ said 'X EQU 1\n ENTA X+Z\n END 0\n'
  2:9: error: A7 undefined symbol: Z is defined nowhere
  $ said ' LDA =1+=\n END ?\n'
  1:9: error: A5 bad expression: a number, a symbol or * is missing
  2:6: error: A1 bad byte: ?
  $ said ' LDA =TAB=\n END 0\n'
  1:7: error: A7 undefined symbol: TAB is defined nowhere
  $ said ' HLT\n LDA 5\n LDA =TAB+1=\nTAB END 0\n'
  3:7: error: A7 undefined symbol: TAB is defined later, at line 4; before that it can only be the whole A-part of an instruction
  $ said ' LDA =3=\n LDA =4=\n\tLDA =5,6/0=\n END 0\n'
  3:9: error: A8 overflow in expression: a value is at most 1073741823, and no divisor is 0
  $ said ' LDA =2B=\n END 0\n'
  1:7: error: A14 no such local symbol: 2B: for a dB the LOC of a line before is dH, and for a dF that of a line after it
  $ said ' JMP 2B\n END 0\n'
  1:6: error: A14 no such local symbol: 2B: for a dB the LOC of a line before is dH, and for a dF that of a line after it
  $ said ' JMP 2F\n END 0\n'
  1:6: error: A14 no such local symbol: 2F: for a dB the LOC of a line before is dH, and for a dF that of a line after it
  $ said ' JMP 3F\n2H JMP 2F\n JMP 2F\n3H HLT\nX STA 2F,1(0:2)\n JMP 3F\n END 0\n'
  2:8: error: A14 no such local symbol: 2F: for a dB the LOC of a line before is dH, and for a dF that of a line after it
  $ said ' JMP 2F+1\n2H HLT\n END 0\n'
  1:6: error: A7 undefined symbol: 2F can only be the whole A-part of an instruction
  $ said ' ENTA 5\n JMP LOPP\nLOOP HLT\n END 0\n'
  2:6: warning: LOPP is defined nowhere: END makes a cell of 0 for it [undefined-symbol]
  $ said 'LOOP DEC1 1\n J1P LOPP\n HLT\n JMP LOPP\n END 0\n'
  2:6: warning: LOPP is defined nowhere: END makes a cell of 0 for it [undefined-symbol]
  $ said ' LDA TABLE,1(0:2)\n END 0\n'
  1:6: warning: TABLE is defined nowhere: END makes a cell of 0 for it [undefined-symbol]
  $ said ' NOP do nothing\n END 0\n'
  1:6: warning: DO is defined nowhere: END makes a cell of 0 for it [undefined-symbol]
  $ said ' CHAR (convert to decimal)\n END 0\n'
  1:8: error: A7 undefined symbol: CONVERT is defined nowhere: a remark after HLT, NUM or CHAR begins with a letter
  $ said ' HLT (halt)\n END 0\n'
  1:7: error: A7 undefined symbol: HALT is defined nowhere: a remark after HLT, NUM or CHAR begins with a letter
  $ said ' HLT -- halt\n NUM ...\n END 0\n'
  1:7: error: A5 bad expression: a remark after HLT, NUM or CHAR begins with a letter
  2:6: error: A5 bad expression: a remark after HLT, NUM or CHAR begins with a letter
  $ said ' ENTA\n CON\n END 0\n'
  2:5: error: A5 bad expression: a number, a symbol or * is missing
  $ said ' LDA =3\n END 0\n'
  1:6: error: A5 bad expression: =3
  $ said ' LDA 5(1:3\n END 0\n'
  1:11: error: A5 bad expression: a closing bracket is missing
  $ said ' ENTA 1+\n ENTA *\n ENTA **\n CON 1(*\n CON 1(\n CON 1(0:2),\n CON 1//*(0:2\n ENTA 2,\n END 0\n'
  1:9: error: A5 bad expression: a number, a symbol or * is missing
  3:9: error: A5 bad expression: a number, a symbol or * is missing
  4:9: error: A5 bad expression: a closing bracket is missing
  5:8: error: A5 bad expression: a number, a symbol or * is missing
  6:13: error: A5 bad expression: a number, a symbol or * is missing
  7:14: error: A5 bad expression: a closing bracket is missing
  8:9: error: A5 bad expression: a number, a symbol or * is missing
  $ said ' HLT\n'
  2: error: A13 no END: the last line of a program is END
  $ said ''
  1: error: A13 no END: the last line of a program is END

What is taken and hardly meant: a blank in an ADDRESS, and an ALF that begins later or is longer.

  $ said ' LDA 100 (1:5)\n END 0\n'
  1:6: warning: a blank ends the address: what follows is a remark [blank-in-address]
  $ said ' LDA 100 + 1\n END 0\n'
  1:6: warning: a blank ends the address: what follows is a remark [blank-in-address]
  $ said ' LDA 100 ,1\n END 0\n'
  1:6: warning: a blank ends the address: what follows is a remark [blank-in-address]
  $ said ' CON 5 -3\n END 0\n'
  1:6: warning: a blank ends the address: what follows is a remark [blank-in-address]
  $ said ' LDA 100  (1:5)\n END 0\n'
  $ said ' LDA 100 (the first)\n END 0\n'
  $ said ' ALF     HELLO\n END 0\n'
  1:7: warning: ALF takes five characters, and its text has more of them, or begins later [alf-cut]
  $ said ' ALF    FIVE\n END 0\n'
  1:7: warning: ALF takes five characters, and its text has more of them, or begins later [alf-cut]
  $ said ' ALF          LATER\n END 0\n'
  1:7: warning: ALF takes five characters, and its text has more of them, or begins later [alf-cut]
  $ said ' ALF \047HELLO\047\n END 0\n'
  1:6: warning: ALF takes five characters, and its text has more of them, or begins later [alf-cut]
  $ said ' ALF TITLES\n END 0\n'
  1:6: warning: ALF takes five characters, and its text has more of them, or begins later [alf-cut]

An ALF in quotation marks that are less than five characters apart, and an EQU that defines nothing.

  $ said ' ALF "HI"\n ALF "HELLO"\n ALF HI\nX ALF ""\n END 0\n'
  1:7: warning: ALF takes five characters: what is missing becomes blanks [alf-short]
  4:8: warning: ALF takes five characters: what is missing becomes blanks [alf-short]
  $ said ' EQU 5\n2H EQU 5\nX EQU 5\n ORIG 5\n END 0\n'
  1:2: warning: EQU without a label defines nothing [no-label]
  $ said ' EQU X\n END 0\n'
  1:6: error: A7 undefined symbol: X is defined nowhere
  1:2: warning: EQU without a label defines nothing [no-label]

A step that the machine refuses in any state, by its numbers: a unit that cannot do what is asked of it, a cell that is none, also
of a jump if it is taken, and a shift by a negative number.

  $ said ' IN BUF(18)\n OUT BUF(16)\n OUT BUF(18)\n IN BUF(19)\n IN BUF(17)\nBUF HLT\n END 0\n'
  1:9: warning: the unit cannot do this: the machine will refuse the step [wrong-unit]
  2:10: warning: the unit cannot do this: the machine will refuse the step [wrong-unit]
  5:9: warning: the unit cannot do this: the machine will refuse the step [wrong-unit]
  $ said ' IOC 0(16)\n IOC 0(17)\n IOC 0(18)\n IOC 0(19)\n IOC 5\n IOC 5(8)\n IOC 5(18)\n IOC 0,1(20)\n IOC 5,1(20)\n IOC -0(20)\n END 0\n'
  1:8: warning: the unit cannot do this: the machine will refuse the step [wrong-unit]
  2:8: warning: the unit cannot do this: the machine will refuse the step [wrong-unit]
  4:8: warning: the unit cannot do this: the machine will refuse the step [wrong-unit]
  6:8: warning: the unit cannot do this: the machine will refuse the step [wrong-unit]
  7:8: warning: the unit cannot do this: the machine will refuse the step [wrong-unit]
  $ said ' STA 4000\n STA 3999\n JMP 4095\n LDA -1\n ENTA 4000\n LDA 4000,1\n JAN 4000(1)\n LDA -0\n END 0\n'
  1:6: warning: the cells are 0 to 3999: the machine will refuse the step, or the jump [no-cell]
  3:6: warning: the cells are 0 to 3999: the machine will refuse the step, or the jump [no-cell]
  4:6: warning: the cells are 0 to 3999: the machine will refuse the step, or the jump [no-cell]
  7:6: warning: the cells are 0 to 3999: the machine will refuse the step, or the jump [no-cell]
  $ said ' IN 3985(16)\n IN 3984(16)\n OUT 3977(18)\n OUT 3976(18)\n MOVE 3999(2)\n MOVE 4000(0)\n IN 3901\n IN 3900\n END 0\n'
  1:5: warning: the cells are 0 to 3999: the machine will refuse the step, or the jump [no-cell]
  3:6: warning: the cells are 0 to 3999: the machine will refuse the step, or the jump [no-cell]
  5:7: warning: the cells are 0 to 3999: the machine will refuse the step, or the jump [no-cell]
  7:5: warning: the cells are 0 to 3999: the machine will refuse the step, or the jump [no-cell]
  $ said ' SLA -1\n SRC -0\n SLA 1\n SLA -1,1\n SRAX 2-3\n ENTA -1\n END 0\n'
  1:6: warning: a shift by a negative number: the machine will refuse the step [negative-shift]
  5:7: warning: a shift by a negative number: the machine will refuse the step [negative-shift]
  $ said ' LDA 100(6:6)\n LDA TAB,1(6)\nTAB HLT\n END 0\n'
  1:10: warning: the operation takes no such F: the machine will refuse the step [no-field]
  2:12: warning: the operation takes no such F: the machine will refuse the step [no-field]

Behind END the first line that reads as if it belonged to the program, unless the deck or the script of a bundle begins.

  $ said ' HLT\n END 0\n\n* more\nno MIXAL\n INCA 1\n STA 5\n'
  6:2: warning: this stands behind END and is not read [behind-end]
  $ said ' HLT\n END 0\n%%%%DEVICES\n%%%%UNIT 16\n ADD 1\n'
  $ said ' HLT\n END X\n ENTA 4096 one\n'
  2:6: error: A7 undefined symbol: X is defined nowhere
  3:2: warning: this stands behind END and is not read [behind-end]

A mark has the bytes that a warning is about.

  $ printf ' JMP LOPP,1\n LDA TAB,1(6)\nTAB STA 4000(1:3)\n EQU 5\n END 0\n ENTA 5 x\n' | mixrev check - | grep '[^ ]*^'
       ^^^^
             ^
          ^^^^
   ^^^
   ^^^^^^

Several faults: a line that is refused keeps its label and its cell, and hides no later fault. A hundred are reported at most.

  $ said ' ENTA 4096\n ORIG 5000\n JUMP 3\nX ENTA 4096\nX HLT\n JMP X\n END 4000\n'
  1:7: error: A9 address beyond two bytes: it is -4095 to 4095
  2:7: error: A11 location outside 0 to 3999
  3:2: error: A2 no such operation: JUMP
  4:8: error: A9 address beyond two bytes: it is -4095 to 4095
  5:1: error: A4 defined twice: X is defined at line 4
  7:6: error: A15 start outside 0 to 3999
  $ said 'X JUMP 1\nX JUMP 2\n JMP X\n JMP Y\n CON Z\n END 0\n'
  1:3: error: A2 no such operation: JUMP
  2:3: error: A2 no such operation: JUMP
  4:6: warning: Y is defined nowhere: END makes a cell of 0 for it [undefined-symbol]
  5:6: error: A7 undefined symbol: Z is defined nowhere
  $ said "$(printf ' CON X%d\\n' $(seq 20)) END 0\n" | sed 's/X[0-9]*/X/' | uniq -c -f 1
       20 1:6: error: A7 undefined symbol: X is defined nowhere
  $ said "$(printf ' CON X%d\\n' $(seq 101)) END 0\n" | tail -n 1
  100:6: error: A7 undefined symbol: X100 is defined nowhere

What cannot be seen is told by its number, and a symbol that has no value yet by its name.

  $ said ' ENTA 5\342\200\213\n END 0\n'
  1:8: error: A1 bad byte: U+200B, which cannot be seen: leave it out
  $ said ' ENTA 5\302\255\n END 0\n'
  1:8: error: A1 bad byte: U+00AD, which cannot be seen: leave it out
  $ said ' ENTA 5\342\200\250\n END 0\n'
  1:8: error: A1 bad byte: U+2028, which cannot be seen: leave it out
  $ said ' ENTA\343\200\2005\n END 0\n'
  1:6: error: A1 bad byte: U+3000: write a blank
  $ said 'Q EQU Q\n END 0\n'
  1:7: error: A7 undefined symbol: Q is defined by this line, and has no value before it
  $ said ' INCX 0F+1\n END 0\n'
  1:7: error: A7 undefined symbol: 0F can only be the whole A-part of an instruction

What may be meant, below the mark, and in JSON.

  $ helps() { printf "$1" | mixrev check - | grep '^help'; printf "$1" | mixrev check --json - | grep -o '"help":"[^"]*"'; }
  $ helps ' LAD 5\n END 0\n'
  help: perhaps LDA is meant
  "help":"perhaps LDA is meant"
  $ helps 'LAD  5\n END 0\n'
  help: LAD is read as a label: perhaps LDA behind a blank is meant
  "help":"LAD is read as a label: perhaps LDA behind a blank is meant"
  $ helps ' LOOP LDA 5\n END 0\n'
  help: a label begins in column 1
  "help":"a label begins in column 1"
  $ helps ' LDA 5, 2\n END 0\n'
  help: a blank ends the address: none may come after a comma
  "help":"a blank ends the address: none may come after a comma"
  $ helps ' JMP LOPP\nLOOP HLT\n END 0\n'
  help: perhaps LOOP is meant
  "help":"perhaps LOOP is meant"
  $ helps ' IN 100(18)\n END 0\n'
  help: unit 18 is the printer
  "help":"unit 18 is the printer"
  $ helps ' LDA 5,7\n END 0\n'
  [1]
