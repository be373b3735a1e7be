What the assembler makes of a source: the words of its lines, its start, symbols, literals and chains.

  $ set -o pipefail
  $ session() { printf "$1\n${3:+%%DEVICES\n$3\n}%%SCRIPT\n$2\n" | mixrev; }

Each instruction.
  $ session ' ENTA 5\n INCA 7\n STA 100\n HLT\n END 0' 'show cells 0 4'
  0000 + 00 05 00 02 48
  0001 + 00 07 00 00 48
  0002 + 01 36 00 05 24
  0003 + 00 00 00 02 05
  0004 + 00 00 00 00 00

The largest address.
  $ session ' ENTA 4095\n INCA 1\n END 0' 'show cells 0 2'
  0000 + 63 63 00 02 48
  0001 + 00 01 00 00 48
  0002 + 00 00 00 00 00

The order of the lines.
  $ session ' STA 1\n ENTA 5\n END 0' 'show cells 0 2'
  0000 + 00 01 00 05 24
  0001 + 00 05 00 02 48
  0002 + 00 00 00 00 00

Comments, tabs, small letters, carriage returns.
  $ printf '* a comment?\n\n \t \r\n\tenta\t5\t?\r\n end\r\n%%SCRIPT\nshow cells 0 1\n' | mixrev
  0000 + 00 05 00 02 48
  0001 + 00 00 00 00 00

Remarks of any bytes; an empty ADDRESS is 0.
  $ session ' HLT halt?\n HLT 5 ?\n Sta\n END' 'show cells 0 3'
  0000 + 00 00 00 02 05
  0001 + 00 05 00 02 05
  0002 + 00 00 00 05 24
  0003 + 00 00 00 00 00

Ten digits.
  $ session ' ENTA 0000004095\n END' 'show cells 0 1'
  0000 + 63 63 00 02 48
  0001 + 00 00 00 00 00

What follows END is ignored.
  $ printf ' END 0\n JMP 0\n%%SCRIPT\nshow cells 0 0\n' | mixrev
  0000 + 00 00 00 00 00

No ADDRESS is 0.
  $ session ' END' 'back all'
  back 0 to 0000 clock 0

The start is the last two bytes.
  $ session ' END 4096' 'back all'
  back 0 to 0000 clock 0

And a remark.
  $ session ' END 8095 4095' 'back all'
  back 0 to 3999 clock 0

The last cell.
  $ session ' END 3999' 'back all'
  back 0 to 3999 clock 0
  $ printf '*\n eNd 4097\n%%SCRIPT\nback all\n' | mixrev
  back 0 to 0001 clock 0

Symbols, literals and chains.

A later word at the same location wins, and a chain does not run through cells.
  $ session ' JMP X\n ORIG 0\n CON 7\nX HLT\n END X' 'show cells 0 1\nback all'
  0000 + 00 00 00 00 07
  0001 + 00 00 00 02 05
  back 0 to 0001 clock 0

A future reference has the sign of its value.
  $ session ' ENTA X\nX EQU -7\n END 0' 'show cells 0 0'
  0000 - 00 07 00 02 48

Reported where the name is defined.
  $ printf ' JMP X\nX EQU 5000\n END 0\n' | mixrev
  line 2: A9 address beyond two bytes
  [1]

2B is the 2H before the line's own.
  $ session '2H ENTA 0\n2H JMP 2B\n END 0' 'show cells 1 1'
  0001 + 00 00 00 00 39

2F that no 2H meets.
  $ printf '2H ENTA 0\n2H JMP 2B\n JMP 2F\n END 0\n' | mixrev
  line 4: A14 no such local symbol
  [1]

A cell for each literal, and one for an undefined name.
  $ session ' LDA =3=\n LDA =3=\n JMP NOWHERE\n END 0' 'show cells 0 5'
  0000 + 00 03 00 05 08
  0001 + 00 04 00 05 08
  0002 + 00 05 00 00 39
  0003 + 00 00 00 00 03
  0004 + 00 00 00 00 03
  0005 + 00 00 00 00 00

Up to the last cell.
  $ session ' ORIG 3994\n LDA =3=\n LDA =3=\n JMP NOWHERE\n END 0' 'show cells 3994 3999'
  3994 + 62 29 00 05 08
  3995 + 62 30 00 05 08
  3996 + 62 31 00 00 39
  3997 + 00 00 00 00 03
  3998 + 00 00 00 00 03
  3999 + 00 00 00 00 00

And past it.
  $ printf ' ORIG 3995\n LDA =3=\n LDA =3=\n JMP NOWHERE\n END 0\n' | mixrev
  line 5: A11 location outside 0 to 3999
  [1]

A literal is read at END.
  $ session ' LDA =X=\nX EQU 9\n END 0' 'show cells 0 1'
  0000 + 00 01 00 05 08
  0001 + 00 00 00 00 09

And its fault is reported there.
  $ printf ' LDA =Y=\n END 0\n' | mixrev
  line 2: A7 undefined symbol
  [1]
  $ printf 'X EQU 1\nX EQU 2\n END 0\n' | mixrev
  line 2: A4 defined twice
  [1]

Local symbols, forward and back.
  $ session '2H NOP\n JMP 2F\n2H JMP 2B\n END 0' 'show cells 1 2'
  0001 + 00 02 00 00 39
  0002 + 00 00 00 00 39

2F is the 2H after the line's own.
  $ session ' JMP 2F\n JMP 2F\n2H JMP 2F\n2H HLT\n END 0' 'show cells 0 3'
  0000 + 00 02 00 00 39
  0001 + 00 02 00 00 39
  0002 + 00 03 00 00 39
  0003 + 00 00 00 02 05

Fields of a W-value, from the left.
  $ session ' CON 1,-1000(0:2)\n CON -1000(0:2),1\n END 0' 'show cells 0 1'
  0000 - 15 40 00 00 01
  0001 + 00 00 00 00 01

Names of the program in commands; the asterisk is the location.
  $ session 'X EQU 7\n END 0' 'set A X+1\nset A Y\nset J -1\nset loc X-2\nshow cells *+1 X'
  ok
  ? C2 bad argument
  ? C5 refused by the machine: M7 index overflow
  ok
  0006 + 00 00 00 00 00
  0007 + 00 00 00 00 00
  [3]

An expression and a W-value in a command.
  $ session ' END 0' 'set cell 2+3 1,-1000(0:2)\nshow cells 5 5'
  ok
  0005 - 15 40 00 00 01

Expressions, from the left; at location 7 three asterisks are 7 times 7.
  $ mixrev <<EOF | uniq -c
  >  END 0
  > %SCRIPT
  > set cell 0 -1+5*20/6
  > set cell 1 1:3
  > set cell 2 1//3
  > set cell 3 -0
  > set loc 7
  > set cell 4 ***
  > show cells 0 4
  > set A 1+-2
  > set A 5/0
  > set A 1073741823+1
  > EOF
        6 ok
        1 0000 + 00 00 00 00 13
        1 0001 + 00 00 00 00 11
        1 0002 + 21 21 21 21 21
        1 0003 - 00 00 00 00 00
        1 0004 + 00 00 00 00 49
        3 ? C2 bad argument
  [3]
