The first fault of a source: its line, its number and its text. Each row is one source, to its last byte.

  $ mixrev list <(printf '')
  line 1: A13 no END
  [1]

  $ mixrev list <(printf ' NOP\n\n')
  line 3: A13 no END
  [1]

  $ mixrev list <(printf 'X? NOP\n')
  line 1: A1 bad byte
  [1]

  $ mixrev list <(printf ' NOP\n JM? 0\n')
  line 2: A1 bad byte
  [1]

  $ mixrev list <(printf ' FOO\n')
  line 1: A2 no such operation
  [1]

  $ mixrev list <(printf '2B NOP\n')
  line 1: A3 bad symbol
  [1]

  $ mixrev list <(printf 'X EQU 1\nX EQU 2\n END 0\n')
  line 2: A4 defined twice
  [1]

  $ mixrev list <(printf 'X NOP\nX LDA 0,7\n')
  line 2: A4 defined twice
  [1]

  $ mixrev list <(printf 'X NOP\nX EQU\n')
  line 2: A4 defined twice
  [1]

  $ mixrev list <(printf 'X NOP\n LDA =Y=\nX END\n')
  line 3: A4 defined twice
  [1]

  $ mixrev list <(printf ' LDA 1+\n')
  line 1: A5 bad expression
  [1]

  $ mixrev list <(printf 'X EQU\n')
  line 1: A5 bad expression
  [1]

  $ mixrev list <(printf ' CON\n')
  line 1: A5 bad expression
  [1]

  $ mixrev list <(printf ' ORIG\n')
  line 1: A5 bad expression
  [1]

  $ mixrev list <(printf ' LDA =3\n')
  line 1: A5 bad expression
  [1]

  $ mixrev list <(printf ' LDA ==\n END\n')
  line 2: A5 bad expression
  [1]

  $ mixrev list <(printf ' LDA 12345678901\n')
  line 1: A6 number too large
  [1]

  $ mixrev list <(printf ' LDA 0,Y\n')
  line 1: A7 undefined symbol
  [1]

  $ mixrev list <(printf 'X EQU X\n')
  line 1: A7 undefined symbol
  [1]

  $ mixrev list <(printf '2H JMP 2F+1\n')
  line 1: A7 undefined symbol
  [1]

  $ mixrev list <(printf ' LDA =Y=\n END 0\n')
  line 2: A7 undefined symbol
  [1]

  $ mixrev list <(printf ' END Y\n')
  line 1: A7 undefined symbol
  [1]

  $ mixrev list <(printf ' LDA 5/0\n')
  line 1: A8 overflow in expression
  [1]

  $ mixrev list <(printf ' ENTA 4096\n')
  line 1: A9 address beyond two bytes
  [1]

  $ mixrev list <(printf ' ENTA -4096\n')
  line 1: A9 address beyond two bytes
  [1]

  $ mixrev list <(printf ' JMP X\nX EQU 5000\n END 0\n')
  line 2: A9 address beyond two bytes
  [1]

  $ mixrev list <(printf ' JMP 2F\n2H EQU -4096\n END 0\n')
  line 2: A9 address beyond two bytes
  [1]

  $ mixrev list <(printf ' ENTA 4096,7\n')
  line 1: A10 index, field or F out of range
  [1]

  $ mixrev list <(printf ' CON 1(6)\n')
  line 1: A10 index, field or F out of range
  [1]

  $ mixrev list <(printf ' ORIG 4001\n')
  line 1: A11 location outside 0 to 3999
  [1]

  $ mixrev list <(printf ' ORIG -1\n')
  line 1: A11 location outside 0 to 3999
  [1]

  $ mixrev list <(printf ' ORIG 4000\nX NOP\n')
  line 2: A11 location outside 0 to 3999
  [1]

  $ mixrev list <(printf ' ORIG 4000\n ENTA 4096\n')
  line 2: A9 address beyond two bytes
  [1]

  $ mixrev list <(printf ' ORIG 4000\n ALF A\n')
  line 2: A11 location outside 0 to 3999
  [1]

  $ mixrev list <(printf ' ORIG 3995\n LDA =3=\n LDA =3=\n JMP NOWHERE\n END 0\n')
  line 5: A11 location outside 0 to 3999
  [1]

  $ mixrev list <(printf ' ORIG 3999\n LDA =3=\n END\n')
  line 3: A11 location outside 0 to 3999
  [1]

  $ mixrev list <(printf ' ALF "AB\n')
  line 1: A12 bad ALF
  [1]

  $ mixrev list <(printf ' JMP 2B\n')
  line 1: A14 no such local symbol
  [1]

  $ mixrev list <(printf '2H JMP 2B\n')
  line 1: A14 no such local symbol
  [1]

  $ mixrev list <(printf '2H ENTA 0\n2H JMP 2B\n JMP 2F\n END 0\n')
  line 4: A14 no such local symbol
  [1]

  $ mixrev list <(printf ' JMP 2F\n3H END 5000\n')
  line 2: A14 no such local symbol
  [1]

  $ mixrev list <(printf ' END 4000\n')
  line 1: A15 start outside 0 to 3999
  [1]

  $ mixrev list <(printf ' JMP 2F\n LDA =Y=\n END 4000\n')
  line 3: A7 undefined symbol
  [1]

  $ mixrev list <(printf ' ORIG 3999\n JMP X\n JMP 2F\n END\n')
  line 3: A11 location outside 0 to 3999
  [1]

  $ mixrev list <(printf ' ORIG 3998\n JMP X\n JMP 2F\n END\n')
  line 4: A11 location outside 0 to 3999
  [1]
