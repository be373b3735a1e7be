Sources that are refused: the line and the fault in a session, and what `run` reports of it.

END is missing at the line after the last.
  $ printf ' ENTA 5' | mixrev
  line 2: A13 no END
  [1]

A blank line counts.
  $ printf ' ENTA 5\n\n' | mixrev
  line 3: A13 no END
  [1]

A floating-point operation is not assembled.
  $ printf ' FADD 0\n END 0\n' | mixrev
  line 1: A2 no such operation
  [1]

A comment begins at the first byte.
  $ printf ' * no comment\n' | mixrev
  line 1: A2 no such operation
  [1]

A longer name.
  $ printf ' ENTAX 5\n' | mixrev
  line 1: A2 no such operation
  [1]

A bad byte in OP.
  $ printf ' ENT? 5\n' | mixrev
  line 1: A1 bad byte
  [1]

A LOC that is neither a symbol nor dH.
  $ printf '\n\n2F ENTA 5\n' | mixrev
  line 3: A3 bad symbol
  [1]

A LOC and nothing else.
  $ printf 'X\n' | mixrev
  line 1: A2 no such operation
  [1]

A bad byte in LOC comes before all else.
  $ printf 'X? JMP ?\n' | mixrev
  line 1: A1 bad byte
  [1]

OP comes before ADDRESS.
  $ printf ' JUMP ?\n' | mixrev
  line 1: A2 no such operation
  [1]

A bad byte in ADDRESS comes before its value.
  $ printf ' ENTA X?\n' | mixrev
  line 1: A1 bad byte
  [1]

A future reference is a whole A-part.
  $ printf ' ENTA X+1\n' | mixrev
  line 1: A7 undefined symbol
  [1]

An atom is missing.
  $ printf ' ENTA 5+\n' | mixrev
  line 1: A5 bad expression
  [1]

An index is 0 to 6.
  $ printf ' ENTA 5,7\n' | mixrev
  line 1: A10 index, field or F out of range
  [1]

A remark of HLT begins with a letter.
  $ printf ' HLT 5$\n' | mixrev
  line 1: A5 bad expression
  [1]

A name that only END uses.
  $ printf ' END X\n' | mixrev
  line 1: A7 undefined symbol
  [1]

Eleven digits.
  $ printf ' ENTA 00000000001\n' | mixrev
  line 1: A6 number too large
  [1]

64^5.
  $ printf ' ENTA 1073741824\n' | mixrev
  line 1: A6 number too large
  [1]
  $ printf ' END 1073741824\n' | mixrev
  line 1: A6 number too large
  [1]

A number, but no address.
  $ printf ' ENTA 1073741823\n' | mixrev
  line 1: A9 address beyond two bytes
  [1]

The largest address, and one more.
  $ printf ' ENTA 4095\n ENTA 4096\n' | mixrev
  line 2: A9 address beyond two bytes
  [1]

A last line without its end.
  $ printf ' END 4000' | mixrev
  line 1: A15 start outside 0 to 3999
  [1]

8191 modulo 4096 is 4095.
  $ printf ' END 8191' | mixrev
  line 1: A15 start outside 0 to 3999
  [1]

The first of two faults.
  $ printf ' ENTA 5\n INCA 4096\nX\n' | mixrev
  line 2: A9 address beyond two bytes
  [1]

A source that is refused is the end of it.
  $ mixrev <<EOF
  > * A source that is refused: its first fault is all that is written, and the status is 1.
  >  ENTA 5
  >  JMP* 0
  >  END 0
  > %SCRIPT
  > step 1
  > EOF
  line 3: A2 no such operation
  [1]

How a run reports them: line, column, fault, and the part that is marked.

OP.
  $ printf ' X 5\n END\n' >f
  $ mixrev run f
  stderr: f:1:2: error: A2 no such operation: X
  stderr:  X 5
  stderr:  ^
  [1]

A line that is not there.
  $ printf '\n' >f
  $ mixrev run f
  stderr: f:2: error: A13 no END: the last line of a program is END
  [1]

LOC.
  $ printf '2F NOP\n END\n' >f
  $ mixrev run f
  stderr: f:1:1: error: A3 bad symbol: 2F: a symbol has at most 10 letters and digits, one of them a letter
  stderr: 2F NOP
  stderr: ^^
  [1]

LOC of the second line.
  $ printf 'X NOP\nX NOP\n END\n' >f
  $ mixrev run f
  stderr: f:2:1: error: A4 defined twice: X is defined at line 1
  stderr: X NOP
  stderr: ^
  [1]

ADDRESS.
  $ printf ' ENTA 2F+1\n END\n' >f
  $ mixrev run f
  stderr: f:1:7: error: A7 undefined symbol: 2F can only be the whole A-part of an instruction
  stderr:  ENTA 2F+1
  stderr:       ^^
  [1]
  $ printf ' CON 5/0\n END\n' >f
  $ mixrev run f
  stderr: f:1:6: error: A8 overflow in expression: a value is at most 1073741823, and no divisor is 0
  stderr:  CON 5/0
  stderr:      ^^^
  [1]

ADDRESS of the name that is waited for.
  $ printf ' JMP X\nX EQU 5000\n END 0\n' >f
  $ mixrev run f
  stderr: f:2:7: error: A9 address beyond two bytes: it is -4095 to 4095
  stderr: X EQU 5000
  stderr:       ^^^^
  [1]

ADDRESS.
  $ printf ' NOP 0,7\n END\n' >f
  $ mixrev run f
  stderr: f:1:8: error: A10 index, field or F out of range: an index is 0 to 6, an F 0 to 63, and a field L:R has L at most R, and R at most 5
  stderr:  NOP 0,7
  stderr:        ^
  [1]
  $ printf ' ORIG 4001\n END\n' >f
  $ mixrev run f
  stderr: f:1:7: error: A11 location outside 0 to 3999
  stderr:  ORIG 4001
  stderr:       ^^^^
  [1]

OP of a word for which there is no cell.
  $ printf ' ORIG 3999\n NOP\n NOP 1\n END\n' >f
  $ mixrev run f
  stderr: f:3:2: error: A11 location outside 0 to 3999
  stderr:  NOP 1
  stderr:  ^^^
  [1]

The characters of ALF.
  $ printf ' ALF "AB CD\n END\n' >f
  $ mixrev run f
  stderr: f:1:7: error: A12 bad ALF: at most five characters, between two quotation marks
  stderr:  ALF "AB CD
  stderr:       ^^^^^
  [1]

What is found at END alone.
  $ printf ' JMP 2F\n END 0\n' >f
  $ mixrev run f
  stderr: f:1:6: error: A14 no such local symbol: 2F: for a dB the LOC of a line before is dH, and for a dF that of a line after it
  stderr:  JMP 2F
  stderr:      ^^
  [1]

END, before which the literal stands.
  $ printf ' LDA =Y=\n END 0\n' >f
  $ mixrev run f
  stderr: f:1:7: error: A7 undefined symbol: Y is defined nowhere
  stderr:  LDA =Y=
  stderr:       ^
  [1]

ADDRESS.
  $ printf ' END 4000\n' >f
  $ mixrev run f
  stderr: f:1:6: error: A15 start outside 0 to 3999
  stderr:  END 4000
  stderr:      ^^^^
  [1]

A bad byte in LOC.
  $ printf 'NAME?Y NOP\n END\n' >f
  $ mixrev run f
  stderr: f:1:5: error: A1 bad byte: ?
  stderr: NAME?Y NOP
  stderr:     ^
  [1]

A bad byte in OP.
  $ printf ' EN{A 5\n END\n' >f
  $ mixrev run f
  stderr: f:1:4: error: A1 bad byte: {
  stderr:  EN{A 5
  stderr:    ^
  [1]

One place for a character of two bytes.
  $ printf ' ENTA é5\n END\n' >f
  $ mixrev run f
  stderr: f:1:7: error: A1 bad byte: \xc3\xa9 (esc)
  stderr:  ENTA \xc3\xa95 (esc)
  stderr:       ^
  [1]

An OP that is not there.
  $ printf 'X' >f
  $ mixrev run f
  stderr: f:1:2: error: A2 no such operation: nothing is written here
  stderr: X
  stderr:  ^
  stderr: f:2: error: A13 no END: the last line of a program is END
  [1]

A control byte is shown as a question mark.
  $ printf ' ENTA \f5\n END\n' >f
  $ mixrev run f
  stderr: f:1:7: error: A1 bad byte: a form feed: leave it out
  stderr:  ENTA ?5
  stderr:       ^
  [1]

All faults.
  $ printf ' JUMP\nA ENTA 4096\nB CON 5/0\n JMP A\n END 0\n' >f
  $ mixrev run f
  stderr: f:1:2: error: A2 no such operation: JUMP
  stderr:  JUMP
  stderr:  ^^^^
  stderr: help: perhaps JMP is meant
  stderr: f:2:8: error: A9 address beyond two bytes: it is -4095 to 4095
  stderr: A ENTA 4096
  stderr:        ^^^^
  stderr: f:3:7: error: A8 overflow in expression: a value is at most 1073741823, and no divisor is 0
  stderr: B CON 5/0
  stderr:       ^^^
  [1]

Warnings among the faults.
  $ printf 'HLT\n JMP LOPP\n END\n' >f
  $ mixrev run f
  stderr: f:1:4: error: A2 no such operation: nothing is written here
  stderr: HLT
  stderr:    ^
  stderr: f:1:1: warning: the label is the name of an operation: if that is meant, begin the line with a blank [operation-as-label]
  stderr: HLT
  stderr: ^^^
  stderr: f:2:6: warning: LOPP is defined nowhere: END makes a cell of 0 for it [undefined-symbol]
  stderr:  JMP LOPP
  stderr:      ^^^^
  [1]
