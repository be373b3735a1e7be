Bundles: a source, a deck and a script in one input, and what parts them.

An empty bundle has an empty source.
  $ printf '' | mixrev
  line 1: A13 no END
  [1]

No script is no command.
  $ printf ' END 0\n' | mixrev

An empty script is none either.
  $ printf ' END 0\n%%SCRIPT\n' | mixrev

END is missing at the line after the last.
  $ printf ' ENTA 5\n%%SCRIPT\nstep\n' | mixrev
  line 2: A13 no END
  [1]

After a refused source nothing is executed.
  $ printf ' JUMP 0\n END 0\n%%SCRIPT\nstep\n' | mixrev
  line 1: A2 no such operation
  [1]

4096 does not fit two bytes.
  $ printf ' ENTA 4096\n END 0\n%%SCRIPT\nstep\n' | mixrev
  line 1: A9 address beyond two bytes
  [1]

A carriage return at the end of a marker.
  $ printf ' END 0\n%%DEVICES\n \t\n%%SCRIPT\r\nstep\n' | mixrev
  ran 1 to 0001 clock 1: limit

`%DEVICES` after `%SCRIPT` is a command.
  $ printf ' END 0\n%%SCRIPT\n%%DEVICES\nstep\n' | mixrev
  ? C1 no such command
  ran 1 to 0001 clock 1: limit
  [3]

A second `%DEVICES` is a line of the deck.
  $ printf ' END 0\n%%DEVICES\n\n%%DEVICES\n%%SCRIPT\nstep\n' | mixrev
  stderr: mixrev: T5 deck refused at line 2: K1 bad header
  [2]

The source is judged before the deck.
  $ printf ' END 4000\n%%DEVICES\nX\n%%SCRIPT\nstep\n' | mixrev
  line 1: A15 start outside 0 to 3999
  [1]

No line end, and no script.
  $ printf ' END 0' | mixrev

A script and no deck.
  $ printf ' END 0\n%%SCRIPT\nstep 4\n' | mixrev
  ran 4 to 0004 clock 4: limit

The script after a deck.
  $ printf ' END 0\n%%DEVICES\n%%UNIT 16\n%%SCRIPT\nc\n' | mixrev
  ? C1 no such command
  [3]

The deck before a script.
  $ printf ' END 0\n%%DEVICES\nb\n%%SCRIPT\nc\n' | mixrev
  stderr: mixrev: T5 deck refused at line 1: K1 bad header
  [2]

A deck and no script.
  $ printf ' END 0\n%%DEVICES\nb' | mixrev
  stderr: mixrev: T5 deck refused at line 1: K1 bad header
  [2]

Each line after `%SCRIPT` is one of the script.
  $ printf ' END 0\n%%SCRIPT\nc\n%%DEVICES\nd' | mixrev
  ? C1 no such command
  ? C1 no such command
  ? C1 no such command
  [3]

A marker alone.
  $ printf '%%SCRIPT' | mixrev
  line 1: A13 no END
  [1]

Carriage returns.
  $ printf ' END 0\r\n%%DEVICES\r\nb\r\n%%SCRIPT\r' | mixrev
  stderr: mixrev: T5 deck refused at line 1: K1 bad header
  [2]

An empty script, whose marker has no line end.
  $ printf ' END 0\r\n%%DEVICES\r\n\r\n%%SCRIPT\r' | mixrev

Lines that are no markers.
  $ printf ' END 0\n%%devices\n%%SCRIPT x\n %%SCRIPT\n%%SCRIPT\r\r\nb%%SCRIPT\nc\n' | mixrev

The first `%DEVICES` begins the deck.
  $ printf ' END 0\n%%DEVICES\n\n%%DEVICES\nc\n%%SCRIPT\nd\n%%SCRIPT\ne' | mixrev
  stderr: mixrev: T5 deck refused at line 2: K1 bad header
  [2]

The first `%SCRIPT` begins the script.
  $ printf ' END 0\n%%DEVICES\n\n%%SCRIPT\nd\n%%SCRIPT\ne' | mixrev
  ? C1 no such command
  ? C1 no such command
  ? C1 no such command
  [3]

A source of nine lines is cut after its eighth, after the END of the ninth, and in the name after it.

END is not there.
  $ mixrev <<EOF
  > TERM    EQU    19          the console
  >         ORIG   1000
  > START   OUT    MSG(TERM)   output
  >         HLT                halt execution
  > MSG     ALF    "MIXAL"
  >         ALF    " HELL"
  >         ALF    "O WOR"
  >         ALF    "LD   "
  > EOF
  line 9: A13 no END
  [1]

An END without its ADDRESS starts at 0.
  $ mixrev <<EOF
  > TERM    EQU    19          the console
  >         ORIG   1000
  > START   OUT    MSG(TERM)   output
  >         HLT                halt execution
  > MSG     ALF    "MIXAL"
  >         ALF    " HELL"
  >         ALF    "O WOR"
  >         ALF    "LD   "
  >         END
  > %SCRIPT
  > back all
  > EOF
  back 0 to 0000 clock 0

ST is no name of the source.
  $ mixrev <<EOF
  > TERM    EQU    19          the console
  >         ORIG   1000
  > START   OUT    MSG(TERM)   output
  >         HLT                halt execution
  > MSG     ALF    "MIXAL"
  >         ALF    " HELL"
  >         ALF    "O WOR"
  >         ALF    "LD   "
  >         END    ST
  > EOF
  line 9: A7 undefined symbol
  [1]

Decks.

An empty deck.
  $ printf ' END\n%%DEVICES\n' | mixrev

A blank line.
  $ printf ' END\n%%DEVICES\n\n' | mixrev

Blanks and a carriage return.
  $ printf ' END\n%%DEVICES\n \t \r\n' | mixrev

A last line without its end.
  $ printf ' END\n%%DEVICES\n\n\n  ' | mixrev

A last line that is a carriage return.
  $ printf ' END\n%%DEVICES\n\r' | mixrev

A header with nothing below it.
  $ printf ' END\n%%DEVICES\n%%UNIT 16\n' | mixrev

No such unit.
  $ printf ' END\n%%DEVICES\n%%UNIT 21\n' | mixrev
  stderr: mixrev: T5 deck refused at line 1: K1 bad header
  [2]

The line of the first that is not blank.
  $ printf ' END\n%%DEVICES\n\n \t\n+0000000007\n' | mixrev
  stderr: mixrev: T5 deck refused at line 3: K1 bad header
  [2]

A header without its number.
  $ printf ' END\n%%DEVICES\n\r\n\r\n%%unit' | mixrev
  stderr: mixrev: T5 deck refused at line 3: K1 bad header
  [2]

One word of a hundred.
  $ printf ' END\n%%DEVICES\n%%UNIT 0\n+0000000007\n' | mixrev
  stderr: mixrev: T5 deck refused at line 3: K6 part of a block
  [2]
  $ printf ' END\n%%DEVICES\n%%UNIT 19\n%%UNIT 19\n' | mixrev
  stderr: mixrev: T5 deck refused at line 2: K2 unit given twice
  [2]
  $ printf ' END\n%%DEVICES\n%%UNIT 17\n' | mixrev
  stderr: mixrev: T5 deck refused at line 1: K7 unit takes no input
  [2]

A byte of 64.
  $ printf ' END\n%%DEVICES\n%%UNIT 0\n+6400000000\n' | mixrev
  stderr: mixrev: T5 deck refused at line 2: K5 bad word
  [2]
  $ printf ' END\n%%DEVICES\n%%UNIT 18\n' | mixrev
  stderr: mixrev: T5 deck refused at line 1: K7 unit takes no input
  [2]

A delay may be given all the same.
  $ printf ' END\n%%DEVICES\n%%UNIT 18 delay 5\nX\n' | mixrev
  stderr: mixrev: T5 deck refused at line 2: K7 unit takes no input
  [2]
  $ printf ' END\n%%DEVICES\n%%UNIT 19 delay\n' | mixrev
  stderr: mixrev: T5 deck refused at line 1: K1 bad header
  [2]
  $ printf ' END\n%%DEVICES\n%%UNIT 16\nA?\n' | mixrev
  stderr: mixrev: T5 deck refused at line 2: K4 no MIX character
  [2]

Nine digits.
  $ printf ' END\n%%DEVICES\n%%UNIT 8\n+000000000\n' | mixrev
  stderr: mixrev: T5 deck refused at line 2: K5 bad word
  [2]
  $ printf ' END\n%%DEVICES\n\n %%UNIT 0\n' | mixrev
  stderr: mixrev: T5 deck refused at line 2: K1 bad header
  [2]

A form feed is no blank.
  $ printf ' END\n%%DEVICES\n\f' | mixrev
  stderr: mixrev: T5 deck refused at line 1: K1 bad header
  [2]

Nor is a carriage return inside a line.
  $ printf ' END\n%%DEVICES\n \r \n' | mixrev
  stderr: mixrev: T5 deck refused at line 1: K1 bad header
  [2]

A unit that is given twice is refused at its line; nothing is executed.
  $ mixrev <<EOF
  > * A deck that is refused: nothing is written but the tool's own fault, on standard error, and the status is 2.
  >  END 0
  > %DEVICES
  > 
  > %UNIT 21
  > %SCRIPT
  > step 1
  > EOF
  stderr: mixrev: T5 deck refused at line 2: K1 bad header
  [2]
