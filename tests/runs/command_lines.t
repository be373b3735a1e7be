Command lines: the words of each subcommand, what a mistake in them says, and help.

  $ set -o pipefail

A listing.
  $ printf ' ENTA 5\nX HLT\n END 0\n' >a.mixal
  $ mixrev list a.mixal
  0000  + 00 05 00 02 48      1   ENTA 5
  0001  + 00 00 00 02 05      2  X HLT
  0000                        3   END 0
  symbols 1
  X           + 00 00 00 00 01

A source that is refused.
  $ printf ' JUMP\n END 0\n' >a.mixal
  $ mixrev list a.mixal
  line 1: A2 no such operation
  [1]

A file that is not there.
  $ rm a.mixal
  $ mixrev list a.mixal
  stderr: mixrev: T4 not opened: a.mixal: No such file or directory
  [2]

A folder.
  $ mixrev list .
  stderr: mixrev: T4 not opened: .: Is a directory
  [2]

A file is no folder.
  $ printf '' >a.mixal
  $ mixrev list a.mixal/b
  stderr: mixrev: T4 not opened: a.mixal/b: Not a directory
  [2]

A session.
  $ printf ' ENTA 5\n HLT\n END 0\n' >a.mixal
  $ printf 'step 2\nback 1\n' >b.txt
  $ mixrev debug a.mixal b.txt
  ran 2 to 0002 clock 11: halt
  back 1 to 0001 clock 1

What follows END is not read.
  $ printf ' END 0\n%%SCRIPT\nstep\n' >a.mixal
  $ printf 'show changes\n' >b.txt
  $ mixrev debug a.mixal b.txt
  changes 0

A command that is refused.
  $ printf ' END 0\n' >a.mixal
  $ printf 'jump\n' >b.txt
  $ mixrev debug a.mixal b.txt
  ? C1 no such command
  [3]

A source that is refused.
  $ printf ' JUMP\n END 0\n' >a.mixal
  $ printf 'step\n' >b.txt
  $ mixrev debug a.mixal b.txt
  line 1: A2 no such operation
  [1]

A deck.
  $ printf ' IN 100(16)\n END 0\n' >a.mixal
  $ printf '%%UNIT 16\nA CARD\n' >c.deck
  $ mixrev debug a.mixal b.txt --devices c.deck
  ran 1 to 0001 clock 1: limit

The option at another place, and with its sign.
  $ mixrev debug --devices=c.deck a.mixal b.txt
  ran 1 to 0001 clock 1: limit

Without a deck the units are empty.
  $ mixrev debug a.mixal b.txt
  ran 0 to 0000 clock 0: fault M11 no block
  [3]

A deck that is refused.
  $ printf ' END 0\n' >a.mixal
  $ printf 'X\n' >c.deck
  $ mixrev debug a.mixal b.txt --devices c.deck
  stderr: mixrev: T5 deck refused at line 1: K1 bad header
  [2]

The source is opened first.
  $ rm a.mixal b.txt c.deck
  $ mixrev debug a.mixal b.txt --devices c.deck
  stderr: mixrev: T4 not opened: a.mixal: No such file or directory
  [2]

Then the deck, before the source is read.
  $ printf ' JUMP\n' >a.mixal
  $ mixrev debug a.mixal b.txt --devices c.deck
  stderr: mixrev: T4 not opened: c.deck: No such file or directory
  [2]

Then the script.
  $ printf 'X\n' >c.deck
  $ mixrev debug a.mixal b.txt --devices c.deck
  stderr: mixrev: T4 not opened: b.txt: No such file or directory
  [2]

After `--` each word is a name.
  $ printf ' END 0\n' >--help
  $ mixrev list -- --help
  0000                        1   END 0
  symbols 0

Help.
  $ mixrev --help | grep Usage
  Usage: mixrev <COMMAND>

Help on a listing.
  $ mixrev list --help | grep Usage
  Usage: mixrev list [OPTIONS] <SOURCE>

Help on a session.
  $ mixrev debug -h | grep Usage
  Usage: mixrev debug [OPTIONS] <SOURCE> [SCRIPT]

No such subcommand.
  $ mixrev jump | grep error:
  stderr: error: unrecognized subcommand 'jump'
  [2]

Help is asked for by `--help`.
  $ mixrev help | grep error:
  stderr: error: unrecognized subcommand 'help'
  [2]

A talk in which nothing is said.
  $ printf ' HLT\n END 0\n' >a.mixal
  $ mixrev debug a.mixal </dev/null

A talk about a source that is refused.
  $ printf ' JUMP 1\n END 0\n' >a.mixal
  $ mixrev debug a.mixal </dev/null
  line 1: A2 no such operation
  stderr: a.mixal:1:2: error: A2 no such operation: JUMP
  stderr:  JUMP 1
  stderr:  ^^^^
  stderr: help: perhaps JMP is meant
  [1]

What a program prints, up to its halt.
  $ printf ' OUT 5(19)\n HLT\n ORIG 5\n ALF HELLO\n END 0\n' >a.mixal
  $ mixrev run a.mixal
  HELLO

Cards are a plain text, and no line of it is a header.
  $ printf ' IN 9(16)\n OUT 9(19)\n HLT\n END 0\n' >a.mixal
  $ printf '%% IS NOT\n' >b.txt
  $ mixrev run a.mixal --cards b.txt
  stderr: mixrev: T5 deck refused at line 1: K4 no MIX character
  [2]

The cards replace those of the deck.
  $ printf 'A CARD\n' >b.txt
  $ printf '%%UNIT 16\nANOTHER\n' >c.deck
  $ mixrev run a.mixal --cards b.txt --devices c.deck
  A CARD

A fault and its location.
  $ printf ' ENTA 5\n STA 4000,1\n END 0\n' >a.mixal
  $ mixrev run a.mixal
  stderr: a.mixal:2: M5 no such cell at 0001 clock 1
  [3]

A fault that can be seen in the source comes after its warning.
  $ printf ' STA 4000\n END 0\n' >a.mixal
  $ mixrev run a.mixal
  stderr: a.mixal:1:6: warning: the cells are 0 to 3999: the machine will refuse the step, or the jump [no-cell]
  stderr:  STA 4000
  stderr:      ^^^^
  stderr: a.mixal:1: M5 no such cell at 0000 clock 0
  [3]

A loop without end.
  $ printf ' JMP 0\n END 0\n' >a.mixal
  $ mixrev run a.mixal --steps 7
  stderr: a.mixal:1: steps used up at 0000 clock 7
  [3]

Past the last cell, which no line fills.
  $ printf ' JMP 9\n END 0\n' >a.mixal
  $ mixrev run a.mixal
  stderr: a.mixal: M15 no cell at the location at 4000 clock 3992
  [3]

One unit alone.
  $ printf ' OUT 5(19)\n OUT 5(18)\n HLT\n ORIG 5\n ALF HELLO\n END 0\n' >a.mixal
  $ mixrev run a.mixal --unit 18
  HELLO

A source that is refused.
  $ printf ' CON 5/0\n END 0\n' >a.mixal
  $ mixrev run a.mixal
  stderr: a.mixal:1:6: error: A8 overflow in expression: a value is at most 1073741823, and no divisor is 0
  stderr:  CON 5/0
  stderr:      ^^^
  [1]

The cards are opened last.
  $ printf ' JUMP\n' >a.mixal
  $ printf 'X\n' >c.deck
  $ mixrev run a.mixal --devices c.deck --cards d.txt
  stderr: mixrev: T4 not opened: d.txt: No such file or directory
  [2]

Each step before what it prints.
  $ printf ' ENTA 5\n STA 9\n OUT 8(19)\n HLT\n ORIG 8\n ALF HELLO\n END 0\n' >a.mixal
  $ mixrev run a.mixal --trace
        1  0000  ENTA 5               1u  A + 00 00 00 00 00 -> + 00 00 00 00 05
        2  0001  STA 9                2u  0009 + 00 00 00 00 00 -> + 00 00 00 00 05
        3  0002  OUT 8(19)            1u  unit 19 output 0 -> 1 until 0 -> 4
  HELLO    E
        4  0003  HLT                 10u

Units and steps of a run that is traced.
  $ printf ' OUT 5(19)\n JMP 3999\n END 0\n' >a.mixal
  $ mixrev run a.mixal --trace --unit 18 --steps 2
        1  0000  OUT 5(19)            1u  unit 19 output 0 -> 1 until 0 -> 1
        2  0001  JMP 3999             1u  J + 00 00 -> + 00 02
  stderr: a.mixal: steps used up at 3999 clock 2
  [3]

Help on a run.
  $ mixrev run --help | grep Usage
  Usage: mixrev run [OPTIONS] <SOURCE>

Help where all words are missing.
  $ mixrev run | grep Usage
  stderr: Usage: mixrev run [OPTIONS] <SOURCE>
  [2]

No step at all.
  $ mixrev run a.mixal --steps 0 | grep error:
  stderr: error: invalid value '0' for '--steps <N>': 0 is not in 1..=1000000000000000000
  [2]

A unit that prints nothing.
  $ mixrev run a.mixal --unit 5 | grep error:
  stderr: error: invalid value '5' for '--unit <N>': 5 is not in 17..=20
  [2]

A word too many.
  $ mixrev debug a.mixal b.txt c | grep error:
  stderr: error: unexpected argument 'c' found
  [2]

No such option.
  $ mixrev debug a.mixal b.txt --tape c | grep error:
  stderr: error: unexpected argument '--tape' found
  [2]

The option without its file.
  $ mixrev debug a.mixal b.txt --devices | grep error:
  stderr: error: a value is required for '--devices <FILE>' but none was supplied
  [2]

A name may be the word of a subcommand.
  $ printf ' END 0\n' >list
  $ mixrev list list
  0000                        1   END 0
  symbols 0

A dash is standard input, which is empty here, and not a name.
  $ printf ' END 0\n' >-
  $ mixrev list - </dev/null
  line 1: A13 no END
  [1]

A file whose name is a dash.
  $ mixrev list ./-
  0000                        1   END 0
  symbols 0

The deck of a talk.
  $ printf ' END 0\n' >a.mixal
  $ mixrev debug --devices=c.deck a.mixal </dev/null
  stderr: mixrev: T5 deck refused at line 1: K1 bad header
  [2]

The option between the files.
  $ printf ' IN 100(16)\n END 0\n' >a.mixal
  $ printf 'step\n' >b.txt
  $ printf '%%UNIT 16\nA CARD\n' >c.deck
  $ mixrev debug a.mixal --devices=c.deck b.txt
  ran 1 to 0001 clock 1: limit

Words of subcommands as names.
  $ printf 'show changes\n' >debug
  $ mixrev debug list debug
  changes 0

A name with a letter beyond ASCII.
  $ printf ' END 0\n' >söurce
  $ printf 'show changes\n' >b.txt
  $ mixrev debug söurce b.txt
  changes 0

An option with its sign.
  $ printf ' IN 9(16)\n OUT 9(19)\n HLT\n END 0\n' >a.mixal
  $ printf 'A CARD\n' >b.txt
  $ printf '%%UNIT 16\nANOTHER\n' >c.deck
  $ mixrev run a.mixal --cards b.txt --devices=c.deck
  A CARD

Options first; a number with its sign and a zero.
  $ printf ' OUT 9(18)\n OUT 9(19)\n JMP *\n ORIG 9\n ALF HELLO\n END 0\n' >a.mixal
  $ mixrev run --steps +07 --unit 18 a.mixal
  HELLO
  stderr: a.mixal:3: steps used up at 0002 clock 7
  [3]

Two units, and the most steps.
  $ cat >a.mixal <<EOF
  >  OUT 10(17)
  >  OUT 30(18)
  >  OUT 60(19)
  >  OUT 80(20)
  >  HLT
  >  ORIG 10
  >  ALF PUNCH
  >  ORIG 30
  >  ALF PRINT
  >  ORIG 60
  >  ALF TYPED
  >  ORIG 80
  >  ALF TAPES
  >  END 0
  > EOF
  $ mixrev run a.mixal --unit=20 --unit=17 --steps=1000000000000000000
  PUNCH
  TAPES

A unit with a zero before it.
  $ cp a.mixal run
  $ mixrev run run --unit 019
  TYPED

Each unit where none is named.
  $ mixrev run a.mixal
  PUNCH
  PRINT
  TYPED
  TAPES

A subcommand is in small letters.
  $ mixrev LIST a | grep error:
  stderr: error: unrecognized subcommand 'LIST'
  [2]

A name alone is no subcommand.
  $ mixrev a.mixal | grep error:
  stderr: error: unrecognized subcommand 'a.mixal'
  [2]

Help where all words are missing.
  $ mixrev -- | grep -e Usage -e Example
  stderr: Usage: mixrev <COMMAND>
  stderr: Examples:
  [2]

No such option.
  $ mixrev -x | grep error:
  stderr: error: unexpected argument '-x' found
  [2]

The version, and the toolchain.
  $ mixrev --version
  mixrev 0.2.0
  toolchain Rattle, logic dac8208d650f15bf

The version alone.
  $ mixrev -V
  mixrev 0.2.0

The version is that of the program alone.
  $ mixrev run --version | grep error:
  stderr: error: unexpected argument '--version' found
  [2]

A word that this subcommand does not take.
  $ mixrev --devices c | grep error:
  stderr: error: unexpected argument '--devices' found
  [2]
  $ mixrev list a b | grep error:
  stderr: error: unexpected argument 'b' found
  [2]
  $ mixrev list a --devices c | grep error:
  stderr: error: unexpected argument '--devices' found
  [2]
  $ mixrev debug a b c | grep error:
  stderr: error: unexpected argument 'c' found
  [2]
  $ mixrev debug a b --tapes c | grep error:
  stderr: error: unexpected argument '--tapes' found
  [2]
  $ mixrev debug a --cards c | grep error:
  stderr: error: unexpected argument '--cards' found
  [2]
  $ mixrev run a b | grep error:
  stderr: error: unexpected argument 'b' found
  [2]
  $ mixrev dap a | grep error:
  stderr: error: unexpected argument 'a' found
  [2]
  $ mixrev lsp a | grep error:
  stderr: error: unexpected argument 'a' found
  [2]

A mistake before help.
  $ mixrev --jump --help | grep error:
  stderr: error: unexpected argument '--jump' found
  [2]

Help.
  $ mixrev list | grep -e Usage -e Example
  stderr: Usage: mixrev list [OPTIONS] <SOURCE>
  stderr: Example:
  [2]
  $ mixrev debug | grep -e Usage -e Example
  stderr: Usage: mixrev debug [OPTIONS] <SOURCE> [SCRIPT]
  stderr: Example: with the two lines `run 1000` and `show regs` in the file session.txt,
  [2]

The source is missing.
  $ mixrev debug --devices a </dev/null | grep -A 1 'required arguments'
  stderr: error: the following required arguments were not provided:
  stderr:   <SOURCE>
  [2]
  $ mixrev run --steps 5 | grep -A 1 'required arguments'
  stderr: error: the following required arguments were not provided:
  stderr:   <SOURCE>
  [2]

No number.
  $ mixrev run a --steps many | grep error:
  stderr: error: invalid value 'many' for '--steps <N>': invalid digit found in string
  [2]

One step more than the most.
  $ mixrev run a --steps 1000000000000000001 | grep error:
  stderr: error: invalid value '1000000000000000001' for '--steps <N>': 1000000000000000001 is not in 1..=1000000000000000000
  [2]

A unit that prints nothing.
  $ mixrev run a --unit 16 | grep error:
  stderr: error: invalid value '16' for '--unit <N>': 16 is not in 17..=20
  [2]

No such unit, after one that is right.
  $ mixrev run a --unit 18 --unit 21 | grep error:
  stderr: error: invalid value '21' for '--unit <N>': 21 is not in 17..=20
  [2]

Two decks.
  $ mixrev debug a b --devices c --devices d | grep error:
  stderr: error: the argument '--devices <FILE>' cannot be used multiple times
  [2]

Help.
  $ mixrev -h | grep 'mixrev debug primes.mixal session.txt'
    mixrev debug primes.mixal session.txt --devices tapes.deck
  $ mixrev run -h | grep -e --unit
        --unit <N>           Only the rows of this unit, 17 to 20; may be repeated
    mixrev run primes.mixal --unit 18
  $ mixrev dap --help | grep Usage
  Usage: mixrev dap
  $ mixrev lsp --help | grep Usage
  Usage: mixrev lsp
  $ mixrev debug --help | grep Usage
  Usage: mixrev debug [OPTIONS] <SOURCE> [SCRIPT]
  $ mixrev debug -h | grep -e --devices
        --devices <FILE>  The deck: what tapes, disks and cards hold at first
  A bundle may take the place of a source: its deck is taken, unless --devices
  $ mixrev debug a --help | grep 'run 1000'
  Example: with the two lines `run 1000` and `show regs` in the file session.txt,
