Files of the command line: the name - is standard input, and of one that cannot be opened the reason is reported.

  $ printf ' JUMP\n' | mixrev list -
  line 1: A2 no such operation
  [1]

  $ printf ' OUT 5(19)\n HLT\n ORIG 5\n ALF HELLO\n END 0\n' | mixrev run -
  HELLO

  $ printf ' IN 9(16)\n OUT 9(19)\n HLT\n END 0\n' >a.mixal
  $ printf 'A CARD\n' | mixrev run a.mixal --cards -
  A CARD

Lines for the typewriter are blocks that it reads, in place of those of a deck; a refused one has its line, and is no card.

  $ printf ' IN 9(19)\n OUT 9(18)\n JMP 0\n END 0\n' >t.mixal
  $ printf 'hello\n world\n' | mixrev run t.mixal --typewriter -
  HELLO
   WORLD
  stderr: t.mixal:1: M11 no block at 0000 clock 6
  [3]

  $ printf '%%UNIT 19\nOF A DECK\n' >lines
  $ printf 'TYPED\n' | mixrev run t.mixal --devices lines --typewriter - --steps 2
  TYPED
  stderr: t.mixal:3: steps used up at 0002 clock 2
  [3]

  $ printf 'A\n%%UNIT 19\n' | mixrev run t.mixal --typewriter=-
  stderr: mixrev: T5 deck refused at line 2: K4 no MIX character
  [2]

  $ printf '?\n' | mixrev run t.mixal --typewriter none --cards -
  stderr: mixrev: T4 not opened: none: No such file or directory
  [2]

A bundle is run with its deck; a deck or cards of a file are in place of that, and of its script nothing is done.

  $ printf ' IN 9(16)\n OUT 9(19)\n HLT\n END 0\n%%DEVICES\n%%UNIT 16\nOF THE BUNDLE\n%%SCRIPT\nno command\n' >b.mixal
  $ mixrev run b.mixal </dev/null
  OF THE BUNDLE

  $ mixrev run - <b.mixal
  OF THE BUNDLE

  $ printf '%%UNIT 16\nOF A DECK\n' >deck
  $ mixrev run b.mixal --devices deck </dev/null
  OF A DECK

  $ printf 'A CARD\n' | mixrev run b.mixal --cards -
  A CARD

  $ mixrev run b.mixal --devices /dev/null </dev/null
  stderr: b.mixal:1: M11 no block at 0000 clock 0
  [3]

  $ printf ' END 0\n%%DEVICES\n%%UNIT 21\n' >c.mixal
  $ mixrev run c.mixal </dev/null
  stderr: mixrev: T5 deck refused at line 1: K1 bad header
  [2]

A binary of mixasm is named as one, and its status is that of a refused source.

  $ printf '\255\336\357\276\1\0\0\0' >hello.mix
  $ mixrev run hello.mix </dev/null
  stderr: hello.mix: error: this is a binary of mixasm, not a source
  [1]

  $ mixrev check hello.mix </dev/null
  hello.mix: error: this is a binary of mixasm, not a source
  [1]

  $ printf '' | mixrev debug hello.mix
  line 1: A1 bad byte
  stderr: hello.mix: error: this is a binary of mixasm, not a source
  [1]

  $ printf '\255\336\357' >three.mix
  $ mixrev run three.mix </dev/null 2>&1 | head -n 1
  stderr: three.mix:1:1: error: A1 bad byte: ?

Standard input is read from where it is: what was taken of it before is not read again, and what is not read is left.

  $ printf 'TAKEN\n HLT\n END 0\n' >taken
  $ { read -r first; mixrev list -; } <taken
  0000  + 00 00 00 02 05      1   HLT
  0000                        2   END 0
  symbols 0

It may be a socket, as the programs that start others give it.

  $ cat >over_socket.py <<'END'
  > import socket, subprocess, sys
  > ours, theirs = socket.socketpair()
  > ours.sendall(b" JUMP\n END 0\n")
  > ours.shutdown(socket.SHUT_WR)
  > sys.exit(subprocess.run(["mixrev", "check", "-"], stdin=theirs).returncode)
  > END
  $ python3 over_socket.py
  -:1:2: error: A2 no such operation: JUMP
   JUMP
   ^^^^
  help: perhaps JMP is meant
  [1]

A folder is no text, and what is closed cannot be read.

  $ mixrev list - </
  stderr: mixrev: T4 not opened: -: Is a directory
  [2]
  $ mixrev list - <&-
  stderr: mixrev: T2 read failed: -
  [2]

A file that is opened, and whose first read fails: it is named, and of several the one that is read first. What is named before it has been read.

  $ mixrev run a.mixal --devices /proc/self/mem --cards /proc/self/./mem --typewriter /proc/./self/mem </dev/null
  stderr: mixrev: T2 read failed: /proc/self/mem
  [2]
  $ mixrev run a.mixal --typewriter /proc/self/mem --cards /proc/self/./mem </dev/null
  stderr: mixrev: T2 read failed: /proc/self/./mem
  [2]
  $ printf '?\n' >refused
  $ mixrev run a.mixal --typewriter /proc/self/mem --cards refused </dev/null
  stderr: mixrev: T5 deck refused at line 1: K4 no MIX character
  [2]
  $ mixrev run a.mixal --typewriter /proc/self/mem --cards /dev/null </dev/null
  stderr: mixrev: T2 read failed: /proc/self/mem
  [2]
  $ mixrev run /proc/self/mem --devices /proc/self/./mem </dev/null
  stderr: mixrev: T2 read failed: /proc/self/mem
  [2]
  $ mixrev debug a.mixal /proc/self/mem --devices /proc/self/./mem </dev/null
  stderr: mixrev: T2 read failed: /proc/self/./mem
  [2]
  $ mixrev debug a.mixal /proc/self/mem --devices /dev/null </dev/null
  stderr: mixrev: T2 read failed: /proc/self/mem
  [2]
  $ mixrev debug a.mixal --devices /proc/self/mem </dev/null
  stderr: mixrev: T2 read failed: /proc/self/mem
  [2]
  $ mixrev check a.mixal /proc/self/mem /proc/self/./mem </dev/null
  stderr: mixrev: T2 read failed: /proc/self/mem
  [2]

Whoever reads the output may go: then nothing more is written, and nothing is told.

  $ cat >gone.py <<'END'
  > import os, subprocess, sys
  > theirs, ours = os.pipe()
  > os.close(theirs)
  > sys.exit(subprocess.run(sys.argv[1:], stdin=subprocess.DEVNULL, stdout=ours).returncode)
  > END
  $ python3 gone.py mixrev run b.mixal --keep left
  [2]
  $ cat "$(dirname "$(command -v mixrev)")/../stderr"
  $ test -e left || echo nothing is kept
  nothing is kept
  $ python3 gone.py mixrev check hello.mix
  [2]
  $ cat "$(dirname "$(command -v mixrev)")/../stderr"

The first of two reads to the end.

  $ printf ' END 0\n' | mixrev debug - -

  $ printf ' END 0\n' | mixrev debug -

A file whose name is a dash.

  $ printf ' END\n' >-
  $ printf '' | mixrev list ./-
  0000                        1   END
  symbols 0

  $ mixrev list none.mixal </dev/null
  stderr: mixrev: T4 not opened: none.mixal: No such file or directory
  [2]

  $ mkdir folder
  $ mixrev run a.mixal --cards folder </dev/null
  stderr: mixrev: T4 not opened: folder: Is a directory
  [2]

  $ mixrev debug a.mixal/b </dev/null
  stderr: mixrev: T4 not opened: a.mixal/b: Not a directory
  [2]

  $ ln -s round round
  $ mixrev list round </dev/null
  stderr: mixrev: T4 not opened: round: Too many levels of symbolic links
  [2]

  $ mixrev list "$(printf '%256s' '' | tr ' ' a)" </dev/null 2>&1 | sed 's/a\{256\}/A/'
  stderr: mixrev: T4 not opened: A: File name too long

Each line of a script stands before its reply.

  $ printf ' ENTA 5\n HLT\n END 0\n' >echo.mixal
  $ printf 'step\n* a note\r\n STEP 9 9\nback 2\nshow clock' | mixrev debug echo.mixal - --echo
  step
  ran 1 to 0001 clock 1: limit
  * a note
   STEP 9 9
  ? C2 bad argument
  back 2
  ? C4 fewer changes than asked
  show clock
  clock 1
  [3]

A session has its commands already.

  $ printf 'step\n' | mixrev debug echo.mixal --echo
  ran 1 to 0001 clock 1: limit
