Steps that use cells of a transfer under way: a run warns of the first one and counts them, and a strict run ends before it.

A line that is altered while it is printed, until 0 + 1 + 10.

  $ printf ' OUT 9(18)\n STZ 9\n STZ 10\n JBUS *(18)\n STZ 9\n HLT\n ORIG 9\n ALF "HULLO"\n END 0\n%%DEVICES\n%%UNIT 18 delay 10\n' >line.mixal
  $ mixrev run line.mixal </dev/null
  HULLO
  stderr: line.mixal:2: warning: at 0001 clock 1 cell 0009 is altered while unit 18 prints it until 11
  stderr: line.mixal: warning: 2 steps conflict with a transfer under way

  $ mixrev run line.mixal --strict </dev/null
  HULLO
  stderr: line.mixal:2: error: at 0001 clock 1 cell 0009 is altered while unit 18 prints it until 11
  [3]

Its picture has the one step that it made.

  $ mixrev run line.mixal --strict --svg map.svg </dev/null
  HULLO
  stderr: line.mixal:2: error: at 0001 clock 1 cell 0009 is altered while unit 18 prints it until 11
  [3]
  $ sed -n '3,5p' map.svg
  <title id="map-title">Map of 1 change</title>
  <desc id="map-desc">Line 1: 1 time, between changes 1 and 1.
  </desc>

Without a delay the transfer is over at once.

  $ mixrev run line.mixal --strict --devices /dev/null </dev/null
  HULLO

What stopped the run comes last.

  $ mixrev run --steps 2 line.mixal </dev/null
  HULLO
  stderr: line.mixal:2: warning: at 0001 clock 1 cell 0009 is altered while unit 18 prints it until 11
  stderr: line.mixal: warning: 1 step conflicts with a transfer under way
  stderr: line.mixal:3: steps used up at 0002 clock 3
  [3]

A session goes from one to the next, and back to before the last.

  $ printf '%%UNIT 18 delay 10\n' >printer
  $ printf 'run 99 until conflict\nrun 99 until conflict\nrun 99 until conflict\nback until conflict\n' >script
  $ mixrev debug line.mixal script --devices printer
        2  0001  STZ 9                2u  0009 + 08 24 13 13 16 -> + 00 00 00 00 00
  ran 2 to 0002 clock 3: until
        3  0002  STZ 10               2u
  ran 1 to 0003 clock 5: until
  ran 9 to 0006 clock 24: halt
        3  0002  STZ 10               2u
  back 10 to 0002 clock 3

A session of a bundle has its deck, unless another one is named.

  $ printf 'run 99 until conflict\n' | mixrev debug line.mixal
        2  0001  STZ 9                2u  0009 + 08 24 13 13 16 -> + 00 00 00 00 00
  ran 2 to 0002 clock 3: until
  $ printf 'run 99 until conflict\n' | mixrev debug line.mixal --devices /dev/null
  ran 6 to 0006 clock 18: halt

A card that is not there yet; the units of a strict run are kept.

  $ printf ' LDA 9\n IN 9(16)\n LDA 9\n HLT\n END 0\n' >card.mixal
  $ printf '%%UNIT 16 delay 5\nA\nB\n' >cards
  $ mixrev run card.mixal --devices cards
  stderr: card.mixal:3: warning: at 0002 clock 3 cell 0009 is used while unit 16 reads into it until 8
  stderr: card.mixal: warning: 1 step conflicts with a transfer under way

  $ mixrev run card.mixal --devices cards --strict --keep left
  stderr: card.mixal:3: error: at 0002 clock 3 cell 0009 is used while unit 16 reads into it until 8
  [3]
  $ cat left
  %UNIT 16 delay 5
  B

An instruction that comes from a card has no line; one that is a fault is not done, so it is no conflict.

  $ printf ' IN 1(16)\n END 0\n' >load.mixal
  $ printf '%%UNIT 16 delay 1\n    E   BE\n' >halt
  $ mixrev run load.mixal --devices halt
  stderr: load.mixal: warning: at 0001 clock 1 cell 0001 is used while unit 16 reads into it until 2
  stderr: load.mixal: warning: 1 step conflicts with a transfer under way

  $ printf "%%UNIT 16 delay 1\n   'H\n" >fault
  $ mixrev run load.mixal --devices fault --strict
  stderr: load.mixal: M6 no such field at 0001 clock 1
  [3]

A block on its way to a tape is written; after the next OUT on the tape the first one is over.

  $ printf ' OUT 1000(0)\n OUT 2000(0)\n STZ 1000\n STZ 2099\n STZ 2100\n HLT\n END 0\n' >tape.mixal
  $ printf '%%UNIT 0 delay 100\n' >slow
  $ mixrev run tape.mixal --devices slow
  stderr: tape.mixal:4: warning: at 0003 clock 104 cell 2099 is altered while unit 0 writes it until 202
  stderr: tape.mixal: warning: 1 step conflicts with a transfer under way

What a session shows of conflicts, and how it goes from one to the next.

  $ session() { printf "$1\n${3:+%%DEVICES\n$3\n}%%SCRIPT\n$2\n" | mixrev; }

A line that is altered one u too early; after `back` it was not.
  $ session ' OUT 2000(18)\n NUM\n STZ 2000\n HLT\n END 0' \
  >   'show conflicts\nstep 3\nshow conflicts\nback 1\nshow conflicts\nforth 1\nshow conflicts' '%%UNIT 18 delay 11'
  ran 3 to 0003 clock 13: limit
        3  0002  STZ 2000             2u  cell 2000, unit 18 until 12
  back 1 to 0002 clock 11
  forth 1 to 0003 clock 13
        3  0002  STZ 2000             2u  cell 2000, unit 18 until 12

At the moment at which it was printed.
  $ session ' OUT 2000(18)\n NUM\n STZ 2000\n HLT\n END 0' 'step 3\nshow conflicts' '%%UNIT 18 delay 10'
  ran 3 to 0003 clock 13: limit

After it.
  $ session ' OUT 2000(18)\n NUM\n STZ 2000\n HLT\n END 0' 'step 3\nshow conflicts' '%%UNIT 18 delay 9'
  ran 3 to 0003 clock 13: limit

A card that is read too early, and in time.
  $ session ' IN 2000(16)\n LDA 2000\n NUM\n LDA 2000\n HLT\n END 0' 'step 4\nshow conflicts' '%%UNIT 16 delay 10\nA'
  ran 4 to 0004 clock 15: limit
        2  0001  LDA 2000             2u  A + 00 00 00 00 00 -> + 01 00 00 00 00  cell 2000, unit 16 until 11

An instruction of the card that is read.
  $ session ' ORIG 1990\n IN 1991(16)\n END 1990' 'step 2\nshow conflicts' '%%UNIT 16 delay 10\n'
  ran 2 to 1992 clock 2: limit
        2  1991  NOP                  1u  cell 1991, unit 16 until 11

MOVE into a line and out of a card; out of a line it may copy.
  $ session ' ENT1 2020\n OUT 2000(18)\n MOVE 1000(9)\n MOVE 2000(5)\n IN 3000(16)\n MOVE 3010\n END 0' \
  >   'step 6\nshow conflicts' '%%UNIT 16 delay 40\nA\n%%UNIT 18 delay 40'
  ran 6 to 0006 clock 36: limit
        3  0002  MOVE 1000(9)        19u  I1 + 31 36 -> + 31 45  cell 2020, unit 18 until 42
        6  0005  MOVE 3010            3u  I1 + 31 50 -> + 31 51  cell 3010, unit 16 until 73

Transfers of other units over the same cells.
  $ session ' OUT 2000(18)\n IN 2000(16)\n OUT 2010(17)\n END 0' \
  >   'step 3\nshow conflicts' '%%UNIT 16 delay 40\n\n%%UNIT 18 delay 40'
  ran 3 to 0003 clock 3: limit
        2  0001  IN 2000(16)          1u  unit 16 place 0 -> 1 until 0 -> 42  cell 2000, unit 18 until 41
        3  0002  OUT 2010(17)         1u  unit 17 output 0 -> 1 until 0 -> 3  cell 2010, unit 16 until 42

A second OUT and an IOC on the unit that is busy.
  $ session ' OUT 2000(18)\n OUT 2000(18)\n STZ 2005\n IOC 0(18)\n STZ 2005\n END 0' \
  >   'step 5\nshow conflicts' '%%UNIT 18 delay 10'
  ran 5 to 0005 clock 25: limit
        3  0002  STZ 2005             2u  cell 2005, unit 18 until 22

Values that are set.
  $ mixrev <<EOF
  >  OUT 2000(18)
  >  END 0
  > %DEVICES
  > %UNIT 18 delay 10
  > %SCRIPT
  > step
  > set cell 2023 5
  > set cell 2024 5
  > set A 5
  > show conflicts
  > back 2
  > show conflicts
  > back 1
  > show conflicts
  > show conflicts 1
  > EOF
  ran 1 to 0001 clock 1: limit
  ok
  ok
  ok
        2  0001  set cell 2023        0u  2023 + 00 00 00 00 00 -> + 00 00 00 00 05  cell 2023, unit 18 until 11
  back 2 to 0001 clock 1
        2  0001  set cell 2023        0u  2023 + 00 00 00 00 00 -> + 00 00 00 00 05  cell 2023, unit 18 until 11
  back 1 to 0001 clock 1
  ? C2 bad argument
  [3]

Up to a line that is altered one u too early, in three directions, and again after `back`.
  $ mixrev <<EOF
  >  OUT 2000(18)
  >  NUM
  >  STZ 2000
  >  HLT
  >  END 0
  > %DEVICES
  > %UNIT 18 delay 11
  > %SCRIPT
  > run 9 until conflict
  > run 9 until conflict
  > back until conflict
  > run 9 until conflict
  > back 2
  > forth until conflict
  > forth until conflict
  > EOF
        3  0002  STZ 2000             2u
  ran 3 to 0003 clock 13: until
  ran 1 to 0004 clock 23: halt
        3  0002  STZ 2000             2u
  back 2 to 0002 clock 11
        3  0002  STZ 2000             2u
  ran 1 to 0003 clock 13: until
  back 2 to 0001 clock 1
        3  0002  STZ 2000             2u
  forth 2 to 0003 clock 13
  ? C6 no such change
  [3]

At the moment at which it was printed nothing conflicts.
  $ session ' OUT 2000(18)\n NUM\n STZ 2000\n HLT\n END 0' \
  >   'run 9 until conflict\nback until conflict\nback 2\nforth until conflict\nrun 9 until conflict' \
  >   '%%UNIT 18 delay 10'
  ran 4 to 0004 clock 23: halt
  ? C6 no such change
  back 2 to 0002 clock 11
  ? C6 no such change
  ran 2 to 0004 clock 23: halt
  [3]

After it neither.
  $ session ' OUT 2000(18)\n NUM\n STZ 2000\n HLT\n END 0' \
  >   'run 9 until conflict\nback until conflict' '%%UNIT 18 delay 9'
  ran 4 to 0004 clock 23: halt
  ? C6 no such change
  [3]

A conflict or another condition; each one in turn; an OUT that was taken back is not under way.
  $ mixrev <<EOF
  >  OUT 2000(18)
  >  ENTA 1
  >  STZ 2000
  >  STZ 2001
  >  HLT
  >  END 0
  > %DEVICES
  > %UNIT 18 delay 10
  > %SCRIPT
  > run 9 until X or conflict
  > back until A or conflict
  > back until conflict or A
  > forth until cell 2001 or conflict
  > run 9 until conflict
  > back until conflict
  > back until conflict
  > back until conflict
  > back all
  > set loc 1
  > run 9 until conflict
  > EOF
        3  0002  STZ 2000             2u
  ran 3 to 0003 clock 4: until
        3  0002  STZ 2000             2u
  back 1 to 0002 clock 2
        2  0001  ENTA 1               1u  A + 00 00 00 00 00 -> + 00 00 00 00 01
  back 1 to 0001 clock 1
        3  0002  STZ 2000             2u
  forth 2 to 0003 clock 4
        4  0003  STZ 2001             2u
  ran 1 to 0004 clock 6: until
        4  0003  STZ 2001             2u
  back 1 to 0003 clock 4
        3  0002  STZ 2000             2u
  back 1 to 0002 clock 2
  ? C6 no such change
  back 2 to 0000 clock 0
  ok
  ran 4 to 0005 clock 15: halt
  [3]

A value that is set; with what it conflicts.
  $ mixrev <<EOF
  >  OUT 2000(18)
  >  END 0
  > %DEVICES
  > %UNIT 18 delay 10
  > %SCRIPT
  > step
  > set cell 2023 5
  > set cell 2024 5
  > back until conflict
  > forth until conflict
  > show writes conflict
  > show writes conflict 5
  > EOF
  ran 1 to 0001 clock 1: limit
  ok
  ok
        2  0001  set cell 2023        0u  2023 + 00 00 00 00 00 -> + 00 00 00 00 05
  back 2 to 0001 clock 1
        2  0001  set cell 2023        0u  2023 + 00 00 00 00 00 -> + 00 00 00 00 05
  forth 1 to 0001 clock 1
        2  0001  set cell 2023        0u  2023 + 00 00 00 00 00 -> + 00 00 00 00 05  cell 2023, unit 18 until 11
  ? C2 bad argument
  [3]

A step that would conflict is a fault, and so it is not done.
  $ session ' OUT 2000(18)\n IN 2000(16)\n END 0' 'run 9 until conflict\nback until conflict' '%%UNIT 18 delay 10'
  ran 1 to 0001 clock 1: fault M11 no block
  ? C6 no such change
  [3]

What waits for its unit is fetched before it waits: here an IN that has just been read from a card.

  $ printf ' IN 16(16)\n JMP 16\n ORIG 16\n NOP\n NOP\n END 0\n' >fetched.mixal
  $ printf '%%UNIT 16 delay 5\nAA O6   BE\nX\n' >cards
  $ mixrev run fetched.mixal --devices cards
  stderr: fetched.mixal:4: warning: at 0016 clock 2 cell 0016 is used while unit 16 reads into it until 6
  stderr: fetched.mixal: warning: 1 step conflicts with a transfer under way
