A check of sources: all faults of each, in their order. Nothing is run, and nothing is written of a source without faults.

  $ printf ' ENTA 5\n HLT\n END 0\n' >good.mixal
  $ printf 'X JUMP 3\n LDA X\n ENTA 4096\n END 0\n' >bad.mixal
  $ printf ' END 0\n%%DEVICES\nno deck\n%%SCRIPT\nno command\n' >bundle.mixal

  $ mixrev check good.mixal bundle.mixal </dev/null

  $ mixrev check bad.mixal good.mixal </dev/null
  bad.mixal:1:3: error: A2 no such operation: JUMP
  X JUMP 3
    ^^^^
  help: perhaps JMP is meant
  bad.mixal:3:7: error: A9 address beyond two bytes: it is -4095 to 4095
   ENTA 4096
        ^^^^
  [1]

The name - is standard input.

  $ printf ' HLT' | mixrev check good.mixal - bad.mixal
  -:2: error: A13 no END: the last line of a program is END
  bad.mixal:1:3: error: A2 no such operation: JUMP
  X JUMP 3
    ^^^^
  help: perhaps JMP is meant
  bad.mixal:3:7: error: A9 address beyond two bytes: it is -4095 to 4095
   ENTA 4096
        ^^^^
  [1]

An option may stand between the sources.

  $ mixrev check good.mixal --json bad.mixal </dev/null
  {"file":"bad.mixal","line":1,"column":3,"endColumn":7,"severity":"error","code":"A2","text":"no such operation: JUMP","help":"perhaps JMP is meant"}
  {"file":"bad.mixal","line":3,"column":7,"endColumn":11,"severity":"error","code":"A9","text":"address beyond two bytes: it is -4095 to 4095"}
  [1]

After -- each word is a name.

  $ mixrev check -- --json </dev/null
  stderr: mixrev: T4 not opened: --json: No such file or directory
  [2]

If a source cannot be opened, nothing is written of the others.

  $ mixrev check bad.mixal none.mixal good.mixal </dev/null
  stderr: mixrev: T4 not opened: none.mixal: No such file or directory
  [2]

A source that is too long, and more of them than may be open at once.

  $ head -c 1048577 /dev/zero >long.mixal
  $ mixrev check long.mixal good.mixal </dev/null
  long.mixal:1: error: A16 source too long: at most 20000 lines and 1048576 bytes
  [1]

  $ (ulimit -n 20; mixrev check $(printf 'good.mixal %.0s' $(seq 100)) bad.mixal </dev/null) | wc -l
  7
