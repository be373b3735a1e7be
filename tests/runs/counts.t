The counts of a run as a table. ENT1, INCA, DEC1 and J1P take 1u, STA 2u, HLT 10u.

  $ printf ' ENT1 3\nLOOP INCA 0,1\n DEC1 1\n J1P LOOP\n STA SUM\n HLT\nSUM CON 0\n END 0\n' >sum.mixal
  $ mixrev run sum.mixal --counts </dev/null
  line,location,count,time
  1,0,1,1
  2,1,3,3
  3,2,3,3
  4,3,3,3
  5,4,1,2
  6,5,1,10
  $ mixrev run sum.mixal --counts --json </dev/null
  [
  {"line":1,"location":0,"count":1,"time":1},
  {"line":2,"location":1,"count":3,"time":3},
  {"line":3,"location":2,"count":3,"time":3},
  {"line":4,"location":3,"count":3,"time":3},
  {"line":5,"location":4,"count":1,"time":2},
  {"line":6,"location":5,"count":1,"time":10}
  ]
  $ mixrev run sum.mixal --counts --latex </dev/null
  \begin{tabular}{rlllrp{0.4\linewidth}}
  \toprule
  line & LOC & OP & ADDRESS & times & remarks \\
  \midrule
  1 &  & \texttt{ENT1} & \texttt{3} & $1$ & \\
  2 & \texttt{LOOP} & \texttt{INCA} & \texttt{0,1} & $3$ & \\
  3 &  & \texttt{DEC1} & \texttt{1} & $3$ & \\
  4 &  & \texttt{J1P} & \texttt{LOOP} & $3$ & \\
  5 &  & \texttt{STA} & \texttt{SUM} & $1$ & \\
  6 &  & \texttt{HLT} &  & $1$ & \\
  7 & \texttt{SUM} & \texttt{CON} & \texttt{0} &  & \\
  8 &  & \texttt{END} & \texttt{0} &  & \\
  \bottomrule
  \end{tabular}

  $ mixrev run sum.mixal --counts --csv </dev/null | head -n 1
  line,location,count,time

A run writes one table, in one form. What would be dropped is refused, and a form alone too.

  $ mixrev run sum.mixal --latex --counts --json </dev/null | grep -v '^stderr: $'
  stderr: error: the argument '--json' cannot be used with '--latex'
  stderr: Usage: mixrev run [OPTIONS] <SOURCE>
  stderr: For more information, try '--help'.
  $ mixrev run sum.mixal --csv </dev/null >told || echo $?
  2
  $ head -n 1 told
  stderr: error: the argument '--csv' cannot be used without '--counts', '--formulas <NAMES>', '--writes <PART>' or '--trace'
  $ mixrev run sum.mixal --counts --csv --json </dev/null | grep error:
  stderr: error: the argument '--csv' cannot be used with '--json'
  $ mixrev run sum.mixal --csv --latex </dev/null | grep error:
  stderr: error: the argument '--csv' cannot be used with '--latex'
  $ mixrev run sum.mixal --counts --writes SUM </dev/null | grep error:
  stderr: error: the argument '--counts' cannot be used with '--writes <PART>'
  $ mixrev run sum.mixal --counts --trace </dev/null | grep error:
  stderr: error: the argument '--counts' cannot be used with '--trace'
  $ mixrev run sum.mixal --writes SUM --trace </dev/null | grep error:
  stderr: error: the argument '--writes <PART>' cannot be used with '--trace'
  $ mixrev run sum.mixal --strict --counts </dev/null | grep error:
  stderr: error: the argument '--strict' cannot be used with '--counts'
  $ mixrev run sum.mixal --strict --trace --csv </dev/null | grep error:
  stderr: error: the argument '--strict' cannot be used with '--csv'
  $ mixrev run sum.mixal --unit 18 --writes SUM </dev/null | grep error:
  stderr: error: the argument '--unit <N>' cannot be used with '--writes <PART>'
  $ mixrev run sum.mixal --strict --trace --unit 18 </dev/null | wc -l
  12

No line of the source put a word into cell 1: it is +0, a NOP of 1u.

  $ printf ' NOP\n ORIG 2\n HLT\n END 0\n' >gap.mixal
  $ mixrev run gap.mixal --counts </dev/null
  line,location,count,time
  1,0,1,1
  ,1,1,1
  3,2,1,10
  $ mixrev run gap.mixal --counts --json </dev/null | sed -n 3p
  {"line":null,"location":1,"count":1,"time":1},
  $ mixrev run gap.mixal --counts --latex </dev/null | sed -n 5,7p
  1 &  & \texttt{NOP} &  & $1$ & \\
  2 &  & \texttt{ORIG} & \texttt{2} &  & \\
  3 &  & \texttt{HLT} &  & $1$ & \\

Of two lines for a cell the later one is executed; a count takes the place of the formula in brackets.

  $ printf ' NOP 0 [2]\n ORIG 0\n HLT 0 [1] the end\n END 0\n' >twice.mixal
  $ mixrev run twice.mixal --counts --latex </dev/null | sed -n '5p;7p'
  1 &  & \texttt{NOP} & \texttt{0} &  & \\
  3 &  & \texttt{HLT} & \texttt{0} & $1$ & the end \\

A fault and the end of the steps are reported as of any run. A fault at the first step leaves no row.

  $ printf ' ENTA 1\n LDX -1,1\n END 0\n' >fault.mixal
  $ mixrev run fault.mixal --counts </dev/null
  line,location,count,time
  1,0,1,1
  stderr: fault.mixal:2: M5 no such cell at 0001 clock 1
  [3]
  $ printf ' LDX -1,1\n END 0\n' >first.mixal
  $ mixrev run first.mixal --counts </dev/null
  line,location,count,time
  stderr: first.mixal:1: M5 no such cell at 0000 clock 0
  [3]
  $ mixrev run first.mixal --counts --json </dev/null
  [
  ]
  stderr: first.mixal:1: M5 no such cell at 0000 clock 0
  [3]
  $ printf ' JMP 0\n END 0\n' >loop.mixal
  $ mixrev run loop.mixal --counts --steps 5 </dev/null
  line,location,count,time
  1,0,5,5
  stderr: loop.mixal:1: steps used up at 0000 clock 5
  [3]

Cards are read, and what the units hold is kept. What is printed is not written.

  $ printf ' IN 100(16)\n OUT 100(20)\n HLT\n END 0\n' >copy.mixal
  $ printf 'A CARD\nANOTHER\n' | mixrev run copy.mixal --cards - --counts --keep left
  line,location,count,time
  1,0,1,1
  2,1,1,1
  3,2,1,10
  $ cat left
  %UNIT 16
  ANOTHER

A refused source has no table.

  $ printf ' JUMP 0\n END 0\n' >bad.mixal
  $ mixrev run bad.mixal --counts </dev/null
  stderr: bad.mixal:1:2: error: A2 no such operation: JUMP
  stderr:  JUMP 0
  stderr:  ^^^^
  stderr: help: perhaps JMP is meant
  [1]
