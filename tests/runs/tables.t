The steps of a run as a table, and those that altered a part. ENT1, INCA, DEC1 and J1P take 1u, STA 2u, HLT 10u.

  $ printf ' ENT1 2\nLOOP INCA 0,1\n DEC1 1\n J1P LOOP\n STA SUM\n HLT\nSUM CON 0\n END 0\n' >sum.mixal
  $ mixrev run sum.mixal --trace --csv </dev/null
  change,line,location,instruction,A,X,I1,I2,I3,I4,I5,I6,J,overflow,comparison,clock
  1,1,0,ENT1 2,0,0,2,0,0,0,0,0,0,off,E,1
  2,2,1,"INCA 0,1",2,0,2,0,0,0,0,0,0,off,E,2
  3,3,2,DEC1 1,2,0,1,0,0,0,0,0,0,off,E,3
  4,4,3,J1P 1,2,0,1,0,0,0,0,0,4,off,E,4
  5,2,1,"INCA 0,1",3,0,1,0,0,0,0,0,4,off,E,5
  6,3,2,DEC1 1,3,0,0,0,0,0,0,0,4,off,E,6
  7,4,3,J1P 1,3,0,0,0,0,0,0,0,4,off,E,7
  8,5,4,STA 6,3,0,0,0,0,0,0,0,4,off,E,9
  9,6,5,HLT,3,0,0,0,0,0,0,0,4,off,E,19
  $ mixrev run sum.mixal --writes I1 </dev/null
  change,line,location,before,after
  1,1,0,0,2
  3,3,2,2,1
  6,3,2,1,0
  $ mixrev run sum.mixal --writes SUM --json </dev/null
  [
  {"change":8,"line":5,"location":4,"before":0,"after":3}
  ]
  $ mixrev run sum.mixal --writes 'cell SUM' --latex </dev/null
  \begin{tabular}{rrrrr}
  \toprule
  change & line & location & before & after \\
  \midrule
  8 & 5 & 4 & 0 & 3 \\
  \bottomrule
  \end{tabular}

Minus zero keeps its sign, and an instruction that no line of the source put there has no line: cell 2 is +0, a NOP.

  $ printf ' ENNA 0\n CMPA ONE\n ORIG 3\n DECX 5\n HLT\nONE CON 1\n END 0\n' >minus.mixal
  $ mixrev run minus.mixal --trace --json </dev/null
  [
  {"change":1,"line":1,"location":0,"instruction":"ENNA 0","A":-0,"X":0,"I1":0,"I2":0,"I3":0,"I4":0,"I5":0,"I6":0,"J":0,"overflow":"off","comparison":"E","clock":1},
  {"change":2,"line":2,"location":1,"instruction":"CMPA 5","A":-0,"X":0,"I1":0,"I2":0,"I3":0,"I4":0,"I5":0,"I6":0,"J":0,"overflow":"off","comparison":"L","clock":3},
  {"change":3,"line":null,"location":2,"instruction":"NOP","A":-0,"X":0,"I1":0,"I2":0,"I3":0,"I4":0,"I5":0,"I6":0,"J":0,"overflow":"off","comparison":"L","clock":4},
  {"change":4,"line":4,"location":3,"instruction":"DECX 5","A":-0,"X":-5,"I1":0,"I2":0,"I3":0,"I4":0,"I5":0,"I6":0,"J":0,"overflow":"off","comparison":"L","clock":5},
  {"change":5,"line":5,"location":4,"instruction":"HLT","A":-0,"X":-5,"I1":0,"I2":0,"I3":0,"I4":0,"I5":0,"I6":0,"J":0,"overflow":"off","comparison":"L","clock":15}
  ]
  $ mixrev run minus.mixal --trace --latex </dev/null | sed -n '1p;3p;8,11p'
  \begin{tabular}{rrrlrrrrrrrrrccr}
  change & line & location & instruction & A & X & I1 & I2 & I3 & I4 & I5 & I6 & J & overflow & comparison & clock \\
  4 & 4 & 3 & DECX 5 & $-0$ & $-5$ & 0 & 0 & 0 & 0 & 0 & 0 & 0 & off & L & 5 \\
  5 & 5 & 4 & HLT & $-0$ & $-5$ & 0 & 0 & 0 & 0 & 0 & 0 & 0 & off & L & 15 \\
  \bottomrule
  \end{tabular}
  $ mixrev run minus.mixal --writes A </dev/null
  change,line,location,before,after
  1,1,0,0,-0
  $ mixrev run minus.mixal --writes rA </dev/null
  change,line,location,before,after
  1,1,0,0,-0
  $ mixrev run minus.mixal --writes cmp </dev/null
  change,line,location,before,after
  2,2,1,E,L

A fault and the end of the steps end the table too, and are reported as of any run. What is printed is not written.

  $ printf ' OUT 0(18)\n LDX -1,1\n END 0\n' >fault.mixal
  $ mixrev run fault.mixal --writes X --json </dev/null
  [
  ]
  stderr: fault.mixal:2: M5 no such cell at 0001 clock 1
  [3]
  $ mixrev run fault.mixal --trace --latex </dev/null | sed -n '5,$p'
  1 & 1 & 0 & OUT 0(18) & 0 & 0 & 0 & 0 & 0 & 0 & 0 & 0 & 0 & off & E & 1 \\
  \bottomrule
  \end{tabular}
  stderr: fault.mixal:2: M5 no such cell at 0001 clock 1
  $ printf ' INC1 1\n JMP 0\n END 0\n' >loop.mixal
  $ mixrev run loop.mixal --writes I1 --steps 3 </dev/null
  change,line,location,before,after
  1,1,0,0,1
  3,1,0,1,2
  stderr: loop.mixal:2: steps used up at 0001 clock 3
  [3]

A part that is none is refused, and nothing is run.

  $ mixrev run loop.mixal --writes NOWHERE </dev/null
  stderr: mixrev: C2 bad argument: NOWHERE
  [2]
  $ mixrev run loop.mixal --writes 4000 </dev/null
  stderr: mixrev: C3 number out of range: 4000
  [2]
  $ mixrev run loop.mixal --writes 'loc 0' </dev/null
  stderr: mixrev: C2 bad argument: loc 0
  [2]
