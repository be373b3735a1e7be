The formulas of a run beside its counts. ENT1, INCA, DEC1 and J1P take 1u, STA 2u, HLT 10u. From 3 to 1 the loop is done N = 3 times.

  $ printf ' ENT1 3 [1]\nLOOP INCA 0,1 [N]\n DEC1 1 [N]\n J1P LOOP [N]\n STA SUM [N-1]\n HLT 0 [1]\nSUM CON 0\n END 0\n' >sum.mixal
  $ mixrev run sum.mixal --formulas N=3 </dev/null
  line,count,time,formula,value,fits
  1,1,1,1,1,yes
  2,3,3,N,3,yes
  3,3,3,N,3,yes
  4,3,3,N,3,yes
  5,1,2,N-1,2,no
  6,1,10,1,1,yes
  $ mixrev run sum.mixal --formulas N=3 --json </dev/null
  [
  {"line":1,"count":1,"time":1,"formula":"1","value":1,"fits":"yes"},
  {"line":2,"count":3,"time":3,"formula":"N","value":3,"fits":"yes"},
  {"line":3,"count":3,"time":3,"formula":"N","value":3,"fits":"yes"},
  {"line":4,"count":3,"time":3,"formula":"N","value":3,"fits":"yes"},
  {"line":5,"count":1,"time":2,"formula":"N-1","value":2,"fits":"no"},
  {"line":6,"count":1,"time":10,"formula":"1","value":1,"fits":"yes"}
  ]
  $ mixrev run sum.mixal --latex --formulas N=3 </dev/null
  \begin{tabular}{rrrlrl}
  \toprule
  line & count & time & formula & value & fits \\
  \midrule
  1 & 1 & 1 & 1 & 1 & yes \\
  2 & 3 & 3 & N & 3 & yes \\
  3 & 3 & 3 & N & 3 & yes \\
  4 & 3 & 3 & N & 3 & yes \\
  5 & 1 & 2 & N-1 & 2 & no \\
  6 & 1 & 10 & 1 & 1 & yes \\
  \bottomrule
  \end{tabular}

A value that is given counts, even if it is wrong; of two the first. It may be a formula, and names may be in small letters.

  $ mixrev run sum.mixal --csv --formulas N=4 </dev/null | sed -n '3p;6p'
  2,3,3,N,4,no
  5,1,2,N-1,3,no
  $ mixrev run sum.mixal --formulas 'n=2+1,N=9,M=1' </dev/null | sed -n '3p;6p'
  2,3,3,N,3,yes
  5,1,2,N-1,2,no
  $ mixrev run sum.mixal --formulas N=-1 </dev/null | sed -n '3p;6p'
  2,3,3,N,-1,no
  5,1,2,N-1,-2,no

A value that is not given is found: N is 3 by line 2, which gave it and so checks nothing. Of B-A both are missing at first, B is 2 by line 3,
and then A is 0, as 2-A is 2. C-D stays without a value, until D is given: then C is 3.

  $ mixrev run sum.mixal --formulas '' </dev/null >found; mixrev run sum.mixal --formulas N=3 </dev/null | diff - found | sed 's/^/|/'
  |3c3
  |< 2,3,3,N,3,yes
  |---
  |> 2,3,3,N,3,gave
  $ printf ' ENT1 2\nLOOP DEC1 1 [B-A]\n J1P LOOP [B]\n HLT 0 [C-D]\n END 0\n' >two.mixal
  $ mixrev run two.mixal --formulas '' </dev/null
  line,count,time,formula,value,fits
  2,2,2,B-A,2,gave
  3,2,2,B,2,gave
  4,1,10,C-D,,
  $ mixrev run two.mixal --formulas D=2 --json </dev/null | tail -n 2
  {"line":4,"count":1,"time":10,"formula":"C-D","value":1,"fits":"gave"}
  ]

An exchange of the reversal of 7 entries is done 7//2 = 3 times. No value of N is found from that: it is 0//2 = 1//2 for 0 and 1.

  $ lesson="$TESTDIR/../../course/04_reversal/lesson.mixal"
  $ mixrev run "$lesson" --formulas N=7 </dev/null
  line,count,time,formula,value,fits
  15,1,1,1,1,yes
  16,1,1,1,1,yes
  17,1,1,1,1,yes
  18,3,6,N//2,3,yes
  19,3,6,N//2,3,yes
  20,3,6,N//2,3,yes
  21,3,6,N//2,3,yes
  22,3,3,N//2,3,yes
  23,3,3,N//2,3,yes
  24,4,8,N//2+1,4,yes
  25,4,8,N//2+1,4,yes
  26,4,4,N//2+1,4,yes
  27,1,10,1,1,yes
  $ mixrev run "$lesson" --formulas '' </dev/null | sed -n 5p
  18,3,6,N//2,,

A formula that cannot be read has no value, nor has one that divides by 0. The line below a halt is not executed. A line without a formula has no row, and neither has
a comment or a constant.

  $ printf ' NOP 0 [N+]\n NOP 0 [N,1]\n NOP 0 [1//0]\n NOP 0 [2-3]\n NOP 0 [a_b]\n NOP 0 none\n* [1]\n HLT 0 [ 1 ] [2]\n LDA 0 [0]\nX CON 7 [1]\n END 0\n' >odd.mixal
  $ mixrev run odd.mixal --formulas N=1 </dev/null
  line,count,time,formula,value,fits
  1,1,1,N+,,
  2,1,1,"N,1",,
  3,1,1,1//0,,
  4,1,1,2-3,-1,no
  5,1,1,a_b,,
  8,1,10, 1 ,1,yes
  9,0,0,0,0,yes
  $ mixrev run odd.mixal --formulas N=1 --json </dev/null | sed -n '3,5p'
  {"line":2,"count":1,"time":1,"formula":"N,1","value":null,"fits":null},
  {"line":3,"count":1,"time":1,"formula":"1//0","value":null,"fits":null},
  {"line":4,"count":1,"time":1,"formula":"2-3","value":-1,"fits":"no"},
  $ mixrev run odd.mixal --formulas N=1 --latex </dev/null | sed -n '8,9p'
  4 & 1 & 1 & 2-3 & $-1$ & no \\
  5 & 1 & 1 & a\_b &  &  \\
  $ printf ' NOP 0 [=1+1]\n NOP 0 [+1]\n NOP 0 [-1]\n NOP 0 [@]\n NOP 0 [\t1]\n HLT 0 [\r]\n END 0\n' >cells.mixal
  $ mixrev run cells.mixal --formulas '' </dev/null | tr '\t\r' '>!'
  line,count,time,formula,value,fits
  1,1,1,'=1+1,,
  2,1,1,'+1,1,yes
  3,1,1,'-1,-1,no
  4,1,1,'@,,
  5,1,1,'>1,1,yes
  6,1,10,"'!",,
  $ mixrev run cells.mixal --formulas '' --json </dev/null | sed -n 3,4p
  {"line":2,"count":1,"time":1,"formula":"+1","value":1,"fits":"yes"},
  {"line":3,"count":1,"time":1,"formula":"-1","value":-1,"fits":"no"},
  $ printf ' HLT 0 [\377]\n END 0\n' >high.mixal
  $ mixrev run high.mixal --formulas '' --json </dev/null
  [
  {"line":1,"count":1,"time":10,"formula":null,"value":null,"fits":null}
  ]
  $ printf ' HLT\n END 0\n' >none.mixal
  $ mixrev run none.mixal --formulas '' </dev/null
  line,count,time,formula,value,fits

A text that gives no values is refused, and nothing is run or saved.

  $ mixrev run sum.mixal --formulas N=ten --keep left --svg map </dev/null
  stderr: mixrev: C2 bad argument: N=ten
  [2]
  $ ls left map 2>/dev/null
  [2]
  $ for names in N N= =3 3N=1 N=M N=3, ,N=3 'N=3 A=1' 'N=3, A=1' N=1//0; do mixrev run sum.mixal --formulas "$names" </dev/null; done
  stderr: mixrev: C2 bad argument: N
  stderr: mixrev: C2 bad argument: N=
  stderr: mixrev: C2 bad argument: =3
  stderr: mixrev: C2 bad argument: 3N=1
  stderr: mixrev: C2 bad argument: N=M
  stderr: mixrev: C2 bad argument: N=3,
  stderr: mixrev: C2 bad argument: ,N=3
  stderr: mixrev: C2 bad argument: N=3 A=1
  stderr: mixrev: C2 bad argument: N=3, A=1
  stderr: mixrev: C2 bad argument: N=1//0
  [2]

A run writes one table, and no rows beside it.

  $ for words in --counts '--writes SUM' --trace --strict --registers '--unit 18'; do mixrev run sum.mixal --formulas N=3 $words </dev/null | grep error:; done
  stderr: error: the argument '--counts' cannot be used with '--formulas <NAMES>'
  stderr: error: the argument '--formulas <NAMES>' cannot be used with '--writes <PART>'
  stderr: error: the argument '--formulas <NAMES>' cannot be used with '--trace'
  stderr: error: the argument '--strict' cannot be used with '--formulas <NAMES>'
  stderr: error: the argument '--registers' cannot be used with '--formulas <NAMES>'
  stderr: error: the argument '--unit <N>' cannot be used with '--formulas <NAMES>'

A fault and the end of the steps are reported as of any run, and the instruction at fault is not counted. What the units hold is kept, and the map is drawn.

  $ printf ' ENTA 1 [1]\n LDX -1,1 [1]\n END 0\n' >fault.mixal
  $ mixrev run fault.mixal --formulas '' </dev/null
  line,count,time,formula,value,fits
  1,1,1,1,1,yes
  2,0,0,1,1,no
  stderr: fault.mixal:2: M5 no such cell at 0001 clock 1
  [3]
  $ printf ' JMP 0 [N]\n END 0\n' >loop.mixal
  $ mixrev run loop.mixal --formulas '' --steps 5 </dev/null
  line,count,time,formula,value,fits
  1,5,5,N,5,gave
  stderr: loop.mixal:1: steps used up at 0000 clock 5
  [3]
  $ printf ' IN 100(16) [1]\n OUT 100(20)\n HLT\n END 0\n' >copy.mixal
  $ printf 'A CARD\nANOTHER\n' | mixrev run copy.mixal --cards - --formulas '' --keep left --svg map
  line,count,time,formula,value,fits
  1,1,1,1,1,yes
  $ cat left
  %UNIT 16
  ANOTHER
  $ mixrev run sum.mixal --formulas '' --svg of_formulas </dev/null >/dev/null; mixrev run sum.mixal --svg of_rows </dev/null; cmp of_formulas of_rows

A refused source has no table.

  $ printf ' JUMP 0 [1]\n END 0\n' >bad.mixal
  $ mixrev run bad.mixal --formulas '' </dev/null
  stderr: bad.mixal:1:2: error: A2 no such operation: JUMP
  stderr:  JUMP 0 [1]
  stderr:  ^^^^
  stderr: help: perhaps JMP is meant
  [1]
