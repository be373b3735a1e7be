The registers at the end of a run. ENT1, INCA, DEC1 and J1P take 1u, STA 2u, HLT 10u; rJ has the location behind the last jump.

  $ printf ' ENT1 3\nLOOP INCA 0,1\n DEC1 1\n J1P LOOP\n STA SUM\n HLT\nSUM CON 0\n END 0\n' >sum.mixal
  $ mixrev run sum.mixal --registers </dev/null
  A  + 00 00 00 00 06
  X  + 00 00 00 00 00
  I1 + 00 00
  I2 + 00 00
  I3 + 00 00
  I4 + 00 00
  I5 + 00 00
  I6 + 00 00
  J  + 00 04
  over off cmp E loc 0006 clock 22

They are those of a session after the same steps, also where the steps are used up, are traced or are drawn.

  $ printf 'run 5\nshow regs\n' | mixrev debug sum.mixal | tail -n 10 >regs
  $ mixrev run sum.mixal --registers --steps 5 </dev/null >out
  [3]
  $ head -n 10 out | cmp regs -
  $ sed 1,10d out
  stderr: sum.mixal:3: steps used up at 0002 clock 5
  $ mixrev run sum.mixal --registers --steps 5 --trace --svg map </dev/null >out
  [3]
  $ grep -c '^ ' out
  5
  $ sed 1,5d out | head -n 10 | cmp regs -
  $ grep -c '<svg' map
  1

Behind what the program prints, and at a fault as it was before that step.

  $ printf 'A ALF HELLO\n ORIG 100\nB OUT A(18)\n ENTX 9\n SLA 0,5\n ENT5 -1\n SLA 0,5\n HLT\n END B\n' >fault.mixal
  $ mixrev run fault.mixal --registers </dev/null
  HELLO
  A  + 00 00 00 00 00
  X  + 00 00 00 00 09
  I1 + 00 00
  I2 + 00 00
  I3 + 00 00
  I4 + 00 00
  I5 - 00 01
  I6 + 00 00
  J  + 00 00
  over off cmp E loc 0104 clock 5
  stderr: fault.mixal:7: M8 negative shift at 0104 clock 5
  [3]

A table has its own rows alone.

  $ mixrev run sum.mixal --registers --counts </dev/null | grep error:
  stderr: error: the argument '--registers' cannot be used with '--counts'
  $ mixrev run sum.mixal --writes SUM --registers </dev/null | grep error:
  stderr: error: the argument '--registers' cannot be used with '--writes <PART>'
  $ mixrev run sum.mixal --registers --trace --json </dev/null | grep error:
  stderr: error: the argument '--registers' cannot be used with '--json'

A source that is refused leaves none.

  $ printf ' FOO\n END 0\n' >bad.mixal
  $ mixrev run bad.mixal --registers </dev/null | grep -c '^A '
  0
  [1]
