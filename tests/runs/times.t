How often the lines of a program are executed, for several N, beside its formulas. ENT1, INCA, DEC1 and J1P take 1u, STA 2u, HLT 10u: 3N + 3 steps, and
3N + 13 u. So the clock is 19 for N = 2, and 28 for N = 5.

  $ course="$TESTDIR/../../course"; alias times="$course/times"; shopt -s expand_aliases
  $ printf 'N EQU 3\n ENT1 N [1]\nLOOP INCA 0,1 [N]\n DEC1 1 [N]\n J1P LOOP [N]\n STA SUM [1]\n HLT 0 [1]\nSUM CON 0\n END 0\n' >sum.mixal
  $ times mixrev sum.mixal N=2 N=5
     N=2    N=5
       1      1   ENT1 N [1]
       2      5  LOOP INCA 0,1 [N]
       2      5   DEC1 1 [N]
       2      5   J1P LOOP [N]
       1      1   STA SUM [1]
       1      1   HLT 0 [1]
       9     18  steps
      19     28  clock
  $ times mixrev sum.mixal N=2 N=5 --formulas
     N=2 formula    N=5 formula
       1       1      1       1   ENT1 N [1]
       2       2      5       5  LOOP INCA 0,1 [N]
       2       2      5       5   DEC1 1 [N]
       2       2      5       5   J1P LOOP [N]
       1       1      1       1   STA SUM [1]
       1       1      1       1   HLT 0 [1]
       9             18          steps
      19      19     28      28  clock
  $ times mixrev sum.mixal N=5 --formulas --csv
  N=5,N=5 formula,line
  1,1, ENT1 N [1]
  5,5,"LOOP INCA 0,1 [N]"
  5,5, DEC1 1 [N]
  5,5, J1P LOOP [N]
  1,1, STA SUM [1]
  1,1, HLT 0 [1]
  18,,steps
  28,28,clock
  $ times mixrev sum.mixal --csv N=2..3 | tail -n 1
  19,22,clock
  $ times mixrev sum.mixal N=2 --formulas --latex | sed -n '1,3p;9,$p'
  \begin{tabular}{lrr}
   & N=2 & N=2~formula \\ \hline
  \texttt{~ENT1~N~[1]} & 1 & 1 \\
  \hline
  \texttt{steps} & 9 &  \\
  \texttt{clock} & 19 & 19 \\
  \end{tabular}

A range is several values, up to the last one or before it.

  $ times mixrev sum.mixal N=2..4 N=6..11/2 | sed -n '1p;$p'
     N=2    N=3    N=4    N=6    N=8   N=10
      19     22     25     31     37     43  clock
  $ times mixrev sum.mixal N=4..3
  course/times: N=4..3 has no values: write the smaller one first
  [1]
  $ times mixrev sum.mixal N=2..4/0
  course/times: N=2..4/0: line 1: A5 bad expression
  [1]
  $ times mixrev sum.mixal M=2..4 --formulas
  course/times: M=2: the source has not one line M EQU
  [1]

A formula that is not the count has a mark, and so has the sum: by [N+1] DEC1 takes 3u of 19u, and not 2u. Each line is reported once, with the first N.

  $ sed '4s/\[N\]/[N+1]/' sum.mixal >wrong.mixal
  $ times mixrev wrong.mixal N=2 N=5 --formulas
     N=2 formula    N=5 formula
       1       1      1       1   ENT1 N [1]
       2       2      5       5  LOOP INCA 0,1 [N]
       2      3*      5      6*   DEC1 1 [N+1]
       2       2      5       5   J1P LOOP [N]
       1       1      1       1   STA SUM [1]
       1       1      1       1   HLT 0 [1]
       9             18          steps
      19     20*     28     29*  clock
  course/times: wrong.mixal:4: N=2: [N+1] is 3, but the line is executed 2 times
  [1]
  $ times mixrev wrong.mixal N=2 --formulas --csv 2>/dev/null | sed -n '4p;$p'
  2,3*, DEC1 1 [N+1]
  19,20*,clock
  $ sed '3s/\[N\]/[N*N-5*N+6]/; 6s/\[1\]/[4-N]/' sum.mixal >sometimes.mixal
  $ times mixrev sometimes.mixal N=2..5 --formulas >/dev/null
  course/times: sometimes.mixal:3: N=2: [N*N-5*N+6] is 0, but the line is executed 2 times
  course/times: sometimes.mixal:6: N=2: [4-N] is 2, but the line is executed 1 time
  [1]

A formula that cannot be read has no value, and neither has one with two names that no count gives. Then there is no sum. A line without a formula has
no value, and its time is not in the sum.

  $ sed '3s/\[N\]/[N+]/; 4s/\[N\]/[P*Q]/; 5s/\[N\]//; 6s/\[1\]/[1\/\/0]/' sum.mixal >odd.mixal
  $ times mixrev odd.mixal N=2 --formulas
     N=2 formula
       1       1   ENT1 N [1]
       2  unread  LOOP INCA 0,1 [N+]
       2       ?   DEC1 1 [P*Q]
       2           J1P LOOP
       1   large   STA SUM [1//0]
       1       1   HLT 0 [1]
       9          steps
      19       ?  clock
  course/times: odd.mixal:3: N=2: [N+] cannot be read
  course/times: odd.mixal:4: N=2: [P*Q] has a name without a value
  course/times: odd.mixal:6: N=2: [1//0] has no value within 64 bits
  [1]
  $ sed '5s/\[N\]//' sum.mixal >bare.mixal
  $ times mixrev bare.mixal N=2 --formulas --csv | tail -n 1
  19,17*,clock
  $ sed 's/\[.*//' sum.mixal >none.mixal
  $ times mixrev none.mixal N=2 --formulas
  course/times: N=2: no line of an instruction has a formula in square brackets
  [1]
  $ times mixrev sum.mixal N=1+1 --formulas
  course/times: N=1+1: 1+1 is no number, as the value of N in a formula has to be
  [1]
  $ printf 'N EQU 1\n JMP 0 [N]\n END 0\n' | times mixrev /dev/stdin N=1 --formulas
  course/times: N=1: the program does not halt: limit after 1000000 steps, at location 0000
  [1]

The first OUT is over at 2, its line 13u later; the second OUT comes at 4 and waits for 11u. The sum is without that: ENT1, N times OUT, DEC1 and J1P, HLT.

  $ printf 'N EQU 1\n ENT1 N [1]\nROW OUT 100(18) [N]\n DEC1 1 [N]\n J1P ROW [N]\n HLT 0 [1]\n END 0\n%%DEVICES\n%%UNIT 18 delay 13\n' >rows.mixal
  $ times mixrev rows.mixal N=1..2 --formulas --csv | tail -n 1
  14,14,28,17*,clock

Formulas of lessons. 11: 11 + 5N + 3A, where A counts the entries, from the right, that are larger than all before. 12: 13 + 19(R + 1) + 5R + 2Q + 6S +
7(N - 1) + 3P, where R is the root of N rounded down, less 1, Q and P count the primes up to the root and up to N, and S is how often a multiple is struck
out. 50: 12 + 11(N - 1) + 9B - 3A with B inversions and A maxima from the right. 52: 11 + 7A + 8C + 7B with A passes, C comparisons and B exchanges.

  $ times mixrev $course/11_maximum/lesson.mixal N=2..10 --formulas --csv | tail -n 1
  21,21,26,26,34,34,39,39,44,44,46,46,54,54,62,62,67,67,clock
  $ times mixrev $course/12_sieve/lesson.mixal N=10..50/20 N=100 --formulas --csv | tail -n 1
  189,189,511,511,842,842,1648,1648,clock
  $ times mixrev $course/50_insertion/lesson.mixal N=4..10/3 --formulas --csv | tail -n 1
  78,78,159,159,225,225,clock
  $ times mixrev $course/52_bubble/lesson.mixal N=4..8/2 --formulas --csv | tail -n 1
  93,93,169,169,360,360,clock
  $ for each in 04_reversal 13_josephus 17_cycles_counted 50_insertion 52_bubble 53_quicksort 55_heapsort; do
  >   times mixrev $course/$each/lesson.mixal N=2..5 --formulas >/dev/null && echo "$each fits"
  > done
  04_reversal fits
  13_josephus fits
  17_cycles_counted fits
  50_insertion fits
  52_bubble fits
  53_quicksort fits
  55_heapsort fits

One formula of a lesson is altered: its line is reported, and no other one.

  $ altered() { sed "$2" $course/$1/lesson.mixal >altered.mixal; times mixrev altered.mixal $3 --formulas >/dev/null; }
  $ altered 11_maximum '/JGE  NEXT/s/N-1/N/' N=4..6
  course/times: altered.mixal:23: N=4: [N] is 4, but the line is executed 3 times
  [1]
  $ altered 12_sieve '/CMP2 =N=/s/\[S\]/[S-1]/' N=30
  course/times: altered.mixal:20: N=30: [S-1] is 23, but the line is executed 24 times
  [1]
  $ altered 50_insertion '/JLE  PLACE/s/N-1/N/' N=4..10/3
  course/times: altered.mixal:26: N=4: [N+B-A] is 7, but the line is executed 6 times
  [1]
  $ altered 52_bubble '/TEST/s/A+C/A+C+1/' N=4
  course/times: altered.mixal:31: N=4: [A+C+1] is 9, but the line is executed 8 times
  [1]

The curve: N from 72 to 616, u upwards from 352 to 64. From N = 2 to 5 the clock is 19, 22, 25 and 28, so the dot of 19 is at 352 - 288 * 19/28. By the wrong
formula the sum is one more, up to 29, and the line is above the dots. Without a sum there are dots alone.

  $ times mixrev sum.mixal N=2..5 --svg >sum.svg; python3 -c 'import xml.dom.minidom as dom; dom.parse("sum.svg")'
  $ grep -E '<(title|desc|polyline|circle)' sum.svg | sed "s/$(basename "$PWD")/FOLDER/"
  <title id="curve-title">FOLDER/sum.mixal</title>
  <desc id="curve-desc">N=2: 19 u, by the formulas 19; N=3: 22 u, by the formulas 22; N=4: 25 u, by the formulas 25; N=5: 28 u, by the formulas 28</desc>
  <polyline points="72.0,156.6 253.3,125.7 434.7,94.9 616.0,64.0" fill="none" stroke="currentColor" stroke-width="1.5"/>
  <circle cx="72.0" cy="156.6" r="3"/>
  <circle cx="253.3" cy="125.7" r="3"/>
  <circle cx="434.7" cy="94.9" r="3"/>
  <circle cx="616.0" cy="64.0" r="3"/>
  $ grep -o '>[0-9]*</text>' sum.svg | tr -d '\n'; echo
  >2</text>>3</text>>4</text>>5</text>>0</text>>5</text>>10</text>>15</text>>20</text>>25</text>
  $ times mixrev sum.mixal N=5 N=2..4 --svg --formulas | cmp - sum.svg
  $ times mixrev wrong.mixal N=2 N=5 --svg 2>&1 | grep -E '<(polyline|circle)|course/times'
  <polyline points="72.0,153.4 616.0,64.0" fill="none" stroke="currentColor" stroke-width="1.5"/>
  <circle cx="72.0" cy="163.3" r="3"/>
  <circle cx="616.0" cy="73.9" r="3"/>
  course/times: wrong.mixal:4: N=2: [N+1] is 3, but the line is executed 2 times
  $ times mixrev odd.mixal N=2 --svg 2>/dev/null | grep -cE '<circle|points=""'
  2
  $ cp sum.mixal 'a&b.mixal'; times mixrev 'a&b.mixal' N=2 --svg | grep -o '[^/]*</title>'
  a&amp;b.mixal</title>

It is over the one constant that has several values.

  $ sed '1iM EQU 2' sum.mixal >two.mixal
  $ times mixrev two.mixal N=4,M=1..3 --svg | grep -oE '[^/]*</title>|>M</text>'
  two.mixal, N=4</title>
  >M</text>
  $ times mixrev two.mixal N=2..3,M=1..2 --svg
  course/times: a curve is over one constant: give each run a value of it, and of the others the same values
  [1]
  $ times mixrev two.mixal N=2..3 M=1 --svg
  course/times: a curve is over one constant: give each run a value of it, and of the others the same values
  [1]
