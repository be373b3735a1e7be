The listing of the longest source: an empty line, a text of any bytes, a word -0, the longest symbol, the largest number, and local symbols,
which are not listed.

  $ {
  >   printf '%9998s' '' | tr ' ' '\n'
  >   printf '\n* \0\t\v\177\303(\377  \nA\tEQU -0\nABCDEFGHIJ EQU -1073741823\n ORIG 3999\n9H EQU 1\n'
  >   printf '%9994s' '' | tr ' ' '\n'
  >   printf '2H CON -1073741823\n END 3999'
  > } >a.mixal; mixrev list a.mixal | sed -n '9999,10002p;19999,$p'
                           9999  
                          10000  * \x00\t\x0b\x7f\xc3(\xff   (esc)
        - 00 00 00 00 00  10001  A\tEQU -0 (esc)
        - 63 63 63 63 63  10002  ABCDEFGHIJ EQU -1073741823
  3999  - 63 63 63 63 63  19999  2H CON -1073741823
  3999                    20000   END 3999
  symbols 2
  A           - 00 00 00 00 00
  ABCDEFGHIJ  - 63 63 63 63 63

The lines in the columns of the book, in LaTeX: each character of TeX, local symbols, a literal, brackets that are no formula, ALF with and
without quotation marks. Beyond ASCII remarks have a macro of their own; what is no UTF-8 is a question mark, and so is a control character.

  $ printf '* 100%% #1 $2 a&b_c {x} ~ ^ \\ "q" <-- | >\n1H ENT1 3(0:5)  [1] one [2]\n INCA 0,1 [N-1+B*(A+1)//2] sum -- all\n J1P 1B [a_b] never\n\n LDA =5=\n HLT\tthe end\n ALF "A B" quoted\nAB ALF   X\n END 1B\n' >tex.mixal
  $ mixrev list --latex tex.mixal
  \begin{tabular}{rlllrp{0.4\linewidth}}
  \toprule
  line & LOC & OP & ADDRESS & times & remarks \\
  \midrule
  1 & \texttt{*} &  &  &  & 100\% \#1 \$2 a\&b\_c \{x\} \textasciitilde{} \textasciicircum{} \textbackslash{} \char34{}q\char34{} \textless{}{}-{}- \textbar{} \textgreater{} \\
  2 & \texttt{1H} & \texttt{ENT1} & \texttt{3(0:5)} & $1$ & one [2] \\
  3 &  & \texttt{INCA} & \texttt{0,1} & $N-1+B*(A+1)//2$ & sum -{}- all \\
  4 &  & \texttt{J1P} & \texttt{1B} &  & [a\_b] never \\
  5 &  &  &  &  & \\
  6 &  & \texttt{LDA} & \texttt{=5=} &  & \\
  7 &  & \texttt{HLT} &  &  & the end \\
  8 &  & \texttt{ALF} & \texttt{\char34{}A~B\char34{}} &  & quoted \\
  9 & \texttt{AB} & \texttt{ALF} & \texttt{~X} &  & \\
  10 &  & \texttt{END} & \texttt{1B} &  & \\
  \bottomrule
  \end{tabular}
  $ printf ' NOP 0 \303\251t\303\251\n NOP 0 a\377\001\n END 0\n' >utf8.mixal
  $ mixrev list --latex utf8.mixal | sed -n '1p;6,8p'
  \providecommand\inanyscript[1]{\begingroup\def\TextSymbolUnavailable{\def\TextSymbolUnavailable####1{?}\fontencoding{T1}\selectfont}\expandafter\def\csname UTFviii@undefined@err\endcsname##1{?}#1\endgroup}
  1 &  & \\texttt{NOP} & \\texttt{0} &  & \\inanyscript{\xc3\xa9t\xc3\xa9} \\\\ (esc)
  2 &  & \texttt{NOP} & \texttt{0} &  & a?? \\
  3 &  & \texttt{END} & \texttt{0} &  & \\

Up to 40 lines are a tabular, and more are a longtable. A source that is refused has its first fault.

  $ for n in 39 40; do { seq -f ' NOP %.0f' $n; echo ' END 0'; } >long.mixal; mixrev list --latex long.mixal | sed -n '1p;5p;$p'; done
  \begin{tabular}{rlllrp{0.4\linewidth}}
  1 &  & \texttt{NOP} & \texttt{1} &  & \\
  \end{tabular}
  \begin{longtable}{rlllrp{0.4\linewidth}}
  \endhead
  \end{longtable}
  $ echo ' LDA X Y' | mixrev list --latex -
  line 2: A13 no END
  [1]
