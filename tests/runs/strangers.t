What a stranger's file asks for, and what a slip of the pen could destroy: no file is replaced unasked.

  $ printf ' ENTA 1\n OUT 9(19)\n HLT\n ORIG 9\n ALF PRINT\n END 0\ntouch owned\n' >lesson.mixal
  $ talk() { printf "$1" >in; script -qec "mixrev debug ${2:-lesson.mixal} >out" /dev/null <in >/dev/null; sed 's/(mixrev) //g' out; }
  $ same() { [ "$(cat "$1")" = "$2" ] && echo same; }

A file that is sourced saves nothing: neither a new file nor one that is there, also with save!.

  $ mkdir -p home/work && printf '# mine\n' >home/.bashrc
  $ printf 'step\nsave ../.bashrc\nsave! ../.bashrc\nsave new\nshow clock\n' >home/work/session.txt
  $ (cd home/work && cp ../../lesson.mixal . && talk 'source session.txt\nquit\n' | grep save)
  stderr: save can't be used in a file that is sourced; type it yourself
  stderr: save can't be used in a file that is sourced; type it yourself
  stderr: save can't be used in a file that is sourced; type it yourself
  $ same home/.bashrc '# mine'
  same
  $ ls home/work/new 2>&1 | wc -l
  1

At the prompt a file is replaced that is empty, or that this session has saved; one that holds something else by save! alone.

  $ printf 'mine\n' >notes; : >empty
  $ talk 'save notes\nsave empty\nstep\nsave empty\nsave lesson.mixal\nsave ./notes\nquit\n' | grep -e save -e T8
  stderr: T8 not replaced: notes: it holds something else; replace it with save! notes
  stderr: saved: empty
  stderr: saved: empty
  stderr: T8 not replaced: lesson.mixal: it holds something else; replace it with save! lesson.mixal
  stderr: T8 not replaced: ./notes: it holds something else; replace it with save! ./notes
  $ cat notes
  mine
  $ tail -n 2 empty
  %SCRIPT
  step
  $ talk 'save! notes\nstep\nsave notes\nSAVE! notes\nsave!\nsave! a b\nquit\n' | grep -e save -e T8
  stderr: saved: notes
  stderr: saved: notes
  stderr: saved: notes
  stderr: save takes the name of a file
  stderr: save takes the name of a file
  $ tail -n 1 notes
  step

The bundle that it was begun with is replaced, and another bundle is not; a source that is none is not either.

  $ cp notes other
  $ talk 'step\nstep\nsave notes\nsave other\nquit\n' notes | grep -e save -e T8
  stderr: saved: notes
  stderr: T8 not replaced: other: it holds something else; replace it with save! other
  $ tail -n 2 notes
  step
  step

A run replaces neither its program nor another file that it reads, nor one of its own files by the other. Nothing is written.

  $ cp lesson.mixal q.mixal; cp lesson.mixal q.copy; printf '%%UNIT 20\nTAPE\n' >deck; cp deck deck.copy
  $ mixrev run q.mixal --keep q.mixal
  stderr: error: the argument '--keep <FILE>' cannot replace the file of '<SOURCE>'
  stderr: 
  stderr: Usage: mixrev run [OPTIONS] <SOURCE>
  stderr: 
  stderr: For more information, try '--help'.
  [2]
  $ for words in '--svg q.mixal' '--cards deck --keep deck' '--typewriter deck --keep deck' '--devices deck --svg deck' '--cards deck --svg deck' '--typewriter deck --svg deck' '--svg new --keep new' '--keep ./q.mixal' '--svg new --keep ./new' '--cards .//./deck --svg deck' '--svg lost//new --keep ./lost/./new'; do
  >   mixrev run q.mixal $words | sed -n 1p
  > done
  stderr: error: the argument '--svg <FILE>' cannot replace the file of '<SOURCE>'
  stderr: error: the argument '--keep <FILE>' cannot replace the file of '--cards <FILE>'
  stderr: error: the argument '--keep <FILE>' cannot replace the file of '--typewriter <FILE>'
  stderr: error: the argument '--svg <FILE>' cannot replace the file of '--devices <FILE>'
  stderr: error: the argument '--svg <FILE>' cannot replace the file of '--cards <FILE>'
  stderr: error: the argument '--svg <FILE>' cannot replace the file of '--typewriter <FILE>'
  stderr: error: the argument '--svg <FILE>' cannot replace the file of '--keep <FILE>'
  stderr: error: the argument '--keep <FILE>' cannot replace the file of '<SOURCE>'
  stderr: error: the argument '--svg <FILE>' cannot replace the file of '--keep <FILE>'
  stderr: error: the argument '--svg <FILE>' cannot replace the file of '--cards <FILE>'
  stderr: error: the argument '--svg <FILE>' cannot replace the file of '--keep <FILE>'
  $ cmp q.mixal q.copy && cmp deck deck.copy && ls new 2>&1 | wc -l
  1

A name from the root is not the one from here, and `./-` is not standard output.

  $ mixrev run q.mixal --keep lost/new --svg /lost/new
  PRINT
  stderr: mixrev: T4 not opened: lost/new: No such file or directory
  stderr: mixrev: T4 not opened: /lost/new: No such file or directory
  [2]
  $ mixrev run q.mixal --keep ./- --svg - | sed -n '1p;$p'
  PRINT
  </svg>
  $ ls ./-
  ./-

Under another name, or in another file, it replaces only what is of the kind that it writes. Nothing is printed then.

  $ mkdir folder; mixrev run q.mixal --keep folder/../q.mixal
  stderr: mixrev: T8 not replaced: folder/../q.mixal: it holds something else
  [2]
  $ ln -s q.mixal link; mixrev run q.mixal --svg link --keep new
  stderr: mixrev: T8 not replaced: link: it holds something else
  [2]
  $ ln -s kept linked; mixrev run q.mixal --devices deck --keep kept --svg linked; sed -n 1p kept
  PRINT
  stderr: mixrev: T8 not replaced: linked: it holds something else
  %UNIT 20
  $ printf '<svg>drawn by hand</svg>\n' >hand.svg
  $ mixrev run q.mixal --svg hand.svg
  stderr: mixrev: T8 not replaced: hand.svg: it holds something else
  [2]
  $ mixrev run q.mixal --keep hand.svg --svg hand.svg.
  stderr: mixrev: T8 not replaced: hand.svg: it holds something else
  [2]
  $ mixrev run q.mixal --svg deck
  stderr: mixrev: T8 not replaced: deck: it holds something else
  [2]
  $ cmp q.mixal q.copy && cmp deck deck.copy && ls new hand.svg. 2>&1 | wc -l
  2
  $ mixrev run q.mixal --svg map.svg && mixrev run q.mixal --svg map.svg --devices deck --keep deck
  PRINT
  PRINT
  $ mixrev run q.mixal --keep map.svg
  stderr: mixrev: T8 not replaced: map.svg: it holds something else
  [2]
  $ : >empty; mixrev run q.mixal --svg empty; sed -n '$p' empty
  PRINT
  </svg>

What killed saves have left, and a file of one's own that has such a name, stop no save and are left alone.

  $ for n in $(seq 0 14); do echo "left $n" >.mixrev-$n; done
  $ mixrev run q.mixal --devices deck --keep deck && sed -n 1p deck && cat .mixrev-* | sort -n -k2 | sed -n '1p;$p'
  PRINT
  %UNIT 20
  left 0
  left 14
  $ ls -A | grep -c mixrev-
  15

A file whose name is read as an option is told as a terminal may read it; help that can't be written ends with 2.

  $ mixrev check "$(printf -- '--\033[31mred')" | sed -n 1p
  stderr: error: unexpected argument '--?[31mred' found
  $ mixrev --help >/dev/full 2>/dev/null
  [2]
  $ mixrev run --help >/dev/full 2>/dev/null
  [2]
  $ mixrev --version >/dev/full 2>/dev/null
  [2]
