" Writes the group of each byte of source.mixal to the file wrote.
set encoding=latin1
set nocompatible
let &runtimepath = $EDITORS . '/vim,' . &runtimepath
filetype on
syntax enable
edit source.mixal
if &filetype !=# 'mixal' || b:current_syntax !=# 'mixal'
  cquit
endif
let rows = []
for number in range(1, line('$'))
  let names = []
  for column in range(1, len(getline(number)))
    call add(names, synIDattr(synID(number, column, 1), 'name'))
  endfor
  call add(rows, join(names, ' ,'))
endfor
call writefile(rows, 'wrote')
qall!
