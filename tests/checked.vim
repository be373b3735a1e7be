" What Vim finds in faulty.mixal, for tests/test_checked.py. For each finding the file `found` gets a line: the number of the line, the severity, and what begins at
" the place to which it leads.
set encoding=utf-8
let &runtimepath = expand('<sfile>:p:h:h') . '/editors/vim,' . &runtimepath
filetype plugin on

function Found(findings)
  let lines = []
  for it in range(len(a:findings))
    let type = a:findings[it].type
    execute 'silent' (it + 1) . 'cc'
    call add(lines, line('.') . ' ' . (type ==? 'e' ? 'error' : 'warning') . ' ' . strpart(getline('.'), col('.') - 1))
  endfor
  call writefile(lines, 'found')
  qall!
endfunction

" The quickfix list of :make.
command ByMake edit faulty.mixal | silent make % | call setqflist(filter(getqflist(), 'v:val.valid')) | call Found(getqflist())

" The list of the plugin ALE, with the linter that it takes by itself.
function ByAle()
  silent! packadd ale
  if !exists('*ale#Queue') && !exists(':ALELint')
    cquit 77
  endif
  let g:ale_set_quickfix = 1
  edit faulty.mixal
  call ale#Queue(0)
  sleep 300m
  while ale#engine#IsCheckingBuffer(bufnr(''))
    sleep 50m
  endwhile
  call setqflist(ale#engine#GetLoclist(bufnr('')))
  call Found(getqflist())
endfunction
command ByAle call ByAle()
