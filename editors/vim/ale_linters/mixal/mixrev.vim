" The check of a source by the plugin ALE, while it is typed. (No byte before one that is at fault is a part of a character.)
function! ale_linters#mixal#mixrev#Handle(buffer, lines) abort
  let found = []
  for [_, line, column, severity, text; _] in ale#util#GetMatches(a:lines, '\v^-:(\d+):%((\d+):)? (error|warning): (.*)$')
    call add(found, {'lnum': str2nr(line), 'col': str2nr(column), 'type': severity is# 'error' ? 'E' : 'W', 'text': text})
  endfor
  return found
endfunction

call ale#linter#Define('mixal', {'name': 'mixrev', 'executable': 'mixrev', 'command': '%e check -', 'callback': 'ale_linters#mixal#mixrev#Handle'})
