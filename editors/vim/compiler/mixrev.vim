" The check of MIXAL sources: `:compiler mixrev`, then `:make %` lists all faults and warnings of a source.
if exists("current_compiler")
  finish
endif
let current_compiler = "mixrev"

CompilerSet makeprg=mixrev\ check
" The columns count characters. The lines between, of the source and of marks, are left out.
CompilerSet errorformat=%f:%l:%c:\ %trror:\ %m,%f:%l:%c:\ %tarning:\ %m,%f:%l:\ %trror:\ %m,%-G%.%#
