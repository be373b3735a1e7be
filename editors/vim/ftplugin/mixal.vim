" MIXAL sources: a comment begins with * in the first column, and `:make %` checks the source.
if exists("b:did_ftplugin")
  finish
endif
let b:did_ftplugin = 1
let b:undo_ftplugin = "setlocal commentstring< comments< makeprg< errorformat<"
setlocal commentstring=*%s comments=:*
compiler mixrev
