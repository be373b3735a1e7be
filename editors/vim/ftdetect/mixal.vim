" Sources in MIXAL. Vim knows the endings as `mix`, so the type is set and not only proposed.
autocmd BufNewFile,BufRead *.mix,*.mixal set filetype=mixal
