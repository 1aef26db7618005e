" Comments of 3D, for commands that write them, and td-check as the compiler.
if exists('b:did_ftplugin')
  finish
endif
let b:did_ftplugin = 1
setlocal comments=sO:*\ -,mO:*\ \ ,exO:*/,s1:/*,mb:*,ex:*/,://
setlocal commentstring=//\ %s
" `:make` runs td-check on the file, and the quickfix list leads to the places.
setlocal makeprg=td-check\ --places\ %:S
setlocal errorformat=%f:%l:%c:\ %trror\ %m
let b:undo_ftplugin = 'setlocal comments< commentstring< makeprg< errorformat<'
