" Vim filetype plugin. Language: Cryptyc, authentication protocols in the spi calculus.
if exists('b:did_ftplugin')
  finish
endif
let b:did_ftplugin = 1

setlocal comments=:// commentstring=//\ %s
setlocal expandtab shiftwidth=2 softtabstop=2
" A canonical file has its process on one line, which has colours to its end.
setlocal synmaxcol=0
" :make checks the file, and goes to the place of a no.
setlocal makeprg=cryptyc-sarif\ --lines\ %:S
setlocal errorformat=%f:%l:%c:\ %trror:\ %m,%-G%.%#
let b:undo_ftplugin = 'setlocal comments< commentstring< expandtab< shiftwidth< softtabstop< synmaxcol< makeprg< errorformat<'
