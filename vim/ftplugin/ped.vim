" Editing scripts of pedrun: comments, the canonical text's two spaces, and :make.
if exists('b:did_ftplugin')
  finish
endif
let b:did_ftplugin = 1

setlocal comments=:# commentstring=#\ %s
setlocal expandtab shiftwidth=2 softtabstop=2
setlocal autoindent
compiler pedrun

let b:undo_ftplugin = 'setlocal comments< commentstring< expandtab< shiftwidth< softtabstop< autoindent< makeprg< errorformat< | unlet! b:current_compiler'
