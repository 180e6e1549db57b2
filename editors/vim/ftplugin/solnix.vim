" How a probe is indented and commented, and how :make checks it.
if exists('b:did_ftplugin')
  finish
endif
let b:did_ftplugin = 1

setlocal commentstring=//\ %s comments=s1:/*,mb:*,ex:*/,://
setlocal shiftwidth=4 softtabstop=4 expandtab autoindent smartindent
setlocal makeprg=spoonharbor\ check\ --color\ never\ %:S
setlocal errorformat=%E%trror[%n]:\ %m,%W%tarning[%n]:\ %m,%C%\\s%#-->\ %f:%l:%c,%Z%\\s%#\|,%-G%.%#

let b:undo_ftplugin = 'setlocal commentstring< comments< shiftwidth< softtabstop< expandtab< autoindent< smartindent< makeprg< errorformat<'
