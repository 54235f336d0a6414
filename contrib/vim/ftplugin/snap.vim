" Filetype plugin of SNAP programs.
if exists("b:did_ftplugin")
  finish
endif
let b:did_ftplugin = 1
let b:undo_ftplugin = "setlocal comments< commentstring< iskeyword< makeprg< errorformat<"

setlocal comments=:# commentstring=#\ %s
setlocal iskeyword=@,48-57,_,-,.
compiler snapc
