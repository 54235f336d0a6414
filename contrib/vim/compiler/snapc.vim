" `:make` checks the program at hand, and the quickfix list has the places of what is wrong. It needs snapc and
" contrib/tools/snapc-where on the path.
if exists("current_compiler")
  finish
endif
let current_compiler = "snapc"

CompilerSet makeprg=snapc-where\ snapc\ check\ %:S
" A race and a difference have lines of their own behind the first; what else is printed isn't listed.
CompilerSet errorformat=%f:%l:%c:\ %m,%+Gsnapc:\ %m,%+Gsnapc-where:\ %m,%+Garray\ %m,%+Gpacket\ %m,%-G%.%#
