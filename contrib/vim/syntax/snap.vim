" Vim syntax file of SNAP programs.
if exists("b:current_syntax")
  finish
endif

" A name may have `-` and `.` within, so a word before one of these is no keyword. Of two matches that begin at one
" place the later line wins.
syn iskeyword @,48-57,_
syn match snapName /\<\h\w*\%([.-]\w\+\)*/
syn match snapDeclaration /\<\%(field\|array\|const\|let\)\>\%([.-]\w\)\@!/
syn match snapConditional /\<\%(if\|then\|else\)\>\%([.-]\w\)\@!/
syn match snapPolicy /\<\%(id\|drop\|atomic\)\>\%([.-]\w\)\@!/
syn match snapBoolean /\<\%(True\|False\)\>\%([.-]\w\)\@!/
syn match snapPort /\<\%(inport\|outport\)\>\%([.-]\w\)\@!/
syn match snapNumber /\<\d\+\>/
syn match snapAddress /\<\d\{1,3}\%(\.\d\{1,3}\)\{3}\>/
syn match snapOperator /++\|--\|+=\|-=\|<-\|[=!&|+]/
syn match snapComment /#.*$/ contains=@Spell

hi def link snapDeclaration Type
hi def link snapConditional Conditional
hi def link snapPolicy Statement
hi def link snapBoolean Boolean
hi def link snapPort Identifier
hi def link snapNumber Number
hi def link snapAddress Constant
hi def link snapOperator Operator
hi def link snapComment Comment

let b:current_syntax = "snap"
