" Checks the policy of the buffer: `:compiler ifsvm`, then `:make`. The quickfix list has its error or its notes, each with its hint.
if exists("current_compiler")
  finish
endif
let current_compiler = "ifsvm"

if exists(":CompilerSet") != 2
  command -nargs=* CompilerSet setlocal <args>
endif

CompilerSet makeprg=ifsvm\ check\ %:S
" a report begins with its place; lines of the policy follow, and then perhaps a rule and a hint
CompilerSet errorformat=%E%f:%l:%c:\ error:\ %m,%I%f:%l:%c:\ note:\ %m,%E%f:\ error:\ %m
CompilerSet errorformat+=%-C\ %.%#,%Crule:\ %m,%Zhint:\ %m,%-G%.%#
