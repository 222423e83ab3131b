" Policies of ifsvm, by docs/LANGUAGE.md. Each kind of token has a group; what begins no token is ifsvmStray.
if exists("b:current_syntax")
  finish
endif

syntax case match
syntax iskeyword a-z,A-Z,48-57,_,/,-,:,+,@-@,%,*,~

" of two items at one place the later one counts, so what matches anywhere comes first
syntax match ifsvmStray /\S/ display
syntax match ifsvmBlank /\\$/ display
syntax match ifsvmWord +[A-Za-z0-9_/][-A-Za-z0-9_/:+@%*~]*+ display
syntax match ifsvmNumber +\d\+\ze\%([^-A-Za-z0-9_/:+@%*~]\|$\)+ contained display
syntax match ifsvmSign /[{}().]/ display
syntax match ifsvmOperator /&&\|||\|!\|=/ display
syntax match ifsvmUse /\$[A-Za-z_][A-Za-z0-9_]*/ display

syntax keyword ifsvmBlock state init-state init
syntax keyword ifsvmCondition if
syntax keyword ifsvmAction run set-state
syntax keyword ifsvmEvery every skipwhite skipempty nextgroup=ifsvmNumber
syntax match ifsvmLink +\.\s*link\s*\.\s*\%(up\|down\|unknown\)\ze\%([^-A-Za-z0-9_/:+@%*~]\|$\)+ display

" a backslash before the newline takes the next line into the comment
syntax keyword ifsvmTodo TODO FIXME XXX contained
syntax region ifsvmComment start=/#/ skip=/\\$/ end=/$/ contains=ifsvmTodo,@Spell

" a quote behind a backslash never closes
syntax region ifsvmString start=/"/ skip=/\\"/ end=/"/
syntax region ifsvmString start=/'/ skip=/\\'/ end=/'/

" the value of a macro is read as tokens
syntax match ifsvmMacro /\<[A-Za-z_][A-Za-z0-9_]*\ze\s*=/ skipwhite skipempty nextgroup=ifsvmDefines
syntax match ifsvmDefines /=/ contained skipwhite skipempty nextgroup=ifsvmValue
syntax region ifsvmValue matchgroup=ifsvmQuote start=/"/ skip=/\\"/ end=/"/ contained contains=TOP,ifsvmMacro,ifsvmComment
syntax region ifsvmValue matchgroup=ifsvmQuote start=/'/ skip=/\\'/ end=/'/ contained contains=TOP,ifsvmMacro,ifsvmComment

syntax sync minlines=200

highlight default link ifsvmStray Error
highlight default link ifsvmComment Comment
highlight default link ifsvmTodo Todo
highlight default link ifsvmBlock Structure
highlight default link ifsvmCondition Conditional
highlight default link ifsvmAction Statement
highlight default link ifsvmEvery Keyword
highlight default link ifsvmNumber Number
highlight default link ifsvmLink Type
highlight default link ifsvmOperator Operator
highlight default link ifsvmSign Delimiter
highlight default link ifsvmUse Identifier
highlight default link ifsvmMacro Define
highlight default link ifsvmDefines Operator
highlight default link ifsvmQuote Delimiter
highlight default link ifsvmString String

let b:current_syntax = "ifsvm"
