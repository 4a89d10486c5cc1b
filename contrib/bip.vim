" Models, traces and schedules of bipr in vim. Copy this file to ~/.vim/syntax/, and write in ~/.vimrc
"   autocmd BufRead,BufNewFile *.bip,*.trace,*.schedule setlocal syntax=bip
" What a line begins with is a keyword there alone, as a port may be named `mail`.
if exists("b:current_syntax")
  finish
endif
syntax case match
syntax iskeyword @,48-57,_

syntax match bipLine "^\s*\zs\%(var\|loc\|port\|trans\|priority\|mail\|try\|serve\|deliver\|pass\|ask\|grant\)\ze\s"
syntax match bipBlock "^\s*\zs\%(bip\s\+1\|end\|---\)\ze\s*$"
syntax match bipBlock "^\s*\zs\%(component\|interaction\|class\)\ze\s" nextgroup=bipName skipwhite
syntax match bipName "\h\w*" contained
syntax keyword bipWord when do and see
syntax match bipOperator "\s\zs\%(:=\|!=\|<=\|>=\|[-+<>=;]\)\ze\s"
syntax match bipNumber "\<\d\+\>"
" a comment is a line of its own
syntax match bipError "#.*"
syntax match bipComment "^\s*#.*" contains=bipTodo
syntax keyword bipTodo contained TODO FIXME

highlight default link bipLine Statement
highlight default link bipBlock Structure
highlight default link bipName Identifier
highlight default link bipWord Conditional
highlight default link bipOperator Operator
highlight default link bipNumber Number
highlight default link bipError Error
highlight default link bipComment Comment
highlight default link bipTodo Todo
let b:current_syntax = "bip"
