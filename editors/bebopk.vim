" Vim syntax file for the language of bebopk (docs/LANGUAGE.md).
" It goes to ~/.vim/syntax/bebopk.vim, and filetype.vim beside it to ~/.vim/ftdetect/bebopk.vim: `./build --install` puts both there.
if exists("b:current_syntax")
  finish
endif
syntax case match
syntax keyword bebopkStructure begin end thread
syntax keyword bebopkDeclaration decl
syntax keyword bebopkStatement skip goto return
syntax keyword bebopkConditional if then else fi
syntax keyword bebopkRepeat while do od
syntax keyword bebopkCheck assert assume
syntax match bebopkConstant "\<[01]\>"
syntax match bebopkChoice "?"
syntax match bebopkOperator ":=\|=>\|!=\|[=|^&!]"
syntax match bebopkLabel "\<\h\w*\ze\_s*:=\@!"
syntax match bebopkProcedure "\<\h\w*\ze\_s*("
" No name that is declared has two underscores in a row, and no word begins with a digit but 0 and 1.
syntax match bebopkError "\<\h\w*__\w*\>\|\<__\w*\>"
syntax match bebopkError "\<\d\w\+\>\|\<[2-9]\>"
syntax match bebopkComment "//.*$" contains=bebopkTodo
syntax keyword bebopkTodo TODO FIXME contained
highlight default link bebopkStructure Structure
highlight default link bebopkDeclaration Type
highlight default link bebopkStatement Statement
highlight default link bebopkConditional Conditional
highlight default link bebopkRepeat Repeat
highlight default link bebopkCheck Exception
highlight default link bebopkConstant Boolean
highlight default link bebopkChoice Special
highlight default link bebopkOperator Operator
highlight default link bebopkLabel Label
highlight default link bebopkProcedure Function
highlight default link bebopkError Error
highlight default link bebopkComment Comment
highlight default link bebopkTodo Todo
let b:current_syntax = "bebopk"
