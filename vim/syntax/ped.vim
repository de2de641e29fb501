" Syntax of scripts of pedrun.
if exists('b:current_syntax')
  finish
endif

syntax case match
syntax match pedVersion "\%^version 2$"
syntax keyword pedDeclaration fn let
syntax keyword pedType id
syntax keyword pedParallel spawn sync pfor in into scope
syntax keyword pedConditional if else
syntax keyword pedRepeat while
syntax keyword pedStatement call return print
syntax keyword pedSource draw new
syntax keyword pedTest same older
syntax keyword pedTodo contained TODO FIXME XXX
syntax match pedNumber "\<\d\+\>"
syntax match pedOperator "->\|\.\.\|[-+*/%]\|==\|!=\|<=\|>=\|[<>=]"
syntax match pedFunction "\%(\<\%(fn\|call\|spawn\)\s\+\)\@<=\h\w*"
syntax match pedComment "#.*$" contains=pedTodo,@Spell

highlight default link pedVersion PreProc
highlight default link pedDeclaration Keyword
highlight default link pedType Type
highlight default link pedParallel PreProc
highlight default link pedConditional Conditional
highlight default link pedRepeat Repeat
highlight default link pedStatement Statement
highlight default link pedSource Special
highlight default link pedTest Function
highlight default link pedNumber Number
highlight default link pedOperator Operator
highlight default link pedFunction Identifier
highlight default link pedTodo Todo
highlight default link pedComment Comment

let b:current_syntax = 'ped'
