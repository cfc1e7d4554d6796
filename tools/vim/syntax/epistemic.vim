" Task files and plan files.
if exists("b:current_syntax")
  finish
endif

syntax case match
syntax match epistemicComment "#.*$" contains=epistemicTodo
syntax keyword epistemicTodo contained TODO FIXME
syntax match epistemicNumber "\<[0-9]\+\>"
syntax match epistemicMark ":=\|->\|[{}(),;:<=]"

" What a task is made of.
syntax keyword epistemicPart task types objects fluents init goal action plan actions end frames cost
syntax keyword epistemicItem world designated links all same vary facts law sees distinct event pre
syntax keyword epistemicKind announce private to sense by assign when
syntax keyword epistemicOperator not and or knows common forall exists after
syntax keyword epistemicConstant true false
syntax keyword epistemicType agent object

highlight default link epistemicComment Comment
highlight default link epistemicTodo Todo
highlight default link epistemicNumber Number
highlight default link epistemicMark Delimiter
highlight default link epistemicPart Structure
highlight default link epistemicItem Keyword
highlight default link epistemicKind Statement
highlight default link epistemicOperator Operator
highlight default link epistemicConstant Boolean
highlight default link epistemicType Type

setlocal commentstring=#\ %s
let b:current_syntax = "epistemic"
