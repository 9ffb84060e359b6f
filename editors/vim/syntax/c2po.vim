" Vim syntax file
" Language: specifications of c2po

if exists('b:current_syntax')
  finish
endif

syntax case match
setlocal commentstring=--\ %s

" Longer signs come after shorter ones, since the last item that fits counts.
syntax match c2poOperator '[-+*/%<>!.]'
syntax match c2poOperator '->\|=>\|:=\|==\|!=\|<=\|>=\|&&\|||'
syntax match c2poOperator '<->'
syntax match c2poNumber '\<\d\+\>'
syntax match c2poTemporal '\<[FGURSOH]\>'
syntax keyword c2poSection STRUCT INPUT DEFINE FTSPEC PTSPEC
syntax keyword c2poType bool int set
syntax keyword c2poTruth true false
syntax keyword c2poQuantifier foreach forsome forexactly foratleast foratmost
" A name before its type, its definition or its formula.
syntax match c2poName '\<\h\w*\ze\s*:'
syntax match c2poComment '--.*$' contains=c2poTodo
syntax keyword c2poTodo TODO FIXME contained

highlight default link c2poOperator Operator
highlight default link c2poNumber Number
highlight default link c2poTemporal Special
highlight default link c2poSection Statement
highlight default link c2poType Type
highlight default link c2poTruth Boolean
highlight default link c2poQuantifier Repeat
highlight default link c2poName Identifier
highlight default link c2poComment Comment
highlight default link c2poTodo Todo

let b:current_syntax = 'c2po'
