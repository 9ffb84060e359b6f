" Compiler file: `:make` shows the faults of a specification in the quickfix list.

if exists('current_compiler')
  finish
endif
let current_compiler = 'r2u2-check'

CompilerSet makeprg=r2u2-check\ %:S
CompilerSet errorformat=%f:%l:%c:\ %trror:\ %m,%-G%.%#
