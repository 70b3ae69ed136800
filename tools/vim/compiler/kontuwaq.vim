" Refusals of Kontuwaq in the quickfix list: `:compiler kontuwaq`, then `:make` for the file at hand.
" g:kontuwaq_program is the program, where that is not `soar_app` on the path.
if exists('current_compiler')
  finish
endif
let current_compiler = 'kontuwaq'

if exists(':CompilerSet') != 2
  command -nargs=* CompilerSet setlocal <args>
endif

" A refusal names its number, source and line; all other lines are what the agent writes.
CompilerSet errorformat=error\ %n\ %f:%l:\ %m,%-G%.%#

execute 'CompilerSet makeprg='
      \ . escape(get(g:, 'kontuwaq_program', 'soar_app') . ' -- %:S $* </dev/null', ' \|"%#')
