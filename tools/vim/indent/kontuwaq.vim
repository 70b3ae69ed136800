" Indentation of productions of Kontuwaq: conditions and actions under `sp`, attributes under the first one of their group.
if exists('b:did_indent')
  finish
endif
let b:did_indent = 1

setlocal nolisp nosmartindent autoindent
setlocal indentexpr=KontuwaqIndent(v:lnum)
setlocal indentkeys=!^F,o,O,0},0),<:>
let b:undo_indent = 'setlocal autoindent< indentexpr< indentkeys<'

if exists('*KontuwaqIndent')
  finish
endif

" Whether a place is in a comment, in bars or in a documentation string.
function s:is_text(line, column) abort
  for id in synstack(a:line, a:column)
    if synIDattr(id, 'name') =~# 'kontuwaq\%(Comment\|Text\|Doc\|Escape\|BadEscape\)$'
      return 1
    endif
  endfor
  return 0
endfunction

" The place of the innermost bracket that is open where this line begins, and [0, 0] where none is.
function s:open_bracket(lnum) abort
  let saved = getcurpos()
  call cursor(a:lnum, 1)
  let place = searchpairpos('[({]', '', '[)}]', 'bnW', 's:is_text(line("."), col("."))')
  call setpos('.', saved)
  return place
endfunction

function KontuwaqIndent(lnum) abort
  " A line that begins inside bars or a string is text, and stays.
  if a:lnum > 1 && s:begins_in_text(a:lnum)
    return -1
  endif
  let [line, column] = s:open_bracket(a:lnum)
  if line == 0
    return 0
  endif
  let opener = getline(line)
  let closes = getline(a:lnum) =~# '^\s*[)}]'
  " The brace of a production.
  if opener[: column - 1] =~# '^\s*sp\s*{$'
    return indent(line) + (closes ? 0 : shiftwidth())
  endif
  let at = virtcol([line, column])
  if closes
    return opener[: column - 1] =~# '^\s*-\?[({]$' ? indent(line) : at - 1
  endif
  " In a group, attributes stand under the first one; in a call, values do; else what is inside stands behind the bracket.
  if opener[column - 1] ==# '('
    let first = match(opener, '-\?^', column)
    if first >= 0 && s:open_bracket_before(line, first) == column
      return virtcol([line, first + 1]) - 1
    endif
    let value = matchend(opener, '^\k\+\s\+\ze\S', column)
    if value >= 0 && opener[value] !=# '#'
      return virtcol([line, value + 1]) - 1
    endif
  else
    let first = match(opener, '\S', column)
    if first >= 0
      return virtcol([line, first + 1]) - 1
    endif
  endif
  return at
endfunction

" Whether the first byte of a line is inside bars or a string that an earlier line opened.
function s:begins_in_text(lnum) abort
  let names = map(synstack(a:lnum, 1), 'synIDattr(v:val, "name")')
  if empty(filter(names, 'v:val =~# ''kontuwaq\%(Text\|Doc\)$'''))
    return 0
  endif
  " An empty line has no place to look at; a line that opens a text itself begins with its bar or quote.
  return getline(a:lnum) !~# '^[|"]' || s:is_text(a:lnum - 1, max([1, len(getline(a:lnum - 1))]))
        \ && getline(a:lnum - 1) !~# '[|"]\s*$'
endfunction

" The column of the innermost bracket that is open before a byte of a line, if it is on that line, else 0.
function s:open_bracket_before(lnum, byte) abort
  let saved = getcurpos()
  call cursor(a:lnum, a:byte + 1)
  let place = searchpairpos('[({]', '', '[)}]', 'bnW', 's:is_text(line("."), col("."))', a:lnum)
  call setpos('.', saved)
  return place[0] == a:lnum ? place[1] : 0
endfunction
