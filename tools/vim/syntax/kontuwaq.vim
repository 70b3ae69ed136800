" Productions and commands of Kontuwaq.
if exists('b:current_syntax')
  finish
endif
let s:saved = &cpoptions
set cpoptions&vim

syn case match
" A run is a longest piece of these bytes, and is one token as a whole: `\<` and `\>` are its ends.
syn iskeyword a-z,A-Z,48-57,_,36-38,42-43,45,47,58,60-63

" ---- tokens, those of more weight behind the others

syn match kontuwaqBadByte /[][@;,'`\\]\|[^\x00-\x7F]/ contained
syn match kontuwaqWord /\<\k\+\>/ contained
syn match kontuwaqBadRun /\<\k*[<>]\k*\>/ contained
syn match kontuwaqSign /\<\%(<=>\|<>\|<=\|>=\|[<>=+-]\)\>/ contained
syn match kontuwaqSign /[!~]/ contained
syn match kontuwaqDisjunction /\<\%(<<\|>>\)\>/ contained
syn match kontuwaqVariable /\<<[A-Za-z0-9$%&*+\-/:=?_]\+>\>/ contained
syn match kontuwaqInteger /\<[+-]\=\d\+\>/ contained
syn match kontuwaqBadNumber /\<[+-]\=\d\+\.\d\+/ contained
syn match kontuwaqBadNumber /\<[+-]\=\d\+[eE][+-]\=\d\+\>/ contained
syn match kontuwaqAttribute /\^\k\+\%(\.\k\+\)*/ contained contains=kontuwaqVariable,kontuwaqInteger,kontuwaqBadRun

syn match kontuwaqTodo /\<\%(TODO\|FIXME\|XXX\)\>/ contained
syn match kontuwaqComment /#.*$/ contains=kontuwaqTodo,@Spell

" A backslash keeps a bar, a quote or itself; another byte behind it is refused.
syn match kontuwaqBadEscape /\\./ contained
syn match kontuwaqEscape /\\[|"\\]/ contained
syn region kontuwaqText start=/|/ skip=/\\./ end=/|/ contains=kontuwaqEscape,kontuwaqBadEscape
syn region kontuwaqDoc start=/"/ skip=/\\./ end=/"/ contained contains=kontuwaqEscape,kontuwaqBadEscape,@Spell

syn cluster kontuwaqToken contains=kontuwaqBadByte,kontuwaqWord,kontuwaqBadRun,kontuwaqSign,kontuwaqDisjunction
syn cluster kontuwaqToken add=kontuwaqVariable,kontuwaqInteger,kontuwaqBadNumber,kontuwaqAttribute
syn cluster kontuwaqToken add=kontuwaqComment,kontuwaqText

" ---- productions

syn region kontuwaqProduction matchgroup=kontuwaqBrace start=/{/ end=/}/ contained fold
      \ contains=@kontuwaqToken,kontuwaqName,kontuwaqDoc,kontuwaqFlag,kontuwaqState,kontuwaqBraces,kontuwaqActions
syn region kontuwaqBraces matchgroup=kontuwaqBrace start=/{/ end=/}/ contained
      \ contains=@kontuwaqToken,kontuwaqState,kontuwaqBraces
syn region kontuwaqActions matchgroup=kontuwaqArrow start=/\<-->\>/ end=/}/me=s-1 contained
      \ contains=@kontuwaqToken,kontuwaqFunction,kontuwaqWrite

syn match kontuwaqName /\%(\<sp\s*{\s*\)\@<=\k\+/ contained
syn match kontuwaqFlag /\<:\%(o-support\|i-support\|default\|chunk\)\>/ contained
syn match kontuwaqState /\%((\s*\)\@<=state\>/ contained
syn match kontuwaqFunction /\%((\s*\)\@<=\%([+*-]\|div\|mod\|abs\|min\|max\|concat\|ifeq\|strlen\|crlf\)\>/ contained
syn match kontuwaqWrite /\%((\s*\)\@<=\%(write\|halt\)\>/ contained

" ---- commands: the first bytes of a line outside of productions, up to a blank or a brace

syn match kontuwaqUnknown /^\s*\zs[^#{[:blank:]][^{[:blank:]]*/ nextgroup=kontuwaqWords
syn match kontuwaqCommand /^\s*\zs\%(add-wme\|excise\|explain\|init-soar\|matches\|max-elaborations\|preferences\|quit\|random\|remove-wme\|run\|stats\|watch\)\ze\%([{[:blank:]]\|$\)/ nextgroup=kontuwaqWords
syn match kontuwaqCommand /^\s*\zssp\ze\%([{[:blank:]]\|$\)/ nextgroup=kontuwaqProduction skipwhite
syn match kontuwaqCommand /^\s*\zssource\ze\%([{[:blank:]]\|$\)/ nextgroup=kontuwaqFile
syn match kontuwaqCommand /^\s*\zs\%(input\|chunk\|indifferent-selection\|print\)\ze\%([{[:blank:]]\|$\)/ nextgroup=kontuwaqChoices
syn match kontuwaqChoice /\<\%(add\|remove\|always\|never\|allow-local-negations\|on\|off\|first\|last\|softmax\|epsilon-greedy\|--wm\|--rules\|--chunks\)\>/ contained
syn match kontuwaqFile /[^#]*/ contained
syn region kontuwaqChoices start=/./ end=/$/ contained
      \ contains=@kontuwaqToken,kontuwaqIdentifier,kontuwaqChoice
syn region kontuwaqWords start=/./ end=/$/ contained
      \ contains=@kontuwaqToken,kontuwaqIdentifier
syn match kontuwaqIdentifier /\<[A-Z][1-9]\d*\>/ contained

syn sync fromstart

hi def link kontuwaqCommand Statement
hi def link kontuwaqUnknown Error
hi def link kontuwaqChoice Keyword
hi def link kontuwaqFile String
hi def link kontuwaqIdentifier Identifier
hi def link kontuwaqName Function
hi def link kontuwaqDoc SpecialComment
hi def link kontuwaqFlag PreProc
hi def link kontuwaqState Keyword
hi def link kontuwaqWrite Statement
hi def link kontuwaqFunction Function
hi def link kontuwaqArrow Statement
hi def link kontuwaqBrace Delimiter
hi def link kontuwaqDisjunction Delimiter
hi def link kontuwaqSign Operator
hi def link kontuwaqVariable Identifier
hi def link kontuwaqAttribute Type
hi def link kontuwaqInteger Number
hi def link kontuwaqText String
hi def link kontuwaqEscape SpecialChar
hi def link kontuwaqComment Comment
hi def link kontuwaqTodo Todo
hi def link kontuwaqBadByte Error
hi def link kontuwaqBadRun Error
hi def link kontuwaqBadNumber Error
hi def link kontuwaqBadEscape Error

let b:current_syntax = 'kontuwaq'
let &cpoptions = s:saved
unlet s:saved
