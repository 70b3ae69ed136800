" Settings for productions and commands of Kontuwaq.
if exists('b:did_ftplugin')
  finish
endif
let b:did_ftplugin = 1

" A word is a whole run, as the reader takes it: `hello*propose`, `input-link`, `<next-block>`.
setlocal iskeyword=a-z,A-Z,48-57,_,36-38,42-43,45,47,58,60-63
setlocal comments=:# commentstring=#\ %s formatoptions-=t formatoptions+=croql
setlocal define=^\\s*sp\\s*{\\s*
setlocal shiftwidth=3 softtabstop=3 expandtab
setlocal suffixesadd=.soar

let b:undo_ftplugin = 'setlocal iskeyword< comments< commentstring< formatoptions< define<'
      \ . ' shiftwidth< softtabstop< expandtab< suffixesadd<'
