" Productions and commands of Kontuwaq.
autocmd BufRead,BufNewFile *.soar setlocal filetype=kontuwaq
