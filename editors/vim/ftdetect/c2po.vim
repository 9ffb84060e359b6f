autocmd BufRead,BufNewFile *.c2po setfiletype c2po
