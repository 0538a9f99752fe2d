autocmd BufRead,BufNewFile *.pal setfiletype pal
