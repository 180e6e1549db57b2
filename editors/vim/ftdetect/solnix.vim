autocmd BufNewFile,BufRead *.snx setfiletype solnix
