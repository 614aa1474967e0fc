autocmd BufRead,BufNewFile *.smol setfiletype smol
