autocmd BufNewFile,BufRead *.flux setfiletype flux
