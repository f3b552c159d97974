autocmd BufNewFile,BufRead *.jobs setfiletype streamrun
