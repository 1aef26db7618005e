autocmd BufNewFile,BufRead *.3d setfiletype 3d
