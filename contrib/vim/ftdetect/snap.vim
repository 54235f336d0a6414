autocmd BufNewFile,BufRead *.snap setfiletype snap
