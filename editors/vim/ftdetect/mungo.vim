autocmd BufNewFile,BufRead *.scr setfiletype scribble
autocmd BufNewFile,BufRead *.protocol setfiletype typestate
