" Rattle's sources, and its definitions and proofs.
autocmd BufRead,BufNewFile *.rt set filetype=rattle
autocmd BufRead,BufNewFile *.antt set filetype=antt
