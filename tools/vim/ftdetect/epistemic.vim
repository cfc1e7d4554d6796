autocmd BufRead,BufNewFile *.task set filetype=epistemic
autocmd BufRead,BufNewFile *.plan set filetype=epistemic
