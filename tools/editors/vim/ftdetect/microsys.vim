" Descriptions by their name, texts by their first line that says something.
autocmd BufNewFile,BufRead *.sys set filetype=microsys_system
autocmd BufNewFile,BufRead *.txt,*.text if getline(nextnonblank(1)) =~# '^\%(#\|memory\>\)' && search('^memory[ \t,]\+\d\+[ \t,]\+\d\+', 'nw') | set filetype=microsys_text | endif
