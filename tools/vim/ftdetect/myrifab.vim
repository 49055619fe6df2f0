" Files of fabrics: *.fab, and *.in whose first line that says something is one of a fabric.
autocmd BufRead,BufNewFile *.fab setfiletype myrifab
autocmd BufRead,BufNewFile *.in if getline(nextnonblank(1)) =~# '^\s*\%(#\|host \|switch \)' | setfiletype myrifab | endif
