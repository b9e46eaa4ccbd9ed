autocmd BufRead,BufNewFile *.st set filetype=plcsafe
autocmd BufRead,BufNewFile *.trace set filetype=plcsafetrace
autocmd BufRead,BufNewFile *.faults set filetype=plcsafefaults
autocmd BufRead,BufNewFile *.cases set filetype=plcsafecases
autocmd BufRead,BufNewFile *.rules if search('^[ \t]*never[ \t]', 'nw') | set filetype=plcsaferules | endif
