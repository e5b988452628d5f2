" Scripts of ksmbook
autocmd BufNewFile,BufRead *.ksm setfiletype ksm
