" Scripts of pedrun.
autocmd BufNewFile,BufRead *.ped setfiletype ped
