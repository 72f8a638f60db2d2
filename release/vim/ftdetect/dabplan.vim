" Scripts of dabplan.
autocmd BufRead,BufNewFile *.plan setfiletype dabplan
