au BufRead,BufNewFile *.vg setfiletype virgil
