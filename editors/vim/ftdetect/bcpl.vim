" BCPL sources end in .b
au BufRead,BufNewFile *.b set filetype=bcpl
