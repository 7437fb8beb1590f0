" Vim itself takes files of this name for those of another language.
autocmd BufRead,BufNewFile *.cql set filetype=cql
