" Files named *.metal are checkers of metalcheck.
autocmd BufRead,BufNewFile *.metal set filetype=metalcheck
