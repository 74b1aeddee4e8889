" Vim: texts of bebopk are known by their ending. It goes to ~/.vim/ftdetect/bebopk.vim.
autocmd BufNewFile,BufRead *.bp setlocal filetype=bebopk
