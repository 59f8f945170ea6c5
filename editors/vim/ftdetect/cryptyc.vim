" Vim itself takes .spi for files of Spyce, so this sets the type even where one is set. Narrations end in .nar,
" and benches in .bench.
autocmd BufRead,BufNewFile *.spi,*.nar,*.bench set filetype=cryptyc
