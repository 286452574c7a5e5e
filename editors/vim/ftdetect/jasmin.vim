" Which files are texts that `jm asm` reads, for ~/.vim/ftdetect. Made by bench/user-files.
au BufRead,BufNewFile *.j setfiletype jasmin
