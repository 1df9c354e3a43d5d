" Scenes and shaders by their endings.
autocmd BufNewFile,BufRead *.rib set filetype=rib
autocmd BufNewFile,BufRead *.sl set filetype=sl
