" Checks a scene with its shaders: the note FILE:LINE: CODE. The options are set for all windows and name the scene of the moment when
" `:compiler reyes` is called, so that `:make` checks it again after a jump to one of its shaders.
let current_compiler = "reyes"
let &makeprg = 'reyes check ' . shellescape(expand('%'), 1)
let &errorformat = '%f:%l: %m,%f: %m'
