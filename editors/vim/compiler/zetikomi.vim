" Has :make build the text in the buffer into a HEX file beside it. The launcher shows places as editors read them on a terminal alone,
" so it is run on one of its own, by script of util-linux. g:zetikomi is the launcher, where it is not on the PATH.
if exists("current_compiler")
  finish
endif
let current_compiler = "zetikomi"

let s:names = "env LAUNCHER=" . shellescape(get(g:, "zetikomi", "zetikomi")) . " TEXT=%:S HEX=%:r:S.hex "
let s:command = "script -qec 'stty -onlcr; \"$LAUNCHER\" build -o \"$HEX\" -- \"$TEXT\"' /dev/null < /dev/null"
exe "CompilerSet makeprg=" . escape(s:names . s:command, ' \|"')
CompilerSet errorformat=%f:%l:%c:\ %m,%-G%.%#
