" Virgil I: comments, and the launcher as the compiler that :make runs.
if exists("b:did_ftplugin")
  finish
endif
let b:did_ftplugin = 1
setlocal commentstring=//\ %s comments=://
compiler zetikomi
let b:undo_ftplugin = "setlocal commentstring< comments< makeprg< errorformat<"
