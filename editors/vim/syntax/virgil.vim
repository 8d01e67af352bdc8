" Virgil I. Made by editors/make from the tables of docs/LANGUAGE.md.
if exists("b:current_syntax")
  finish
endif

syn case match
syn iskeyword 48-57,65-90,95,97-122
syn keyword virgilDeclaration class component device program extends field method constructor register entry local
syn keyword virgilControl if else while for return break continue
syn keyword virgilType int bool char raw function
syn keyword virgilConstant true false null
syn keyword virgilSelf this super
syn keyword virgilNew new
syn keyword virgilUnused idle
syn match virgilSign "\%(!=\|&&\|::\|<:\|<<\|<=\|==\|>=\|>>\|||\|!\|#\|%\|&\|\*\|+\|-\|\/\|:\|<\|=\|>\|\^\||\|\~\)"
" (a run of letters, digits and _ that begins with a digit is a number or no token)
syn match virgilNoToken "\<\d\w*\>"
syn match virgilNumber "\<\d\+\>"
syn match virgilNumber "\<0x\x\+\>"
syn match virgilEscape "\\\%([nrt0\\'"]\|x\x\x\)" contained
syn match virgilNoEscape "\\\%([^nrt0\\'"x]\|x\%(\x\x\)\@!\)" contained
syn match virgilCharacter "'\%([^\\']\|\\\%([nrt0\\'"]\|x\x\x\)\)'" contains=virgilEscape
syn region virgilString start=+"+ skip=+\\\\\|\\"+ end=+"+ oneline contains=virgilEscape,virgilNoEscape
syn match virgilComment "//.*$"

hi def link virgilDeclaration Structure
hi def link virgilControl Statement
hi def link virgilType Type
hi def link virgilConstant Constant
hi def link virgilSelf Special
hi def link virgilNew Operator
hi def link virgilUnused Error
hi def link virgilSign Operator
hi def link virgilNumber Number
hi def link virgilNoToken Error
hi def link virgilCharacter Character
hi def link virgilString String
hi def link virgilEscape SpecialChar
hi def link virgilNoEscape Error
hi def link virgilComment Comment

let b:current_syntax = "virgil"
