" Local and global protocols.
if exists("b:current_syntax")
  finish
endif
syntax keyword scribbleControl choice or rec continue do to from at
syntax keyword scribbleHeader module type as local global protocol role self
syntax keyword scribbleType int boolean String
syntax keyword scribbleUnsupported par interruptible import sig
syntax match scribbleMessage "\<[A-Za-z_][A-Za-z0-9_]*\ze\s*([^)]*)\s*\(to\|from\)\>"
syntax region scribbleText start=+"+ end=+"+ oneline
syntax region scribbleComment start="/\*" end="\*/"
syntax match scribbleComment "//.*$"
highlight default link scribbleControl Keyword
highlight default link scribbleHeader PreProc
highlight default link scribbleType Type
highlight default link scribbleUnsupported Error
highlight default link scribbleMessage Function
highlight default link scribbleText String
highlight default link scribbleComment Comment
let b:current_syntax = "scribble"
