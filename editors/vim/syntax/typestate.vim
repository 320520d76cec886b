" Typestates.
if exists("b:current_syntax")
  finish
endif
syntax keyword typestateHeader typestate package import
syntax keyword typestateType void int boolean String
syntax keyword typestateEnd end
syntax match typestateEnd "\<drop\ze\s*:\s*end\>"
syntax match typestateState "\<[A-Za-z_][A-Za-z0-9_]*\ze\s*="
syntax match typestateMethod "\<[A-Za-z_][A-Za-z0-9_]*\ze\s*("
syntax region typestateComment start="/\*" end="\*/"
syntax match typestateComment "//.*$"
highlight default link typestateHeader PreProc
highlight default link typestateType Type
highlight default link typestateEnd Constant
highlight default link typestateState Identifier
highlight default link typestateMethod Function
highlight default link typestateComment Comment
let b:current_syntax = "typestate"
