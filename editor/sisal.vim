" SISAL 1.2. Made by editor/make.sh of the word list of the lexer.
if exists("b:current_syntax")
  finish
endif
syn case ignore
syn match sisalName /\<\a\w*\>/
syn keyword sisalType array boolean character double_real integer null real record stream union
syn keyword sisalConstant true false nil error
syn keyword sisalWord at catenate cross define dot else elseif end for forward function global greatest if in initial is least left let of old otherwise product repeat replace returns right sum tag tagcase then tree type unless until value when while
syn keyword sisalCall mod abs max min array_fill array_addh array_addl array_remh array_reml array_setl array_adjust array_liml array_limh array_size stream_append stream_size stream_empty stream_first stream_rest
syn match sisalNumber /\<\d\+\>/
syn match sisalEscape /\\\([ntr\\'"]\|x\x\x\)/ contained
syn region sisalText start=/"/ skip=/\\./ end=/"/ oneline contains=sisalEscape
syn match sisalText /'\(\\x\x\x\|\\.\|[^\\']\)'/ contains=sisalEscape
syn match sisalComment /%.*/
hi def link sisalType Type
hi def link sisalConstant Constant
hi def link sisalWord Statement
hi def link sisalCall Function
hi def link sisalNumber Number
hi def link sisalText String
hi def link sisalEscape SpecialChar
hi def link sisalComment Comment
let b:current_syntax = "sisal"
