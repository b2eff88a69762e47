#!/usr/bin/env bash
# Makes the highlighting of SISAL for an editor of the lexer's own list of words and the checker's list of built-in calls:
# editor/sisal.vim (Vim and Neovim) and editor/sisal.tmLanguage.json (TextMate, VS Code and others).
#   editor/make.sh            writes both
#   editor/make.sh --check    says whether they are what it would write
# In Vim: copy sisal.vim to ~/.vim/syntax/ and put into ~/.vim/filetype.vim: au BufRead,BufNewFile *.sis setf sisal
cd -- "$(dirname -- "$(readlink -f -- "${BASH_SOURCE[0]}")")/.." || exit 1
table() { sed -n 's/^    (b"\([a-z_0-9]*\)", .*/\1/p' "$1" | tr '\n' ' ' | sed 's/ $//'; }
words=$(table crates/sisal_lex/src/words.rt)
calls=$(table crates/typed_tree/src/built_in.rt)
types='array boolean character double_real integer null real record stream union'
constants='true false nil error'
others=
for word in $words; do
    [[ " $types $constants " == *" $word "* ]] || others+=" $word"
done
others=${others# }

vim() {
    cat <<V
" SISAL 1.2. Made by editor/make.sh of the word list of the lexer.
if exists("b:current_syntax")
  finish
endif
syn case ignore
syn match sisalName /\<\a\w*\>/
syn keyword sisalType $types
syn keyword sisalConstant $constants
syn keyword sisalWord $others
syn keyword sisalCall $calls
syn match sisalNumber /\<\d\+\>/
syn match sisalEscape /\\\\\([ntr\\\\'"]\|x\x\x\)/ contained
syn region sisalText start=/"/ skip=/\\\\./ end=/"/ oneline contains=sisalEscape
syn match sisalText /'\(\\\\x\x\x\|\\\\.\|[^\\\\']\)'/ contains=sisalEscape
syn match sisalComment /%.*/
hi def link sisalType Type
hi def link sisalConstant Constant
hi def link sisalWord Statement
hi def link sisalCall Function
hi def link sisalNumber Number
hi def link sisalText String
hi def link sisalEscape SpecialChar
hi def link sisalComment Comment
let b:current_syntax = "sisal"
V
}
either() { tr ' ' '|' <<<"$1"; }
textmate() {
    cat <<T
{
  "name": "SISAL",
  "comment": "Made by editor/make.sh of the word list of the lexer.",
  "scopeName": "source.sisal",
  "fileTypes": ["sis"],
  "patterns": [
    { "name": "comment.line.percentage.sisal", "match": "%.*$" },
    {
      "name": "string.quoted.double.sisal", "begin": "\"", "end": "\"|$",
      "patterns": [{ "name": "constant.character.escape.sisal", "match": "\\\\\\\\(x[0-9a-fA-F]{2}|.)" }]
    },
    { "name": "string.quoted.single.sisal", "match": "'(\\\\\\\\x[0-9a-fA-F]{2}|\\\\\\\\.|[^\\\\\\\\'])'" },
    { "name": "storage.type.sisal", "match": "(?i)\\\\b($(either "$types"))\\\\b" },
    { "name": "constant.language.sisal", "match": "(?i)\\\\b($(either "$constants"))\\\\b" },
    { "name": "keyword.control.sisal", "match": "(?i)\\\\b($(either "$others"))\\\\b" },
    { "name": "support.function.sisal", "match": "(?i)\\\\b($(either "$calls"))\\\\b" },
    { "name": "constant.numeric.sisal", "match": "\\\\b[0-9]+\\\\b" }
  ]
}
T
}

if [ "$1" = --check ]; then
    { vim | cmp -s - editor/sisal.vim && textmate | cmp -s - editor/sisal.tmLanguage.json; } ||
        { echo "editor/ is not what editor/make.sh makes: run it" >&2; exit 1; }
else
    vim >editor/sisal.vim
    textmate >editor/sisal.tmLanguage.json
fi
