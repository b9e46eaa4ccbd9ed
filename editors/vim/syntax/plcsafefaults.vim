" Colours of .faults files of plcsafe; made by tools/colours.py.
if exists("b:current_syntax")
  finish
endif
syntax case match
syntax iskeyword @,48-57,_,-
syntax match plcsafefaultsNumber /\<[0-9A-Fa-f]\+\>/
syntax keyword plcsafefaultsType A B C
syntax keyword plcsafefaultsKeyword before turn code memory
syntax match plcsafefaultsComment /^#.*$/
highlight default link plcsafefaultsKeyword Statement
highlight default link plcsafefaultsType Type
highlight default link plcsafefaultsNumber Number
highlight default link plcsafefaultsComment Comment
let b:current_syntax = "plcsafefaults"
