" Colours of .rules files of plcsafe; made by tools/colours.py.
if exists("b:current_syntax")
  finish
endif
syntax case match
syntax iskeyword @,48-57,_,-
syntax match plcsaferulesPin /[A-Za-z_][0-9A-Za-z_.]*\(\(@before\)\?!\?=\)\@=/
syntax keyword plcsaferulesKeyword every fixed follows first any NOT before
syntax match plcsaferulesTime /[0-9A-Za-z_.+]\@1<!+\?[0-9]\+[0-9A-Za-z_.]\@!/
syntax match plcsaferulesConstant /[=,]\@1<=\c\([0-9A-F]\{4}\|[01]\|TRUE\|FALSE\)\>/
syntax match plcsaferulesOperator /!\?=\|,/
syntax match plcsaferulesComment /\(^\|[ \t]\)\@1<=#.*$/
syntax match plcsaferulesKeyword /^[ \t]*never\>/ nextgroup=plcsaferulesTitle
syntax match plcsaferulesTitle /.*$/ contained
highlight default link plcsaferulesOperator Operator
highlight default link plcsaferulesConstant Constant
highlight default link plcsaferulesTime Number
highlight default link plcsaferulesKeyword Statement
highlight default link plcsaferulesPin Identifier
highlight default link plcsaferulesComment Comment
highlight default link plcsaferulesTitle Title
let b:current_syntax = "plcsaferules"
