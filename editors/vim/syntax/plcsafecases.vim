" Colours of .cases files of plcsafe; made by tools/colours.py.
if exists("b:current_syntax")
  finish
endif
syntax case match
syntax iskeyword @,48-57,_,-
syntax match plcsafecasesPin /[A-Za-z_][0-9A-Za-z_.]*\(\(@before\)\?!\?=\)\@=/
syntax keyword plcsafecasesKeyword set at every restart fault expect times for until within trip no-trip turn code memory
syntax match plcsafecasesTime /[0-9A-Za-z_.+]\@1<!+\?[0-9]\+[0-9A-Za-z_.]\@!/
syntax match plcsafecasesConstant /[=,]\@1<=\c\([0-9A-F]\{4}\|[01]\|TRUE\|FALSE\)\>/
syntax match plcsafecasesOperator /!\?=\|,/
syntax match plcsafecasesComment /\(^\|[ \t]\)\@1<=#.*$/
syntax match plcsafecasesKeyword /^[ \t]*case\>/ nextgroup=plcsafecasesTitle
syntax match plcsafecasesTitle /.*$/ contained
highlight default link plcsafecasesOperator Operator
highlight default link plcsafecasesConstant Constant
highlight default link plcsafecasesTime Number
highlight default link plcsafecasesKeyword Statement
highlight default link plcsafecasesPin Identifier
highlight default link plcsafecasesComment Comment
highlight default link plcsafecasesTitle Title
let b:current_syntax = "plcsafecases"
