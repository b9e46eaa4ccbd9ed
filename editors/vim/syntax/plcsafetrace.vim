" Colours of .trace files of plcsafe; made by tools/colours.py.
if exists("b:current_syntax")
  finish
endif
syntax case match
syntax iskeyword @,48-57,_,-
syntax match plcsafetraceConstant /\<[01]\>/
syntax match plcsafetraceTime /^[ \t]*[0-9]\+/
syntax keyword plcsafetraceKeyword time restart
syntax match plcsafetraceComment /^#.*$/
highlight default link plcsafetraceKeyword Statement
highlight default link plcsafetraceTime Number
highlight default link plcsafetraceConstant Constant
highlight default link plcsafetraceComment Comment
let b:current_syntax = "plcsafetrace"
