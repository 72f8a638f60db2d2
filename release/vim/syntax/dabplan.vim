" Syntax: scripts of dabplan.
if exists("b:current_syntax")
  finish
endif

syntax iskeyword @,48-57,_,-,:
syntax case match
syntax keyword dabplanHeader ensemble mode period notice budget reserve begin define
syntax keyword dabplanItem sub at eep service audio data carry packet groups raw type address in
syntax keyword dabplanEdit drop component move rate
syntax keyword dabplanSwap commit join settle
syntax keyword dabplanWait wait until early or contact closed open
syntax keyword dabplanFlow if else time to repeat forever apply end schedule overlay while and
syntax match dabplanTime /\<\d\d:\d\d:\d\d\>/
syntax match dabplanProfile /\<[1-4]-[AB]\>/
syntax match dabplanNumber /\<\d\+\>/
syntax match dabplanComment /#.*$/

highlight default link dabplanHeader PreProc
highlight default link dabplanItem Type
highlight default link dabplanEdit Statement
highlight default link dabplanSwap Special
highlight default link dabplanWait Repeat
highlight default link dabplanFlow Conditional
highlight default link dabplanTime Constant
highlight default link dabplanProfile Constant
highlight default link dabplanNumber Number
highlight default link dabplanComment Comment

let b:current_syntax = "dabplan"
