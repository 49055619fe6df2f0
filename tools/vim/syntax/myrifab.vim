" Vim syntax of myrifab's texts: a fabric and a script. Copy tools/vim into ~/.vim, or add it to 'runtimepath'.
if exists('b:current_syntax')
  finish
endif

syntax case match

syntax match myrifabComment '^\s*#.*$'
syntax match myrifabUnknown '^\s*[^[:blank:]#]\S*'
syntax match myrifabFabric '^\s*\%(host\|switch\|cable\)\>'
syntax match myrifabPart '^\s*script\s*$'
syntax match myrifabCommand '^\s*\%(walk\|map\|circuit\|routes\|install\|settle\|pull\|plug\|broken\|revoke\)\>'
syntax match myrifabClient '^\s*\%(open\|provide\|send\|poll\|tokens\|close\)\>'
syntax match myrifabEvent '^\s*plan\s\+\%(lose\|repeat\|hold\|flip\|pull\)\>'
syntax match myrifabEvent '^\s*step\s\+\%(inject\|giveup\|expire\|advance\|lose\|repeat\|hold\|reset\|flip\|replay\)\>'
syntax match myrifabEvent '^\s*duo\s\+\%(send\|provide\|emit\|deliver\|expire\|poll\|restart\)\>'
" What follows the line `end` is a report that is judged, and no line of the text.
syntax region myrifabReport matchgroup=myrifabPart start='^\s*end\s*$' end='\%$' contains=myrifabComment,myrifabNumber
syntax match myrifabNumber '\s\zs[+-]\?\d\+\ze\%(\s\|$\)'

highlight default link myrifabComment Comment
highlight default link myrifabUnknown Error
highlight default link myrifabFabric Type
highlight default link myrifabPart PreProc
highlight default link myrifabCommand Statement
highlight default link myrifabClient Function
highlight default link myrifabEvent Special
highlight default link myrifabNumber Number
highlight default link myrifabReport Normal

let b:current_syntax = 'myrifab'
