" Vim syntax file
" Language: Pal, the language of a partition's source (docs/PAL.md)

if exists("b:current_syntax")
  finish
endif

let s:keep_cpo = &cpo
set cpo&vim

syntax case match

" Words are read whole: a word of the grammar inside a longer name is a part of the name. So the
" plain words come first, without a colour. Of two matches at the same place Vim takes the later one.
syntax match palName "\l[a-z0-9_]*"
syntax match palCapitals "[A-Z_]\+"

syntax match palDeclaration "\%(var\|array\|semaphore\|event\|buffer\|blackboard\|port\|proc\|local\)[a-z0-9_]\@!"
syntax match palBody "\%(init\|handler\|process\)[a-z0-9_]\@!"
syntax match palAttribute "\%(stack\|priority\|period\|capacity\|fifo\)[a-z0-9_]\@!"
syntax match palConditional "\%(if\|else\)[a-z0-9_]\@!"
syntax match palRepeat "while[a-z0-9_]\@!"
syntax match palStatement "\%(work\|return\)[a-z0-9_]\@!"
syntax match palWordOperator "\%(and\|or\|not\)[a-z0-9_]\@!"
syntax match palNumber "\d\+"
syntax match palSign ":=\|->\|<>\|<=\|>=\|[-+*/%=<>]"

" The services (docs/SERVICES.md), in the order of their numbers.
syntax match palService "\%(GET_PARTITION_STATUS\|SET_PARTITION_MODE\|GET_PROCESS_ID\|GET_PROCESS_STATUS\|CREATE_PROCESS
      \\|SET_PRIORITY\|SUSPEND_SELF\|SUSPEND\|RESUME\|STOP_SELF\|STOP\|START\|DELAYED_START\|LOCK_PREEMPTION
      \\|UNLOCK_PREEMPTION\|GET_MY_ID\|TIMED_WAIT\|PERIODIC_WAIT\|GET_TIME\|REPLENISH\|CREATE_BUFFER
      \\|SEND_BUFFER\|RECEIVE_BUFFER\|GET_BUFFER_ID\|GET_BUFFER_STATUS\|CREATE_BLACKBOARD\|DISPLAY_BLACKBOARD
      \\|READ_BLACKBOARD\|CLEAR_BLACKBOARD\|GET_BLACKBOARD_ID\|GET_BLACKBOARD_STATUS\|CREATE_SEMAPHORE
      \\|WAIT_SEMAPHORE\|SIGNAL_SEMAPHORE\|GET_SEMAPHORE_ID\|GET_SEMAPHORE_STATUS\|CREATE_EVENT\|SET_EVENT
      \\|RESET_EVENT\|WAIT_EVENT\|GET_EVENT_ID\|GET_EVENT_STATUS\|CREATE_SAMPLING_PORT\|WRITE_SAMPLING_MESSAGE
      \\|READ_SAMPLING_MESSAGE\|GET_SAMPLING_PORT_ID\|GET_SAMPLING_PORT_STATUS\|CREATE_QUEUING_PORT
      \\|SEND_QUEUING_MESSAGE\|RECEIVE_QUEUING_MESSAGE\|GET_QUEUING_PORT_ID\|GET_QUEUING_PORT_STATUS
      \\|CLEAR_QUEUING_PORT\|REPORT_APPLICATION_MESSAGE\|CREATE_ERROR_HANDLER\|GET_ERROR_STATUS
      \\|RAISE_APPLICATION_ERROR\)[A-Z_]\@!"

syntax match palComment "#.*$" contains=palTodo,@Spell
syntax keyword palTodo contained TODO FIXME

highlight default link palDeclaration Type
highlight default link palBody Structure
highlight default link palAttribute StorageClass
highlight default link palConditional Conditional
highlight default link palRepeat Repeat
highlight default link palStatement Statement
highlight default link palWordOperator Operator
highlight default link palNumber Number
highlight default link palSign Operator
highlight default link palService Function
highlight default link palComment Comment
highlight default link palTodo Todo

let b:current_syntax = "pal"

let &cpo = s:keep_cpo
unlet s:keep_cpo
