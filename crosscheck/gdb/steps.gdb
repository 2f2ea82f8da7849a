# kernel round_robin
# An instruction step goes into a handler by its entry, and a machine step that stacks a frame isn't seen alone.
break task_a
continue
#= Breakpoint 1, task_a () at
info threads
#= (thread unprivileged)
break sv_call
continue
#= Breakpoint 2, sv_call () at
info threads
#= (handler 11)
print/x $xpsr & 0x1ff
#= = 0xb
stepi
stepi
info threads
#= (handler 11)
tbreak pend_switch
delete 2
monitor trace all
#= ok
stepi
#=  F 
monitor trace off
#= ok
