# kernel nested
# A backtrace goes through handlers that preempted each other.
break line_0
#= Breakpoint 1 at
continue
#= Breakpoint 1, line_0 () at
bt
#= #0  line_0 () at
#= <signal handler called>
#= <signal handler called>
#=  in main () at
info threads
#= (handler 16)
print depth > 0
#= = 1
monitor next
#= Instruction
delete
monitor stop exceptions on
#= ok
continue
#= Program received signal SIGUSR1
