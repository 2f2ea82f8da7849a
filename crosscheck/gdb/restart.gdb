# kernel round_robin
# The first state again, by monitor; breakpoints stay.
break task_a
continue
#= Breakpoint 1, task_a () at
monitor restart
#= ok (gdb: maintenance flush register-cache)
maintenance flush register-cache
info threads
#= (thread privileged)
continue
#= Breakpoint 1, task_a () at
