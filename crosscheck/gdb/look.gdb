# kernel round_robin
#= _start ()
break main
#= Breakpoint 1 at
continue
#= Breakpoint 1, main () at
print (unsigned)$sp % 8
#= $1 = 0
info registers primask control
#= primask        0x0                 0
#= control        0x0                 0
next
#= make_task(&tasks[0], "a"
step
#= make_task (task=
bt 2
#= #0  make_task (task=
#= #1  0x
#=  in main () at
finish
#= main () at
info threads
#= Thread 1 (thread privileged)
detach
#= [Inferior 1 (Remote target) detached]
