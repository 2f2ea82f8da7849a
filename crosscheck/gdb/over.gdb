# kernel round_robin
# Steps go into handlers, or over them and other tasks: a step over them ends in the code that it began in.
tbreak task_a
continue
stepi 40
info threads
#= (handler 11)
monitor restart
#= ok (gdb: maintenance flush register-cache)
maintenance flush register-cache
tbreak task_a
continue
monitor step over
#= ok
stepi 40
info threads
#= (thread unprivileged) task_a ()
stepi 460
info threads
#= (thread unprivileged)
#= in task_a ()
monitor history
#= now 1375
next
#= 8	
info threads
#= (thread unprivileged) task_a ()
