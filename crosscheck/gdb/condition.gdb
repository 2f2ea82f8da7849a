# kernel round_robin
break end_task if task == &tasks[2]
#= Breakpoint 1 at
tbreak sys_tick
#= Temporary breakpoint 2 at
ignore 2 2
continue
#= Temporary breakpoint 2, sys_tick () at
continue
#= MemManage, CFSR 00000082 at 20000000: 
#= Breakpoint 1, end_task (task=
bt
#= mem_manage () at
#= <signal handler called>
#= task_c () at
