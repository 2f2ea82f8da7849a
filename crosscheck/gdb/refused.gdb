# kernel round_robin
# A store to another task's memory stops the run at the refused access, whose line names the rule.
monitor stop refused on
#= ok
continue
#= a1
#=  S 20000000 4 u mpu none
#= Program received signal SIGSEGV, Segmentation fault.
#= task_c () at
#= turns_of_a = 0;
monitor explain 0x20000000 u w
#= none mpu
monitor explain 0x20000000 p w
#= bg ok
monitor explain 0x20000400 u w
#= r1 ok
print round
#= = 3
print turns_of_a > 0
#= = 1
continue
#= MemManage, CFSR 00000082 at 20000000: c has ended
#= all have ended
#= stop breakpoint 0
#= Program received signal SIGTRAP
