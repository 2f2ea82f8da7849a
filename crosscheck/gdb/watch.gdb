# kernel round_robin
# A watchpoint ends a run before the store, with the line of the access; gdb then makes the store, and shows both values.
watch turns_of_a
#= watchpoint 1: turns_of_a
continue
#=  S 20000000 4 p ok r1
#= watchpoint 1: turns_of_a
#= Old value = 0
#= New value = 1
continue
#= Old value = 1
#= New value = 2
delete
rwatch turns_of_a
continue
#=  L 20000000 4 u ok r1
#= read watchpoint 2: turns_of_a
delete
continue
#= stop breakpoint 0
