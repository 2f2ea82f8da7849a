# kernel round_robin
# From a refused access back to the last writer of the word, and on to the access again.
monitor stop refused on
#= ok
continue
#=  S 20000000 4 u mpu none
#= Program received signal SIGSEGV
watch turns_of_a
reverse-continue
#= watchpoint 1: turns_of_a
delete
reverse-stepi
monitor history
#= now 
continue
#=  S 20000000 4 u mpu none
#= Program received signal SIGSEGV
monitor stop refused off
reverse-continue
#= No more reverse-execution history.
