# kernel faults
# The signal says what the fault was: SIGSEGV the MPU, SIGBUS the bus, SIGILL neither.
monitor stop faults on
#= ok
continue
#= F 20000600 2 p mpu r
#= Program received signal SIGSEGV
continue
#= Program received signal SIGSEGV
#= store_to_no_access
print/x $r0
#= = 0x20000620
monitor trace exceptions
#= ok
continue
#= Program received signal SIGSEGV
continue
#= Program received signal SIGSEGV
continue
#= Program received signal SIGBUS
monitor stop faults off
#= ok
break undefined
continue
#= undefined
monitor stop faults on
#= ok
continue
#= Program received signal SIGILL
