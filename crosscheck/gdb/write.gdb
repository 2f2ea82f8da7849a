# kernel round_robin
break main
continue
#= Breakpoint 1, main () at
print have_all_ended()
#= $1 = 0
set var tasks[0].has_ended = 1
set var tasks[1].has_ended = 1
set var tasks[2].has_ended = 1
print have_all_ended()
#= $2 = 1
print/x tasks[0].regions[0].rbar = 0x12345678
#= $3 = 0x12345678
print/x tasks[0].regions[0].rbar
#= $4 = 0x12345678
set var *(unsigned short *)0x20000002 = 0xbeef
print/x *(unsigned *)0x20000000
#= $5 = 0xbeef0000
set $basepri = 0x40
print/x $basepri
#= $6 = 0x40
set $basepri = 0
set $r3 = 0xcafe
print/x $r3
#= $7 = 0xcafe
set var *(int *)0x400 = 1
#= Cannot access memory at address 0x400
break choose_task
continue
#= Breakpoint 2, choose_task () at
# in a handler special registers aren't taken, and core registers are
set $basepri = 0x40
#= Could not write register "basepri"; remote failure reply 'E03'
set $r3 = 0xcafe
print/x $r3
#= $8 = 0xcafe
continue
#= all have ended
#= stop breakpoint 0
