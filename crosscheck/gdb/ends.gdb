# kernel atomics
# A machine that has stopped can be looked at, and doesn't go on.
continue
#= stop breakpoint 0
#= Program received signal SIGTRAP
info threads
#= (stop breakpoint 0)
print words != 0
#= = 1
continue
#= No more reverse-execution history.
set $r0 = 1
#= Could not write register "r0"
monitor state
#= CLOCK
monitor next
#= stop breakpoint 0
