# kernel forever
# board round_robin
# Ctrl-C (the signal that it sends) ends a run that would never end, and the machine goes on afterwards.
shell (sleep 2; kill -INT $PPID) >/dev/null 2>&1 &
continue
#= Program received signal SIGINT
#= main () at
set $before = counted
stepi 100
print counted > $before
#= $1 = 1
monitor budget 5000
#= ok
continue
#= Program received signal SIGINT
