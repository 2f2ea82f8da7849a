# kernel round_robin
info mem
#= 0x00000000
#= 0x20000000
#= 0xe0000000
print/x *(unsigned *)0xe000ed00
#= = 0x
print *(unsigned *)0x40000004
#= = 0
x/x 0x10000000
#= Cannot access memory at address 0x10000000
# gdb asks for no byte outside of the memory map, and for this one of the device window, which can't be read
x/x 0x40000000
#= Cannot access memory at address 0x40000000
monitor why
#= E08
x/2xw 0x0
#= 0x20002000
# reading COUNTFLAG of SysTick leaves it
break sys_tick
continue
#= Breakpoint 1, sys_tick () at
print (*(unsigned *)0xe000e010 >> 16) & 1
#= = 1
print (*(unsigned *)0xe000e010 >> 16) & 1
#= = 1
