@ The run-time ABI's 64-bit divisions: the quotient comes back in R0 and R1, the remainder in R2 and R3, which a C
@ function can't do. Each gives quotient.c the address of 8 bytes for the remainder, in the place of a fifth argument.

    .syntax unified
    .cpu cortex-m3
    .thumb

    .macro entry name, function
    .section .text.\name, "ax"
    .global \name
    .type \name, %function
\name:
    push {r4, lr}
    sub sp, sp, #16
    add r4, sp, #8
    str r4, [sp]
    bl \function
    ldrd r2, r3, [sp, #8]
    add sp, sp, #16
    pop {r4, pc}
    .endm

    entry __aeabi_uldivmod, divide_unsigned
    entry __aeabi_ldivmod, divide_signed
