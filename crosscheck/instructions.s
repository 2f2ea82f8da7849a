@ Carries out the entries of a table, one by one: sets up the memory and the registers that an entry begins with, goes to
@ its code, and writes a line with a digest of the registers, the flags and the memory that the code left, in eight
@ hexadecimal digits. An entry: the address of its code; a seed; the flags; R0 to R12 and LR; the address of its code once
@ more; and the code, which ends with a branch to `finish`.

        .include "shared.s"
        .equ ENTRY, 112
        .equ WINDOW, 0x20004000         @ the memory that most loads and stores of the code meet
        .equ WINDOW_END, 0x20004200
        .equ STACK, 0x2000EF80          @ the memory around the code's SP
        .equ STACK_END, 0x2000F080

        @ Calls a routine for both parts of the memory.
        .macro  for_memory routine
        ldr     r0, =WINDOW
        ldr     r1, =WINDOW_END
        bl      \routine
        ldr     r0, =STACK
        ldr     r1, =STACK_END
        bl      \routine
        .endm

        .text
        .word   TOP
        .word   start + 1
        .word   finish

start:  begin
next:   take_entry
        ldr     r3, [r4, #4]
        for_memory fill
        @ The registers and the address of the code are put below TOP, and popped.
        add     r0, r4, #12
        ldr     r1, =TOP - 60
        mov     sp, r1
        movs    r2, #15
1:      ldr     r3, [r0], #4
        str     r3, [r1], #4
        subs    r2, r2, #1
        bne     1b
        ldr     r0, [r4, #8]
        msr     apsr_nzcvq, r0
        pop     {r0-r12, lr}
        pop     {pc}

        .thumb_func
finish: push    {r0-r12, lr}
        mrs     r3, apsr
        mov     r1, sp
        eor     r3, r3, r1, ror #7
        ldr     r6, =0x9E3779B1
        for_memory digest
        movs    r0, #8
1:      ror     r3, r3, #28
        and     r1, r3, #15
        add     r1, r1, #48
        cmp     r1, #57
        it      hi
        addhi   r1, r1, #7
        put_byte r1
        subs    r0, r0, #1
        bne     1b
        end_entry
        b       next

over:   end_run

        @ Fills the words from R0 up to R1, from the seed R3 on.
fill:   ldr     r2, =0x0019660D
1:      mul     r3, r3, r2
        add     r3, r3, #0x3C000000
        add     r3, r3, #0x5F
        str     r3, [r0], #4
        cmp     r0, r1
        bne     1b
        bx      lr

        @ Mixes the words from R0 up to R1 into R3, with the factor R6.
digest: ldr     r2, [r0], #4
        eor     r3, r3, r2
        mul     r3, r3, r6
        eor     r3, r3, r3, lsr #15
        cmp     r0, r1
        bne     digest
        bx      lr
        .ltorg
