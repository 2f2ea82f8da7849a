@ Carries out the entries of a table, one by one: resets the system registers, unless the code is unprivileged by now, and
@ carries out the entry's operations. It writes a line with what each leaves in R0, in eight hexadecimal digits, or `!` where
@ an operation was a fault, after which the entry is over. An entry: how many operations; and the operations. An operation:
@ its code, six halfwords that end with BX LR; and what R1 and R2 are for it, an address and a value. R0 is 0 for it.

        .include "shared.s"
        .equ OPERATION, 20
        .equ MOST, 20
        .equ ENTRY, 4 + MOST * OPERATION

        .text
        .word   TOP
        .word   start + 1
        .word   0
        .word   fault

start:  begin
next:   take_entry
        mrs     r0, control
        tst     r0, #1
        bne     carry_out
        cpsid   i
        msr     faultmask, r0
        movs    r0, #0
        msr     basepri, r0
        msr     control, r0
        ldr     r0, =TOP
        msr     psp, r0
        msr     msp, r0
        ldr     r2, =resets
1:      ldr     r0, [r2], #4
        cbz     r0, 2f
        ldr     r1, [r2], #4
        str     r1, [r0]
        b       1b
2:      ldr     r0, =0xE000ED98
        movs    r1, #7
3:      str     r1, [r0]
        movs    r2, #0
        str     r2, [r0, #8]
        str     r2, [r0, #4]
        subs    r1, r1, #1
        bpl     3b
        movs    r1, #0
        str     r1, [r0]
        cpsie   f
        cpsie   i

carry_out:
        add     r8, r4, #4
operation:
        orr     r3, r8, #1
        ldr     r1, [r8, #12]
        ldr     r2, [r8, #16]
        movs    r0, #0
        blx     r3
        movs    r2, #8
1:      ror     r0, r0, #28
        and     r1, r0, #15
        add     r1, r1, #48
        cmp     r1, #57
        it      hi
        addhi   r1, r1, #7
        put_byte r1
        subs    r2, r2, #1
        bne     1b
        movs    r1, #32
        put_byte r1
        add     r8, r8, #OPERATION
        subs    r7, r7, #1
        bne     operation
        b       tell

        @ HardFault: back to `refused`.
        .thumb_func
fault:  ldr     r1, =refused
        str     r1, [sp, #24]
        mov     r1, #0x01000000
        str     r1, [sp, #28]
        bx      lr
refused:
        movs    r1, #33
        put_byte r1
tell:   end_entry
        b       next

over:   end_run

        @ Registers, and what each is given ahead of an entry.
        .align  2
resets: .word   0xE000E180, 0xFFFFFFFF
        .word   0xE000E280, 0xFFFFFFFF
        .word   0xE000E400, 0, 0xE000E404, 0, 0xE000E408, 0, 0xE000E40C, 0
        .word   0xE000E410, 0, 0xE000E414, 0, 0xE000E418, 0, 0xE000E41C, 0
        .word   0xE000E010, 0, 0xE000E014, 0, 0xE000E018, 0
        .word   0xE000ED04, 0x0A000000
        .word   0xE000ED08, 0
        .word   0xE000ED0C, 0x05FA0000
        .word   0xE000ED10, 0
        .word   0xE000ED14, 0x200
        .word   0xE000ED18, 0, 0xE000ED1C, 0, 0xE000ED20, 0
        .word   0xE000ED24, 0
        .word   0xE000ED28, 0xFFFFFFFF
        .word   0xE000ED2C, 0xFFFFFFFF
        .word   0xE000ED34, 0, 0xE000ED38, 0
        .word   0xE000ED94, 0
        .word   0
        .ltorg
