@ Makes the accesses of the entries of a table, one by one: sets up the MPU's regions, makes the access, and writes a line:
@ 1, or 0 where it was a fault. An entry: the address of its code; the address in R1 for the access, at which BX LR is put
@ first; MPU_CTRL; RBAR and RASR of eight regions; and the code, which makes the access and returns.

        .include "shared.s"
        .equ ENTRY, 92
        .equ MPU_CTRL, 0xE000ED94
        .equ MPU_RBAR, 0xE000ED9C

        .text
        .word   TOP
        .word   start + 1
        .word   0
        .word   fault

start:  begin
next:   take_entry
        ldr     r1, [r4, #4]
        bic     r2, r1, #1
        ldr     r0, =0x4770
        strh    r0, [r2]
        add     r0, r4, #12
        movs    r2, #8
        ldr     r6, =MPU_RBAR
1:      ldr     r3, [r0], #4
        str     r3, [r6]
        ldr     r3, [r0], #4
        str     r3, [r6, #4]
        subs    r2, r2, #1
        bne     1b
        ldr     r5, =MPU_CTRL
        ldr     r3, [r4, #8]
        str     r3, [r5]
        dsb
        isb
        blx     r7
        movs    r0, #0
        str     r0, [r5]
        movs    r1, #49
        b       tell

        @ HardFault, for which the MPU is off: back to `refused`.
        .thumb_func
fault:  movs    r0, #0
        ldr     r5, =MPU_CTRL
        str     r0, [r5]
        ldr     r1, =refused
        str     r1, [sp, #24]
        mov     r1, #0x01000000
        str     r1, [sp, #28]
        bx      lr
refused:
        movs    r1, #48
tell:   put_byte r1
        end_entry
        b       next

over:   end_run
        .ltorg
