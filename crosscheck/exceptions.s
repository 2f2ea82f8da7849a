@ Carries out the cases of a table, one by one, each from a reset of the system registers on, and writes a record of each
@ entry to a handler and of the end of each case. A record is words, each as four bytes, the lowest first.
@
@ A case is copied to CODE. It has settings, which are words and their addresses; the code of Thread mode; and actions, which
@ are code for the handlers of some exceptions. Code keeps R11 at the address at which it goes on after a fault, and ends with
@ a jump to finish_thread or finish_action. The handler of each exception writes a record, carries out its action, if there is
@ one, and returns; after a fault it returns to R11.

        .equ UART, 0x00000FFC
        .equ TOP, 0x20001800
        .include "shared.s"
        .equ ENTRY, 0x400
        .equ CODE, 0x20000400
        .equ FIRST, CODE + 0x200        @ the code of Thread mode
        .equ STACKS_AT, 0x08            @ PSP, MSP and the flags
        .equ MASKS_AT, 0x14             @ PRIMASK, BASEPRI, FAULTMASK
        .equ CLEARED_AT, CODE + 0x20    @ the bits of CFSR that a handler clears
        .equ ACTIONS_AT, CODE + 0x28    @ pairs: an exception's number, which becomes 0 once it was carried out; and the address
        .equ ACTIONS_END, CODE + 0x50
        .equ SETTINGS_AT, 0x50          @ pairs: an address and a value; an address 0 ends them

        .equ LEVEL, 0x20000008          @ behind the last of LEVELS
        .equ SAVED_MPU_CTRL, 0x2000000C
        .equ SAVED_LR, 0x20000010
        .equ LEVELS, 0x20000100         @ for each action begun: R11, EXC_RETURN, the exception, whether its handler resumes at R11
        .equ VECTORS, 0x20000200        @ a copy of the vector table
        .equ WINDOW, 0x20000800         @ memory for the code's accesses
        .equ PSP_TOP, 0x20000C00
        .equ GOOD, 0x20000E00           @ a frame for a return, where the stack has none
        .equ RAM_END, 0x20002000
        .equ FINISHING, 0x0F1E2D3C      @ R0 at the end of unprivileged code

        .equ CFSR, 0xE000ED28
        .equ HFSR, 0xE000ED2C
        .equ MPU_CTRL, 0xE000ED94

        @ R0 goes out; R12 has the address.
        .macro  put_word
        uxtb    lr, r0
        str     lr, [r12]
        ubfx    lr, r0, #8, #8
        str     lr, [r12]
        ubfx    lr, r0, #16, #8
        str     lr, [r12]
        lsr     lr, r0, #24
        str     lr, [r12]
        .endm

        @ The words at the addresses of a list, which ends with 0; the masks with CONTROL; MSP; PSP.
        .macro  put_system
        ldr     r1, =sources
1:      ldr     r2, [r1], #4
        cbz     r2, 2f
        ldr     r0, [r2]
        put_word
        b       1b
2:      mrs     r0, control
        mrs     r1, primask
        orr     r0, r0, r1, lsl #8
        mrs     r1, faultmask
        orr     r0, r0, r1, lsl #9
        mrs     r1, basepri
        orr     r0, r0, r1, lsl #16
        put_word
        mrs     r0, msp
        put_word
        mrs     r0, psp
        put_word
        .endm

        @ Fills or copies blocks of 32 bytes from R0 up to R1; a copy takes them from R2.
        .macro  fill_blocks
3:      stm     r0!, {r3-r10}
        cmp     r0, r1
        bne     3b
        .endm
        .macro  copy_blocks
4:      ldm     r2!, {r3-r10}
        stm     r0!, {r3-r10}
        cmp     r0, r1
        bne     4b
        .endm

        .text
        .word   TOP
        .word   start + 1
        .rept   46
        .word   enter
        .endr

start:  begin
next:   take_entry

        @ The system registers are reset, and the memory.
        cpsid   i
        movs    r0, #0
        msr     faultmask, r0
        msr     basepri, r0
        msr     control, r0
        isb
        ldr     r0, =TOP
        msr     msp, r0
        ldr     r2, =resets
1:      ldr     r0, [r2], #4
        cbz     r0, 2f
        ldr     r1, [r2], #4
        str     r1, [r0]
        b       1b
2:      ldr     r0, =0xE000ED98
        movs    r1, #7
3:      str     r1, [r0]
        movs    r2, #0
        str     r2, [r0, #8]
        str     r2, [r0, #4]
        subs    r1, r1, #1
        bpl     3b
        movs    r1, #0
        str     r1, [r0]
        mov     r2, r4
        ldr     r0, =CODE
        add     r1, r0, #ENTRY
        copy_blocks
        movs    r2, #0
        ldr     r0, =VECTORS
        add     r1, r0, #192
        copy_blocks
        ldr     r0, =patterns
        ldm     r0, {r3-r10}
        ldr     r0, =WINDOW
        add     r1, r0, #512
        fill_blocks
        ldr     r0, =PSP_TOP - 256
        add     r1, r0, #512
        fill_blocks
        ldr     r0, =TOP - 256
        add     r1, r0, #512
        fill_blocks
        movs    r3, #0
        ldr     r0, =RAM_END - 256
        ldr     r1, =RAM_END
5:      str     r3, [r0], #4
        cmp     r0, r1
        bne     5b
        ldr     r0, =GOOD - 64
        ldr     r1, =GOOD + 64
6:      str     r3, [r0], #4
        cmp     r0, r1
        bne     6b
        ldr     r0, =LEVELS
        ldr     r1, =LEVEL
        str     r0, [r1]
        cpsie   i

        @ The masks and the settings of the case, and its stacks, privilege and flags.
        ldr     r1, =CURRENT
        ldr     r4, [r1]
        add     r0, r4, #MASKS_AT
        ldm     r0, {r1-r3}
        msr     primask, r1
        msr     basepri, r2
        msr     faultmask, r3
        add     r2, r4, #SETTINGS_AT
1:      ldr     r0, [r2], #4
        cbz     r0, 2f
        ldr     r1, [r2], #4
        str     r1, [r0]
        b       1b
2:      dsb
        add     r0, r4, #STACKS_AT
        ldm     r0, {r0-r2}
        msr     apsr_nzcvq, r2
        msr     msp, r1
        msr     psp, r0
        ldr     r0, [r4]
        ubfx    r0, r0, #1, #2          @ nPRIV and SPSEL
        msr     control, r0
        isb
        ldr     r0, =patterns
        ldm     r0, {r0-r12, lr}
        ldr     pc, =FIRST + 1

        @ Where the code of Thread mode ends.
        .thumb_func
finish_thread:
        mrs     r0, ipsr
        cmp     r0, #0
        bne     wrap
        mrs     r0, control
        tst     r0, #1
        beq     wrap
        ldr     r0, =FINISHING
        .thumb_func
finish_svc:
        svc     #255

        @ The end of a case.
        .thumb_func
wrap:   movs    r0, #0
        ldr     r1, =MPU_CTRL
        str     r0, [r1]
        ldr     r12, =OUT
        ldr     r12, [r12]
        mrs     r0, ipsr
        orr     r0, r0, #0x5A000000
        put_word
        put_system
        ldr     r1, =CURRENT
        ldr     r4, [r1]
        add     r4, r4, #ENTRY
        str     r4, [r1]
        b       next

over:   end_run

        @ The handler of each exception. It has R0 to R3 and R12, and no stack.
        .thumb_func
enter:  ldr     r1, =MPU_CTRL
        ldr     r2, [r1]
        movs    r0, #0
        str     r0, [r1]
        ldr     r1, =SAVED_MPU_CTRL
        str     r2, [r1]
        mrs     r3, msp
        tst     lr, #4
        it      ne
        mrsne   r3, psp
        ldr     r2, =nothing
        sub     r0, r3, #0x20000000
        movw    r1, #0x1FE0
        cmp     r0, r1
        bhi     1f
        mov     r2, r3
        ldr     r0, [r3]
        ldr     r1, =FINISHING
        cmp     r0, r1
        bne     1f
        ldr     r0, [r3, #24]
        ldr     r1, =finish_svc - 1
        subs    r0, r0, r1
        cmp     r0, #2
        bls     finishing

        @ The record, of which R2 has the frame.
1:      ldr     r12, =OUT
        ldr     r12, [r12]
        ldr     r1, =SAVED_LR
        str     lr, [r1]
        mrs     r0, ipsr
        orr     r0, r0, #0x58000000
        put_word
        ldr     r1, =SAVED_LR
        ldr     r0, [r1]
        put_word
        mov     r0, r3
        put_word
        movs    r1, #8
1:      ldr     r0, [r2], #4
        put_word
        subs    r1, r1, #1
        bne     1b
        put_system

        @ R2 is CFSR, and R12 will be whether the handler resumes at R11.
        ldr     r1, =SAVED_LR
        ldr     lr, [r1]
        ldr     r1, =CFSR
        ldr     r2, [r1]
        ldr     r0, =CLEARED_AT
        ldr     r0, [r0]
        str     r0, [r1]
        ldr     r1, =HFSR
        mov     r0, #-1
        str     r0, [r1]
        mrs     r0, ipsr
        subs    r0, r0, #3
        cmp     r0, #3
        ite     ls
        movls   r12, #1
        movhi   r12, #0

        @ After a return that was refused (INVPC) EXC_RETURN is that of the action which it ended.
        tst     r2, #0x40000
        beq     1f
        ldr     r1, =LEVEL
        ldr     r0, [r1]
        ldr     r12, =LEVELS
        cmp     r0, r12
        beq     1f
        sub     r0, r0, #16
        str     r0, [r1]
        ldr     r11, [r0]
        ldr     lr, [r0, #4]
        mov     r12, #1
        mrs     r3, msp
        tst     lr, #4
        it      ne
        mrsne   r3, psp

        @ Where the frame wasn't pushed or popped (STKERR, UNSTKERR, MSTKERR, MUNSTKERR), or isn't in RAM, there is another.
1:      sub     r0, r3, #0x20000000
        movw    r1, #0x1FE0
        cmp     r0, r1
        bls     1f
        ldr     r3, =GOOD
        tst     lr, #4
        ite     ne
        msrne   psp, r3
        msreq   msp, r3
        b       2f
1:      movw    r0, #0x1818
        tst     r2, r0
        beq     3f
2:      movs    r0, #0
        str     r0, [r3]
        str     r0, [r3, #4]
        str     r0, [r3, #8]
        str     r0, [r3, #12]
        str     r0, [r3, #16]
        str     r0, [r3, #20]
        str     r0, [r3, #28]
        ldr     r1, =SAVED_MPU_CTRL
        str     r0, [r1]
        mov     r12, #1

        @ The action.
3:      mrs     r0, ipsr
        ldr     r1, =ACTIONS_AT
1:      ldr     r2, [r1], #8
        cmp     r2, r0
        beq     2f
        ldr     r2, =ACTIONS_END
        cmp     r1, r2
        bne     1b
        b       return
2:      movs    r2, #0
        str     r2, [r1, #-8]
        ldr     r2, [r1, #-4]
        ldr     r3, =LEVEL
        ldr     r1, [r3]
        str     r11, [r1]
        str     lr, [r1, #4]
        str     r0, [r1, #8]
        str     r12, [r1, #12]
        add     r1, r1, #16
        str     r1, [r3]
        ldr     r11, =finish_action
        mov     r12, r2
        ldr     r1, =SAVED_MPU_CTRL
        ldr     r0, [r1]
        ldr     r1, =MPU_CTRL
        str     r0, [r1]
        dsb
        isb
        ldr     r0, =patterns
        ldm     r0, {r0-r3}
        bx      r12

        @ Where the code of an action ends.
        .thumb_func
finish_action:
        ldr     r1, =MPU_CTRL
        ldr     r2, [r1]
        movs    r0, #0
        str     r0, [r1]
        ldr     r1, =SAVED_MPU_CTRL
        str     r2, [r1]
        ldr     r1, =LEVEL
        ldr     r0, [r1]
        sub     r0, r0, #16
        str     r0, [r1]
        ldr     r11, [r0]
        ldr     lr, [r0, #4]
        ldr     r12, [r0, #12]
        mrs     r3, msp
        tst     lr, #4
        it      ne
        mrsne   r3, psp

        @ R3 has the frame.
return: cmp     r12, #0
        beq     1f
        sub     r0, r3, #0x20000000
        movw    r1, #0x1FE0
        cmp     r0, r1
        bhi     1f
        ldr     r2, =LEVEL
        ldr     r1, [r2]
        ldr     r0, [r3, #28]
        tst     lr, #8
        beq     2f
        bfc     r0, #0, #9              @ in Thread mode no action is left
        ldr     r12, =LEVELS
        cmp     r1, r12
        itt     ne
        ldrne   r11, [r12]
        strne   r12, [r2]
        b       3f
2:      ubfx    r2, r0, #0, #9          @ in Handler mode the exception is that of the frame, or that of the last action
        cbnz    r2, 3f
        ldr     r2, [r1, #-8]
        orr     r0, r0, r2
3:      ldr     r2, =0x0600FC00
        bic     r0, r0, r2
        orr     r0, r0, #0x01000000
        str     r0, [r3, #28]
        bic     r11, r11, #1
        str     r11, [r3, #24]
        ldr     r11, =finish_action
        ldr     r1, =LEVEL
        ldr     r1, [r1]
        ldr     r0, =LEVELS
        cmp     r0, r1
        it      eq
        ldreq   r11, =finish_thread
1:      ldr     r1, =SAVED_MPU_CTRL
        ldr     r0, [r1]
        ldr     r1, =MPU_CTRL
        str     r0, [r1]
        dsb
        isb
        bx      lr

finishing:
        movs    r0, #0
        msr     control, r0
        ldr     r0, =wrap - 1
        str     r0, [r3, #24]
        mov     r0, #0x01000000
        str     r0, [r3, #28]
        bx      lr
        .ltorg

        .align  2
sources:
        .word   CFSR, HFSR, 0xE000ED34, 0xE000ED38, 0xE000ED24, 0xE000ED04, 0xE000E300, 0xE000E200, 0
nothing:
        .word   0, 0, 0, 0, 0, 0, 0, 0

        @ R0 to R12 and LR of code; R11 is where Thread mode goes on after a fault.
patterns:
        .word   0x00C0FFE0, 0x11111110, 0x22222220, 0x33333330, 0x44444440, 0x55555550, 0x66666660, 0x77777770
        .word   0x08888880, 0x09999990, 0x0AAAAAA0, finish_thread, 0x0CCCCCC0, 0x0EEEEEE1

resets: .word   MPU_CTRL, 0
        .word   0xE000E180, 0xFFFFFFFF
        .word   0xE000E280, 0xFFFFFFFF
        .word   0xE000E400, 0, 0xE000E404, 0, 0xE000E408, 0, 0xE000E40C, 0
        .word   0xE000E410, 0, 0xE000E414, 0, 0xE000E418, 0, 0xE000E41C, 0
        .word   0xE000ED04, 0x0A000000
        .word   0xE000ED08, 0
        .word   0xE000ED0C, 0x05FA0000
        .word   0xE000ED14, 0x200
        .word   0xE000ED18, 0, 0xE000ED1C, 0, 0xE000ED20, 0
        .word   0xE000ED24, 0
        .word   CFSR, 0xFFFFFFFF
        .word   HFSR, 0xFFFFFFFF
        .word   0xE000ED34, 0, 0xE000ED38, 0
        .word   0
