@ What both harnesses begin and end with. A table of entries of ENTRY bytes stands at TABLE, behind the last one a word 0.

        .syntax unified
        .cpu cortex-m3
        .thumb

        .equ CURRENT, 0x20000000        @ where the address of the current entry is kept
        .equ OUT, 0x20000004            @ where the address is kept at which a byte goes out
        .ifndef TOP
        .equ TOP, 0x2000F000            @ SP
        .endif
        .ifndef UART
        .equ UART, 0x000FFFF0           @ flash that is blank on marm; another machine has the address of its UART there
        .endif
        .equ TABLE, 0x1000

        @ Bytes go out at 0x40000000, or at a UART, which is enabled 8 bytes further.
        .macro  begin
        ldr     r0, =UART
        ldr     r0, [r0]
        cmn     r0, #1
        itte    ne
        movne   r1, #1
        strne   r1, [r0, #8]
        moveq   r0, #0x40000000
        ldr     r1, =OUT
        str     r0, [r1]
        ldr     r4, =TABLE
        ldr     r1, =CURRENT
        str     r4, [r1]
        .endm

        @ R4 is the current entry's address and R7 its first word, or the run is over.
        .macro  take_entry
        ldr     r1, =CURRENT
        ldr     r4, [r1]
        ldr     r7, [r4]
        cmp     r7, #0
        beq.w   over
        .endm

        .macro  put_byte register
        ldr     r5, =OUT
        ldr     r5, [r5]
        str     \register, [r5]
        .endm

        @ A line ends, and the next entry is the current one.
        .macro  end_entry
        movs    r1, #10
        put_byte r1
        ldr     r1, =CURRENT
        ldr     r4, [r1]
        add     r4, r4, #ENTRY
        str     r4, [r1]
        .endm

        @ The end, which for a machine with semihosting is SYS_EXIT.
        .macro  end_run
        movs    r0, #0x18
        ldr     r1, =0x20026
        bkpt    0xAB
        b       .
        .endm
