/* Where the parts of a program are. The sizes are symbols, which the linker's --defsym changes, as in
   -Wl,--defsym=RAM_SIZE=0x4000:

   FLASH_BASE, FLASH_SIZE, RAM_SIZE    those of the board; RAM begins at 0x20000000
   STACK_SIZE                          the stack, with ROOM_SIZE bytes above its first word that nothing else uses;
                                       16 KiB, or a quarter of RAM where that is less
   GUARD_SIZE                          the block below the stack, aligned to its size, that regions.c makes a guard

   malloc has the RAM from the end of the variables up to the guard. PHDRS names the segments of the file; none of them
   says FILEHDR or PHDRS, so the headers of the file are in none. */

ENTRY(_start)

MEMORY
{
    FLASH : ORIGIN = DEFINED(FLASH_BASE) ? FLASH_BASE : 0, LENGTH = DEFINED(FLASH_SIZE) ? FLASH_SIZE : 1024K
    RAM   : ORIGIN = 0x20000000, LENGTH = DEFINED(RAM_SIZE) ? RAM_SIZE : 1024K
}

PHDRS
{
    code PT_LOAD FLAGS(5);
    data PT_LOAD FLAGS(6);
    zeros PT_LOAD FLAGS(6);
    tls PT_TLS FLAGS(4);
}

SECTIONS
{
    /* The vector table comes first, at the base of flash. */
    .vectors : { KEEP(*(.vectors)) } > FLASH :code
    .text : {
        KEEP(*(.init))
        KEEP(*(.fini))
        *(.text .text.* .gnu.linkonce.t.*)
    } > FLASH :code
    .rodata : {
        *(.rodata .rodata.* .gnu.linkonce.r.* .eh_frame)
        . = ALIGN(8);
        __preinit_array_start = .;
        KEEP(*(.preinit_array))
        __preinit_array_end = .;
        __init_array_start = .;
        KEEP(*(SORT_BY_INIT_PRIORITY(.init_array.*)))
        KEEP(*(.init_array))
        __init_array_end = .;
        __fini_array_start = .;
        KEEP(*(.fini_array))
        KEEP(*(SORT_BY_INIT_PRIORITY(.fini_array.*)))
        __fini_array_end = .;
    } > FLASH :code

    /* How the frames of each function are left, and what catches an exception of C++. The linker keeps what belongs to
       a function that it keeps. */
    .ARM.extab : { *(.ARM.extab* .gnu.linkonce.armextab.*) } > FLASH :code
    .ARM.exidx : {
        __exidx_start = .;
        *(.ARM.exidx* .gnu.linkonce.armexidx.*)
        __exidx_end = .;
    } > FLASH :code

    /* Variables with a start value: used in RAM, loaded into flash after the code. The start code copies them. Those of
       a thread, which picolibc has, follow. */
    .data : ALIGN(8) {
        __data_begin = .;
        *(.data .data.* .gnu.linkonce.d.*)
        . = ALIGN(8);
    } > RAM AT > FLASH :data
    .tdata : ALIGN(8) {
        __tls_base = .;
        *(.tdata .tdata.*)
        . = ALIGN(8);
    } > RAM AT > FLASH :data :tls
    __data_end = __tls_base + SIZEOF(.tdata);
    __data_load = LOADADDR(.data);

    /* Variables that begin as 0: nothing of them is in the file. The start code clears them. Those of a thread come
       first. */
    __bss_begin = __data_end;
    .tbss (NOLOAD) : ALIGN(8) { *(.tbss .tbss.* .tcommon) } > RAM :tls
    .bss (NOLOAD) : ALIGN(8) {
        . += SIZEOF(.tbss);
        *(.bss .bss.* .gnu.linkonce.b.* COMMON)
        . = ALIGN(8);
        __bss_end = .;
    } > RAM :zeros
    __arm32_tls_tcb_offset = 8;

    __ram_end = ORIGIN(RAM) + LENGTH(RAM);
    __guard_size = DEFINED(GUARD_SIZE) ? GUARD_SIZE : 1024;
    __stack_top = __ram_end - (DEFINED(ROOM_SIZE) ? ROOM_SIZE : 256);
    __stack_bottom = (__ram_end - (DEFINED(STACK_SIZE) ? STACK_SIZE : MIN(16K, LENGTH(RAM) / 4)))
        & ~(__guard_size - 1);
    __heap_begin = __bss_end;
    __heap_end = __stack_bottom - __guard_size;
    ASSERT(__heap_begin <= __heap_end, "RAM has no room for the variables, the guard and the stack")

    /* What regions.c makes regions of. */
    __flash_begin = ORIGIN(FLASH);
    __flash_size = LENGTH(FLASH);
    __ram_begin = ORIGIN(RAM);
    __ram_size = LENGTH(RAM);
    ASSERT(!DEFINED(_confine) || ((__flash_begin | __flash_size) & (__flash_size - 1)) == 0, "flash can't be a region")
    ASSERT(!DEFINED(_confine) || (__ram_size & (__ram_size - 1)) == 0, "RAM can't be a region")
    ASSERT((__guard_size & (__guard_size - 1)) == 0, "the guard can't be a region")

    /* exit of newlib calls the functions of .fini_array where this is defined. */
    __libc_fini = _fini;
}
