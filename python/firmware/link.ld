/* Code and constants in flash at 0, variables in RAM. There are no start values: RAM is 0 at the start. */
ENTRY(reset)
PHDRS { code PT_LOAD; data PT_LOAD; }
SECTIONS
{
    .text 0 : { KEEP(*(.vectors)) *(.text* .rodata*) } :code
    .bss 0x20000000 (NOLOAD) : { *(.bss* COMMON) } :data
    /DISCARD/ : { *(.ARM.*) *(.comment) }
}
ASSERT(SIZEOF(.text) <= 1024, "the code has more than 1 KiB")
