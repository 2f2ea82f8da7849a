"""What kernels do, as programs that the benches run: a step in a handler, a list of registers, a call and its return, a
system register, a device, and eight regions set anew, each in a loop. Each comes with its board and the steps of a turn."""

import struct

from loops import LOOPS, REGIONS, SIZES, elf, timer_image

# The vector of SVCall, and where a program's loop and its handler stand.
SVCALL_VECTOR, LOOP, HANDLER = 0x2C, 0x100, 0x180

QUIET = SIZES + "lines = 8\n"

# A word that keeps what is stored there, in the Peripheral region.
DEVICE = QUIET + "\n[[device]]\nbase = 0x4001_0000\nsize = 4\n"

STORE_LOAD, _ = LOOPS["store_load"]

# STM R1, {R2-R5}; LDM R1, {R2-R5}; B to the STM.
LIST = [0xE881, 0x003C, 0xE891, 0x003C, 0xE7FA]

# SVC #0; B to it. The handler: BX LR.
CALL, RETURN = [0xDF00, 0xE7FD], [0x4770]

# LDR R2, [R1]; B to it: where the start code puts into R1 what is to be read.
READ = [0x680A, 0xE7FD]

# STR R1, [R1]; B to it, likewise.
WRITE = [0x6009, 0xE7FD]

# MRS R0, BASEPRI; MSR BASEPRI, R0; B to the MRS.
MASK = [0xF3EF, 0x8011, 0xF380, 0x8811, 0xE7FA]

# MOV R0, R6; LDM R0!, {R2-R5, R7, R8, R10, R11} and STM of them to RBAR, RASR and their six aliases; the same for the
# other four regions; B to the MOV. The start code gives R6 the table and R1 RBAR.
SWITCH = [0x4630, 0xE8B0, 0x0DBC, 0xE881, 0x0DBC, 0xE8B0, 0x0DBC, 0xE881, 0x0DBC, 0xE7F5]

VTOR, RBAR = 0xE000ED08, 0xE000ED9C


def program(loop, word, handler=RETURN):
    """An ELF file of one segment at 0: vectors, code that gives R1 a word and R6 a table of eight regions, the loop at
    0x100, and SVCall's handler at 0x180."""
    memory = struct.pack("<II", 0x20001000, 0x41).ljust(SVCALL_VECTOR, b"\0") + struct.pack("<I", HANDLER | 1)
    # LDR R1, [PC, #4]; LDR R6, [PC, #8]; B to the loop; the word, the table's address.
    start = struct.pack("<4H2I", 0x4901, 0x4E02, 0xE05C, 0xBF00, word, 0x200)
    memory = memory.ljust(0x40, b"\0") + start
    memory = memory.ljust(LOOP, b"\0") + struct.pack(f"<{len(loop)}H", *loop)
    memory = memory.ljust(HANDLER, b"\0") + struct.pack(f"<{len(handler)}H", *handler)
    # The first region grants everything; their registers are written with the MPU off.
    table = b"".join(struct.pack("<II", *region) for region in REGIONS[:8])
    return elf(memory.ljust(0x200, b"\0") + table)


# Each program by its name: its image, its board, and how many steps a turn of its loop takes.
PROGRAMS = {
    "a handler's step": (program(CALL, 0x20000010, STORE_LOAD), QUIET, 1),
    "a step of a list": (program(LIST, 0x20000010), QUIET, 1),
    "SVC and its return": (program(CALL, 0x20000010), QUIET, 5),
    "SysTick each 1,000 ticks": (timer_image(STORE_LOAD), QUIET, 1),
    "a load of a system register": (program(READ, VTOR), QUIET, 2),
    "a load of a device": (program(READ, 0x40010000), DEVICE, 2),
    "a store to a device": (program(WRITE, 0x40010000), DEVICE, 2),
    "BASEPRI read and written": (program(MASK, 0x20000010), QUIET, 3),
    "eight regions set anew": (program(SWITCH, RBAR), QUIET + "regions = 8\n", 6),
}
