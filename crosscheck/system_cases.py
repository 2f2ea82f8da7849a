"""Random operations on system registers and special registers: each has its name, its code, an address and a value."""

import struct

# The special registers by number that MRS and MSR take.
SPECIAL = {
    "APSR": 0,
    "IAPSR": 1,
    "EAPSR": 2,
    "XPSR": 3,
    "IPSR": 5,
    "EPSR": 6,
    "IEPSR": 7,
    "MSP": 8,
    "PSP": 9,
    "PRIMASK": 16,
    "BASEPRI": 17,
    "BASEPRI_MAX": 18,
    "FAULTMASK": 19,
    "CONTROL": 20,
}

# Those of them that are read after a case: all but those with flags, which the harness changes.
READ_BACK = ["IPSR", "EPSR", "MSP", "PSP", "PRIMASK", "BASEPRI", "BASEPRI_MAX", "FAULTMASK", "CONTROL"]

# LDR, LDRH and LDRB of R0 at R1; STR, STRH and STRB of R2 at R1.
LOADS = {4: 0x6808, 2: 0x8808, 1: 0x7808}
STORES = {4: 0x600A, 2: 0x800A, 1: 0x700A}

# CPSIE and CPSID with i, f and both.
CHANGES = {
    "CPSIE i": 0xB662,
    "CPSIE f": 0xB661,
    "CPSIE if": 0xB663,
    "CPSID i": 0xB672,
    "CPSID f": 0xB671,
    "CPSID if": 0xB673,
}

# The registers by block, an address each, and what their values are taken from: a mask of the bits that may be set.
SYSTICK = {0xE000E010: 0x7, 0xE000E014: 0xFFFFFFFF, 0xE000E018: 0xFFFFFFFF}
ENABLES = {0xE000E100: 0xFFFFFFFF, 0xE000E180: 0xFFFFFFFF}
PENDING = {0xE000E200: 0xFFFFFFFF, 0xE000E280: 0xFFFFFFFF}
INTERRUPTS = {**ENABLES, **PENDING, 0xE000EF00: 0x3F, 0xE000ED04: 0x1E000000}
PRIORITIES = {0xE000E400 + 4 * number: 0xFFFFFFFF for number in range(8)}
HANDLERS = {0xE000ED18: 0xFFFFFFFF, 0xE000ED1C: 0xFFFFFFFF, 0xE000ED20: 0xFFFFFFFF}
STATE = {0xE000ED24: 0x0007F000, 0xE000ED04: 0x1E000000}
CONTROL = {0xE000ED08: 0xFFFFFFFF, 0xE000ED0C: 0x0000FFF8, 0xE000ED10: 0xFFFFFFFD, 0xE000ED14: 0xFFFFFEFF}
STATUS = {0xE000ED28: 0xFFFFFFFF, 0xE000ED2C: 0xFFFFFFFF, 0xE000ED34: 0xFFFFFFFF, 0xE000ED38: 0xFFFFFFFF}
MPU_RNR = 0xE000ED98
REGIONS = {0xE000ED94: 0x6, MPU_RNR: 0x7, **{0xE000ED9C + 4 * number: 0xFFFFFFFF for number in range(8)}}

# What decides which exception is the best of those pending and enabled, and which of it is read after a case.
BEST = {**ENABLES, **PENDING, **PRIORITIES, **HANDLERS, **STATE, 0xE000ED0C: 0x0000FFF8}
READ_OF_BEST = [0xE000E100, 0xE000E200, 0xE000ED04, 0xE000ED0C, 0xE000ED24]

# What is only read beside these.
READ_ONLY = [0xE000E004, 0xE000E300, 0xE000ED00, 0xE000ED90]

# The blocks, and which are accessed by halfword and byte too.
BLOCKS = [SYSTICK, INTERRUPTS, PRIORITIES, HANDLERS, STATE, BEST, CONTROL, STATUS, REGIONS]
NARROW = [PRIORITIES, HANDLERS]


def read(address, size=4):
    """A load."""
    return f"read {size} at {address:08X}", struct.pack("<H", LOADS[size]), address, 0


def write(address, value, size=4):
    """A store."""
    return f"write {size} at {address:08X}", struct.pack("<H", STORES[size]), address, value


def move_from(name):
    """MRS of R0."""
    return f"MRS {name}", struct.pack("<HH", 0xF3EF, 0x8000 | SPECIAL[name]), 0, 0


def move_to(name, value):
    """MSR of R2, and then MRS of the same register."""
    code = struct.pack("<4H", 0xF382, 0x8800 | SPECIAL[name], 0xF3EF, 0x8000 | SPECIAL[name])
    return f"MSR and MRS {name}", code, 0, value


def change(name):
    """CPS."""
    return name, struct.pack("<H", CHANGES[name]), 0, 0


def word(source):
    """A random word, often with few bits set or clear."""
    kind = source.random()
    if kind < 0.3:
        return 1 << source.randrange(32)
    if kind < 0.4:
        return 0xFFFFFFFF ^ 1 << source.randrange(32)
    if kind < 0.5:
        return source.choice([0, 0xFFFFFFFF])
    return source.getrandbits(32)


def value(source, address, mask):
    """What is written: mostly of the bits that may be set."""
    bits = word(source) & (mask if source.random() < 0.95 else 0xFFFFFFFF)
    if address == 0xE000ED0C and source.random() < 0.8:
        bits = bits & 0xFFFF | 0x05FA0000
    if address == MPU_RNR:
        bits &= 0xFF
    if 0xE000ED9C <= address <= 0xE000EDB8:
        bits = region_value(source, address, bits)
    return bits


def region_value(source, address, bits):
    """A value of RBAR or RASR, which mostly is one that a region may have."""
    if source.random() < 0.1:
        return bits
    if (address - 0xE000ED9C) % 8 == 0:
        return bits & ~0x8
    size = source.randrange(4, 32)
    return bits & ~0x0400FF3E | (source.getrandbits(8) << 8 if size >= 7 else 0) | size << 1


def operation_on(source, block):
    """A read or a write of a block's register, sometimes of a part of it."""
    address, mask = source.choice(sorted(block.items()))
    size = source.choice([1, 2, 4]) if block in NARROW else 4
    part = address + source.randrange(0, 4, size)
    if source.random() < 0.2:
        return read(part, size)
    return write(part, value(source, address, mask) & (1 << 8 * size) - 1, size)


def stack_or_mask(source):
    """MSR of a special register, or CPS. Code stays privileged."""
    if source.random() < 0.3:
        return change(source.choice(sorted(CHANGES)))
    name = source.choice(sorted(SPECIAL))
    bits = word(source)
    return move_to(name, bits & ~1 if name == "CONTROL" else bits)


def special_case(source):
    """Some of these, with all special registers read behind them."""
    operations = [stack_or_mask(source) for _ in range(source.randrange(1, 6))]
    return operations + [move_from(name) for name in READ_BACK]


def privileged_case(source):
    """Operations on a block, behind which all its registers are read; or on special registers."""
    if source.random() < 0.25:
        return special_case(source)
    block = source.choice(BLOCKS)
    opening = [change("CPSID i")] if source.random() < 0.9 else []
    operations = [operation_on(source, block) for _ in range(source.randrange(4, 12) if block is BEST else source.randrange(1, 6))]
    reads = READ_OF_BEST if block is BEST else sorted(block)
    return opening + operations + [read(address) for address in reads] + [read(source.choice(READ_ONLY))]


def unprivileged_case(source):
    """Operations on special registers by unprivileged code, behind which they are all read."""
    operations = [unprivileged(source) for _ in range(source.randrange(1, 8))]
    return operations + [move_from(name) for name in READ_BACK]


def unprivileged(source):
    """MSR of any value, or CPS."""
    if source.random() < 0.4:
        return change(source.choice(sorted(CHANGES)))
    return move_to(source.choice(sorted(SPECIAL)), word(source))


def refused_case(source):
    """An access of any width to a system register, by unprivileged code."""
    size = source.choice([1, 2, 4])
    block = source.choice(BLOCKS)
    address = source.choice(sorted(block)) + source.randrange(0, 4, size)
    return [read(address, size) if source.random() < 0.5 else write(address, word(source) & (1 << 8 * size) - 1, size)]


# What makes code unprivileged: masks that are set and a PSP, and then CONTROL.
OPENING = [
    move_to("PSP", 0x20001000),
    move_to("BASEPRI", 0x40),
    change("CPSID i"),
    move_to("CONTROL", 1),
]

# Reads of all registers, some a case, before anything is written but what the harness resets.
EACH = sorted({address for block in BLOCKS for address in block} | set(READ_ONLY))
RESET = [[read(address) for address in EACH[first : first + 12]] for first in range(0, len(EACH), 12)]
