"""Random instructions of ARMv7-M, and the registers that they begin with."""

import struct

# Four times ADDS Rn, Rn, #1: what a branch skips in part.
SLED = struct.pack("<4H", *(0x1C40 | register << 3 | register for register in range(4)))

# The first halfwords of most long rows that compute, as the lowest of 512 each.
COMPUTING = [0xEA00, 0xF000, 0xF200, 0xFA00, 0xFB00]


def value(source):
    """A register's value: often an address that is there, a small number or one at an end of a range."""
    kind = source.random()
    if kind < 0.30:
        return 0x20004080 + 4 * source.randrange(64)
    if kind < 0.35:
        return 0x20004080 + source.randrange(256)
    if kind < 0.55:
        return source.randrange(40)
    if kind < 0.70:
        return source.choice([0, 1, 0x7FFFFFFF, 0x80000000, 0xFFFFFFFF, 0x8000, 0xFFFF, 0x10000, 0xFF])
    if kind < 0.80:
        return 0xFF << source.randrange(32) & 0xFFFFFFFF
    return source.getrandbits(32)


def is_left_out(halfword):
    """Whether a halfword is that of a long instruction, a branch, SVC, BKPT or IT, which have their own places here."""
    upper = halfword >> 8
    is_branch = halfword >> 12 == 0xD or upper in (0x47, 0xB1, 0xB3, 0xB9, 0xBB)
    return halfword >> 11 >= 0b11100 or is_branch or upper == 0xBE or upper == 0xBF and halfword & 15 != 0


def short(source):
    """Any other 16-bit instruction."""
    while True:
        halfword = source.randrange(0x10000)
        if not is_left_out(halfword):
            return struct.pack("<H", halfword)


def special(source):
    """MSR and MRS of APSR."""
    if source.random() < 0.5:
        return struct.pack("<HH", 0xF380 | source.randrange(15), 0x8800)
    return struct.pack("<HH", 0xF3EF, 0x8000 | source.randrange(15) << 8)


def long(source):
    """A 32-bit instruction that is no branch; bits that should be 0 or 1 are more often so than not."""
    while True:
        kind = source.random()
        if kind < 0.02:
            return special(source)
        if kind < 0.5:
            hw1 = source.choice(COMPUTING) | source.randrange(0x200)
        elif kind < 0.8:
            hw1 = 0xF800 | source.randrange(0x200)
        elif kind < 0.95:
            hw1 = 0xE800 | source.randrange(0x200)
        else:
            hw1 = 0xE800 | source.randrange(0x1800)
        hw2 = source.randrange(0x8000 if source.random() < 0.5 else 0x10000)
        if hw1 >> 8 == 0xF8 and source.random() < 0.5:
            hw2 |= 0x0F00
        if hw1 >> 9 == 0xFA00 >> 9 and source.random() < 0.6:
            hw2 |= 0xF000
        if hw1 >> 11 != 0b11110 or hw2 >> 15 == 0:
            return struct.pack("<HH", hw1, hw2)


def plain(source):
    """An instruction that is no branch."""
    return short(source) if source.random() < 0.35 else long(source)


def block(source):
    """IT and its one to four instructions."""
    count, condition = source.randrange(1, 5), source.randrange(15)
    mask = 0
    for _ in range(count - 1):
        turned = condition != 14 and source.random() < 0.5
        mask = mask << 1 | (condition & 1) ^ turned
    mask = (mask << 1 | 1) << (4 - count)
    instructions = b"".join(plain(source) for _ in range(count))
    return struct.pack("<H", 0xBF00 | condition << 4 | mask) + instructions


def branch(source):
    """A branch forward over a part of the sled, or an address near PC."""
    kind, distance = source.randrange(6), source.randrange(3)
    if kind == 0:
        return struct.pack("<H", 0xD000 | source.randrange(14) << 8 | distance) + SLED
    if kind == 1:
        return struct.pack("<H", 0xB100 | source.getrandbits(1) << 11 | distance << 3 | source.randrange(8)) + SLED
    if kind == 2:
        return struct.pack("<HH", 0xF000 | source.randrange(14) << 6, 0x8000 | distance) + SLED
    if kind == 3:
        return struct.pack("<HH", 0xF000, 0xF800 | distance) + SLED
    if kind == 4:
        return struct.pack("<H", 0xA000 | source.randrange(0x1000))
    return struct.pack("<HH", source.choice([0xF20F, 0xF2AF]), source.getrandbits(15))


def code(source):
    """One instruction, an IT block, or a branch."""
    kind = source.random()
    if kind < 0.70:
        return plain(source)
    return block(source) if kind < 0.93 else branch(source)
