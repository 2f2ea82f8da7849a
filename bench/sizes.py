"""Counts the host instructions that a step of marm takes in loops of different sizes: straight code, loads and stores,
literals, branches and calls, as random functions that the loop calls in turn. The functions are the same in each run."""

import random
import struct
import sys

import results
from callgrind import a_step
from loops import SIZES, elf, traced, written

MARM, FOLDER = sys.argv[1:3]

# The KiB of the loop's code and literals.
KIB = [1, 4, 16, 64, 256, 1000]

# The least steps that are counted; the larger loops are counted over one time round.
STEPS = 100_000

# PUSH {R4 - R7, LR} and POP {R4 - R7, PC}.
ENTRY, EXIT = 0xB5F0, 0xBDF0

# At 0x40: LDR R1, address; B 0x100, where R1 is 0x20000000 in each function.
START = struct.pack("<2HI", 0x4900, 0xE05D, 0x20000000)


def piece(source):
    """Returns the halfwords of an instruction, or of a comparison and a branch over one; R0 and R2 to R7 change."""
    low, other = source.choice([0, 2, 3, 4, 5, 6, 7]), source.choice([0, 2, 3, 4, 5, 6, 7])
    place = source.randrange(32)
    forms = [
        [0x2000 | low << 8 | source.randrange(256)],  # MOVS
        [0x1800 | other << 3 | low],  # ADDS
        [0x4040 | other << 3 | low],  # EORS
        [place << 6 | other << 3 | low],  # LSLS
        [0x3000 | low << 8 | source.randrange(256)],  # ADDS, an immediate
        [0x6808 | place << 6 | low],  # LDR Rlow, [R1, #..]
        [0x6008 | place << 6 | low],  # STR
        [0x7808 | place << 6 | low],  # LDRB
        [0xF100 | other, low << 8 | source.randrange(256)],  # ADD.W
        [0xF240 | source.randrange(16), low << 8 | source.randrange(256)],  # MOVW
        [0xFB00 | other, 0xF000 | low << 8 | other],  # MUL
        [0x2800 | low << 8 | source.randrange(256), 0xD000 | source.randrange(2) << 8, 0x4600],  # CMP; BEQ or BNE; MOV
    ]
    return source.choice(forms)


def function(source, size):
    """Returns a function of that many bytes, a multiple of 4: its last word is a literal, which its second instruction
    loads."""
    halfwords = [ENTRY, 0x4800 | (size - 8) // 4]
    while 2 * len(halfwords) < size - 6 - 2 * 3:
        halfwords += piece(source)
    halfwords += [0xBF00] * ((size - 6) // 2 - len(halfwords)) + [EXIT]
    return struct.pack(f"<{len(halfwords)}HI", *halfwords, source.getrandbits(32))


def branch(link, distance):
    """Returns BL, or B.W, over so many bytes from its own address on."""
    offset = distance - 4
    sign = offset >> 24 & 1
    bits = [~(offset >> place ^ sign) & 1 for place in (23, 22)]
    second = 0x9000 | link << 14 | bits[0] << 13 | bits[1] << 11 | offset >> 1 & 0x7FF
    return struct.pack("<HH", 0xF000 | sign << 10 | offset >> 12 & 0x3FF, second)


def program(kib):
    """Returns an image whose loop has that many KiB: its calls at 0x100, and the functions after them."""
    source, sizes, left = random.Random(2026), [], 1024 * kib - 4
    while left >= 44:
        sizes.append(min(4 * source.randrange(10, 60), left - 4))
        left -= sizes[-1] + 4
    begins = [4 * len(sizes) + 4 + sum(sizes[:number]) for number in range(len(sizes))]
    calls = b"".join(branch(1, begin - 4 * number) for number, begin in enumerate(begins))
    code = calls + branch(0, -4 * len(sizes)) + b"".join(function(source, size) for size in sizes)
    memory = struct.pack("<II", 0x20001000, 0x41).ljust(0x40, b"\0") + START
    return elf(memory.ljust(0x100, b"\0") + code)


board = written(FOLDER, "board.toml", (SIZES + "lines = 8\n").encode())
figures = {}
for kib in KIB:
    path = written(FOLDER, f"loop{kib}.elf", program(kib))
    # (more steps than one time round, whose number is below 512 a KiB)
    steps = max(STEPS, 512 * kib)
    count = a_step(lambda number: traced(MARM, board, number, path), steps)
    figures[f"sizes {kib} KiB"] = f"{count:.1f}"
    print(f"{kib:5} KiB {count:10.1f} host instructions a step", flush=True)
results.append("bench/sizes.sh", figures)
