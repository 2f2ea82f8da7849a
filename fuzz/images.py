"""Images: those of the repository with other bytes, words, instructions and header fields, and random programs."""

import struct

import edits
import loops
import random_code

# The places and sizes of the fields of the ELF header and of a program header (TIS ELF 1.2, "Object Files").
HEADER = [(0, 4), (4, 1), (5, 1), (16, 2), (18, 2), (24, 4), (28, 4), (36, 4), (40, 2), (42, 2), (44, 2), (48, 2)]
PROGRAM_HEADER = [(0, 4), (4, 4), (8, 4), (12, 4), (16, 4), (20, 4), (24, 4), (28, 4)]

# The start of a random program, at 0x40: LDR R0, table; LDM R0, {R0 - R7}; B 0x100; NOP; and the address of the table.
START = struct.pack("<4HI", 0x4801, 0xC8FF, 0xE05C, 0xBF00, 0x80)


def put(data, at, size, value):
    """Puts a number into a field, if the field is there."""
    if at + size <= len(data):
        data[at : at + size] = (value % (1 << 8 * size)).to_bytes(size, "little")


def field(source, data):
    """Gives a field of the ELF header or of a program header another value."""
    at, size = source.choice(HEADER)
    if len(data) >= 52 and source.random() < 0.6:
        (headers,) = struct.unpack_from("<I", data, 28)
        at, size = source.choice(PROGRAM_HEADER)
        at += headers + 32 * source.randrange(4)
    near = int.from_bytes(data[at : at + size], "little") + source.choice([-1024, -32, -1, 1, 32, 1024])
    put(data, at, size, near if source.random() < 0.4 else source.choice([*edits.EDGES, len(data), len(data) + 1]))


def word(source, data):
    """Gives a word another value, at an edge or of an address that is there."""
    put(data, 4 * edits.place(source, len(data) // 4), 4, source.choice([*edits.EDGES, random_code.value(source)]))


def instruction(source, data):
    """Puts a random instruction, block or branch at the place of another."""
    code = random_code.code(source)
    at = 2 * edits.place(source, len(data) // 2)
    data[at : at + len(code)] = code


def headers(source, data):
    """Puts many program headers at the end of the file, each a copy of the first or at random."""
    if len(data) < 84:
        return
    count = source.choice([2, 3, 63, 64, 65])
    put(data, 28, 4, len(data))
    put(data, 44, 2, count)
    first = bytes(data[52:84])
    for number in range(count):
        entry = bytearray(first)
        put(entry, 12, 4, source.choice([0, 0x100, 0x1000, 0x20000000]) + 8 * number)
        put(entry, 16, 4, source.choice([0, 4, 8, 9]))
        data += entry


def program(source):
    """Returns an image of random instructions, half of them after a start that sets random regions up."""
    code = b"".join(random_code.code(source) for _ in range(source.randrange(1, 200)))
    table = b"".join(struct.pack("<I", random_code.value(source)) for _ in range(8))
    memory = struct.pack("<II", source.choice([0x20001000, 0x20000008, 0x2000]), 0x41).ljust(0x40, b"\0") + START
    image = loops.elf((memory.ljust(0x80, b"\0") + table).ljust(0x100, b"\0") + code + b"\x00\xbe")
    if source.random() < 0.5:
        return image
    regions = [(source.choice(edits.EDGES) & 0xFFFFFFE0 | 16 | number, region(source)) for number in range(8)]
    return loops.with_regions(loops.flash_of(image), regions[: source.randrange(1, 9)])


def region(source):
    """Returns a value of RASR: mostly one that a region may have."""
    if source.random() < 0.1:
        return source.getrandbits(32)
    size = source.randrange(4, 32)
    disabled = source.getrandbits(8) if size >= 7 and source.random() < 0.3 else 0
    return source.getrandbits(1) << 28 | source.choice([1, 2, 3, 5, 6, 7]) << 24 | disabled << 8 | size << 1 | 1


EDITS = [*edits.ANY, field, field, field, word, word, instruction, instruction, instruction, headers]


def image(source, corpus):
    """Returns an image and a board that fits what it was made of."""
    if source.random() < 0.25:
        return program(source), source.choice(corpus.pairs)[1]
    original, board = source.choice(corpus.pairs)
    return edits.edited(source, original, EDITS), board
