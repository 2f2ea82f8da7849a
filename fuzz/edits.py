"""Edits of bytes that know nothing of what the bytes mean."""

EDGES = [0, 1, 2, 3, 4, 7, 8, 15, 16, 31, 32, 63, 64, 65, 127, 128, 240, 255, 256, 511, 1023, 1024]
EDGES += [0x7FFF, 0x8000, 0xFFFF, 0x10000, 0xFFFFF, 0x100000, 0x100001, 0x1FFFFFFE]
EDGES += [0x20000000, 0x20000001, 0x40000000, 0x40000004, 0x7FFFFFFF]
EDGES += [0x80000000, 0xE000E010, 0xE000ED04, 0xE000ED08, 0xE000ED94, 0xE000EF00, 0xF0000000]
EDGES += [0xFFFFFFF1, 0xFFFFFFF9, 0xFFFFFFFD, 0xFFFFFFFE, 0xFFFFFFFF]


def place(source, length):
    """Returns a place in a list of that length; 0 in an empty one."""
    return source.randrange(length) if length else 0


def flip(source, data):
    """Flips a bit."""
    if data:
        data[place(source, len(data))] ^= 1 << source.randrange(8)


def overwrite(source, data):
    """Gives one to eight bytes other values."""
    at = place(source, len(data))
    data[at : at + source.randrange(1, 9)] = source.randbytes(source.randrange(1, 9))


def remove(source, data):
    """Removes some bytes."""
    at = place(source, len(data))
    del data[at : at + source.choice([1, 2, 4, 32, 1000])]


def repeat(source, data):
    """Inserts bytes that are also elsewhere."""
    begin, at = place(source, len(data)), place(source, len(data))
    data[at:at] = data[begin : begin + source.choice([1, 2, 4, 32, 1000])]


def cut(source, data):
    """Cuts the end off."""
    del data[place(source, len(data)) :]


def swap(source, data):
    """Exchanges two words."""
    if len(data) < 8:
        return
    one, other = (4 * source.randrange(len(data) // 4) for _ in range(2))
    data[one : one + 4], data[other : other + 4] = data[other : other + 4], data[one : one + 4]


ANY = [flip, flip, overwrite, remove, repeat, cut, swap, swap]


def edited(source, data, edits):
    """Returns bytes after one to four of some edits; a third of the bytes are edited once."""
    changed = bytearray(data)
    for _ in range(source.choice([1, 1, 2, 4])):
        source.choice(edits)(source, changed)
    return bytes(changed)
