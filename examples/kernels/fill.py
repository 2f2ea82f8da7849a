#!/usr/bin/env python3
"""Writes the image of round_robin anew, with other bytes in task a's memory from the start.

Usage: fill.py IMAGE OTHER

The segment of RAM has no bytes in IMAGE, so it begins as 0. In OTHER its first 512 bytes, which are task a's memory, are
in the file, and each of them is A5. Nothing else differs.
"""

import struct
import sys

RAM = 0x20000000
BLOCK = 512
PT_LOAD = 1

with open(sys.argv[1], "rb") as file:
    image = bytearray(file.read())
table, = struct.unpack_from("<I", image, 28)
size, number = struct.unpack_from("<HH", image, 42)
for header in range(table, table + size * number, size):
    kind, _, _, address, in_file, in_memory = struct.unpack_from("<6I", image, header)
    if (kind, address, in_file) == (PT_LOAD, RAM, 0) and in_memory >= BLOCK:
        image += bytes(-len(image) % 4)
        struct.pack_into("<I", image, header + 4, len(image))
        struct.pack_into("<I", image, header + 16, BLOCK)
        image += b"\xA5" * BLOCK
        break
else:
    sys.exit("fill.py: no segment of RAM without bytes")
with open(sys.argv[2], "wb") as file:
    file.write(image)
