"""Where the images are, and which programs there are to run them."""

from __future__ import annotations

import os
import shutil
import struct
import sys
import unittest
from pathlib import Path
from typing import Sequence

import marm

PACKAGE = Path(__file__).resolve().parents[1]
REPOSITORY = PACKAGE.parent
FIRMWARE = PACKAGE / "firmware"
KERNELS = REPOSITORY / "examples" / "kernels"

COUNTER_BOARD = marm.Board(flash_size=1024, ram_size=8192, lines=1)
CHECKSUM_BOARD = marm.Board(flash_size=1024, ram_size=1024)

is_named = bool(os.environ.get("MARM")) or shutil.which("marm") is not None
has_program = is_named and not os.environ.get("MARM_PARTS")  # python/check.sh --parts
needs_program = unittest.skipUnless(has_program, "there is no program marm: set MARM")


def kernel(name: str, board: str = "") -> marm.Machine:
    """Returns a machine with a kernel of the repository, on its own board or on another kernel's."""
    return marm.Machine(KERNELS / f"{name}.elf", KERNELS / f"{board or name}.toml")


def toy(slots: int = 4) -> marm.Machine:
    """Returns a toy machine, which needs no program."""
    return marm.Machine(b"", "none.toml", program=[sys.executable, str(PACKAGE / "tests" / "toy.py")], slots=slots)


NO_TYPE, OBJECT, FUNCTION = 0, 1, 2  # of a symbol
GLOBAL = 16  # added to a type
ABSOLUTE = 0xFFF1  # a section


def image_with(*symbols: tuple[str, int, int, int, int]) -> bytes:
    """Returns an ELF file with a symbol table and nothing else, of a name, an address, a size, a type and a section
    each."""
    strings, rows = b"\0", []
    for name, *rest in symbols:
        rows.append((len(strings), *rest))
        strings += name.encode() + b"\0"
    return image_with_table(strings, rows)


def image_with_table(strings: bytes, rows: Sequence[tuple[int, ...]]) -> bytes:
    """Returns the same of a string table, and of symbols whose names are offsets into it."""
    table = b"".join([struct.pack("<IIIBBH", name, at, size, kind, 0, index) for name, at, size, kind, index in rows])
    sections = [(0, 0, 0), (2, 172, len(table)), (3, 172 + len(table), len(strings))]  # type, offset, size
    headers = b"".join([struct.pack("<10I", 0, kind, 0, 0, at, size, 2, 0, 0, 0) for kind, at, size in sections])
    header = b"\x7fELF\x01\x01\x01".ljust(32, b"\0") + struct.pack("<I", 52) + bytes(10) + struct.pack("<HHH", 40, 3, 2)
    return header + headers + table + strings
