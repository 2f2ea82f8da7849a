"""What is known to differ between marm and QEMU's board in gcc's execution tests, and why."""

import re

# Where RAM ends on the board of marm (crosscheck/board.toml), and on QEMU's mps2-an385.
RAM_END, QEMU_RAM_END = 0x20100000, 0x20400000

ABOVE_RAM = "it accesses an address above RAM, which QEMU's board has"


def is_above_ram(line):
    """Whether a line of marm's trace is an access that the bus refuses, above RAM."""
    found = re.match(r"\d+ [LS] ([0-9A-F]{8}) [124] [pu] bus ", line)
    return found is not None and RAM_END <= int(found[1], 16) < QEMU_RAM_END


def reason(refused):
    """Why a test differs from its first access on that marm refuses, by the line of that access, or None."""
    return ABOVE_RAM if is_above_ram(refused) else None
