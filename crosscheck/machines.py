"""The two machines: marm, and QEMU's board mps2-an385, which has a Cortex-M3. Each runs a harness with a table behind it."""

import os
import struct
import subprocess
import sys
from concurrent.futures import ThreadPoolExecutor

from loops import elf, traced, written

MARM, BOARD, HARNESS, FOLDER = sys.argv[1:5]

# As in shared.s: where the table stands, where another machine than marm has the address of its UART, and the last BKPT.
TABLE = 0x1000
UART_PLACE, UART = 0xFFFF0, 0x40004000
LAST = "stop breakpoint 171"

# How many cases a run has at most, and how many runs may end early.
PART = 1500
MAX_ENDED_EARLY = 100

# The line of a case that has none.
NOTHING = "nothing"

with open(HARNESS, "rb") as file:
    harness = file.read()


def flash_with(entry, cases):
    """The harness and its table, which has the entry of each case, given the address that it stands at."""
    flash = bytearray(harness.ljust(TABLE, b"\0"))
    for case in cases:
        flash += entry(case, len(flash))
    return bytes(flash) + bytes(4)


def on_marm(entry, cases, name, steps):
    """The lines of a trace."""
    path = written(FOLDER, name, elf(flash_with(entry, cases)))
    trace = subprocess.run(traced(MARM, BOARD, steps, path), stdout=subprocess.PIPE).stdout
    os.unlink(path)
    return trace.decode().splitlines()


def put_out(trace):
    """The lines that a run put out."""
    return bytes(int(line[-2:], 16) for line in trace if " O " in line).decode().splitlines()


def on_qemu(entry, cases):
    """The lines that QEMU puts out. Flash is as blank as on marm."""
    flash = flash_with(entry, cases).ljust(UART_PLACE, b"\xff") + struct.pack("<I", UART).ljust(16, b"\xff")
    path, output = written(FOLDER, "flash", flash), os.path.join(FOLDER, "output")
    words = ["qemu-system-arm", "-M", "mps2-an385", "-display", "none", "-monitor", "none", "-semihosting"]
    words += ["-serial", f"file:{output}", "-device", f"loader,file={path},addr=0,force-raw=on"]
    try:
        subprocess.run(words, stdout=subprocess.DEVNULL, stderr=subprocess.DEVNULL, timeout=30)
    except subprocess.TimeoutExpired:
        pass
    with open(output, errors="replace") as file:
        return file.read().splitlines()


def in_parts(run, entry, cases):
    """The line that a machine puts out for each case, in runs of some; "nothing" where one ended early."""
    lines = []
    for first in range(0, len(cases), PART):
        part = cases[first : first + PART]
        found = run(entry, part)[: len(part)]
        lines += found + [NOTHING] * (len(part) - len(found))
    return lines


def side_by_side(run, other_run, entry, cases, most=PART):
    """Returns the lines that two machines put out for each case, in runs of at most `most` cases. Both machines have the same
    runs, so that a case has the same address and the same entries after it. Where a machine ends early, its line of the case
    at which it ended is "nothing", and both machines go on after that case in a new run."""
    lines, other_lines, ended_early = [], [], 0
    while len(lines) < len(cases):
        part = cases[len(lines) : len(lines) + most]
        found, other_found = run(entry, part)[: len(part)], other_run(entry, part)[: len(part)]
        both = min(len(found), len(other_found))
        if both < len(part):
            ended_early += 1
            found, other_found = (list(left[: both + 1]) + [NOTHING] * (both >= len(left)) for left in (found, other_found))
        if ended_early > MAX_ENDED_EARLY:
            sys.exit(f"{ended_early} runs ended early: one of the machines doesn't run its harness")
        lines += found
        other_lines += other_found
    return lines, other_lines


def each(judge, cases):
    """What is judged of each case, given its number too, side by side."""
    with ThreadPoolExecutor(os.cpu_count()) as pool:
        return list(pool.map(judge, range(len(cases)), cases))
