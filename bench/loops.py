"""The loops that the benches run, the images that have them, and what the best of many runs takes."""

import os
import random
import struct
import subprocess
import sys
import time

# At 0x100: B to itself; and MOV R0, #7; STR R0, [R1]; LDR R2, [R1]; B to the MOV, where the start code sets R1. With
# each, how many lines it writes a step.
LOOPS = {
    "branch": ([0xE7FE], 1.0),
    "store_load": ([0x2007, 0x6008, 0x680A, 0xE7FB], 1.5),
}


# RBAR, with VALID and the region's number, and RASR of regions that all grant everything. The first covers all addresses;
# the others overlap in RAM, from 256 bytes upward, so that each fetch asks all of them.
REGIONS = [(0x00000010, 0x0300003F)] + [(0x20000010 | number, 0x0300000F + 2 * (number - 1)) for number in range(1, 16)]

# What a board has beside its numbers of lines and regions and its events, and how many events a script has at most.
SIZES = "flash_base = 0\nflash_size = 0x10_0000\nram_size = 0x10_0000\npriority_bits = 8\n"
EVENTS = 65_536

# LDR R0, table; LDR R1, RBAR; LDR R4, count; then for each region LDM R0!, {R2, R3}; STR R2, [R1]; STR R3, [R1, #4];
# SUBS R4, #1; BNE; and MOVS R5, #1; SUBS R1, #8; STR R5, [R1], which is MPU_CTRL; LDR R1, word. One of the ends follows.
SET_UP = [0x4806, 0x4907, 0x4C07, 0xC80C, 0x600A, 0x604B, 0x3C01, 0xD1FA, 0x2501, 0x3908, 0x600D, 0x4904]

# LDR R1, address; B 0x100.
START = [0x4900, 0xE05D]

# LDR R0, SYST_CSR; LDR R1, reload; STR R1, [R0, #4]; STR R1, [R0, #8]; MOVS R2, #7; STR R2, [R0]; LDR R1, address; B 0x100:
# SysTick counts 1,000 ticks and raises its exception at 0.
TIMER = [0x4803, 0x4904, 0x6041, 0x6081, 0x2207, 0x6002, 0x4902, 0xE057]
TIMER_WORDS = [0xE000E010, 999, 0x20000010]

# The vector of SysTick, and its handler: BX LR.
TIMER_VECTOR, HANDLER, RETURN = 0x3C, 0xF0, 0x4770

# B 0x100, where SET_UP stands at 0x40; or BX R1. A NOP fills the word.
TO_LOOP = [0xE052, 0xBF00]
TO_WORD = [0x4708, 0xBF00]


def set_up(base, regions, word, end):
    """Code that stands at a base: it sets the regions up, gives R1 the word, and goes on with the end."""
    table = base + 2 * len(SET_UP + end) + 16
    words = [table, 0xE000ED9C, len(regions), word] + [part for region in regions for part in region]
    return struct.pack(f"<{len(SET_UP + end)}H{len(words)}I", *SET_UP, *end, *words)


def start_code(regions):
    """What stands from 0x40 on: it sets the regions up, if there are any, and gives R1 the address 0x20000010."""
    if not regions:
        return struct.pack("<2HI", *START, 0x20000010)
    return set_up(0x40, regions, 0x20000010, TO_LOOP)


def image(halfwords, regions=()):
    """An ELF file of one segment at 0: the vector table, the start code at 0x40, the loop at 0x100."""
    memory = struct.pack("<II", 0x20001000, 0x41).ljust(0x40, b"\0") + start_code(regions)
    return elf(memory.ljust(0x100, b"\0") + b"".join(struct.pack("<H", halfword) for halfword in halfwords))


def timer_image(halfwords):
    """An ELF file as `image`, but its start code runs SysTick, whose handler returns at once."""
    vectors = struct.pack("<II", 0x20001000, 0x41).ljust(TIMER_VECTOR, b"\0") + struct.pack("<I", HANDLER | 1)
    memory = vectors + struct.pack("<8H3I", *TIMER, *TIMER_WORDS)
    memory = memory.ljust(HANDLER, b"\0") + struct.pack("<H", RETURN)
    return elf(memory.ljust(0x100, b"\0") + b"".join(struct.pack("<H", halfword) for halfword in halfwords))


def script(ticks, kinds=("rise", "fall", "pulse")):
    """A script: an event at each of some ticks, of the kinds and of the lines in turn."""
    events = []
    for number, tick in enumerate(ticks):
        line, what = number // len(kinds) % 240, kinds[number % len(kinds)]
        events.append(f'[[event]]\nat = {tick}\nline = {line}\nwhat = "{what}"\n')
    return "".join(events)


def elf(memory):
    """An ELF file of one segment at 0."""
    header = b"\x7fELF\x01\x01\x01" + bytes(9)
    header += struct.pack("<HHIIIIIHHHHHH", 2, 40, 1, 0, 52, 0, 0x05000000, 52, 32, 1, 0, 0, 0)
    program_header = struct.pack("<8I", 1, 84, 0, 0, len(memory), len(memory), 5, 4)
    return header + program_header + memory


def flash_of(content):
    """What an ELF file puts at 0 and upward: the bytes of its first segment, which is all that it brings."""
    (headers,) = struct.unpack_from("<I", content, 28)
    _, offset, _, _, size = struct.unpack_from("<5I", content, headers)
    return content[offset : offset + size]


def with_regions(flash, regions):
    """An ELF file of that flash, behind which stands code that sets the regions up and then starts the program."""
    behind = len(flash) + -len(flash) % 4
    (reset,) = struct.unpack_from("<I", flash, 4)
    vectors = flash[:4] + struct.pack("<I", behind | 1)
    return elf((vectors + flash[8:]).ljust(behind, b"\0") + set_up(behind, regions, reset, TO_WORD))


def traced(marm, board, steps, path):
    """The command that runs an image and writes its trace."""
    return [marm, "run", "--board", board, "--steps", str(steps), path]


def to_file(words, folder):
    """The command that runs these words with their output in a file of a folder."""
    return ["sh", "-c", 'file=$1; shift; exec "$@" >"$file"', "sh", os.path.join(folder, "trace"), *words]


def trace_of(words):
    """The text of a run's trace."""
    return subprocess.run(words, stdout=subprocess.PIPE, check=True).stdout


def counted(trace):
    """How many steps a trace has, and how many lines; the line before the last one begins with the last step's number."""
    return int(trace[-200:].splitlines()[-2].split()[0]), trace.count(b"\n")


def written(folder, name, content):
    """The path of a new file with that content."""
    path = os.path.join(folder, name)
    with open(path, "wb") as file:
        file.write(content)
    return path


def seconds(words):
    """What a command takes, its output to /dev/null. QEMU warns of a timer on standard error, which isn't shown."""
    begin = time.perf_counter()
    with open(os.devnull, "wb") as sink:
        status = subprocess.run(words, stdout=sink, stderr=sink).returncode
    if status != 0:
        sys.exit(f"{words} ended with {status}")
    return time.perf_counter() - begin


def best_of(runs, rounds):
    """The best time of each command, in shuffled rounds."""
    best = {}
    for _ in range(rounds):
        order = list(runs)
        random.shuffle(order)
        for run in order:
            best[run] = min(best.get(run, 1e9), seconds(runs[run]))
    return best
