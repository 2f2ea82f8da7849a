"""Asks marm, llvm-objdump and arm-none-eabi-objdump what encodings are, and lists the kinds of differences. marm says whether
it carries out an encoding, finds it UNDEFINED or stops by name, which accesses it makes and where it goes on."""

import collections
import os
import random
import struct
import subprocess
import sys
from concurrent.futures import ThreadPoolExecutor

import random_code
from expected import Machine, expectation
from known import UNDEFINED, of_doubted, reason
from listing import halfwords, listings, unpredictable
from loops import elf, traced, written

MARM, FOLDER = sys.argv[1:3]
COUNT, SEED = int(sys.argv[3]), int(sys.argv[4])

# A board with little flash, since each encoding has a run of its own.
BOARD = b"flash_base = 0\nflash_size = 4096\nram_size = 65536\npriority_bits = 8\nlines = 0\n"

# The address of the encoding, and the code before it: LDR R0, table; LDM R0, {R0-R12, LR}; B to the encoding.
CODE = 0x800
START = struct.pack("<4HI", 0x4801, 0xE890, 0x5FFF, 0xE000 | (CODE - 0x4A) // 2, 0x4C)
AHEAD = 3

# The bits of CFSR of encodings without a meaning.
UNDEFINSTR, NOCP = 1 << 16, 1 << 19

# Registers that all point into RAM, at some distance from one another and from its ends.
MACHINE = Machine([0x20008000 + 0x400 * number for number in range(13)] + [0x2000F000, 0x2000C000], CODE)


def image(encoding):
    """An ELF file whose fourth instruction is the encoding. NOPs stand behind it."""
    flash = struct.pack("<II", MACHINE.registers[13], 0x41).ljust(0x40, b"\0") + START
    flash += struct.pack("<14I", *MACHINE.registers[:13], MACHINE.registers[14])
    here = struct.pack(f"<{len(halfwords(encoding))}H", *halfwords(encoding))
    return elf(flash.ljust(CODE, b"\0") + here + b"\x00\xbf" * 8)


def trace_of(number, encoding, steps):
    """The lines of a trace behind those of the code ahead, each in its words, and the words of the last line. The file has
    the number of the encoding, since a random encoding may come twice."""
    path = written(FOLDER, f"image{number}", image(encoding))
    lines = subprocess.run(traced(MARM, board, steps, path), stdout=subprocess.PIPE, text=True).stdout.splitlines()
    os.unlink(path)
    return [line.split() for line in lines[:-1] if int(line.split()[0]) > AHEAD], lines[-1]


def fault_at(lines, tick):
    """CFSR as a fault of a tick leaves it, or 0."""
    return next((int(line[3], 16) for line in lines if line[:2] == [str(tick), "!"]), 0)


def answer(number, encoding):
    """How an encoding ends, its accesses, and where the machine goes on, if it does."""
    lines, stop = trace_of(number, encoding, AHEAD + 2)
    mine = [(line[1], int(line[2], 16), int(line[3]), line[5]) for line in lines if line[0] == str(AHEAD + 1) and line[1] != "!"]
    behind = [line for line in lines if line[0] == str(AHEAD + 2)]
    accesses = [access for access in mine if access[0] != "F"]
    cfsr = fault_at(lines, AHEAD + 1)
    if cfsr & (UNDEFINSTR | NOCP):
        return "UNDEFINED" if cfsr & UNDEFINSTR else "NOCP", accesses, None
    if cfsr:
        return "carried out", accesses, None
    if behind and behind[0][1] == "K":
        return "SVC", accesses, None
    # An instruction that leaves T clear is carried out, and the step behind it is a fault.
    if behind or stop == "stop steps":
        return "carried out", accesses, int(behind[0][2], 16) if behind and behind[0][1] == "F" else None
    return stop[len("stop ") :], accesses, None


def random_long(source):
    """Returns a 32-bit encoding: any, one likely to be an instruction, or one of the branches and their neighbours."""
    kind = source.randrange(3)
    if kind == 0:
        return source.randrange(0xE8000000, 1 << 32)
    if kind == 1:
        first, second = struct.unpack("<HH", random_code.long(source))
        return first << 16 | second
    second = source.randrange(0x8000, 0x10000) & ~(0x2F00 if source.random() < 0.5 else 0)
    return source.randrange(0xF000, 0xF800) << 16 | second


def verdict(encoding, answered, llvm, gnu, place, doubted):
    """What is different of an encoding, and what is known of that; None where all agree."""
    ending, accesses, behind = answered
    if ending == "carried out" and llvm != "<unknown>":
        wrong = expectation(llvm, len(halfwords(encoding)) * 2, place).differs(MACHINE, accesses, behind)
        if wrong is None and (doubted or "UNPREDICTABLE" in gnu):
            return "carried out, but UNPREDICTABLE", of_doubted(llvm)
        return wrong and (f"carried out, but {wrong}", None)
    if ending == "UNDEFINED" and llvm == "<unknown>" and UNDEFINED.search(gnu):
        return None
    if ending.startswith("breakpoint") and llvm == f"bkpt #{ending.split()[1]}":
        return None
    return ending, reason(ending, encoding, llvm, gnu)


board = written(FOLDER, "board.toml", BOARD)
source = random.Random(SEED)
encodings = list(range(0xE800)) + [random_long(source) for _ in range(COUNT)]
llvm, gnu, places = listings(FOLDER, encodings)
doubted = unpredictable(FOLDER, encodings)
with ThreadPoolExecutor(os.cpu_count()) as pool:
    answers = list(pool.map(answer, range(len(encodings)), encodings, chunksize=64))
kinds = collections.defaultdict(list)
for number, encoding in enumerate(encodings):
    kind = verdict(encoding, answers[number], llvm[number], gnu[number], places[number], number in doubted)
    if kind is not None:
        kinds[kind].append(number)
for (ending, why), numbers in sorted(kinds.items(), key=lambda item: -len(item[1])):
    print(f"{len(numbers):6} {ending}: {why or 'DIFFERS'}")
    for number in numbers[: 20 if why is None else 2]:
        print(f"{'':14}{encodings[number]:04X}  {llvm[number]}  /  {gnu[number]}")
stopped = [number for number, (ending, _, _) in enumerate(answers) if ending.startswith("unpredictable")]
print(f"{len(stopped)} stop as UNPREDICTABLE, of which llvm-mc doubts {len(doubted.intersection(stopped))}")
differ = sum(len(numbers) for numbers in kinds.values())
unknown = sum(len(numbers) for (_, why), numbers in kinds.items() if why is None)
print(f"{len(encodings)} encodings: {len(encodings) - differ} agree, {differ - unknown} differ as is known, {unknown} differ")
sys.exit(1 if unknown else 0)
