"""Carries out random instructions on marm and on QEMU's Cortex-M3, and compares digests of what they leave. Those that marm
stops at, or after which it doesn't come back to the harness, are left out: those that do so alone, and those that do so only
ahead of other entries, from which they load or to which they go."""

import collections
import random
import struct
import sys

import random_code
from machines import LAST, NOTHING, UART_PLACE, each, harness, on_marm, on_qemu, put_out, side_by_side

COUNT, SEED = int(sys.argv[5]), int(sys.argv[6])

# The bytes of an entry, and of what stands before its code; and how many steps one takes at most.
ENTRY, BEFORE = 112, 72
STEPS = 20_000

FINISH = struct.unpack_from("<I", harness, 8)[0] & ~1


def branch_to_finish(at):
    """B.W from an address."""
    offset = FINISH - (at + 4)
    sign = offset >> 24 & 1
    first, second = (~(offset >> bit ^ sign) & 1 for bit in (23, 22))
    hw1 = 0xF000 | sign << 10 | offset >> 12 & 0x3FF
    return struct.pack("<HH", hw1, 0x9000 | first << 13 | second << 11 | offset >> 1 & 0x7FF)


def random_case(source):
    """Code, the registers R0 to R12 and LR, a seed for the memory, and the flags."""
    registers = [random_code.value(source) for _ in range(14)]
    return random_code.code(source), registers, source.getrandbits(32), source.getrandbits(5) << 27


def entry(case, at):
    """The entry of a case at an address: NOPs stand behind the code."""
    text, registers, seed, flags = case
    start = at + BEFORE
    end = at + ENTRY - 4
    behind = b"\x00\xbf" * ((end - start - len(text)) // 2)
    words = [start | 1, seed, flags, *registers, start | 1]
    return struct.pack("<18I", *words) + text + behind + branch_to_finish(end)


def described(case):
    """Returns a case as text: its bytes, the registers and the flags."""
    text, registers, _, flags = case
    return f"{text.hex()}  R0.. {' '.join(f'{register:08X}' for register in registers)}  flags {flags:08X}"


def loads_uart(trace):
    """Whether a case loads the word at UART_PLACE, which isn't the same on both machines. The harness loads it once."""
    loads = [line for line in trace if f" L {UART_PLACE >> 4:07X}" in line]
    return sum(int(line.split()[2], 16) < UART_PLACE + 4 for line in loads) > 1


def ended(number, case):
    """How a case ends on marm, alone."""
    trace = on_marm(entry, [case], f"case{number}", STEPS)
    if trace[-1] == LAST and loads_uart(trace):
        return "loads the address of the UART"
    return "lost" if trace[-1] == LAST and len(put_out(trace)) != 1 else trace[-1]


def put_out_by_marm(entry, cases):
    """The lines that marm puts out for some cases."""
    return put_out(on_marm(entry, cases, "part", STEPS * len(cases)))


source = random.Random(SEED)
cases = [random_case(source) for _ in range(COUNT)]
endings = each(ended, cases)
taken = [case for case, ending in zip(cases, endings) if ending == LAST]
for ending, count in collections.Counter(endings).most_common():
    print(f"{count:7} {ending}")
ours, theirs = side_by_side(put_out_by_marm, on_qemu, entry, taken)
lost = ours.count(NOTHING)
differ = [case for case, left, right in zip(taken, ours, theirs) if NOTHING != left != right]
for case in differ[:10]:
    print(described(case))
print(f"{lost:7} lost: needs the entries after it")
print(f"{len(taken) - lost} carried out, {len(differ)} differ")
sys.exit(1 if differ else 0)
