"""Makes random accesses under random regions of the MPU on marm and on QEMU's Cortex-M3, and compares which were granted."""

import collections
import itertools
import random
import struct
import sys

from machines import LAST, each, in_parts, on_marm, on_qemu, put_out

COUNT, SEED = int(sys.argv[5]), int(sys.argv[6])

# How many steps an access takes at most on marm, and what stands before an entry's code.
STEPS = 1000
BEFORE = 76

# RAM for the accesses: what is below is the harness's, and what is above the stack's, which region 6 grants. Region 7 lets
# all code run and read flash.
LOWEST, HIGHEST = 0x20000100, 0x2000E000
OWN = [(0x2000E016, 0x13020019), (0x00000017, 0x06020027)]

# BX LR, which stands behind each access; and for a fetch MOV R8, LR; BLX R1; MOV LR, R8.
RETURN = b"\x70\x47"
FETCH = b"\xf0\x46\x88\x47\xc6\x46"

# The letter of an access in a trace, the bytes that it moves, and its code: loads and stores of R2 at R1, as privileged and
# as unprivileged code, and three times as often a fetch.
ACCESSES = [
    ("L", 4, b"\x0a\x68"),
    ("L", 2, b"\x0a\x88"),
    ("L", 1, b"\x0a\x78"),
    ("S", 4, b"\x0a\x60"),
    ("S", 2, b"\x0a\x80"),
    ("S", 1, b"\x0a\x70"),
    ("L", 4, b"\x51\xf8\x00\x2e"),
    ("L", 2, b"\x31\xf8\x00\x2e"),
    ("L", 1, b"\x11\xf8\x00\x2e"),
    ("S", 4, b"\x41\xf8\x00\x2e"),
    ("S", 2, b"\x21\xf8\x00\x2e"),
    ("S", 1, b"\x01\xf8\x00\x2e"),
    ("F", 2, FETCH),
    ("F", 2, FETCH),
    ("F", 2, FETCH),
]


def random_region(source, number):
    """RBAR and RASR of a region of 32 bytes or more that meets the RAM for the accesses; most are small, and most enabled."""
    power = source.randrange(5, 17) if source.random() < 0.85 else source.randrange(17, 33)
    base = source.randrange(0x20000000, HIGHEST) >> power << power
    subregions = source.getrandbits(8) if power >= 8 and source.random() < 0.6 else 0
    permission = source.choice([0, 1, 2, 3, 5, 6, 7])
    never, enabled = source.getrandbits(1), source.random() < 0.9
    return base | 0x10 | number, never << 28 | permission << 24 | 2 << 16 | subregions << 8 | (power - 1) << 1 | enabled


def random_address(source, size, regions):
    """An address of that alignment, mostly in a region or beside it, often at an end of an eighth of it."""
    base, attributes = source.choice(regions)
    eighth = (1 << (attributes >> 1 & 31) + 1) // 8
    if source.random() < 0.5:
        address = (base & ~31) + eighth * source.randrange(9) - source.choice([0, size])
    else:
        address = (base & ~31) + source.randrange(8 * eighth)
    if not LOWEST <= address <= HIGHEST - 16:
        address = source.randrange(LOWEST, HIGHEST - 16)
    return address // size * size


def random_case(source):
    """An access, its address, MPU_CTRL and the regions."""
    access = source.choice(ACCESSES)
    regions = [random_region(source, number) for number in range(6)]
    return access, random_address(source, access[1], regions), 1 | source.getrandbits(1) << 2, regions + OWN


def entry(case, at):
    """The entry of a case at an address. A fetch goes to the address with bit 0 set."""
    (letter, _, code), address, control, regions = case
    words = [at + BEFORE | 1, address | (letter == "F"), control, *itertools.chain(*regions)]
    return struct.pack("<19I", *words) + (code + RETURN).ljust(16, b"\0")


def granted(number, case):
    """1 or 0, whether marm grants an access; or how its run ends otherwise. The access of a 0 is the one that the MPU refuses."""
    (letter, _, _), address, _, _ = case
    trace = on_marm(entry, [case], f"case{number}", STEPS)
    refused = [line for line in trace if " mpu " in line]
    if trace[-1] != LAST or put_out(trace) != ["0" if refused else "1"]:
        return trace[-1]
    if not refused:
        return "1"
    _, kind, at, _, _, _, _ = refused[0].split()
    return "0" if len(refused) == 1 and (kind, int(at, 16)) == (letter, address) else refused[0]


def described(case):
    """Returns a case as text."""
    (letter, size, code), address, control, regions = case
    text = "  ".join(f"{base:08X} {attributes:08X}" for base, attributes in regions)
    return f"{letter} {address:08X} {size} by {code.hex()}  MPU_CTRL {control}  {text}"


source = random.Random(SEED)
cases = [random_case(source) for _ in range(COUNT)]
ours = each(granted, cases)
theirs = in_parts(on_qemu, entry, cases)
differ = [(case, left, right) for case, left, right in zip(cases, ours, theirs) if left != right]
for case, left, right in differ[:10]:
    print(f"{described(case)}  marm {left}, QEMU {right}")
counts = collections.Counter(ours)
print(f"{counts['1']} accesses granted, {counts['0']} refused, {len(differ)} differ")
sys.exit(1 if differ else 0)
