"""Times two parts of a step, decoding and deciding, over some mixes, and beside them the loops and the real program that
they are of, in shuffled rounds. Prints how many are made in a second, and what part of a step they take: of decoding,
where what halfwords meant is kept, as the machine Slow does."""

import random
import re
import struct
import sys

import results
from loops import LOOPS, REGIONS, best_of, flash_of, image, trace_of, traced, with_regions, written

RATE, MARM, SMALL, LARGE, PROGRAM, LISTING, FOLDER = sys.argv[1:8]
COUNT = int(sys.argv[8])
ROUNDS = int(sys.argv[9])
STEPS = COUNT // 10

# About how many pairs a mix has; and behind which step of the real program its sample begins, which is in its loop.
SAMPLE = 65536
BEFORE = 200_000


def random_pairs(count):
    """Pairs of halfwords, each as likely as any other; the same in each run."""
    source = random.Random(2026)
    return [(source.getrandbits(16), source.getrandbits(16)) for _ in range(count)]


def listed_pairs(listing):
    """The instructions of a disassembler's listing, each with the halfword behind it."""
    found = re.findall(r"^ *[0-9a-f]+: ((?:[0-9a-f]{2} )+)[ \t]+(?!\.)\w", listing, re.M)
    bytes_of = [bytes.fromhex(line) for line in found]
    following = [code[:2] for code in bytes_of[1:]] + [b"\x00\xbf"]
    return [struct.unpack("<HH", (code + after)[:4]) for code, after in zip(bytes_of, following)]


def sampled_accesses(trace):
    """The accesses of SAMPLE steps of a trace: the tick, the letter of the kind, the address."""
    words = [line.split() for line in trace.splitlines()[:-1]]
    accesses = [(int(word[0]), word[1], int(word[2], 16)) for word in words if word[1] in (b"F", b"L", b"S")]
    return [access for access in accesses if access[0] > BEFORE]


def fetched_pairs(accesses, flash):
    """What the steps of these accesses decode: a halfword with the second that was fetched, or with 0."""
    fetched = {}
    for tick, kind, address in accesses:
        if kind == b"F":
            fetched.setdefault(tick, []).append(struct.unpack_from("<H", flash, address)[0])
    return [(halfwords + [0])[:2] for halfwords in fetched.values()]


def packed_pairs(pairs):
    return b"".join(struct.pack("<HH", *pair) for pair in pairs)


def packed_accesses(accesses):
    return b"".join(struct.pack("<Ic3x", address, kind) for _, kind, address in accesses)


def times_of(entries):
    """How often a mix of so many entries is gone through."""
    return max(1, COUNT // len(entries))


with open(PROGRAM, "rb") as file:
    flash = flash_of(file.read())
accesses = sampled_accesses(trace_of(traced(MARM, LARGE, BEFORE + SAMPLE, PROGRAM)))

mixes = {"random halfwords": random_pairs(SAMPLE)}
with open(LISTING) as file:
    listed = listed_pairs(file.read())
if listed:
    mixes[f"a program's {len(listed)} instructions"] = listed * (SAMPLE // len(listed))
for name, (halfwords, _) in LOOPS.items():
    following = halfwords[1:] + halfwords[:1]
    mixes[name] = list(zip(halfwords, following)) * (SAMPLE // len(halfwords))
mixes["crc32-loop"] = fetched_pairs(accesses, flash)

runs = {}
for at, (name, pairs) in enumerate(mixes.items()):
    path = written(FOLDER, f"mix{at}", packed_pairs(pairs))
    runs[name, "decode"] = [RATE, "decode", path, str(times_of(pairs))]
for name, (halfwords, _) in LOOPS.items():
    runs[name, "marm"] = traced(MARM, SMALL, STEPS, written(FOLDER, name + ".elf", image(halfwords)))
path = written(FOLDER, "accesses", packed_accesses(accesses))
runs["decide", "marm"] = [RATE, "decide", path, str(times_of(accesses))]
path = written(FOLDER, "regions", b"".join(struct.pack("<II", *region) for region in REGIONS[:8]))
runs["decide", "regions"] = runs["decide", "marm"] + [path]
runs["crc32-loop", "marm"] = traced(MARM, LARGE, STEPS, PROGRAM)
path = written(FOLDER, "crc32-loop.elf", with_regions(flash, REGIONS[:8]))
runs["crc32-loop", "regions"] = traced(MARM, LARGE, STEPS, path)

best = best_of(runs, ROUNDS)
figures = {}
print(f"{COUNT} decodes or decisions, {STEPS} steps, the best of {ROUNDS} shuffled rounds")
for name, pairs in mixes.items():
    count = times_of(pairs) * len(pairs)
    decode = best[name, "decode"] / count
    figures[f"decode, {name}, ns"] = f"{decode * 1e9:.1f}"
    line = f"{name:<32} {1e-6 / decode:6.1f} M decodes/s   {decode * 1e9:5.1f} ns each"
    if (name, "marm") in best:
        step = best[name, "marm"] / STEPS
        line += f"   {step * 1e9:5.1f} ns a step"
    print(line)
each_step = len(accesses) / len(mixes["crc32-loop"])
for text, run in (("the MPU off", "marm"), ("eight regions", "regions")):
    decide = best["decide", run] / (times_of(accesses) * len(accesses))
    step = best["crc32-loop", run] / STEPS
    figures[f"decide, {text}, ns"] = f"{decide * 1e9:.1f}"
    print(
        f"{'crc32-loop, ' + text:<32} {1e-6 / decide:6.1f} M decisions/s {decide * 1e9:5.1f} ns each"
        f"   {step * 1e9:5.1f} ns a step, of which deciding {each_step * decide / step:.0%} ({each_step:.2f} a step)"
    )
results.append(f"bench/parts.sh {COUNT} {ROUNDS}", figures)
