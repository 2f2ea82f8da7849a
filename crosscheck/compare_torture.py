"""Builds gcc's execution tests at levels, runs each on marm and in QEMU, and compares the traces. It prints how many
tests of a level were built, how they ended where the traces are the same, and each that differs or isn't linked."""

import collections
import os
import re
import resource
import subprocess
import sys
from concurrent.futures import ThreadPoolExecutor

from torture_known import reason
from torture_tests import Kit, built, tests_of

MARM, TOP, FOLDER = sys.argv[1:4]
JOBS, ONLY, LEVELS = int(sys.argv[4]), sys.argv[5], sys.argv[6:]

# What one run has at most: steps, seconds, and bytes of its trace.
STEPS, SECONDS, BYTES = 2_000_000, 120, 1 << 29

BOARD = os.path.join(TOP, "crosscheck", "board.toml")
QEMU = "qemu-system-arm -M mps2-an385 -display none -monitor none -serial none".split()

# The end of a line: privilege, outcome and rule, which QEMU's plugin doesn't know.
DECISION = re.compile(rb" [pu] ok \w+$", re.M)
BYTE = re.compile(rb"^\d+ O ..\n", re.M)
REFUSED = re.compile(rb"^\d+ [FLSKUV] \S+ \d [pu] (mpu|bus) .*$", re.M)


def trace_of(command, path):
    """The trace of a run, or None where the run took too long or wrote too much."""
    with open(path, "wb") as file:
        process = subprocess.Popen(command, stdin=subprocess.DEVNULL, stdout=file, stderr=subprocess.DEVNULL)
    resource.prlimit(process.pid, resource.RLIMIT_FSIZE, (BYTES, BYTES))
    try:
        process.wait(SECONDS)
    except subprocess.TimeoutExpired:
        process.kill()
        process.wait()
        return None
    with open(path, "rb") as file:
        trace = file.read()
    return trace if len(trace) < BYTES else None


def without_exceptions(trace):
    """The accesses of instructions that were granted, numbered as QEMU's plugin does: it knows neither the ticks of an
    exception's entry nor an instruction whose fetch was refused."""
    lines, count, ahead, last, entered = [], 0, 0, None, False
    for line in trace.decode().splitlines():
        words = line.split()
        if words[1] == "X":
            entered = True
        elif words[0] == "stop":
            lines.append(line)
        elif words[1] in "FLS" and words[5] == "ok":
            if words[1] == "F" and words[0] != last:
                last, count = words[0], count + 1
                ahead, entered = (int(last) - count, False) if entered else (ahead, False)
            lines.append(" ".join([str(int(words[0]) - ahead), *words[1:4]]))
    return "\n".join(lines).encode() + b"\n"


def compared(trace, other, confined):
    """The two traces in the form in which they have to be the same, byte for byte."""
    if trace.endswith(b"stop steps\n"):
        trace = trace[: -len(b"stop steps\n")]
    if re.search(rb"^\d+ X ", trace, re.M):
        return without_exceptions(trace), DECISION.sub(b"", other)
    trace = BYTE.sub(b"", trace)
    return (DECISION.sub(b"", trace), DECISION.sub(b"", other)) if confined else (trace, other)


def first_difference(trace, other):
    """The first lines that differ."""
    pairs = zip(trace.decode().splitlines() + ["nothing"], other.decode().splitlines() + ["nothing"])
    number, (line, another) = next((number, pair) for number, pair in enumerate(pairs, 1) if pair[0] != pair[1])
    return f"line {number}: {line} on marm, {another} in QEMU"


def known(trace, other, confined):
    """Why two traces differ, if that is known: they are the same up to marm's first access that is refused."""
    found = REFUSED.search(trace)
    if found is None:
        return None
    mine, theirs = compared(trace[: found.start()], other, confined)
    return reason(found[0].decode()) if theirs.startswith(mine) else None


def verdict(test, level, image):
    """What became of a test: a word for the counts, the lines that are the same, and what there is to say."""
    trace = trace_of([MARM, "run", "--board", BOARD, "--steps", str(STEPS), image], image + ".marm")
    plugin = f"{FOLDER}/plugin.so,steps={STEPS}"
    other = trace_of([*QEMU, "-kernel", image, "-plugin", plugin], image + ".qemu")
    if trace is None or other is None:
        return "beyond a limit", 0, "on marm" if trace is None else "in QEMU"
    confined = level.startswith("confined-")
    mine, theirs = compared(trace, other, confined)
    end = trace.rstrip().rsplit(b"\n", 1)[-1].decode()
    if mine == theirs:
        return end, theirs.count(b"\n"), ""
    why = known(trace, other, confined)
    return ("differs as known" if why else "DIFFERS"), 0, why or first_difference(mine, theirs)


def outcome(kit, test, level):
    """Builds and runs a test, in files that are gone afterwards."""
    image = os.path.join(FOLDER, f"{level}-{test.name.replace('/', '-')}.elf")
    try:
        how = built(kit, test, level, image)
        return verdict(test, level, image) if how == "built" else (how, 0, "")
    finally:
        for path in (image, image + ".marm", image + ".qemu"):
            if os.path.exists(path):
                os.unlink(path)


def run_level(kit, tests, level):
    """Runs all tests at a level, and prints the counts. Returns whether none differs but as known."""
    with ThreadPoolExecutor(JOBS) as pool:
        outcomes = list(pool.map(lambda test: outcome(kit, test, level), tests))
    counts = collections.Counter(word for word, _, _ in outcomes)
    lines = sum(count for _, count, _ in outcomes)
    same = sum(count for word, count in counts.items() if word.startswith("stop "))
    images = len(tests) - sum(counts[word] for word in ("refused", "larger than RAM", "not linked"))
    print(f"{level}: {len(tests)} tests, {images} built, {same} the same, with {lines} lines")
    for word, count in sorted(counts.items()):
        print(f"    {count} {word}")
    for test, (word, _, text) in zip(tests, outcomes):
        if word != "stop breakpoint 0":
            print(f"    {test.name}: {word}{': ' * bool(text)}{text}")
    sys.stdout.flush()
    return not (counts["DIFFERS"] or counts["not linked"])


def main():
    kit = Kit(os.path.join(TOP, "examples", "firmware", "kit"), FOLDER)
    tests = tests_of(FOLDER, ONLY)
    if not tests:
        sys.exit(f"crosscheck: there is no test {ONLY}")
    well = [run_level(kit, tests, level) for level in LEVELS]
    sys.exit(not all(well))


main()
