"""Measures what the proved program needs of stack, memory and processor time."""

import os
import subprocess
import sys

import boards
import bounds
import programs
import results
from loops import SIZES, elf, written

MARM, TOP, FOLDER = sys.argv[1:4]

FIRST = os.path.join(TOP, "examples", "first.elf")
SMALL = os.path.join(TOP, "examples", "boards", "small.toml")

# A session that has each command.
COMMANDS = b"step\nbreak 8\nwatch w 0x20000000 4\nstop faults on\ntrace refused\nregs\nregions\nmem 0 256\nexplain 0 p x\n"
COMMANDS += b"task 3\nrun 9\nclear\nstate\nnext\nhelp\nscript 1\nrun 9\nquit\n"

# A session of gdb: registers, a run, a step back, and the end.
PACKETS = b"$g#67$c#63+$bs#d5+$D#44"

# The most bytes of a file.
MOST = 1 << 24

# The least processor time of so many runs counts.
ROUNDS = 5


def measured(words, session=b""):
    """Returns the status, the KiB that were resident at most, and the seconds of processor time of a run of marm."""
    path = os.path.join(FOLDER, "time")
    command = ["/usr/bin/time", "-o", path, "-q", "-f", "%M %U %S", MARM, *words]
    run = subprocess.run(command, input=session, stdout=subprocess.DEVNULL, stderr=subprocess.DEVNULL)
    with open(path) as file:
        memory, user, system = file.read().split()[-3:]
    return run.returncode, int(memory), float(user) + float(system)


def run(board, image=FIRST, steps=10):
    """Returns the arguments of a run."""
    return ["run", "--board", board, "--steps", str(steps), image]


def memory_of(words, session=b""):
    """Returns the KiB that are resident at most."""
    return measured(words, session)[1]


def seconds_of(words):
    """Returns the least processor time of some runs."""
    return min(measured(words)[2] for _ in range(ROUNDS))


def works_with(stack, words, session):
    """Returns whether a run answers in the same way with so many KiB of stack as with 64 MiB."""
    answers = []
    for limit in (65536, stack):
        command = ["/bin/sh", "-c", f'ulimit -s {limit}; exec "$0" "$@"', MARM, *words]
        answer = subprocess.run(command, input=session, capture_output=True)
        answers.append((answer.returncode, answer.stdout, answer.stderr))
    return answers[0] == answers[1]


def works_within_bounds(board, image):
    """Returns whether a session of gdb answers in the same way with no more than it is to need at most."""
    words = [MARM, "gdb", "--board", board, "--steps", "1000", image]
    with open(board, "rb") as on, open(image, "rb") as of:
        limits = bounds.limits(of.read(), on.read(), True)
    free, bound = (programs.answer_of(words, PACKETS, most) for most in ((), limits))
    return free is not None and bound is not None and free.status == 0 and free.same(bound)


def least_stack(words, session=b""):
    """Returns the least KiB of stack, a multiple of 4, with which a run works."""
    low, high = 1, 16384
    while low < high:
        middle = (low + high) // 2
        low, high = (low, middle) if works_with(4 * middle, words, session) else (middle + 1, high)
    return 4 * low


def board(name, *lines):
    """Returns the path of a board of the small board's numbers with further lines."""
    return written(FOLDER, name, "\n".join([SIZES.replace("0x10_0000", "4096") + "lines = 8", *lines, ""]).encode())


events = "".join(f'[[event]]\nat = {at}\nline = {at % 8}\nwhat = "pulse"\n' for at in range(1, 65537))
plain = board("plain.toml", events)
# (each part of a key is a table of its own)
hostile = board("hostile.toml", *(f"a{number}." + "c." * 78 + "c = 1" for number in range(6500)))
deep = board("deep.toml", f"x = {boards.nested(80)}", f"y = {'[{a=' * 80}")
image = written(FOLDER, "large.elf", elf(b"\0").ljust(MOST, b"\0"))
full = written(FOLDER, "full.elf", elf(bytes(1 << 20)))
large = written(FOLDER, "large.toml", (SIZES + "lines = 240\nregions = 16\n").encode())
second = "[[ram]]\nbase = 0x6000_0000\nsize = 0x100_0000\n"
largest = written(FOLDER, "largest.toml", (SIZES + "lines = 240\nregions = 16\n" + second).encode())

for path in (large, largest):
    if not works_within_bounds(path, full):
        sys.exit(f"fuzz: a session of gdb on {os.path.basename(path)} needs more than fuzz/bounds.py says")

start = memory_of(run(SMALL))
bare = seconds_of(run(SMALL))


def seconds_a_mib(path):
    """Returns the seconds that a MiB of a board takes."""
    return f"{(seconds_of(run(path)) - bare) * 1048576 / os.path.getsize(path):.2f}"


figures = {
    "need stack, run, KiB": least_stack(run(SMALL, steps=1000)),
    "need stack, debug, KiB": least_stack(["debug", "--board", SMALL, FIRST], COMMANDS),
    "need stack, gdb, KiB": least_stack(["gdb", "--board", SMALL, FIRST], PACKETS),
    "need stack, deepest board, KiB": least_stack(run(deep)),
    "need memory, small board, KiB": start,
    "need memory, large board, KiB": memory_of(run(large, full)),
    "need memory, gdb, KiB": memory_of(["gdb", "--board", large, "--steps", "1000", full], PACKETS),
    "need memory, gdb, largest board, KiB": memory_of(["gdb", "--board", largest, "--steps", "1000", full], PACKETS),
    "need memory, byte of image": f"{(memory_of(run(SMALL, image)) - start) * 1024 / MOST:.1f}",
    "need memory, byte of plain board": f"{(memory_of(run(plain)) - start) * 1024 / os.path.getsize(plain):.0f}",
    "need memory, byte of hostile board": f"{(memory_of(run(hostile)) - start) * 1024 / os.path.getsize(hostile):.0f}",
    "need time, MiB of plain board, s": seconds_a_mib(plain),
    "need time, MiB of hostile board, s": seconds_a_mib(hostile),
}
for name, value in figures.items():
    print(f"{name:40} {value}")
results.append("fuzz/needs.sh", figures)
