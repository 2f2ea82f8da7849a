"""Counts the host instructions of what kernels do, and of a step of each command over a kernel."""

import os
import sys

import results
import loops
from callgrind import a_step, counted
from ceilings import above
from kernels import PROGRAMS
from loops import trace_of, written

MARM, TOP, FOLDER = sys.argv[1:4]
STEPS = int(sys.argv[4])
# A kernel is counted over these steps, or to its end.
KERNEL_STEPS = 30_000
KERNELS = ["round_robin", "mailbox", "nested", "atomics", "faults"]


def run(board, path, trace):
    """Returns what makes the command that runs an image for some steps and writes these lines of its trace."""
    return lambda steps: [MARM, "run", "--board", board, "--trace", trace, "--steps", str(steps), path]


def sessions(board, path):
    """Returns what makes each further command that makes some steps of an image, and the text that it reads, by its name."""
    board = ["--board", board]
    return {
        "report": (lambda steps: [MARM, "report", *board, "--steps", str(steps), path], lambda steps: ""),
        "tasks": (lambda steps: [MARM, "tasks", *board, "--steps", str(steps), path], lambda steps: ""),
        "debug": (lambda steps: [MARM, "debug", *board, path], lambda steps: f"trace none\nrun {steps}\nquit\n"),
        "gdb": (lambda steps: [MARM, "gdb", *board, "--steps", str(steps), path], lambda steps: "+$c#63"),
    }


def from_start(command, steps, text=lambda count: ""):
    """Returns how many instructions a step of a kernel takes, from its first one on."""
    less, more = (counted(command(count), text(count)) for count in (0, KERNEL_STEPS))
    return (more - less) / steps


def turns():
    """Returns what a turn of each loop takes, by its name."""
    for name, (image, text, turn) in PROGRAMS.items():
        board, path = written(FOLDER, f"{name}.toml", text.encode()), written(FOLDER, f"{name}.elf", image)
        yield name, turn * a_step(run(board, path, "none"), STEPS)


def kernels():
    """Returns what a step of each kernel takes, by its name, and of one by each command."""
    for kernel in KERNELS:
        board, path = (os.path.join(TOP, "examples", "kernels", kernel + end) for end in (".toml", ".elf"))
        steps, _ = loops.counted(trace_of(run(board, path, "all")(KERNEL_STEPS)))
        for trace in ("all", "none"):
            yield f"a step of {kernel}, --trace {trace}", from_start(run(board, path, trace), steps)
        if kernel == KERNELS[0]:
            for name, (command, text) in sessions(board, path).items():
                yield f"a step of {kernel}, {name}", from_start(command, steps, text)


def lua():
    """Returns what a step of Lua takes where MARM_LUA names an image of it, with its board beside it (IMAGE.toml): of the
    100,000 steps behind the first 100,000, since those before set its tables up."""
    path = os.environ.get("MARM_LUA")
    for trace in ("all", "none") if path else ():
        yield f"a step of Lua, --trace {trace}", a_step(run(path + ".toml", path, trace), 100_000)


figures = {}
for name, count in (*turns(), *kernels(), *lua()):
    print(f"{name:40}{count:12.1f}", flush=True)
    figures[f"cost {name}"] = f"{count:.1f}"
results.append(f"crosscheck/cost.sh {STEPS}", figures)
sys.exit(1 if above(figures) else 0)
