"""Times the proved program and the plain C formatter in shuffled rounds, and prints the best of each and their ratio; a
real program, with and without a trace; each with regions set up, with SysTick and with a script, beside a quiet board
with the MPU off; and the loops with the trace to a file, and in QEMU with a plugin that writes the same lines; so the
real program and the images that are named, on the same number of steps."""

import os
import sys

import results
from loops import (
    EVENTS, LOOPS, REGIONS, SIZES, best_of, counted, flash_of, image, script, timer_image, to_file, trace_of, traced,
    with_regions, written,
)

MARM, FIRMWARE, FORMAT, PLUGIN, LARGE, PROGRAM, FOLDER = sys.argv[1:8]
STEPS = int(sys.argv[8])
ROUNDS = int(sys.argv[9])
IMAGES = sys.argv[10:]

# More steps than the real program makes.
ENOUGH = 10**9

# The numbers of regions that are set up.
COUNTS = (1, 8, 16)

quiet = written(FOLDER, "quiet.toml", (SIZES + "lines = 8\nregions = 16\n").encode())
busy = written(FOLDER, "busy.toml", (SIZES + "lines = 240\n" + script(range(1, 1 + 64 * EVENTS, 64))).encode())


def in_qemu(path):
    """The command that runs an image in QEMU, whose plugin writes its trace."""
    words = ["qemu-system-arm", "-machine", "mps2-an385", "-display", "none", "-monitor", "none", "-serial", "none"]
    return words + ["-kernel", path, "-plugin", f"{PLUGIN},steps={STEPS}"]


runs = {}
for name, (halfwords, _) in LOOPS.items():
    path = written(FOLDER, name + ".elf", image(halfwords))
    runs[name, "marm"] = traced(MARM, quiet, STEPS, path)
    runs[name, "file"] = to_file(runs[name, "marm"], FOLDER)
    runs[name, "format"] = [FORMAT, name, str(STEPS)]
    if PLUGIN:
        runs[name, "qemu"] = in_qemu(path)
    runs[name, "events"] = traced(MARM, busy, STEPS, path)
    runs[name, "timer"] = traced(MARM, quiet, STEPS, written(FOLDER, name + "-timer.elf", timer_image(halfwords)))
    for count in COUNTS:
        path = written(FOLDER, f"{name}{count}.elf", image(halfwords, REGIONS[:count]))
        runs[name, count] = traced(MARM, quiet, STEPS, path)

with open(PROGRAM, "rb") as file:
    flash = flash_of(file.read())
runs["crc32-loop", "marm"] = traced(MARM, quiet, ENOUGH, PROGRAM)
runs["crc32-loop", "untraced"] = [FIRMWARE, "--fast", LARGE, PROGRAM]
runs["crc32-loop", "events"] = traced(MARM, busy, ENOUGH, PROGRAM)
for count in COUNTS:
    path = written(FOLDER, f"crc32-loop{count}.elf", with_regions(flash, REGIONS[:count]))
    runs["crc32-loop", count] = traced(MARM, quiet, ENOUGH, path)
for path in [PROGRAM, *IMAGES]:
    runs[path, "marm"] = traced(MARM, LARGE, STEPS, path)
    if PLUGIN:
        runs[path, "qemu"] = in_qemu(path)
steps, lines = counted(trace_of(runs["crc32-loop", "marm"]))

best = best_of(runs, ROUNDS)
figures = {}
print(f"{STEPS} steps, the best of {ROUNDS} shuffled rounds, the trace to /dev/null")
for name, (_, share) in LOOPS.items():
    marm, plain = best[name, "marm"], best[name, "format"]
    print(
        f"{name:<11} marm {STEPS / marm / 1e6:6.1f} M steps/s {share * STEPS / marm / 1e6:6.1f} M lines/s   "
        f"C formatter {share * STEPS / plain / 1e6:6.1f} M lines/s   ratio {plain / marm:.2f}"
    )
    figures[f"bench {name}, M lines/s"] = f"{share * STEPS / marm / 1e6:.1f}"
    figures[f"bench {name}, of the formatter"] = f"{plain / marm:.2f}"
    if PLUGIN:
        plugin = best[name, "qemu"]
        figures[f"bench {name}, of QEMU"] = f"{plugin / marm:.2f}"
        print(f"{name:<11} QEMU {share * STEPS / plugin / 1e6:6.1f} M lines/s   ratio {plugin / marm:.2f}")
marm, untraced = best["crc32-loop", "marm"], best["crc32-loop", "untraced"]
print(
    f"crc32-loop  marm {steps / marm / 1e6:6.1f} M steps/s {lines / marm / 1e6:6.1f} M lines/s   "
    f"untraced    {steps / untraced / 1e6:6.1f} M steps/s   formatting {1 - untraced / marm:.0%}   ({steps} steps)"
)
for path in [PROGRAM, *IMAGES]:
    name, ours = os.path.splitext(os.path.basename(path))[0], best[path, "marm"]
    made = min(STEPS, steps) if path == PROGRAM else STEPS
    print(f"{name:<11} marm {made / ours / 1e6:6.1f} M steps/s, the first {made}", end="")
    figures[f"bench {name}, M steps/s"] = f"{made / ours / 1e6:.1f}"
    if PLUGIN:
        plugin = best[path, "qemu"]
        print(f"   QEMU {made / plugin / 1e6:6.1f} M steps/s   ratio {plugin / ours:.2f}", end="")
        figures[f"bench {name}, of QEMU"] = f"{plugin / ours:.2f}"
    print()
figures["bench crc32-loop, M lines/s"] = f"{lines / marm / 1e6:.1f}"
# What each way takes, as a part of the steps a second of the quiet board with the MPU off.
WAYS = [*((count, f"{count} regions") for count in COUNTS), ("timer", "SysTick"), ("events", "events"), ("file", "a file")]
for name in [*LOOPS, "crc32-loop"]:
    parts = {text: f"{best[name, 'marm'] / best[name, way]:.2f}" for way, text in WAYS if (name, way) in best}
    print(f"{name:<11} of the steps with the MPU off: " + ", ".join(f"{text} {part}" for text, part in parts.items()))
    figures.update((f"bench {name}, {text}", part) for text, part in parts.items())
results.append(f"bench/run.sh {STEPS} {ROUNDS}", figures)
