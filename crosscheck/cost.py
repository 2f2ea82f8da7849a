"""Counts the host instructions that a step of marm takes, on boards with different scripts and with regions."""

import sys

import results
from callgrind import a_step
from ceilings import above
from loops import EVENTS, LOOPS, REGIONS, SIZES, flash_of, image, script, timer_image, traced, with_regions, written

MARM, PROGRAM, FOLDER = sys.argv[1:4]
STEPS = int(sys.argv[4])


def boards():
    """Returns the text of each board by its name. A fall makes nothing pending."""
    lines = SIZES + "lines = 240\n"
    far = range(2**47, 2**47 + EVENTS)
    return {
        "no script, 8 lines": SIZES + "lines = 8\n",
        "no script, 240 lines": lines,
        "events far off": lines + script(far),
        "a fall each 64 ticks": lines + script(range(1, 1 + 64 * EVENTS, 64), ["fall"]),
        "a fall each 8 ticks": lines + script(range(1, 1 + 8 * EVENTS, 8), ["fall"]),
        "a pulse, then far off": lines + script([1, *far[1:]], ["pulse"]),
        "one each 64 ticks": lines + script(range(1, 1 + 64 * EVENTS, 64)),
    }


def programs(regions):
    """Returns the path of each program by its name; its start code sets these regions up."""
    suffix = f"-{len(regions)}"
    paths = {name: written(FOLDER, name + suffix, image(code, regions)) for name, (code, _) in LOOPS.items()}
    paths["crc32-loop"] = PROGRAM
    if regions:
        with open(PROGRAM, "rb") as file:
            content = with_regions(flash_of(file.read()), regions)
        paths["crc32-loop"] = written(FOLDER, "crc32-loop" + suffix, content)
    return paths


def timer_programs():
    """Returns the path of each loop whose start code runs SysTick, by its name."""
    return {name: written(FOLDER, name + "-timer", timer_image(code)) for name, (code, _) in LOOPS.items()}


def rows():
    """Returns the name, the board and the programs of each row."""
    found = [(name, text, programs([])) for name, text in boards().items()]
    quiet = boards()["no script, 8 lines"]
    regions = [(f"regions: {count}", quiet + "regions = 16\n", programs(REGIONS[:count])) for count in (1, 8, 16)]
    return found[:1] + regions + [("SysTick each 1,000", quiet, timer_programs())] + found[1:]


first, figures = {}, {}
for number, (name, text, paths) in enumerate(rows()):
    board = written(FOLDER, f"board{number}.toml", text.encode())
    if number == 0:
        print(f"{'':24}" + "".join(f"{name:>20}" for name in paths))
    line = f"{name:24}"
    for program, path in paths.items():
        count = a_step(lambda steps: traced(MARM, board, steps, path), STEPS)
        figures[f"cost {program}, {name}"] = f"{count:.1f}"
        line += f"{count:14.1f}{count / first.setdefault(program, count):6.3f}"
    print(line, flush=True)
results.append(f"crosscheck/cost.sh {STEPS}", figures)
sys.exit(1 if above(figures) else 0)
