"""What the pages count in the sources: COUNTS has a function for each name that a mark `<!--count NAME-->` can have.

marks.py compares the number ahead of a mark with what the function finds. A page says what a name counts, and this file
where.
"""

import glob
import os
import re

TOP = os.path.dirname(os.path.dirname(os.path.abspath(__file__)))

# an assumption of docs/AUDIT.md
LINES_A_MINUTE = 25


class NotFound(Exception):
    """There is no count of a name, or what it counts isn't where it was."""


def found(*patterns):
    """Returns the files that fit the patterns, from the top of the repository; each pattern has to fit one."""
    paths = []
    for pattern in patterns:
        fitting = sorted(glob.glob(os.path.join(TOP, pattern)))
        if not fitting:
            raise FileNotFoundError(pattern)
        paths += fitting
    return paths


def text_of(path):
    with open(os.path.join(TOP, path), encoding="utf-8") as file:
        return file.read()


def matches(pattern, *paths):
    """Returns how often a pattern is in the files."""
    return sum(len(re.findall(pattern, text_of(path), re.M)) for path in found(*paths))


# ---- crates, chapters and rows ---------------------------------------------------------------------------------


def crates():
    return matches(r"^[a-z]\w*:", "crates.txt")


# the crates of definitions, the lowest first
DEFINITIONS = ("instruction_set", "devices", "platform", "reference")


def crates_above(base):
    """Returns the crates that are built on a crate, with those that are built on them."""
    listed = dict(re.findall(r"^([a-z]\w*):(.*)$", text_of("crates.txt"), re.M))
    found = {base}
    while True:
        more = {name for name, below in listed.items() if name not in found and found & set(below.split())}
        if not more:
            return found - {base}
        found |= more


def chapters():
    paths = found(*(f"crates/{crate}/specs/*.antt" for crate in DEFINITIONS))
    return len([path for path in paths if not path.endswith("/Lib.antt")])


def rows(width):
    """Returns how many rows of the instruction set are defined, of a width, `Short` or `Long`."""
    return matches(r"\brow(?:_but)? \(codes ", f"crates/instruction_set/specs/{width}*.antt")


def overlaps(name):
    """Returns how many pairs of rows a list of `Overlaps.antt` has: one for each other row that wins."""
    text = text_of("crates/row_laws/specs/Overlaps.antt")
    (body,) = re.findall(rf"^{name} =\n((?: .*\n?)+)", text, re.M)
    return sum(others.count("∷") for others in re.findall(r"others = ([^}]*)\[\]", body))


# ---- lines to read ---------------------------------------------------------------------------------------------


def spec(name):
    """Returns the path of a file of definitions: `crate/Name`, or a chapter of one of `DEFINITIONS`."""
    crate, _, stem = name.rpartition("/")
    if crate:
        return f"crates/{crate}/specs/{stem}.antt"
    return next(path for path in (f"crates/{each}/specs/{stem}.antt" for each in DEFINITIONS)
                if glob.glob(os.path.join(TOP, path)))


def lines_in(text):
    """Returns how many lines a text has without imports and blank lines."""
    return len([line for line in text.splitlines() if line and not line.startswith("use")])


def lines_of(*paths):
    return sum(lines_in(text_of(path)) for path in found(*paths))


def lines_of_item(path, name):
    """Returns the lines of one type or trait with the comment above it."""
    item = re.search(rf"^(?:(?:///|#\[).*\n)*pub (?:trait|struct|enum) {name}\b.*?^\}}", text_of(path), re.M | re.S)
    return lines_in(item[0])


# the parts of the table of docs/AUDIT.md, "What to read, in order", each with its files of definitions
AUDIT_PARTS = {
    "claim": "target/MachineModel machine/Runs output/Output Run",
    "step": "State Step Operations ProgramCounter",
    "access": "Map Memory Regions Rules Outcomes Space Accesses",
    "words": "Words Arithmetic Sizes Kinds Registers Monitor",
    "priorities": "Priorities Time",
    "exceptions": "Faults Frames ExceptionEntry ExceptionReturn",
    "system": "Status Interrupts Handlers Control SysTickRegisters System SpecialRegisters",
    "devices": "devices/Table devices/Words devices/Parts devices/Devices devices/Pokes devices/Lines",
    "instructions": "Results Products Fields DataProcessing LoadStore LoadStoreMultiple Exclusives Branches "
    "SystemInstructions",
    "patterns": "Patterns Rows RowOperands Decoding",
    "rows": "Short* Long*",
    "text": "Text Events",
    "files": "Images Boards Start board/Values board/Texts board/Devices board/Reading command/Statuses command/Opening "
    "machine/Starts",
    "options": "trace/Selection command/Sending command/Running debugger/StateText debugger_commands/Texts",
}

# the enums and structs that the definitions name, beside all those of `DEFINITIONS`
AUDIT_ITEMS = {
    "crates/output/src/writer.rt": "Out",
    "crates/output/src/paged.rt": "Paged",
    "crates/command/src/error.rt": "Error",
    "crates/machine/src/machine.rt": "RunError",
    "crates/board/src/board.rt": "Board",
}


def audit_lines(part):
    if part == "types":
        types = lines_of("crates/devices/src/device.rt", *(f"crates/{crate}/src/*.rt" for crate in DEFINITIONS))
        return types + sum(lines_of_item(*item) for item in AUDIT_ITEMS.items())
    return lines_of(*(spec(name) for name in AUDIT_PARTS[part].split()))


def audit_minutes(part):
    return round(audit_lines(part) / LINES_A_MINUTE)


def all_audit_lines():
    return sum(audit_lines(part) for part in [*AUDIT_PARTS, "types"])


# ---- tests and mutations ---------------------------------------------------------------------------------------


def tests(crate):
    """Returns how many functions of a crate, or of one of its modules (`crate/module`), are tests."""
    crate, _, module = crate.partition("/")
    paths = [f"crates/{crate}/src/tests/{module}.rt"] if module else [f"crates/{crate}/src/**/*.rt"]
    files = [path for pattern in paths for path in glob.glob(os.path.join(TOP, pattern), recursive=True)]
    return sum(len(re.findall(r"^\s*#\[test\]", text_of(path), re.M)) for path in files)


def rows_of(crate, tables):
    """Yields the lines of each row of a crate's tables in files, where a blank line separates two rows."""
    for path in found(*(f"crates/{crate}/data/{table}.txt" for table in tables.split())):
        text = "\n".join(line for line in text_of(path).split("\n") if line != "#" and not line.startswith("# "))
        rows = [row.strip("\n").split("\n") for row in re.split(r"\n\n+", text)]
        yield from (row for row in rows if row[0] not in ("", "before each row"))


def row_count(crate, tables):
    return len(list(rows_of(crate, tables)))


def line_count(crate, tables):
    """Returns how many rows the tables have whose rows are lines."""
    return sum(len(lines) for lines in rows_of(crate, tables))


def board_texts():
    lines = line_count("test_parts", "boards/lines")
    return lines + row_count("test_parts", "boards/more_lines boards/events boards/texts")


def constant(path, name):
    """Returns the value of a constant of the code."""
    return int(re.search(rf"const {name}: \w+ = (\d+);", text_of(path))[1])


AGREED = "case/short_data case/short_others case/long_data case/long_others"
COMPUTING = "case/fields case/moves case/products case/sums"
ENCODINGS = "decoding/short decoding/long_data decoding/long_control decoding/long_others"


def mutations(folder):
    """Returns how many mutations there are below a folder, `crates/*/must-fail` or `mutations/*`."""
    return len(glob.glob(os.path.join(TOP, folder, "*.edit")))


# ---- images ----------------------------------------------------------------------------------------------------


# the programs of docs/FIRMWARE.md that CI runs, and all images whose bytes a page has
PROGRAMS = "sort crc32 sha256 division print strings floats fields".split()
KERNELS = "round_robin faults nested atomics mailbox overlap".split()
IMAGES = {name: f"examples/firmware/{name}.elf" for name in PROGRAMS}
IMAGES |= {name: f"examples/kernels/{name}.elf" for name in KERNELS}
IMAGES["crc32-loop"] = "examples/firmware/crc32-loop.elf"
IMAGES["in-turn"] = "examples/firmware/in-turn.elf"


def image_bytes(name):
    (path,) = found(IMAGES[name])
    return os.path.getsize(path)


def steps_of_firmware():
    """Returns the sum of the steps in the table of docs/FIRMWARE.md, of the programs that CI runs."""
    steps = re.findall(r"^\| `([\w-]+)\.elf` .* ([\d,]+) \|$", text_of("docs/FIRMWARE.md"), re.M)
    return sum(int(count.replace(",", "")) for name, count in steps if name in PROGRAMS)


COUNTS = {
    "crates": crates,
    "above reference": lambda: len(crates_above("reference")),
    "above platform": lambda: len(crates_above("platform")),
    "above instruction_set": lambda: len(crates_above("instruction_set")),
    "chapters": chapters,
    "rows": lambda: rows("Short") + rows("Long"),
    "short rows": lambda: rows("Short"),
    "long rows": lambda: rows("Long"),
    "short overlaps": lambda: overlaps("short_overlaps"),
    "long overlaps": lambda: overlaps("long_overlaps"),
    "instructions": lambda: line_count("instruction_rows", ENCODINGS),
    "no instructions": lambda: line_count("instruction_rows", "decoding/undefined decoding/coprocessors"),
    "stopping encodings": lambda: line_count("instruction_rows", "decoding/stops"),
    "agreed cases": lambda: row_count("instruction_rows", AGREED),
    "special cases": lambda: row_count("instruction_rows", "case/special_registers"),
    "edges": lambda: row_count("instruction_rows", "case/edges " + COMPUTING),
    "computing edges": lambda: row_count("instruction_rows", COMPUTING),
    "other edges": lambda: row_count("instruction_rows", "case/edges"),
    "edge stops": lambda: row_count("instruction_rows", "stop/edges"),
    "register rows": lambda: line_count("instruction_rows", "registers/*"),
    "whole rows": lambda: row_count("rows", "command/* machine/* pair/* session/*"),
    "device runs": lambda: row_count("rows", "machine/devices machine/device_lines"),
    "faults": lambda: row_count("rows", "machine/faults"),
    "file rows": lambda: row_count("rows", "command/files"),
    "board rows": lambda: row_count("rows", "command/boards command/devices"),
    "stored images": lambda: row_count("rows", "command/faults command/handlers"),
    "pairs": lambda: row_count("rows", "pair/*"),
    "random images": lambda: constant("crates/test_machine/src/tests/both.rt", "IMAGES"),
    "refused places": lambda: matches("^refused", "crates/rows/data/machine/*places.txt"),
    "board texts": board_texts,
    "sessions": lambda: row_count("rows", "command/sessions"),
    "answers": lambda: row_count("rows", "command/answers"),
    "mutations": lambda: mutations("crates/*/must-fail") + mutations("mutations/*"),
    "mutations in CI": lambda: mutations("crates/*/must-fail"),
    "other mutations": lambda: mutations("mutations/*"),
    "example_bench lines": lambda: len(text_of("crates/example_bench/src/main.rt").splitlines()),
    "firmware steps": steps_of_firmware,
    "audit lines": all_audit_lines,
    "lines places": lambda: lines_of(spec("Places")),
}

COUNTS["tests test_machine"] = lambda: tests("test_machine")
for part in [*AUDIT_PARTS, "types"]:
    COUNTS[f"lines {part}"] = lambda part=part: audit_lines(part)
    COUNTS[f"minutes {part}"] = lambda part=part: audit_minutes(part)
for name in IMAGES:
    COUNTS[f"bytes {name}"] = lambda name=name: image_bytes(name)


def count(name):
    """Returns what is counted under a name, as pages write it, or raises NotFound."""
    if name not in COUNTS:
        raise NotFound(f"docs/counts.py has no {name}")
    try:
        return f"{COUNTS[name]():,}"
    except (OSError, LookupError, TypeError, ValueError) as error:
        raise NotFound(f"docs/counts.py doesn't find what it counts as {name}: {error}") from error
