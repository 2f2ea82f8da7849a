"""What the pages have of measured runs: the newest values of bench/results.csv, alone or as the tables of TABLES."""

import csv
import os

from counts import NotFound

TOP = os.path.dirname(os.path.dirname(os.path.abspath(__file__)))

PROGRAMS = ("branch", "store_load", "crc32-loop")

# the columns of the bench's tables: what a column is, and the end of the name of its figures
RATES = {
    "`marm`, million lines a second": "M lines/s",
    "of the C formatter": "of the formatter",
    "of the plugin in QEMU": "of QEMU",
}
WAYS = {
    "One region": "1 regions",
    "Eight": "8 regions",
    "Sixteen": "16 regions",
    "SysTick": "SysTick",
    "65,536 events": "events",
    "Trace in a file": "a file",
}

# the rows of the table of host instructions: what the board is, and its name in crosscheck/cost.py
BOARDS = {
    "no script, 8 lines, no region on": "no script, 8 lines",
    "the same, with one of 16 regions on": "regions: 1",
    "the same, with eight on": "regions: 8",
    "the same, with all 16 on": "regions: 16",
    "SysTick, and its handler each 1,000 ticks": "SysTick each 1,000",
    "no script, 240 lines": "no script, 240 lines",
    "240 lines, 65,536 events from tick 2^47 on": "events far off",
    "240 lines, 65,536 falls, one each 64 ticks": "a fall each 64 ticks",
    "the same, one each 8 ticks": "a fall each 8 ticks",
    "240 lines, a pulse, and 65,535 from tick 2^47 on": "a pulse, then far off",
    "240 lines, 65,536 rises, falls and pulses in turn, one each 64 ticks": "one each 64 ticks",
}


# what the programs of bench/kernels.py do, by the names of their figures
TURNS = (
    "eight regions set anew",
    "SVC and its return",
    "a load of a system register",
    "BASEPRI read and written",
    "a load of a device",
    "a store to a device",
    "a step of a list",
    "a handler's step",
    "SysTick each 1,000 ticks",
)

# the KiB of the loops of bench/sizes.py
KIB = (1, 4, 16, 64, 256, 1000)


class Results:
    """The rows of bench/results.csv; a later one stands for an earlier one of its name."""

    def __init__(self):
        with open(os.path.join(TOP, "bench", "results.csv"), encoding="utf-8", newline="") as file:
            self.rows = list(csv.DictReader(file))
        self.newest = {row["what"]: row for row in self.rows}

    def last(self, what):
        if what not in self.newest:
            raise NotFound(f"bench/results.csv has no {what}")
        return self.newest[what]

    def value(self, what):
        return self.last(what)["value"]

    def date(self, what):
        return self.last(what)["date"]

    def run_of(self, what):
        """Returns what the run that measured this last has of all names: a table has the figures of one run."""
        last = self.last(what)
        same = [row for row in self.rows if all(row[key] == last[key] for key in ("date", "commit", "host", "command"))]
        return {row["what"]: row["value"] for row in same}

    def origin(self, what):
        """Returns a line that says which run a table is of."""
        last = self.last(what)
        host = "" if last["host"] == "-" else f", on {last['host']}"
        return f"Measured on {last['date']}, of commit {last['commit']}{host}, by `{last['command']}`:"


def rounded(value, shown):
    """Returns a value with as many decimals as the page shows."""
    return f"{float(value):,.{len(shown.partition('.')[2])}f}"


def line_of(cells):
    return "|" + "".join(f" {cell} |" if cell else " |" for cell in cells)


def table(header, rows):
    return [line_of(header), "|" + "---|" * len(header), *map(line_of, rows)]


def bench_table(results, columns):
    """Returns the table of the bench with these columns."""
    first = f"bench {PROGRAMS[0]}, {next(iter(RATES.values()))}"
    run = results.run_of(first)
    rows = [[program, *(run.get(f"bench {program}, {end}", "") for end in columns.values())] for program in PROGRAMS]
    return [results.origin(first), "", *table(["Program", *columns], rows)]


def cost_cell(run, program, board):
    """Returns the instructions of a step and, but for the first board, their ratio to those of the first."""
    first, value = (run.get(f"cost {program}, {name}") for name in (next(iter(BOARDS.values())), board))
    if value is None or board == next(iter(BOARDS.values())):
        return value or ""
    return f"{value} ({float(value) / float(first):.3f})"


def cost_table(results):
    """Returns the table of host instructions: the boards that the last run had."""
    first = f"cost {PROGRAMS[0]}, {next(iter(BOARDS.values()))}"
    run = results.run_of(first)
    rows = [[text, *(cost_cell(run, program, board) for program in PROGRAMS)] for text, board in BOARDS.items()]
    return [results.origin(first), "", *table(["Board", *PROGRAMS], [row for row in rows if any(row[1:])])]


def sizes_table(results):
    """Returns the table of host instructions of loops of different sizes."""
    first = f"sizes {KIB[0]} KiB"
    run = results.run_of(first)
    rows = [["host instructions a step", *(run.get(f"sizes {kib} KiB", "") for kib in KIB)]]
    return [results.origin(first), "", *table(["", *(f"{kib:,} KiB" for kib in KIB)], rows)]


def kernels_table(results):
    """Returns the table of what kernels do, and of a step of kernels by each command."""
    run = results.run_of(f"cost {TURNS[0]}")
    turns = [[name, run.get(f"cost {name}", "")] for name in TURNS]
    steps = [[what[5:], value] for what, value in run.items() if what.startswith("cost a step of ") and ", " in what]
    return [results.origin(f"cost {TURNS[0]}"), "", *table(["What", "Host instructions"], turns + steps)]


TABLES = {
    "bench rates": lambda results: bench_table(results, RATES),
    "bench ways": lambda results: bench_table(results, WAYS),
    "host instructions": cost_table,
    "kernels": kernels_table,
    "sizes": sizes_table,
}
