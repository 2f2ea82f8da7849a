"""Compares the pages of `marm report`, as a browser reads them, with the traces of `marm run`, and their part about
worlds with the lines of `marm tasks`.

Usage: report_pages.py MARM TOP FOLDER. crosscheck/report.sh says what is compared.
"""

import os
import re
import subprocess
import sys
from collections import Counter
from html.parser import HTMLParser

KINDS = {"F": "fetch", "L": "load", "S": "store", "K": "push", "U": "pop", "V": "vector", "P": "probe"}
OUTCOMES = {"ok": "granted", "mpu": "mpu", "bus": "bus"}
OTHER_RULES = "off|bg|none|neg|xn|ppb|vec"
FIGURES = ("accesses", "refused", "handlers", "console-bytes")
MAX_BYTES = 2 << 20
MAX_COLUMNS = 8
MAX_SHARES = 64
CHROMIUM = ["chromium", "--headless", "--no-sandbox", "--disable-gpu", "--hide-scrollbars", "--enable-logging=stderr"]


class Elements(HTMLParser):
    """The numbers, the attributes and the texts of a page, by the ids of their elements, the texts of the cells of its
    rows, and what it refers to outside of itself."""

    def __init__(self):
        super().__init__()
        self.numbers = {}
        self.attributes = {}
        self.texts = {}
        self.cells = {}
        self.outside = []
        self.open = []

    def handle_starttag(self, tag, attributes):
        named = dict(attributes)
        name = named.get("id")
        if name is not None and "data-number" in named:
            self.numbers[name] = int(named["data-number"])
        if name is not None:
            self.attributes[name] = named
        if tag == "td" and self.open and self.open[-1][1] is not None:
            self.cells.setdefault(self.open[-1][1], []).append("")
        for attribute in ("src", "href", "data", "action"):
            if not named.get(attribute, "#").startswith("#"):
                self.outside.append(f"{tag} {attribute}={named[attribute]}")
        if tag not in ("meta", "br", "link", "img", "input"):
            self.open.append((tag, name))

    def handle_endtag(self, tag):
        while self.open and self.open.pop()[0] != tag:
            pass

    def handle_data(self, data):
        for _, name in self.open:
            if name is not None:
                self.texts[name] = self.texts.get(name, "") + data
        if ("td", None) in self.open and self.open[self.open.index(("td", None)) - 1][1] in self.cells:
            self.cells[self.open[self.open.index(("td", None)) - 1][1]][-1] += data


def counted(trace):
    """Returns the numbers that a trace has, by the ids of a page, and the words of its last line."""
    found = Counter(accesses=0, refused=0, handlers=0)
    last = 0
    lines = trace.splitlines()
    for line in lines[:-1]:
        words = line.split(" ")
        last = int(words[0])
        if words[1] in KINDS:
            _, kind, _, _, privilege, outcome, rule = words
            found["accesses"] += 1
            found["refused"] += outcome != "ok"
            found[f"{rule}-{privilege}-{KINDS[kind]}-{OUTCOMES[outcome]}"] += 1
        elif words[1] == "X":
            found["handlers"] += 1
        elif words[1] == "O":
            found["console-bytes"] += 1
    return found, last, lines[-1]


def worlds_of(text):
    """Returns what the lines of `marm tasks` say: the steps of each world, its rights by the first and the last address of
    an interval, and the bytes that are shared."""
    steps, rights, shared = {}, {}, []
    for line in text.splitlines():
        words = line.split(" ")
        if words[0] == "world":
            steps[int(words[1])] = int(words[3])
        elif words[0] == "map":
            rights.setdefault(int(words[1]), {})[int(words[2], 16), int(words[3], 16)] = words[5]
        elif words[0] == "shares":
            shared.append(tuple(words[1:]))
    return steps, rights, shared


def cell_of(world, rights, first):
    """Returns the text of a world's cell in the row that begins at an address: its rights there, and the numbers of the
    worlds that may read what it may write, and of those that may write what it may read."""
    here = {number: letters for number, spans in rights.items() for (low, high), letters in spans.items()
            if low <= first <= high}
    others = [number for number in here if number != world and number <= MAX_COLUMNS and first >> 28 == 2]
    to = [number for number in others if here[world][1] == "w" and (here[number][0] == "r" or here[number][2] == "x")]
    back = [number for number in others if here[number][1] == "w" and (here[world][0] == "r" or here[world][2] == "x")]
    return " ".join([here[world], *(["→", *map(str, to)] if to else []), *(["←", *map(str, back)] if back else [])])


def differing_worlds(page, text):
    """Returns what is wrong with the part about worlds, as lines, and how many cells it has."""
    steps, rights, shared = worlds_of(text)
    columns = [world for world in sorted(steps) if world <= MAX_COLUMNS]
    wrong = [f"world {world}: {page.numbers.get(f'world-{world}')} steps on the page, {steps[world]} by tasks"
             for world in columns if page.numbers.get(f"world-{world}") != steps[world]]
    rows = [name for name in page.attributes if name.startswith("may-")]
    begins = {first for world in columns for first, _ in rights[world]}
    for name in rows:
        first, last = (int(page.attributes[name][f"data-{end}"], 16) for end in ("first", "last"))
        wanted = [cell_of(world, rights, first) for world in columns]
        if page.cells.get(name) != wanted:
            wrong.append(f"{first:08X}: {page.cells.get(name)} on the page, {wanted} by tasks")
        wrong += [f"{first:08X}: the row goes over {begin:08X}" for begin in begins
                  if first < begin <= last and [cell_of(world, rights, begin) for world in columns] != wanted]
    shown = [tuple(page.attributes[name][f"data-{key}"] for key in ("writer", "reader", "first", "last"))
             for name in page.attributes if name.startswith("shares-")]
    if shown != shared[:MAX_SHARES]:
        wrong.append(f"shared: {shown} on the page, {shared} by tasks")
    return wrong, len(rows) * len(columns)


def browse(path, *options):
    """Returns what Chromium prints of a page, and the lines of its console."""
    run = subprocess.run(CHROMIUM + list(options) + ["file://" + path], capture_output=True, text=True, timeout=120)
    return run.stdout, [line for line in run.stderr.splitlines() if "CONSOLE" in line]


def differences(path, trace, tasks):
    """Returns what is wrong with a page, as lines, and how many numbers and how many cells of worlds it has."""
    dom, console = browse(path, "--dump-dom")
    page = Elements()
    page.feed(dom)
    found, last, stop = counted(trace)
    wrong = console + page.outside
    if os.path.getsize(path) > MAX_BYTES:
        wrong.append(f"{os.path.getsize(path)} bytes")
    if page.texts.get("stop") != stop:
        wrong.append(f"the page ends with {page.texts.get('stop')}, the trace with {stop}")
    # a step without a line, such as one asleep, can follow the last line
    if page.numbers.get("steps", -1) < last:
        wrong.append(f"steps: {page.numbers.get('steps')} on the page, {last} ticks in the trace")
    shown = {name: number for name, number in page.numbers.items()
             if name in FIGURES or re.fullmatch(rf"(r\d+|{OTHER_RULES})-[up]-\w+-\w+", name)}
    # the settings of all regions together have what the regions have
    for name, number in page.numbers.items():
        if re.fullmatch(r"s\d+-[up]-\w+-\w+", name):
            shown["settings" + name[name.index("-"):]] = shown.get("settings" + name[name.index("-"):], 0) + number
    for name, number in list(found.items()):
        if re.match(r"r\d", name):
            found["settings" + name[name.index("-"):]] += number
    for name in sorted(set(found) | set(shown)):
        if found.get(name, 0) != shown.get(name, 0):
            wrong.append(f"{name}: {shown.get(name, 0)} on the page, {found.get(name, 0)} in the trace")
    lost, cells = differing_worlds(page, tasks)
    return wrong + lost, len(shown), cells


def pictures(path):
    """Writes pictures of a page, light and dark, narrow and wide."""
    for width in (400, 1400):
        for scheme, number in (("dark", 0), ("light", 1)):
            browse(path, f"--screenshot={path[:-5]}-{width}-{scheme}.png", f"--window-size={width},5000",
                   f"--blink-settings=preferredColorScheme={number}")


def main(marm, top, folder):
    examples = os.path.join(top, "examples")
    kernels = [(name, f"{examples}/kernels/{name}.elf", f"{examples}/kernels/{name}.toml", 20000)
               for name in ("round_robin", "faults", "nested", "atomics", "mailbox", "overlap")]
    programs = [(os.path.basename(path)[:-4], path, f"{examples}/firmware/board.toml", 300000)
                for path in (f"{examples}/firmware/crc32-loop.elf", f"{examples}/firmware/kit-hello-newlib.elf")
                if os.path.exists(path)]
    failed = 0
    for name, image, board, steps in kernels + programs:
        words = ["--board", board, "--steps", str(steps), image]
        trace = subprocess.run([marm, "run"] + words, capture_output=True, text=True)
        path = os.path.join(os.path.abspath(folder), name + ".html")
        with open(path, "wb") as file:
            status = subprocess.run([marm, "report"] + words, stdout=file).returncode
        tasks = subprocess.run([marm, "tasks"] + words, capture_output=True, text=True)
        wrong, numbers, cells = differences(path, trace.stdout, tasks.stdout)
        if status != trace.returncode:
            wrong.append(f"status {status}, for {trace.returncode} of run")
        pictures(path)
        print(f"{name}: {'as the trace' if not wrong else 'NOT AS THE TRACE'}, {numbers} numbers, "
              f"{cells} cells of worlds, {os.path.getsize(path)} bytes")
        for line in wrong:
            print(f"  {line}")
        failed += bool(wrong)
    print(f"pictures in {folder}")
    return 1 if failed else 0


if __name__ == "__main__":
    sys.exit(main(*sys.argv[1:]))
