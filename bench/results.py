"""The figures of measured runs. The scripts that measure append them to results.csv, a row each; the newest row of a
name is the one that pages have (docs/check.py --fix). Throw away the rows of a trial: git checkout bench/results.csv

A row has the date, the commit (with a + where crates/ had changes), the processors, the command, what was measured, and
the value. For a figure that no script appends: python3 bench/results.py COMMAND WHAT VALUE [WHAT VALUE]..
"""

import csv
import datetime
import os
import subprocess
import sys

TOP = os.path.dirname(os.path.dirname(os.path.abspath(__file__)))
PATH = os.path.join(TOP, "bench", "results.csv")
FIELDS = ["date", "commit", "host", "command", "what", "value"]


def git(*words):
    """Returns what git prints, or None where this is no clone."""
    run = subprocess.run(["git", "-C", TOP, *words], capture_output=True, text=True)
    return run.stdout.strip() if run.returncode == 0 else None


def commit():
    """Returns the commit of the sources, with a + where crates/ isn't as it is there."""
    head = git("rev-parse", "--short", "HEAD")
    return head + ("+" if git("status", "--porcelain", "--", "crates") else "") if head else "-"


def append(command, values):
    """Appends what a command measured: a value for each name. A value is a text with the digits that are meant."""
    run = [datetime.date.today().isoformat(), commit(), f"{len(os.sched_getaffinity(0))} cores", command]
    with open(PATH, "a", encoding="utf-8", newline="") as file:
        csv.writer(file, lineterminator="\n").writerows(run + [what, value] for what, value in values.items())


if __name__ == "__main__":
    words = sys.argv[2:]
    if not words or len(words) % 2:
        sys.exit(__doc__)
    append(sys.argv[1], dict(zip(words[::2], words[1::2])))
