#!/usr/bin/env python3
"""Prints the last run of `rt plant` over each crate, from planted.csv, and what changed in the crate since.

    python3 mutations/planted.py            all crates
    python3 mutations/planted.py CRATE..    these crates

For each: the day of the run, how many bodies were refused, for how many functions none was, and how many lines of the
crate's src/ and specs/ were added or taken away after that day, comments and blank lines aside ('stale'). A change on
the day itself may be from before the run or after it. Of a run on several days the first one counts."""

import csv
import datetime
import os
import subprocess
import sys

TOP = os.path.dirname(os.path.dirname(os.path.abspath(__file__)))


def git(*words):
    return subprocess.run(["git", "-C", TOP, *words], capture_output=True, text=True, check=True).stdout


def last_commit(day):
    """Returns the last commit of a day or of one before it, or the first of all."""
    found = git("log", "-1", "--format=%H", f"--before={day}T23:59:59Z").strip()
    return found or git("rev-list", "--max-parents=0", "HEAD").split()[0]


def changed_lines(first, last, crates):
    """Returns how many lines of the crates differ between two commits, comments and blank lines aside."""
    folders = [f"crates/{crate}/{part}" for crate in crates for part in ("src", "specs")]
    lines = git("diff", "--unified=0", first, last, "--", *folders).split("\n")
    texts = [line[1:].strip() for line in lines if line[:1] in ("+", "-") and line[:3] not in ("+++", "---")]
    return len([text for text in texts if text and not text.startswith(("//", "-- "))])


def since(day, crates):
    """Returns what changed in the crates since a run on this day, in words."""
    stale = changed_lines(last_commit(day), "HEAD", crates)
    if stale:
        return f"stale: {stale} lines"
    before = datetime.date.fromisoformat(day) - datetime.timedelta(days=1)
    return "changed on that day" if changed_lines(last_commit(before), "HEAD", crates) else "as it was"


def main():
    with open(os.path.join(TOP, "mutations", "planted.csv"), encoding="utf-8", newline="") as file:
        rows = list(csv.DictReader(file))
    for row in rows:
        crates = row["crates"].split()
        if sys.argv[1:] and not set(crates) & set(sys.argv[1:]):
            continue
        note = f" ({row['note']})" if row["note"] else ""
        print(f"{', '.join(crates)}: {row['date']}, bodies refused {row['refused']}, "
              f"functions without one {row['without']}{note}; {since(row['date'], crates)}")


if __name__ == "__main__":
    main()
