#!/usr/bin/env python3
"""Checks that each edit of mutations/ and of crates/*/must-fail can be applied, as `rt must-fail` applies it: each text
after 'old:' is in its file exactly once. It proves nothing, and takes a second.

    python3 mutations/applies.py            the edits of all crates
    python3 mutations/applies.py CRATE..    those of these crates

It lists each edit that can't be applied and then ends with 1, and counts the others."""

import glob
import os
import re
import sys

TOP = os.path.dirname(os.path.dirname(os.path.abspath(__file__)))


def read(path):
    with open(path, encoding="utf-8") as file:
        return file.read()


def reason(edit, crate):
    """Returns why an edit of a crate can't be applied, or None."""
    path = old = None
    texts = {}
    pairs = 0
    for line in read(edit).split("\n"):
        if line.startswith("file: "):
            path = line[len("file: "):].strip()
            if not re.match(r"(src|specs|proofs)/", path) or not os.path.isfile(f"{TOP}/crates/{crate}/{path}"):
                return f"there is no file {path} in src/, specs/ or proofs/"
            texts.setdefault(path, read(f"{TOP}/crates/{crate}/{path}"))
        elif line.startswith("old: "):
            old = line[len("old: "):]
        elif line.startswith("new:"):
            if not path or not old:
                return "a 'new:' line has no 'file:' or no 'old:' line before it"
            count = texts[path].count(old)
            if count != 1:
                return f"{path} has an 'old:' text {count} times, and not once: {old.strip()}"
            texts[path] = texts[path].replace(old, re.sub(r"\A ", "", line[len("new:"):]))
            old = None
            pairs += 1
    return None if pairs else "it has no pair of 'old:' and 'new:'"


def main():
    crates = re.findall(r"(?m)^[a-z]\w*", read(f"{TOP}/crates.txt"))
    for name in sys.argv[1:]:
        if name not in crates:
            print(f"mutations: crates.txt names no crate {name}", file=sys.stderr)
            return 2
    counts = []
    failed = False
    for pattern, place in (("crates/*/must-fail/*", 1), ("mutations/*/*", 1)):
        count = 0
        for path in sorted(glob.glob(f"{TOP}/{pattern}")):
            edit = os.path.relpath(path, TOP)
            crate = edit.split("/")[place]
            if sys.argv[1:] and crate not in sys.argv[1:] or path.endswith(".md"):
                continue
            why = reason(path, crate) if crate in crates and path.endswith(".edit") else "it isn't an edit of a crate"
            if why:
                print(f"{edit}: {why}")
                failed = True
            else:
                count += 1
        counts.append(count)
    print(f"{sum(counts)} mutations can be applied: {counts[0]} of CI, {counts[1]} of mutations/")
    return 1 if failed else 0


if __name__ == "__main__":
    sys.exit(main())
