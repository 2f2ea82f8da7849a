#!/usr/bin/env python3
"""Compares the kit of Rattle on PATH with the sha256 sums that are known of it: of what a verdict about this repository
rests on.

    python3 docs/kit_sums.py            prints the lines that differ from those known, and exits 1 where there are any
    python3 docs/kit_sums.py --print    prints a line for each: its sum, and what it is

docs/kits has a file for each kit with which CI passed (docs/AUDIT.md), by the name that `rt version` prints.

The sum of a folder is that of the list of its files' sums, which these commands make from its top:

    find . -type f -printf '%P\\0' | LC_ALL=C sort -z | xargs -0 sha256sum | sha256sum
"""

import hashlib
import os
import shutil
import sys

TOP = os.path.dirname(os.path.dirname(os.path.abspath(__file__)))

# what a check runs and reads, from the top of the kit
PARTS = {
    "bin/rattle": "the compiler, with antt, which checks the proofs",
    "bin/rt": "the command rt",
    "bin/rtlib.py": "its library: what a verdict and CI ask for",
    "bin/rattle-link": "the linker of the programs",
    "logic_built": "the program logic as it was checked, which each check loads",
    "rattle/logic": "the program logic's sources",
    "rattle/antt": "the sources of antt's own libraries, which the logic uses",
    "toolchain/bin/clang": "LLVM, which compiles the programs",
    "toolchain/bin/rattle-x64": "Rattle's own compiler to x86-64",
    "toolchain/lib": "the C library",
}


def kit():
    """Returns the folder of the kit whose `rt` is on PATH."""
    command = shutil.which("rt")
    if command is None:
        sys.exit("kit_sums.py: rt, the command of Rattle's kit, isn't on PATH")
    return os.path.dirname(os.path.dirname(os.path.realpath(command)))


def sum_of_file(path):
    digest = hashlib.sha256()
    with open(path, "rb") as file:
        while piece := file.read(1 << 20):
            digest.update(piece)
    return digest.hexdigest()


def sum_of_folder(top):
    """Returns the sum of the list of a folder's files, in the order of the bytes of their paths."""
    paths = [os.path.join(folder, name) for folder, _, names in os.walk(top) for name in names]
    files = [os.fsencode(os.path.relpath(path, top)) for path in paths if not os.path.islink(path)]
    lines = [sum_of_file(os.path.join(os.fsencode(top), path)).encode() + b"  " + path + b"\n" for path in sorted(files)]
    return hashlib.sha256(b"".join(lines)).hexdigest()


def libraries(top):
    """Returns the kit's libraries that the crates use, with those that they are built on."""
    with open(os.path.join(TOP, "crates.txt"), encoding="utf-8") as file:
        lines = [line.split("#")[0].split(":") for line in file if ":" in line.split("#")[0]]
    crates = {name for name, _ in lines}
    left = {"core", "std"}.union(*(uses.split() for _, uses in lines)) - crates
    found = set()
    while left:
        name = left.pop()
        if name not in found and os.path.isdir(f"{top}/rlibs/{name}.rlib"):
            found.add(name)
            below = f"{top}/rlibs/{name}.rlib/below"
            left.update(os.listdir(below) if os.path.isdir(below) else ())
    return sorted(found)


def lines_of(top):
    """Yields the lines about a kit."""
    with open(f"{top}/KIT-ID", encoding="utf-8") as file:
        yield f"kit {file.read().strip()}"
    with open(f"{top}/WHAT", encoding="utf-8") as file:
        yield from (f"WHAT {line.strip()}" for line in file)
    for part, what in PARTS.items():
        path = f"{top}/{part}"
        yield f"{sum_of_folder(path) if os.path.isdir(path) else sum_of_file(path)}  {part}: {what}"
    for name in libraries(top):
        yield f"{sum_of_folder(f'{top}/rlibs/{name}.rlib')}  rlibs/{name}.rlib: a library, its contracts and its code"


def known(top):
    """Returns the path of the file that has the lines of a kit of this name, from the top of the repository."""
    with open(f"{top}/KIT-ID", encoding="utf-8") as file:
        path = f"docs/kits/{file.read().split()[0]}.txt"
    if not os.path.isfile(os.path.join(TOP, path)):
        sys.exit(f"kit_sums.py: no sums are known of this kit: there is no {path}")
    return path


def main():
    top = kit()
    if sys.argv[1:] == ["--print"]:
        for line in lines_of(top):
            print(line, flush=True)
        return
    if len(sys.argv) > 1:
        sys.exit("usage: kit_sums.py [--print]")
    path = known(top)
    with open(os.path.join(TOP, path), encoding="utf-8") as file:
        wanted = file.read().splitlines()
    lines = list(lines_of(top))
    differing = [f"kit: {line}" for line in lines if line not in wanted]
    differing += [f"{path}: {line}" for line in wanted if line not in lines]
    for line in differing:
        print(line)
    sys.exit(1 if differing else 0)


if __name__ == "__main__":
    main()
