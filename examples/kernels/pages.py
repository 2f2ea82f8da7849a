#!/usr/bin/env python3
"""Writes the files of which CI makes pages, in crates/transcripts/data, from the images that build.sh made.

Usage: examples/kernels/pages.py [FOLDER], the folder that build.sh was given.

They are round_robin, faults and nested, each with its board, and round_robin once more, with texts that HTML or a display
acts on: in the names of its files, in the names of symbols, and in what it writes to the console. Nothing else differs.
"""

import os
import shutil
import sys

HERE = os.path.dirname(os.path.abspath(__file__))
BUILT = sys.argv[1] if len(sys.argv) > 1 else HERE
PAGES = os.path.join(HERE, "..", "..", "crates", "transcripts", "data")

MARKED = "a&lt;b's"  # not every system that a clone is made on lets a file name have <, > or "
TEXTS = {
    b"\0task_c\0": b"\0<c>&'\"\0",
    b"\0choose_task\0": "\0\u202e<script>\0".encode(),
    b" has ended\n": b"<b>'\"&lt;\x1b\n",
}

for name in ("round_robin", "faults", "nested"):
    shutil.copyfile(f"{BUILT}/{name}.elf", f"{PAGES}/{name}.elf")
    shutil.copyfile(f"{HERE}/{name}.toml", f"{PAGES}/{name}.toml")

with open(f"{BUILT}/round_robin.elf", "rb") as file:
    image = file.read()
for text, marked in TEXTS.items():
    if image.count(text) != 1 or len(text) != len(marked):
        sys.exit(f"pages.py: {text} isn't once in the image, or not as long as {marked}")
    image = image.replace(text, marked)
with open(f"{PAGES}/{MARKED}.elf", "wb") as file:
    file.write(image)
shutil.copyfile(f"{HERE}/round_robin.toml", f"{PAGES}/{MARKED}.toml")
