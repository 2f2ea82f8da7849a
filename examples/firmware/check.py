"""Runs programs on marm, and compares what they print with expected/NAME.txt. Usage: check.py MARM NAME..

A program of the start kit is named kit-NAME-LIBRARY. hello-plain is hello without a C library."""

import os
import subprocess
import sys

from console import bytes_of

MARM, NAMES = sys.argv[1], sys.argv[2:]
STEPS = 20_000_000
HERE = os.path.dirname(os.path.abspath(__file__))


def text_of(name):
    """What a program must print."""
    words = name.split("-")
    stem = words[1] if words[0] == "kit" else words[0] if words[-1] == "plain" else name
    with open(f"{HERE}/expected/{stem}.txt", "rb") as file:
        return file.read()


def run(name):
    """What a program prints, how many steps it makes, and the trace's last line."""
    words = [MARM, "run", "--board", f"{HERE}/board.toml", "--steps", str(STEPS), f"{HERE}/{name}.elf"]
    text, before, last = bytearray(), "0", "no trace"
    with subprocess.Popen(words, stdout=subprocess.PIPE, text=True) as marm:
        for line in marm.stdout:
            before, last = last, line
            if " O " in line:
                text += bytes_of(line)
    return bytes(text), before.split()[0], last.rstrip()


wrong = 0
for name in NAMES:
    text, steps, last = run(name)
    well = text == text_of(name) and last == "stop breakpoint 0"
    wrong += not well
    print(f"{name}: {'as expected' if well else 'NOT AS EXPECTED'}, {steps} steps, {last}", flush=True)
sys.exit(wrong != 0)
