"""What llvm-objdump and arm-none-eabi-objdump call encodings."""

import os
import re
import subprocess

from loops import written


def halfwords(encoding):
    """The halfwords of an encoding; those of 32 bits are above 0xFFFF."""
    return [encoding] if encoding < 0x10000 else [encoding >> 16, encoding & 0xFFFF]


def source_of(encodings):
    """Returns assembly text with a label for each encoding, and the address of each. NOPs with a label of their own follow each
    encoding that may begin an IT block for a tool: IT, and those of 32 bits, which llvm-objdump reads byte by byte where it
    doesn't know them."""
    lines, places, at = [".syntax unified", ".cpu cortex-m3", ".thumb"], [], 0
    for number, encoding in enumerate(encodings):
        here = halfwords(encoding)
        lines.append(f"e{number}: .inst.n " + ", ".join(f"0x{halfword:04x}" for halfword in here))
        places.append(at)
        at += 2 * len(here)
        if len(here) == 2 or encoding >> 8 == 0xBF:
            lines.append(f"n{number}: " + "nop; " * 4)
            at += 8
    return "\n".join(lines) + "\n", places


def texts(tool, path, places):
    """What a tool prints at each place."""
    printed = subprocess.run(tool + [path], stdout=subprocess.PIPE, check=True, text=True).stdout
    found = {}
    for line in printed.splitlines():
        match = re.match(r" *([0-9a-f]+):\s+(.*)", line)
        if match:
            found[int(match[1], 16)] = " ".join(match[2].split())
    return [found.get(place, "<unknown>") for place in places]


def unpredictable(folder, encodings):
    """Returns the numbers of the encodings that llvm-mc calls potentially undefined, which is its word for UNPREDICTABLE."""
    lines, numbers = [], []
    for number, encoding in enumerate(encodings):
        for halfword_list in [halfwords(encoding)] + [[0xBF00]] * (4 * (encoding >> 8 == 0xBF)):
            parts = [byte for halfword in halfword_list for byte in (halfword & 0xFF, halfword >> 8)]
            lines.append("[" + ",".join(f"0x{byte:02x}" for byte in parts) + "]\n")
            numbers.append(number)
    path = written(folder, "encodings.txt", "".join(lines).encode())
    words = ["llvm-mc", "--disassemble", "--triple=thumbv7m", "-mcpu=cortex-m3", path]
    warnings = subprocess.run(words, stdout=subprocess.DEVNULL, stderr=subprocess.PIPE, text=True).stderr
    return {numbers[int(line) - 1] for line in re.findall(r":(\d+):\d+: warning: potentially undefined", warnings)}


def listings(folder, encodings):
    """Returns what llvm-objdump prints of each encoding, what arm-none-eabi-objdump prints, and the address of each there."""
    source, places = source_of(encodings)
    path = written(folder, "encodings.s", source.encode())
    linked = os.path.join(folder, "encodings.o")
    subprocess.run(["clang", "--target=thumbv7m-none-eabi", "-mcpu=cortex-m3", "-c", "-o", linked, path], check=True)
    llvm = ["llvm-objdump", "-d", "--triple=thumbv7m", "--mcpu=cortex-m3", "--no-show-raw-insn"]
    gnu = ["arm-none-eabi-objdump", "-d", "--no-show-raw-insn"]
    return texts(llvm, linked, places), texts(gnu, linked, places), places
