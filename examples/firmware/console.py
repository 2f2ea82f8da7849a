"""Turns a trace (standard input) into what its program printed (standard output)."""

import sys


def bytes_of(line):
    """The console's byte that a line tells, as `12 O 41` does, if it tells one."""
    words = line.split()
    return bytes.fromhex(words[2]) if words[1:2] == ["O"] else b""


if __name__ == "__main__":
    for line in sys.stdin:
        sys.stdout.buffer.write(bytes_of(line))
