"""A program that answers as a transcript has it. Where a command is another one, it says so and ends with status 9."""

from __future__ import annotations

import sys


def main() -> None:
    with open(sys.argv[1], encoding="ascii") as file:
        lines = iter(file.read().splitlines())
    for line in lines:
        if not line.startswith("> "):
            sys.stdout.write(line + "\n")
            continue
        sys.stdout.flush()
        command = sys.stdin.readline().rstrip("\n")
        if not command:
            return
        if command != line[2:]:
            sys.stderr.write(f"`{command}` in place of `{line[2:]}`")
            sys.exit(9)
    sys.stdout.flush()
    sys.stdin.readline()


if __name__ == "__main__":
    main()
