"""Writes the events of a script that types a text into a device: standard input, a byte at a time. The events go behind
a board. Usage: typed.py AT EVERY WHAT.. <TEXT

AT is the tick of the first byte, and EVERY how many ticks a byte follows the one before. WHAT happens for each byte, in
this order: ADDRESS, a word that gets the byte; ADDRESS=VALUE, a word that gets this value; line=NUMBER, an interrupt
that becomes pending once."""

import sys


def lines_of(what, byte):
    """The lines of an event after that of its tick."""
    name, _, value = what.partition("=")
    if name == "line":
        return [f"line = {int(value, 0)}", 'what = "pulse"']
    return [f"poke = {int(name, 0):#x}", f"value = {int(value, 0) if value else byte:#x}"]


def main():
    at, every = int(sys.argv[1], 0), int(sys.argv[2], 0)
    for byte in sys.stdin.buffer.read():
        for what in sys.argv[3:]:
            print("\n".join(["", "[[event]]", f"at = {at}", *lines_of(what, byte)]))
        at += every


main()
