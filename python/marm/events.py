"""The lines of a trace as values, and why a machine has stopped. docs/TRACE.md explains each word."""

from __future__ import annotations

from typing import NamedTuple, Optional, Union

__tracebackhide__ = True  # pytest shows no frame of the package

# The second field of each event is its letter, so events of two kinds are never equal.


class Access(NamedTuple):
    """An access to memory. `kind`: F fetch, L load, S store, K push and U pop of a frame, V read of a vector, P probe.

    `address` is that of the first of `size` bytes, `outcome` is ok, mpu or bus, and `rule` is the word of the rule that
    decided: r0 to r15, none, bg, off, neg, ppb, vec or xn."""

    tick: int
    kind: str
    address: int
    size: int
    privileged: bool
    outcome: str
    rule: str

    @property
    def granted(self) -> bool:
        """Whether the access was granted, by the rule and by the bus."""
        return self.outcome == "ok"

    @property
    def region(self) -> Optional[int]:
        """The number of the region that decided, or None where another rule did."""
        return region_of(self.rule)

    def __str__(self) -> str:
        who = "p" if self.privileged else "u"
        return f"{self.tick} {self.kind} {self.address:08X} {self.size} {who} {self.outcome} {self.rule}"


class Console(NamedTuple):
    """A byte that the firmware printed. `kind` is O."""

    tick: int
    kind: str
    byte: int

    def __str__(self) -> str:
        return f"{self.tick} O {self.byte:02X}"


class Entry(NamedTuple):
    """The entry of the handler of an exception. `kind` is X."""

    tick: int
    kind: str
    exception: int

    def __str__(self) -> str:
        return f"{self.tick} X {self.exception}"


class Return(NamedTuple):
    """The beginning of a return from a handler; `value` is its EXC_RETURN. `kind` is R."""

    tick: int
    kind: str
    value: int

    def __str__(self) -> str:
        return f"{self.tick} R {self.value:08X}"


class Fault(NamedTuple):
    """A fault. `kind` is !, `exception` the one that pends because of it (0: lockup), and `cfsr` and `hfsr` are these
    registers after it."""

    tick: int
    kind: str
    exception: int
    cfsr: int
    hfsr: int

    def __str__(self) -> str:
        return f"{self.tick} ! {self.exception} {self.cfsr:08X} {self.hfsr:08X}"


Event = Union[Access, Console, Entry, Return, Fault]


class Stop(NamedTuple):
    """Why a machine has stopped, as docs/STOPS.md lists it: `kind` is the first word, as breakpoint, lockup or
    unpredictable, and `detail` the rest."""

    kind: str
    detail: str

    def __str__(self) -> str:
        return f"{self.kind} {self.detail}" if self.detail else self.kind

    @staticmethod
    def parse(words: str) -> Stop:
        """Returns the stop of these words, which are a stop line without `stop`."""
        kind, _, detail = words.partition(" ")
        return Stop(kind, detail)


def region_of(rule: str) -> Optional[int]:
    """Returns the number of the region that a rule's word names, or None."""
    return int(rule[1:]) if rule[:1] == "r" else None


def parse_event(line: str) -> Event:
    """Returns the event of a line of a trace, without its line feed. ValueError where it is no such line."""
    words = line.split(" ")
    count = len(words)
    if count == 7:
        tick, kind, address, size, who, outcome, rule = words
        return Access(int(tick), kind, int(address, 16), int(size), who == "p", outcome, rule)
    if count == 3:
        tick, kind, value = words
        if kind == "O":
            return Console(int(tick), kind, int(value, 16))
        if kind == "X":
            return Entry(int(tick), kind, int(value))
        if kind == "R":
            return Return(int(tick), kind, int(value, 16))
    if count == 5 and words[1] == "!":
        return Fault(int(words[0]), "!", int(words[2]), int(words[3], 16), int(words[4], 16))
    raise ValueError(f"not a line of a trace: {line!r}")
