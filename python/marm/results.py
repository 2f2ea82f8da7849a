"""What the machine answers, as values."""

from __future__ import annotations

from typing import NamedTuple, Optional, Sequence

from .conditions import Condition
from .events import Access, Event, Stop, parse_event, region_of

__tracebackhide__ = True  # pytest shows no frame of the package


class Decision(NamedTuple):
    """The rule that would decide an access now, and whether it grants it (the bus may still refuse).

    A decision is true where the rule grants the access, and false where it refuses it."""

    rule: str
    granted: bool

    @property
    def region(self) -> Optional[int]:
        """The number of the region that decides, or None where another rule does."""
        return region_of(self.rule)

    def __bool__(self) -> bool:
        return self.granted

    def __str__(self) -> str:
        return f"{self.rule} {'ok' if self.granted else 'mpu'}"


class Span(NamedTuple):
    """The addresses from `first` to `last`, with the decisions on a read, a write and a fetch of each."""

    first: int
    last: int
    read: Decision
    write: Decision
    execute: Decision

    @property
    def rights(self) -> str:
        """The granted ones as letters: `rw-`, `r-x`, `---`."""
        return "".join([letter if decision else "-" for letter, decision in zip("rwx", self[2:])])


class Region(NamedTuple):
    """A region of the MPU: its RBAR (with VALID 0 and REGION its number) and its RASR."""

    number: int
    rbar: int
    rasr: int

    @property
    def enabled(self) -> bool:
        """Whether RASR.ENABLE is 1."""
        return bool(self.rasr & 1)

    @property
    def size(self) -> int:
        """Its size in bytes, 2 ** (RASR.SIZE + 1)."""
        return 2 << (self.rasr >> 1 & 31)

    @property
    def base(self) -> int:
        """The address of its first byte."""
        return self.rbar & ~31 & ~(self.size - 1)

    @property
    def disabled_subregions(self) -> int:
        """RASR.SRD: bit k says that the k-th eighth isn't part of the region."""
        return self.rasr >> 8 & 0xFF


class State(NamedTuple):
    """The state as `marm run --state` writes it. `registers` has the names of Machine.regs, `status` has CFSR, HFSR,
    MMFAR, BFAR, VTOR and CCR, `clock` is in ticks; `pending` and `active` are numbers of exceptions."""

    registers: dict[str, int]
    clock: int
    status: dict[str, int]
    regions: list[Region]
    pending: frozenset[int]
    active: frozenset[int]


class Ran:
    """What a run did.

    `steps` were made, and the clock is at `tick` after them. `why` the run ended: "steps" (all were made), "break",
    "watch", "refused", "fault", "exception" (a condition was met), or "stop" (the machine has stopped, and no condition
    was met). `stop`: why the machine has stopped, or None. `lines`: those lines of the trace that the selection has,
    and that of the event that ended the run."""

    __slots__ = ("steps", "tick", "why", "stop", "lines", "_condition", "_events")

    def __init__(
        self, steps: int, tick: int, why: str, stop: Optional[Stop], lines: list[str], condition: Optional[Condition]
    ) -> None:
        self.steps = steps
        self.tick = tick
        self.why = why
        self.stop = stop
        self.lines = lines
        self._condition = condition
        self._events: Optional[list[Event]] = None

    @property
    def events(self) -> list[Event]:
        """The events of `lines`."""
        if self._events is None:
            self._events = [parse_event(line) for line in self.lines]
        return self._events

    @property
    def condition(self) -> Optional[Condition]:
        """The condition that was met, with its address as an integer, or None."""
        return self._condition

    @property
    def cause(self) -> Optional[Event]:
        """The access, fault or entry that met the condition; None where none did, and at a breakpoint."""
        condition = self._condition
        if condition is None:
            return None
        return next((event for event in self.events if event.tick == self.tick and condition.is_met(event)), None)

    @property
    def access(self) -> Access:
        """The access that met the condition. ValueError where the cause is none."""
        cause = self.cause
        if not isinstance(cause, Access):
            raise ValueError(f"{self!r}: no access ended it")
        return cause

    @property
    def console(self) -> bytes:
        """The bytes that the firmware printed in this run."""
        return bytes([int(line[-2:], 16) for line in self.lines if line[-5:-2] == " O "])

    def __repr__(self) -> str:
        count = len(self.lines)
        return f"Ran(steps={self.steps}, tick={self.tick}, why={self.why!r}, stop={self.stop!r}, {count} lines)"


class Status(NamedTuple):
    """The end line of an answer: the clock in ticks, PC, the kind of the next step ("" where there is none), and why
    the machine has stopped, or None."""

    tick: int
    pc: int
    next: str
    stop: Optional[Stop]


def status_of(end: str) -> Status:
    """Returns the status of an end line without its `= `. ValueError where it is no such line."""
    tick, pc, kind = end.split(" ", 2)
    if kind[:5] == "stop ":
        return Status(int(tick), int(pc, 16), "", Stop.parse(kind[5:]))
    return Status(int(tick), int(pc, 16), kind, None)


def decision_of(line: str) -> Decision:
    """Returns the decision of an answer to `explain`. ValueError where it is no such line."""
    rule, outcome = line.split(" ")
    if outcome not in ("ok", "mpu"):
        raise ValueError(f"not a decision: {line!r}")
    return Decision(rule, outcome == "ok")


def region_of_line(line: str) -> Region:
    """Returns the region of a line as `r0 00000300 0600000F`. ValueError where it is no such line."""
    name, rbar, rasr = line.split(" ")
    return Region(int(name[1:]), int(rbar, 16), int(rasr, 16))


def registers_of(lines: Sequence[str]) -> dict[str, int]:
    """Returns the registers of the lines of `regs`, with `sp`, the stack pointer in use. ValueError or KeyError where
    they are no such lines."""
    values = {}
    for line in lines:
        name, digits = line.split(" ")
        values[name.lower()] = int(digits, 16)
    in_thread = values["xpsr"] & 0x1FF == 0
    values["sp"] = values["psp"] if in_thread and values["control"] & 2 else values["msp"]
    return values


STATUS_NAMES = ("CFSR", "HFSR", "MMFAR", "BFAR", "VTOR", "CCR")


def state_of(lines: Sequence[str]) -> State:
    """Returns the state of the lines of `state`. ValueError or KeyError where they are no such lines."""
    words = {name: rest for name, _, rest in (line.partition(" ") for line in lines)}
    regions = [region_of_line(line) for line in lines if line[0] == "r"]
    pending, active = (frozenset(map(int, words[name].split())) for name in ("PENDING", "ACTIVE"))
    status = {name: int(words[name], 16) for name in STATUS_NAMES}
    apart = {*STATUS_NAMES, "CLOCK", "PENDING", "ACTIVE", *(f"r{region.number}" for region in regions)}
    registers = registers_of([line for line in lines if line.partition(" ")[0] not in apart])
    return State(registers, int(words["CLOCK"]), status, regions, pending, active)

