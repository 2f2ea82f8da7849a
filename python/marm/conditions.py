"""What a run may end at. A condition's address is an integer, or the name of a symbol of the image."""

from __future__ import annotations

from dataclasses import dataclass, replace
from typing import Callable, ClassVar, Sequence, Union

from .events import Access, Entry, Event, Fault

__tracebackhide__ = True  # pytest shows no frame of the package

MOST = 16  # breakpoints, and watchpoints, that the program holds

Address = Union[int, str]


class Condition:
    """What a run may end at: At, Reads, Writes, Accesses, REFUSED, FAULT or ENTRY."""

    @property
    def command(self) -> str:
        """The command that sets it, with an address that is an integer."""
        raise NotImplementedError

    def located(self, address_of: Callable[[Address], int]) -> Condition:
        """Returns it with its address as an integer."""
        return self

    def is_met(self, event: Event) -> bool:
        """Returns whether the event meets it, with an address that is an integer."""
        return False


@dataclass(frozen=True)
class At(Condition):
    """The next step is an instruction at this address. It isn't tested before the first step of a run."""

    address: Address

    def __repr__(self) -> str:
        return f"At({_text(self.address)})"

    @property
    def command(self) -> str:
        return f"break {self.address}"

    def located(self, address_of: Callable[[Address], int]) -> Condition:
        return At(address_of(self.address))


@dataclass(frozen=True)
class Watch(Condition):
    """A watchpoint: Reads, Writes or Accesses, of `size` bytes from the address on."""

    address: Address
    size: int = 4
    letter: ClassVar[str]
    kinds: ClassVar[str]  # of accesses

    def __repr__(self) -> str:
        return f"{type(self).__name__}({_text(self.address)}, {self.size})"

    @property
    def command(self) -> str:
        return f"watch {self.letter} {self.address} {self.size}"

    def located(self, address_of: Callable[[Address], int]) -> Condition:
        return replace(self, address=address_of(self.address))

    def is_met(self, event: Event) -> bool:
        if not isinstance(event, Access) or not event.granted or event.kind not in self.kinds:
            return False
        first = self.address
        return isinstance(first, int) and event.address < first + self.size and first < event.address + event.size


class Reads(Watch):
    """A granted load, pop of a frame, or read of a vector has a byte in common with these."""

    letter = "r"
    kinds = "LUV"


class Writes(Watch):
    """A granted store, or push of a frame, has a byte in common with these."""

    letter = "w"
    kinds = "SK"


class Accesses(Watch):
    """A granted access, but a fetch, has a byte in common with these."""

    letter = "a"
    kinds = "LUVSK"


@dataclass(frozen=True)
class _Refused(Condition):
    def __repr__(self) -> str:
        return "REFUSED"

    @property
    def command(self) -> str:
        return "stop refused on"

    def is_met(self, event: Event) -> bool:
        return isinstance(event, Access) and not event.granted


@dataclass(frozen=True)
class _Fault(Condition):
    def __repr__(self) -> str:
        return "FAULT"

    @property
    def command(self) -> str:
        return "stop faults on"

    def is_met(self, event: Event) -> bool:
        return isinstance(event, Fault)


@dataclass(frozen=True)
class _Entry(Condition):
    def __repr__(self) -> str:
        return "ENTRY"

    @property
    def command(self) -> str:
        return "stop exceptions on"

    def is_met(self, event: Event) -> bool:
        return isinstance(event, Entry)


REFUSED: Condition = _Refused()  # an access is refused, by the MPU or by the bus
FAULT: Condition = _Fault()  # a fault is recorded
ENTRY: Condition = _Entry()  # a handler is entered

FLAGS = {"refused": REFUSED, "fault": FAULT, "exception": ENTRY}  # by the words of a line `hit ..`

Until = Union[Condition, Sequence[Condition], None]


def _text(address: Address) -> str:
    return repr(address) if isinstance(address, str) else f"{address:#x}"


def conditions_of(until: Until, address_of: Callable[[Address], int]) -> tuple[Condition, ...]:
    """Returns the conditions with their addresses, each once; none for None. ValueError where there are more than 16
    breakpoints, or more than 16 watchpoints; KeyError where the image has no such symbol."""
    listed = [until] if isinstance(until, Condition) else until or ()
    conditions = tuple(dict.fromkeys([condition.located(address_of) for condition in listed]))
    for kind in (At, Watch):
        if sum(isinstance(condition, kind) for condition in conditions) > MOST:
            raise ValueError(f"more than {MOST} breakpoints, or more than {MOST} watchpoints")
    return conditions
