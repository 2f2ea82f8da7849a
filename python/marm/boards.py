"""A board and the events of its script, and its file."""

from __future__ import annotations

import os
import sys
from dataclasses import dataclass, fields, replace
from typing import Any, NamedTuple, Optional, Union

__tracebackhide__ = True  # pytest shows no frame of the package

Path = Union[str, "os.PathLike[str]"]
KEYS = ("flash_base", "flash_size", "ram_size", "priority_bits", "lines", "regions")


class Ram(NamedTuple):
    """A second RAM of a board: the address of its first byte, and how many bytes it has."""

    base: int
    size: int


@dataclass(frozen=True)
class Device:
    """A device of a board: a row of words. docs/FILES.md says what each key means, and its range.

    Addresses and words are numbers of 32 bits, `size` is in bytes, `by` in bits. `load_value` goes with `load_poke`,
    `store_value` with `store_poke`, and `enable` with `line`."""

    base: int
    size: int = 4
    start: int = 0
    ones: int = 0
    zeros: int = 0
    stores: str = "kept"
    follows: int = 0
    by: int = 1
    of: Optional[int] = None
    counts: bool = False
    console: bool = False
    load_poke: Optional[int] = None
    load_value: Optional[int] = None
    store_poke: Optional[int] = None
    store_value: Optional[int] = None
    line: Optional[int] = None
    enable: Optional[int] = None

    def toml(self) -> str:
        """Returns the device's table in a board file, with the keys that aren't at their defaults."""
        keys = [(field.name, getattr(self, field.name)) for field in fields(self)
                if getattr(self, field.name) != field.default]
        return "[[device]]\n" + "".join(f"{name} = {_toml(value)}\n" for name, value in keys)


class BoardEvent(NamedTuple):
    """An event of a board's script, applied in the step that reaches the tick `at` (from 1).

    `line` is the interrupt line that `what` ("pulse", "rise" or "fall") happens to, or `poke` is the address of a
    device's word that gets the content `value`; where both are None, NMI pends."""

    at: int
    line: Optional[int]
    what: str = "pulse"
    poke: Optional[int] = None
    value: int = 0

    def toml(self) -> str:
        """Returns the event's table in a board file."""
        if self.poke is not None:
            what = f"poke = {self.poke}\nvalue = {self.value}"
        elif self.line is not None:
            what = f'line = {self.line}\nwhat = "{self.what}"'
        else:
            what = "nmi = true"
        return f"[[event]]\nat = {self.at}\n{what}\n"


@dataclass(frozen=True)
class Board:
    """What a board file says; docs/FILES.md has the ranges, which the program checks (StartError).

    Sizes are in bytes, `priority_bits` counts the bits of a priority that are kept, `lines` the interrupt lines,
    `regions` the regions of the MPU, `events` are by rising ticks, `ram` is a second RAM besides the one at
    0x20000000, if there is one, and of `devices` the first that has an address is the device of that address."""

    flash_size: int
    ram_size: int
    flash_base: int = 0
    priority_bits: int = 4
    lines: int = 0
    regions: int = 8
    events: tuple[BoardEvent, ...] = ()
    ram: Optional[Ram] = None
    devices: tuple[Device, ...] = ()

    @staticmethod
    def load(path: Path) -> Board:
        """Reads a board file. OSError where it can't be read, ValueError where it is none.

        Before Python 3.11, which has no reader of TOML, a file needs a line for each key, and `[[ram]]`, `[[device]]`
        and `[[event]]` before each of these. A Machine takes a path too, and then the program reads the file."""
        with open(path, encoding="utf-8") as file:
            text = file.read()
        keys = _parse(text)
        try:
            events = tuple(_event(**event) for event in keys.pop("event", ()))
            devices = tuple(Device(**device) for device in keys.pop("device", ()))
            rams = [Ram(**ram) for ram in keys.pop("ram", ())]
            if len(rams) > 1:
                raise TypeError("a board has one [[ram]] at most")
            return Board(**keys, events=events, ram=rams[0] if rams else None, devices=devices)
        except TypeError as error:
            raise ValueError(f"{os.fspath(path)}: {error}") from error

    def with_event(self, at: int, line: Optional[int] = None, what: str = "pulse") -> Board:
        """Returns the board with one more event in its script, after those of the same tick."""
        return self._with(BoardEvent(at, line, what))

    def with_poke(self, at: int, address: int, value: int) -> Board:
        """Returns the board with one more event, which gives the word of a device the content `value`."""
        return self._with(BoardEvent(at, None, poke=address, value=value))

    def _with(self, event: BoardEvent) -> Board:
        return replace(self, events=tuple(sorted((*self.events, event), key=_tick_of)))

    def toml(self) -> str:
        """Returns the text of the board's file."""
        parts = ["".join(f"{key} = {getattr(self, key)}\n" for key in KEYS)]
        if self.ram is not None:
            parts.append(f"[[ram]]\nbase = {self.ram.base}\nsize = {self.ram.size}\n")
        parts += [device.toml() for device in self.devices]
        parts += [event.toml() for event in self.events]
        return "\n".join(parts)


def _tick_of(event: BoardEvent) -> int:
    return event.at


def _event(at: int, line: Optional[int] = None, what: str = "pulse", nmi: bool = False, poke: Optional[int] = None,
           value: Optional[int] = None) -> BoardEvent:
    if [line is not None, nmi, poke is not None].count(True) != 1:
        raise TypeError("an event has either a line, or nmi = true, or a poke")
    if (poke is None) != (value is None):
        raise TypeError("a poke has a value")
    return BoardEvent(at, line, what, poke, value or 0)


def _toml(value: Union[int, str, bool]) -> str:
    if isinstance(value, bool):
        return "true" if value else "false"
    return f'"{value}"' if isinstance(value, str) else str(value)


def _parse(text: str) -> dict[str, Any]:
    if sys.version_info >= (3, 11):
        import tomllib

        return tomllib.loads(text)
    return parse_plain(text)


def parse_plain(text: str) -> dict[str, Any]:
    """Returns the keys of a board file whose lines are each empty, a comment, `[[ram]]`, `[[device]]`, `[[event]]` or
    one key. ValueError where a line is none of these."""
    board: dict[str, Any] = {}
    table = board
    for line in text.splitlines():
        words = line.partition("#")[0].strip()
        if words in ("[[ram]]", "[[device]]", "[[event]]"):
            table = {}
            board.setdefault(words.strip("[]"), []).append(table)
        elif words:
            key, equals, value = (part.strip() for part in words.partition("="))
            if not equals or key in table:
                raise ValueError(f"{line!r} isn't a line of a plain board file")
            table[key] = _value(value)
    return board


def _value(text: str) -> Union[int, str, bool]:
    if text in ("true", "false"):
        return text == "true"
    if len(text) > 1 and text[0] == text[-1] and text[0] in "\"'":
        return text[1:-1]
    return int(text, 0)
