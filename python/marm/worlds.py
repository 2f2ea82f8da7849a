"""What each task may touch, and what tasks share: the lines of `marm tasks` as values."""

from __future__ import annotations

import os
from typing import Iterable, NamedTuple, Optional, Sequence, Union

from .boards import Board, Path
from .errors import ProtocolError, StartError
from .events import Stop, region_of
from .wire import Program, find_program, run_to_end

__tracebackhide__ = True  # pytest shows no frame of the package

WROTE_ALL = (0, 4)  # the statuses of a run; 4 is another stop than a breakpoint or the limit of steps


class Interval(NamedTuple):
    """The addresses from `first` to `last` of a place ("flash", "ram", "window"), where a world has the same rights
    (as "rw-") by the same rule."""

    first: int
    last: int
    place: str
    rights: str
    rule: str

    @property
    def region(self) -> Optional[int]:
        """The number of the region that decides, or None where another rule does."""
        return region_of(self.rule)


class World(NamedTuple):
    """A setting of the MPU under which unprivileged code ran.

    `steps` were made; the first began in `tick` at `pc`, and all between `lowest` and `highest`. `name` is that of the
    symbol that has `pc`, or None. `map` has each address of flash, RAM and the device window."""

    number: int
    steps: int
    tick: int
    pc: int
    lowest: int
    highest: int
    name: Optional[str]
    map: list[Interval]

    def at(self, address: int) -> Interval:
        """Returns the interval of an address. IndexError where it is in no place of the board."""
        for interval in self.map:
            if interval.first <= address <= interval.last:
                return interval
        raise IndexError(f"{address:08X} is in neither flash nor RAM nor the window")


class Shared(NamedTuple):
    """The bytes of RAM from `first` to `last`: world `writer` may write them, and world `reader` read or execute."""

    writer: int
    reader: int
    first: int
    last: int


class Tasks(NamedTuple):
    """Who may touch what: the worlds of a run by their numbers, from 1, and the bytes that they share but for those
    that are allowed. `others`: how many steps were made in worlds that have no number. `stop`: how the run ended."""

    worlds: list[World]
    shared: list[Shared]
    others: int
    stop: Stop

    @property
    def apart(self) -> bool:
        """Whether all worlds have numbers and no two of them share a byte, as `--expect-apart` has it."""
        return not self.shared and not self.others

    def are_apart(self, number: int, other: int) -> bool:
        """Returns whether neither of two worlds shares a byte with the other."""
        return not any({span.writer, span.reader} == {number, other} for span in self.shared)


def tasks(
    image: Union[bytes, Path], board: Union[Board, Path], *, steps: int = 1_000_000,
    allow: Iterable[tuple[int, int]] = (), program: Program = None, timeout: float = 60.0,
) -> Tasks:
    """Makes a run of at most `steps` steps, and returns what its tasks may touch and share. `allow` has the first and
    the last address of bytes that are shared on purpose; the other arguments are those of Machine.

    NoProgram where the program isn't there, StartError where it refuses image, board or arguments, Hung where it takes
    longer than `timeout` seconds, ProtocolError where it writes something else."""
    words = [word for first, last in allow for word in ("--allow", f"0x{first:08X}-0x{last:08X}")]
    board_file: Union[bytes, str] = board.toml().encode() if isinstance(board, Board) else os.fspath(board)
    image_file: Union[bytes, str] = image if isinstance(image, bytes) else os.fspath(image)
    command = [*find_program(program), "tasks", "--steps", str(steps), *words]
    status, text, message = run_to_end(command, board_file, image_file, timeout)
    if status not in WROTE_ALL:
        raise StartError(status, message)
    try:
        return tasks_of(text.split("\n"))
    except (LookupError, ValueError) as error:
        raise ProtocolError(f"not the lines of `marm tasks`: {error}") from error


def tasks_of(lines: Sequence[str]) -> Tasks:
    """Returns what the lines of `marm tasks` say, with the empty one after the last. ValueError or IndexError where
    they are no such lines."""
    *facts, last, end = lines
    if end or last[:5] != "stop ":
        raise ValueError(f"no stop at the end: {last!r}")
    found = Tasks([], [], 0, Stop.parse(last[5:]))
    apart: set[tuple[int, int]] = set()
    for line in facts:
        kind, *words = line.split(" ")
        if kind == "world":
            found.worlds.append(_world(line, len(found.worlds) + 1))
        elif kind == "map":
            _put_interval(found.worlds[-1], words)
        elif kind == "others":
            found = found._replace(others=int(words[0]))
        elif kind == "shares":
            found.shared.append(Shared(int(words[0]), int(words[1]), int(words[2], 16), int(words[3], 16)))
        elif kind == "apart":
            apart.add((int(words[0]), int(words[1])))
        else:
            raise ValueError(f"not a line: {line!r}")
    _check_pairs(found, apart)
    return found


def _world(line: str, number: int) -> World:
    facts, _, rest = line.partition(" pc ")
    words = facts.split(" ")
    pc, code, lowest, highest, *name = rest.split(" ", 4)
    if words[::2] != ["world", "steps", "tick"] or int(words[1]) != number or code != "code":
        raise ValueError(f"not the line of world {number}: {line!r}")
    return World(
        number, int(words[3]), int(words[5]), int(pc, 16), int(lowest, 16), int(highest, 16),
        name[0] if name else None, [],
    )


def _put_interval(world: World, words: Sequence[str]) -> None:
    number, first, last, place, rights, rule = words
    if int(number) != world.number:
        raise ValueError(f"a map of world {number} after the line of world {world.number}")
    world.map.append(Interval(int(first, 16), int(last, 16), place, rights, rule))


def _check_pairs(found: Tasks, apart: set[tuple[int, int]]) -> None:
    for world in found.worlds:
        for other in found.worlds[world.number:]:
            if found.are_apart(world.number, other.number) != ((world.number, other.number) in apart):
                raise ValueError(f"worlds {world.number} and {other.number}: either `apart` or `shares`")
