"""The machine as an object."""

from __future__ import annotations

import os
import re
from contextlib import contextmanager
from types import TracebackType
from typing import Any, Iterator, Mapping, Optional, Sequence, Type, Union

from . import history, requests
from .batches import Batch
from .boards import Board, Path
from .conditions import Address, Condition, Until, conditions_of
from .errors import NotReached, ProtocolError
from .events import Console, Event, Stop
from .images import Symbols
from .registers import Registers
from .results import Decision, Ran, Region, Span, State
from .session import Request, Saved, Session
from .walks import Walk
from .wire import VERSION, Answer, Program, Wire, find_program

__tracebackhide__ = True  # pytest shows no frame of the package

Image = Union[bytes, Path]

STEPS_OF_A_PART = 100_000  # of a long run, so that each answer comes soon
STEPS_OF_A_TRACED_PART = 20_000
OWN_SLOTS = 2  # the start, and the walk's
MAX_SLOTS = 8


class Machine:
    """An ARMv7-M machine: a session of `marm debug`.

    Its memory has the image, and no step is made. Addresses are integers, or names of symbols of the image. A context
    manager; a machine that nothing refers to ends its program too. A machine is for one thread of one process.

    Any call may raise Dead, Hung or ProtocolError, and then the machine is lost; ValueError where it is closed."""

    def __init__(
        self, image: Image, board: Union[Board, Path], *, program: Program = None, timeout: float = 30.0, slots: int = 4
    ) -> None:
        """Starts the program. `image` is an ELF file's path or bytes, `board` a Board or a board file's path, `program`
        the command of marm (otherwise the environment's MARM, or `marm` on PATH), `timeout` how many seconds an answer
        may take, and `slots` how many states can be saved at once, 0 to 6.

        NoProgram where the program isn't there, StartError where it refuses image, board or arguments, ProtocolError
        where it knows no scripts."""
        if not 0 <= slots <= MAX_SLOTS - OWN_SLOTS:
            raise ValueError(f"{slots} slots: not 0 to {MAX_SLOTS - OWN_SLOTS}")
        command = [*find_program(program), "debug", "--slots", str(slots + OWN_SLOTS)]
        self.image: Union[bytes, str] = image if isinstance(image, bytes) else os.fspath(image)
        board_file: Union[bytes, str] = board.toml().encode() if isinstance(board, Board) else os.fspath(board)
        self._symbols: Optional[Symbols] = None
        self._wire = Wire(command, board_file, self.image, timeout)
        try:
            self._session = Session(self._wire)
            facts = self._session.do(Request((f"script {VERSION}",), _facts))
            self.flash = _memory(facts["flash"])  # its addresses
            self.ram = _memory(facts["ram"])  # its addresses
            self.second_ram = _memory(facts["second_ram"]) if "second_ram" in facts else range(0)
            self.lines = int(facts["lines"])  # how many interrupt lines there are
            self.priority_bits = int(facts["priority_bits"])  # of a priority that are kept
            count = int(facts["slots"])
            if count < slots + OWN_SLOTS:
                raise ProtocolError(f"the program has {count} slots, not {slots + OWN_SLOTS}")
            self._walk_slot, *self._session.free_slots = range(count)
            self._start = self.save()
        except (LookupError, ValueError) as error:
            self.close()
            raise ProtocolError(f"not the answer to `script {VERSION}`: {error}") from error
        except BaseException:
            self.close()
            raise

    def __enter__(self) -> Machine:
        return self

    def __exit__(
        self, kind: Optional[Type[BaseException]], error: Optional[BaseException], _: Optional[TracebackType]
    ) -> None:
        self.close()

    def __reduce__(self) -> Any:
        raise TypeError("a machine can't be sent to another process: make one there, or use marm.sweep")

    def __repr__(self) -> str:
        return f"<marm.Machine at tick {self.tick}, pc {self.pc:08X}, {self.stop or self.next}>"

    def close(self) -> None:
        """Ends the program. A second call does nothing."""
        self._wire.close()

    @property
    def is_lost(self) -> bool:
        """Whether the machine is closed, or its program has ended or was killed."""
        return self._wire.is_lost

    @property
    def process_id(self) -> int:
        """The number of the program's process."""
        return self._wire.process_id

    # ---- where it is -------------------------------------------------------------------------------------------------

    @property
    def tick(self) -> int:
        """The clock, in ticks: how many steps were made since the start."""
        self._session.settle()
        return self._session.place.tick

    @property
    def pc(self) -> int:
        """The address of the next instruction."""
        self._session.settle()
        return self._session.place.pc

    @property
    def next(self) -> str:
        """The kind of the next step: Instruction, Stack or Vector (of an exception entry), Sleep; "" after a stop."""
        self._session.settle()
        return self._session.status.next

    @property
    def stop(self) -> Optional[Stop]:
        """Why the machine has stopped, or None."""
        self._session.settle()
        return self._session.place.stop

    @property
    def regs(self) -> Registers:
        """The core registers, to be read and set."""
        return Registers(self._session)

    @property
    def console(self) -> bytes:
        """What the firmware has printed since the start."""
        self._session.settle()
        return bytes(self._session.console)

    def regions(self) -> list[Region]:
        """Returns the regions of the MPU."""
        return self._session.do(requests.REGIONS)

    def state(self) -> State:
        """Returns registers, clock, fault status, regions, pending and active exceptions."""
        return self._session.do(requests.STATE)

    @property
    def symbols(self) -> Mapping[str, int]:
        """The addresses of the symbols of the image, functions without their Thumb bit."""
        return self._table.addresses

    @property
    def sizes(self) -> Mapping[str, int]:
        """How many bytes each of `symbols` has; 0 where the image doesn't say."""
        return self._table.sizes

    def address(self, of: Address) -> int:
        """Returns the address of a symbol, or the integer as it is. KeyError where the image has no such symbol."""
        if not isinstance(of, str):
            return of
        if of not in self.symbols:
            raise KeyError(f"the image has no symbol {of!r}")
        return self.symbols[of]

    def symbol_at(self, address: int) -> Optional[str]:
        """Returns the symbol that covers an address, and how far into it that is: `task_c + 0x1C`. None where no symbol
        does."""
        return self._table.name_at(address)

    @property
    def _table(self) -> Symbols:
        if self._symbols is None:
            self._symbols = Symbols(_bytes_of(self.image))
        return self._symbols

    # ---- memory ------------------------------------------------------------------------------------------------------

    def read(self, address: Address, size: int) -> bytes:
        """Returns `size` bytes of flash, RAM and devices: a device's word as it reads now. It is no access of the
        machine, so no load has an effect. NotMemory where a byte is elsewhere."""
        return self._session.do(requests.reading(self.address(address), size))

    def read_word(self, address: Address) -> int:
        """Returns the word at this address, lowest byte first. NotMemory as `read`."""
        return self._session.do(requests.reading_word(self.address(address)))

    def write(self, address: Address, data: bytes) -> None:
        """Places bytes into flash, RAM or devices, as whole words, also where the firmware couldn't write: a device's
        word gets what a poke of the board's script gives it. NotMemory where a byte is elsewhere, PlaceRefused where
        the machine has stopped, and of a device in a handler or an exception entry; then nothing changes."""
        first = self.address(address)
        if not data:
            return
        begin, end = first & ~3, (first + len(data) + 3) & ~3
        words = bytearray(self.read(begin, end - begin))
        words[first - begin:first - begin + len(data)] = data
        batch = self.batch()
        for at in range(0, len(words), 4):
            batch.write_word(begin + at, int.from_bytes(words[at:at + 4], "little"))
        batch.send()

    def write_word(self, address: Address, value: int) -> None:
        """Places a word into flash, RAM, a device, or a register of the Private Peripheral Bus. PlaceRefused where that
        is refused, and then nothing changes; ValueError where the value isn't from 0 to 2 ** 32 - 1."""
        self._session.do(requests.placing_word(self._session, self.address(address), value))

    # ---- events from outside -----------------------------------------------------------------------------------------

    def pulse(self, line: int) -> None:
        """Pulses an interrupt line: in the next tick, as an event of the board's script. PlaceRefused where the board
        has no such line (True and False are none), where a device drives it, and where the machine has stopped;
        TypeError where `line` is no integer."""
        requests.signal(self._session, "pulse", line)

    def rise(self, line: int) -> None:
        """Raises an interrupt line, which stays high; as `pulse`."""
        requests.signal(self._session, "rise", line)

    def fall(self, line: int) -> None:
        """Lowers an interrupt line; as `pulse`."""
        requests.signal(self._session, "fall", line)

    def nmi(self) -> None:
        """Makes NMI pending in the next tick. PlaceRefused where the machine has stopped."""
        requests.signal_nmi(self._session)

    # ---- decisions ---------------------------------------------------------------------------------------------------

    def explain(self, address: Address, who: str, access: str) -> Decision:
        """Returns the decision on an access that privileged ("p") or unprivileged ("u") code would make now, to read
        ("r"), to write ("w") or to execute ("x"). No access is made."""
        return self._session.do(requests.explaining(self.address(address), who, access))

    def access_map(self, addresses: range, who: str) -> list[Span]:
        """Returns the decisions over neighbouring addresses, as few spans."""
        return self._session.do(requests.mapping(addresses, who))

    # ---- going on ----------------------------------------------------------------------------------------------------

    def step(self) -> Ran:
        """Makes a step: an instruction, one of the two steps of an exception entry, or a tick asleep. Its `lines` are
        all that it traces."""
        return self.run(1, trace="all")

    def run(self, steps: int = 1_000_000, until: Until = None, trace: str = "console") -> Ran:
        """Makes up to `steps` steps, and ends at the first that meets one of the conditions `until`, if there are any,
        or at the stop.

        `trace` selects the lines: "all"; "refused", the refused accesses and the faults; "exceptions", these, the
        entries and the returns; or "console". A byte that the firmware prints is always among them. At most 16
        breakpoints and 16 watchpoints (ValueError)."""
        conditions = self._conditions(until)
        if steps < 0:
            raise ValueError(f"{steps} steps")
        stop = self.stop
        whole = Ran(0, self.tick, "stop" if stop else "steps", stop, [], None)
        part = STEPS_OF_A_TRACED_PART if trace == "all" else STEPS_OF_A_PART
        while whole.why == "steps" and whole.steps < steps:
            request = requests.running(self._session, min(steps - whole.steps, part), conditions, trace)
            ran = self._session.do(request)
            whole.lines.extend(ran.lines)
            whole = Ran(whole.steps + ran.steps, ran.tick, ran.why, ran.stop, whole.lines, ran.condition)
        return whole

    def run_to(self, until: Until, steps: int = 1_000_000, trace: str = "console") -> Ran:
        """Runs as `run`, and raises NotReached where no condition was met."""
        ran = self.run(steps, until, trace)
        if ran.condition is None:
            end = ran.stop or "no step is left"
            raise NotReached(f"{until!r} wasn't met in {ran.steps} steps: {end} at {self.pc:08X}")
        return ran

    def trace(self, steps: int = 1_000_000, trace: str = "all", until: Until = None) -> Iterator[Event]:
        """Returns an iterator over the events of a run, as `run` would make it.

        In the loop the machine is where the step of the event left it, to be read, changed or run; after a `break`
        too."""
        return Walk(self._session, self._walk_slot, steps, trace, self._conditions(until))

    def expect(self, text: Union[str, bytes, re.Pattern[bytes]], steps: int = 10_000_000) -> re.Match[bytes]:
        """Runs until the firmware has printed this text (a str as UTF-8), or what matches a pattern of bytes, from now
        on. Returns the match, with the machine after the step that printed its last byte. NotReached where it isn't
        printed."""
        data = text.encode() if isinstance(text, str) else text
        pattern = re.compile(re.escape(data)) if isinstance(data, bytes) else data
        if not isinstance(pattern.pattern, bytes):
            raise TypeError(f"{pattern.pattern!r} is a pattern of str, not of bytes")
        printed = bytearray()
        for event in self.trace(steps, "console"):
            if isinstance(event, Console):
                printed.append(event.byte)
                match = pattern.search(printed)
                if match:
                    return match
        end = self.stop or "no step is left"
        given = text.pattern if isinstance(text, re.Pattern) else text
        raise NotReached(f"{given!r} wasn't printed, but {bytes(printed)!r}: {end}")

    def batch(self) -> Batch:
        """Returns an empty batch: requests that are sent together."""
        return Batch(self._session, self.address)

    def _conditions(self, until: Until) -> tuple[Condition, ...]:
        return conditions_of(until, self.address)

    # ---- saved states ------------------------------------------------------------------------------------------------

    @property
    def start(self) -> Saved:
        """The state in which the machine started, to be restored."""
        return self._start

    def save(self) -> Saved:
        """Saves the whole state: registers, memory, exceptions, clock, script, stop. NoSlot where no slot is free: a
        slot is free again once nothing refers to the Saved."""
        saved = Saved(self._session)
        self._session.do(requests.saving(self._session, saved))
        return saved

    def restore(self, saved: Saved) -> None:
        """Goes back to a saved state, any number of times. ValueError where it was freed, or is another machine's."""
        requests.restore(self._session, saved)

    @contextmanager
    def saved(self) -> Iterator[Saved]:
        """In a `with` statement: undoes, at the end of its block, what was done in it."""
        saved = self.save()
        try:
            yield saved
        finally:
            if not self.is_lost:
                self.restore(saved)
            saved.free()

    def replay(self, tick: int, since: Optional[Saved] = None) -> None:
        """Goes back to a tick between `since` (otherwise the start) and now: makes the run from `since` again, with all
        that was placed and signalled. ValueError where `tick` isn't between them, or `since` isn't on the way to
        now."""
        history.replay(self._session, self.run, since or self._start, tick)

    def last(self, until: Until, since: Optional[Saved] = None) -> Optional[Ran]:
        """Goes back to just before the step of the last hit of the conditions since `since` (otherwise the start), and
        returns the run that it ended: `m.last(marm.Writes(a)).access` is the store that wrote to `a` last. Returns
        None, and leaves the machine as it is, where there is none. ValueError as `replay`."""
        return history.last(self._session, self.run, until, since or self._start)


def _facts(answers: Sequence[Answer]) -> dict[str, str]:
    facts = {name: rest for name, _, rest in (line.partition(" ") for line in answers[0].lines)}
    if facts["script"] != str(VERSION):
        raise ValueError(f"version {facts['script']}")
    return facts


def _bytes_of(image: Union[bytes, str]) -> bytes:
    if isinstance(image, bytes):
        return image
    with open(image, "rb") as file:
        return file.read()


def _memory(fact: str) -> range:
    base, size = fact.split(" ")
    return range(int(base, 16), int(base, 16) + int(size))
