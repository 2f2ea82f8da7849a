"""What is known of a session: where the machine is, what it printed, and what was put into it from outside."""

from __future__ import annotations

from typing import Any, Callable, Generic, NamedTuple, NoReturn, Optional, Protocol, Sequence, TypeVar

from .errors import CommandError, MarmError, NoSlot, ProtocolError
from .interrupts import Uninterrupted
from .results import Status, status_of
from .wire import Answer, Wire

__tracebackhide__ = True  # pytest shows no frame of the package

T = TypeVar("T")


class Settings(NamedTuple):
    """The selection of lines, and the commands that set the conditions of a run."""

    trace: str
    conditions: tuple[str, ...]

    def changes(self, before: Optional[Settings]) -> list[str]:
        """Returns the commands that make these settings of those before, or of unknown ones."""
        commands = []
        if before is None or before.trace != self.trace:
            commands.append(f"trace {self.trace}")
        if before is None or before.conditions != self.conditions:
            commands += ["clear", *self.conditions]
        return commands


class Request(Generic[T]):
    """Commands, what their answers mean, the settings that they need, if any, and whether they may take long."""

    __slots__ = ("commands", "read", "settings", "is_long")

    def __init__(
        self, commands: Sequence[str], read: Callable[[Sequence[Answer]], T], settings: Optional[Settings] = None,
        is_long: bool = False,
    ) -> None:
        self.commands = commands
        self.read = read
        self.settings = settings
        self.is_long = is_long


class Outcome(NamedTuple):
    """The value of a request, or its error."""

    value: Any
    error: Optional[MarmError]


class Ahead(Protocol):
    """What the machine has run ahead of the reader of its trace. (It doesn't refer to the session, so that one which
    nothing else refers to ends at once.)"""

    def settle(self, session: Session) -> None:
        """Brings the machine back to the step of the event that was read last."""


class Session:
    """A machine's session."""

    def __init__(self, wire: Wire) -> None:
        self.wire = wire
        self.console = bytearray()  # what was printed since the start
        self.log: list[tuple[int, str]] = []  # what was put from outside since the start, with its tick
        self.registers: Optional[dict[str, int]] = None  # those of now, where they were asked for
        self.ahead: Optional[Ahead] = None
        self.free_slots: list[int] = []
        self.free_lines: set[int] = set()  # interrupt lines that no device drives, as far as is known
        self.end_before = ""  # the end line before the answers that are being read
        self._owed: list[str] = []  # commands that are answered `ok`, and go out with the next ones
        self._settings: Optional[Settings] = None
        self._end = ""  # that of the last answer
        self._is_end_known = True  # unless a signal is owed, which may change the kind of the next step
        self._status: Optional[Status] = None  # what it says, where it was asked for

    @property
    def status(self) -> Status:
        """Where the machine is."""
        if not self._is_end_known:
            self._exchange([])
        return self.place

    @property
    def place(self) -> Status:
        """The same, but that a signal which is owed may change the kind of the next step."""
        if self._status is None:
            try:
                self._status = status_of(self._end)
            except ValueError as error:
                self.refuse(f"not the end of an answer: {self._end!r}", error)
        return self._status

    def settle(self) -> None:
        """Brings the machine to where the reader of its trace is."""
        if self.ahead is not None:
            with Uninterrupted():
                self.ahead.settle(self)

    def do(self, request: Request[T]) -> T:
        """Sends the request and returns its value."""
        self.settle()
        if request.is_long:
            with Uninterrupted():
                return self._do(request)
        return self._do(request)

    def _do(self, request: Request[T]) -> T:
        settings = request.settings
        changes = settings.changes(self._settings) if settings and settings != self._settings else []
        self.end_before = self._end
        answers = self._exchange([*changes, *request.commands])
        value = self._value(request, changes, answers)
        self._settings = settings or self._settings
        return value

    def send(self, requests: Sequence[Request[Any]]) -> list[Outcome]:
        """Sends all requests at once and returns their outcomes. What one refuses isn't in the way of the next ones."""
        self.settle()
        with Uninterrupted():
            return self._send(requests)

    def _send(self, requests: Sequence[Request[Any]]) -> list[Outcome]:
        commands: list[str] = []
        changes = []  # the commands for the settings of each request
        settings = self._settings
        for request in requests:
            wanted = request.settings
            changes.append(wanted.changes(settings) if wanted and wanted != settings else [])
            settings = wanted or settings
            commands += [*changes[-1], *request.commands]
        self.end_before = self._end
        answers = self._exchange(commands)
        self._settings = settings
        outcomes = []
        at = 0
        for request, changing in zip(requests, changes):
            end = at + len(changing) + len(request.commands)
            try:
                outcomes.append(Outcome(self._value(request, changing, answers[at:end]), None))
            except MarmError as error:
                outcomes.append(Outcome(None, error))
            if end:
                self.end_before = answers[end - 1].end
            at = end
        return outcomes

    def _value(self, request: Request[T], changes: Sequence[str], answers: Sequence[Answer]) -> T:
        """The value of a request, whose answers come after those of the changes of settings."""
        try:
            for number, answer in enumerate(answers):
                if answer.lines and answer.lines[-1][:6] == "error ":
                    self._settings = None
                    raise CommandError([*changes, *request.commands][number], int(answer.lines[-1][6:]))
            return request.read(answers[len(changes):])
        except MarmError:
            raise
        except (ValueError, LookupError, TypeError, AttributeError) as error:
            self.refuse(f"not an answer to {[*changes, *request.commands]}: {answers}"[:500], error)

    def owe(self, command: str, end: Optional[str] = None) -> None:
        """Has a command go out with the next ones: one whose answer is `ok`, which saves an exchange. `end` is the end
        line after it; None where only the kind of the next step may change."""
        self.wire.check()
        self._owed.append(command)
        self._is_end_known = end is not None
        if end is not None:
            self.registers = None
            self._status = None
            self._end = end

    def run_again(self, commands: Sequence[str]) -> None:
        """Exchanges commands that change selection and conditions, and whose answers aren't looked at."""
        self._settings = None
        self._exchange(commands)

    def refuse(self, what: str, cause: Exception) -> NoReturn:
        """Ends the session, since an answer isn't one of the protocol."""
        try:
            self.wire.fail(ProtocolError(what))
        except ProtocolError as error:
            raise error from cause

    def _exchange(self, commands: Sequence[str]) -> list[Answer]:
        owed, self._owed = self._owed, []
        if not owed and not commands:
            return []
        answers = self.wire.exchange([*owed, *commands])
        for command, answer in zip(owed, answers):
            if answer.lines != ["ok"]:
                self.wire.fail(ProtocolError(f"not `ok` to {command!r}: {answer.lines}"))
        self.registers = None
        self._status = None
        self._end = answers[-1].end
        self._is_end_known = True
        return answers[len(owed):]


class Saved:
    """A state that was saved, at `tick`. Its slot is free again once nothing refers to it, or after `free`."""

    __slots__ = ("tick", "end", "console", "log", "_slot", "_free_slots")

    def __init__(self, session: Session) -> None:
        """Takes a slot; `keep` says what is saved there. NoSlot where none is free."""
        self._slot = -1
        self._free_slots = session.free_slots
        if not session.free_slots:
            raise NoSlot("no slot is free: free a saved state, or make the machine with more `slots`")
        self._slot = session.free_slots.pop()
        self.tick = -1
        self.end = ""  # the end line of the state
        self.console = b""
        self.log: tuple[tuple[int, str], ...] = ()

    def keep(self, session: Session, end: str) -> None:
        """Records what is known of the session as the state was saved: the answer's end line, console and log."""
        self.tick = int(end.partition(" ")[0])
        self.end = end
        self.console = bytes(session.console)
        self.log = tuple(session.log)

    def slot(self, session: Session) -> int:
        """Returns the number of its slot. ValueError where it was freed, or is another machine's."""
        if self._free_slots is not session.free_slots:
            raise ValueError("the state was saved by another machine")
        if self._slot < 0:
            raise ValueError("the saved state was freed")
        return self._slot

    def free(self) -> None:
        """Frees its slot. It can't be restored any more."""
        if self._slot >= 0:
            self._free_slots.append(self._slot)
            self._slot = -1

    def __del__(self) -> None:
        self.free()

    def __repr__(self) -> str:
        return f"<marm.Saved at tick {self.tick}>"
