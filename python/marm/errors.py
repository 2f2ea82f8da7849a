"""The exceptions of the package. Each is a MarmError."""

from __future__ import annotations

from typing import Any, Optional, Sequence

from .events import Stop

__tracebackhide__ = True  # pytest shows no frame of the package


class MarmError(Exception):
    """The base of all errors of this package."""


class NoProgram(MarmError, FileNotFoundError):
    """The program `marm` wasn't found."""


class StartError(MarmError):
    """The program ended before its first answer: it refused its arguments, the image or the board.

    `status` is its exit status, and `message` what it wrote to standard error."""

    def __init__(self, status: int, message: str) -> None:
        super().__init__(status, message)
        self.status = status
        self.message = message

    def __str__(self) -> str:
        return self.message.strip() or f"marm ended with status {self.status} before its first answer"


class Dead(MarmError):
    """The program ended during the session. The machine is lost.

    `status` is its exit status (negative: the signal that ended it), and `message` what it wrote to standard error."""

    def __init__(self, status: int, message: str) -> None:
        super().__init__(status, message)
        self.status = status
        self.message = message

    def __str__(self) -> str:
        return f"marm ended with status {self.status}: {self.message.strip() or 'it wrote no message'}"


class Hung(MarmError, TimeoutError):
    """The program didn't answer `command` within `seconds`, and was killed. The machine is lost."""

    def __init__(self, seconds: float, command: str) -> None:
        super().__init__(f"marm didn't answer `{command}` within {seconds:g} s, and was killed")
        self.seconds = seconds
        self.command = command

    def __reduce__(self) -> tuple[Any, ...]:
        return Hung, (self.seconds, self.command)


class ProtocolError(MarmError):
    """An answer has another form than docs/SCRIPTING.md says. The machine is lost."""


class CommandError(MarmError):
    """The program answered `error 1`, `error 2` or `error 3` to a command, and nothing changed.

    1: it knows no such command; 2: a number or a word is out of range; 3: all 16 places of a kind are taken."""

    def __init__(self, command: str, number: int) -> None:
        super().__init__(command, number)
        self.command = command
        self.number = number

    def __str__(self) -> str:
        return f"`{self.command}`: error {self.number}"


class PlaceRefused(MarmError, ValueError):
    """The program refused to place a value or to signal an event, and nothing changed.

    `number` and `name` are its own: 1 NotAligned, 2 NoSuchPlace, 3 Stopped, 4 Refused. With 4 `stop` is the stop at
    which the machine would have ended."""

    def __init__(self, command: str, number: int, name: str, stop: Optional[Stop] = None) -> None:
        super().__init__(command, number, name, stop)
        self.command = command
        self.number = number
        self.name = name
        self.stop = stop

    def __str__(self) -> str:
        return f"`{self.command}`: refused {self.number} {self.name}" + (f" {self.stop}" if self.stop else "")


class NotMemory(MarmError, IndexError):
    """A byte is neither in flash nor in a RAM nor in a device's word."""


class NotReached(MarmError, AssertionError):
    """A run ended without what it was to reach. The machine is where the run ended."""


class SweepError(MarmError):
    """An exception ended a sweep: the cause, `__cause__`.

    `variant` is the one that it came up with, and `results` are those that were there, in the order of the variants."""

    def __init__(self, variant: Any, message: str, results: Sequence[tuple[Any, Any]] = ()) -> None:
        super().__init__(variant, message, results)
        self.variant = variant
        self.message = message
        self.results = results

    def __str__(self) -> str:
        return f"variant {self.variant!r}: {self.message}"


class NoSlot(MarmError, IndexError):
    """As many states are saved as the machine has slots."""
