"""The requests that a machine and a batch make: which commands each sends, and what their answers mean."""

from __future__ import annotations

import operator
from typing import Sequence

from .conditions import FLAGS, At, Condition, Watch
from .errors import NotMemory, PlaceRefused
from .events import Stop
from .results import (
    Decision, Ran, Region, Span, State, decision_of, region_of_line, registers_of, state_of, status_of,
)
from .session import Request, Saved, Session, Settings
from .wire import Answer

__tracebackhide__ = True  # pytest shows no frame of the package

BYTES_OF_A_COMMAND = 256
MAX_STEPS = 1_000_000  # of one command
SHORT_RUN = 1_000  # steps
GRANULE = 32  # each region and each subregion begins and ends at a multiple of it
TRACES = ("all", "refused", "exceptions", "console")
NO_SUCH_PLACE = (2, "NoSuchPlace")  # the number and the name of a refusal

NUMBERS = {**{f"r{k}": k for k in range(13)}, "sp": 13, "lr": 14, "pc": 15}
SPECIALS = {"xpsr": 3, "msp": 8, "psp": 9, "primask": 16, "basepri": 17, "faultmask": 19, "control": 20}


def _ok(answer: Answer) -> None:
    if answer.lines != ["ok"]:
        raise ValueError("not ok")


# ---- memory and registers --------------------------------------------------------------------------------------------


def reading(address: int, size: int) -> Request[bytes]:
    """Reads `size` bytes of flash, RAM and devices' words."""
    if size < 0:
        raise ValueError(f"{size} bytes")
    end = address + size
    starts = range(address, end, BYTES_OF_A_COMMAND)

    def read(answers: Sequence[Answer]) -> bytes:
        text = "".join([answer.lines[0].partition(":")[2] for answer in answers])
        if "-" in text:
            raise NotMemory(f"not all bytes from {address:08X} to {end - 1:08X} are memory or words of devices")
        data = bytes.fromhex(text)
        if len(data) != size:
            raise ValueError(f"{len(data)} bytes for {size}")
        return data

    return Request([f"mem {start} {min(BYTES_OF_A_COMMAND, end - start)}" for start in starts], read)


def reading_word(address: int) -> Request[int]:
    """Reads the word at an address, lowest byte first."""
    data = reading(address, 4)
    return Request(data.commands, lambda answers: int.from_bytes(data.read(answers), "little"))


def putting(session: Session, command: str) -> Request[None]:
    """Places a value or signals an event, and records it."""

    def read(answers: Sequence[Answer]) -> None:
        answer = answers[0]
        if answer.lines != ["ok"]:
            refused, number, name, *rest = answer.lines[0].split(" ", 3)
            if refused != "refused":
                raise ValueError("neither ok nor refused")
            raise PlaceRefused(command, int(number), name, Stop.parse(rest[0]) if rest else None)
        session.log.append((int(answer.end.partition(" ")[0]), command))

    return Request((command,), read)


def placing_register(session: Session, name: str, value: int) -> Request[None]:
    """Places a value into a register. KeyError where there is no register of that name, ValueError where the value is
    no word."""
    place = f"reg {NUMBERS[name]}" if name in NUMBERS else f"special {SPECIALS[name]}"
    return putting(session, f"place {place} {_word(value)}")


def placing_word(session: Session, address: int, value: int) -> Request[None]:
    """Places a word into flash, RAM, a device, or the Private Peripheral Bus. ValueError where the value is no
    word."""
    return putting(session, f"place word {address} {_word(value)}")


def _word(value: int) -> int:
    number = int(operator.index(value))
    if not 0 <= number < 2**32:
        raise ValueError(f"{value} isn't a word, from 0 to 0xFFFFFFFF")
    return number


def signalling(session: Session, what: str, line: int) -> Request[None]:
    """Signals what an event of the board's script does: `pulse`, `rise` or `fall` of an interrupt line. TypeError where
    `line` is no integer."""
    number = int(operator.index(line))
    if 0 <= number < 2**32 and not isinstance(line, bool):
        return putting(session, f"signal {what} {number}")

    def refuse(_: Sequence[Answer]) -> None:
        raise PlaceRefused(f"signal {what} {line}", *NO_SUCH_PLACE)

    return Request((), refuse)  # the program takes no such number, and no board has such a line


def signal(session: Session, what: str, line: int) -> None:
    """Signals what an event of the board's script does to an interrupt line.

    Whether a device drives the line is known by the first answer. Where none does and the machine hasn't stopped,
    nothing can refuse a later signal: it goes out with the next command."""
    session.settle()
    request = signalling(session, what, line)
    session.wire.check()
    if request.commands and line in session.free_lines and session.place.stop is None:
        return _owe_signal(session, request.commands[0])
    session.do(request)
    session.free_lines.add(line)


def signal_nmi(session: Session) -> None:
    """Makes NMI pending: by the next command, as long as the machine hasn't stopped."""
    session.settle()
    if session.place.stop is None:
        return _owe_signal(session, "signal nmi")
    session.do(putting(session, "signal nmi"))


def _owe_signal(session: Session, command: str) -> None:
    session.owe(command)
    session.log.append((session.place.tick, command))


# ---- decisions -------------------------------------------------------------------------------------------------------


def explaining(address: int, who: str, access: str) -> Request[Decision]:
    """Asks for the rule that would decide an access now."""
    if who not in ("p", "u") or access not in ("r", "w", "x"):
        raise ValueError(f"{who!r}, {access!r}: code is p or u, and the access r, w or x")
    return Request((f"explain {address} {who} {access}",), lambda answers: decision_of(answers[0].lines[0]))


def mapping(addresses: range, who: str) -> Request[list[Span]]:
    """Asks for the decisions over all these addresses, once for each 32 bytes."""
    if addresses.step != 1 or not addresses:
        raise ValueError(f"{addresses}: not neighbouring addresses")
    starts = [addresses[0], *range((addresses[0] | GRANULE - 1) + 1, addresses[-1] + 1, GRANULE)]
    ends = [start - 1 for start in starts[1:]] + [addresses[-1]]
    commands = [command for start in starts for access in "rwx" for command in explaining(start, who, access).commands]

    def read(answers: Sequence[Answer]) -> list[Span]:
        decisions = [decision_of(answer.lines[0]) for answer in answers]
        spans: list[Span] = []
        for k, (first, last) in enumerate(zip(starts, ends)):
            span = Span(first, last, *decisions[3 * k:3 * k + 3])
            if spans and spans[-1][2:] == span[2:]:
                span = span._replace(first=spans.pop().first)
            spans.append(span)
        return spans

    return Request(commands, read, is_long=True)


REGISTERS: Request[dict[str, int]] = Request(("regs",), lambda answers: registers_of(answers[0].lines))
REGIONS: Request[list[Region]] = Request(
    ("regions",), lambda answers: [region_of_line(line) for line in answers[0].lines]
)
STATE: Request[State] = Request(("state",), lambda answers: state_of(answers[0].lines))


# ---- going on --------------------------------------------------------------------------------------------------------


def running(
    session: Session, steps: int, conditions: Sequence[Condition], trace: str, before: Sequence[str] = ()
) -> Request[Ran]:
    """Makes up to `steps` steps, at most 1,000,000, after the commands `before`, which leave the clock."""
    if trace not in TRACES:
        raise ValueError(f"trace {trace!r}: not one of {', '.join(TRACES)}")
    if not 1 <= steps <= MAX_STEPS:
        raise ValueError(f"{steps} steps: not 1 to {MAX_STEPS:,}")

    def read(answers: Sequence[Answer]) -> Ran:
        ran = _ran(answers[-1], conditions, int(session.end_before.partition(" ")[0]))
        session.console += ran.console
        return ran

    settings = Settings(trace, tuple([condition.command for condition in conditions]))
    return Request((*before, f"run {steps}"), read, settings, steps > SHORT_RUN)


def _ran(answer: Answer, conditions: Sequence[Condition], first: int) -> Ran:
    """The run of an answer, from the tick `first`."""
    status = status_of(answer.end)
    *lines, last = answer.lines
    if last[:3] != "at " and last[:5] != "stop ":
        raise ValueError("not the end of a run")
    hit = ""
    if lines and lines[-1][:4] == "hit ":
        hit = lines.pop()[4:]
    elif status.next == "Instruction" and At(status.pc) in conditions:
        hit = "break"
    condition = _condition_of(hit, status.pc, conditions) if hit else None
    why = hit.partition(" ")[0] or ("stop" if status.stop else "steps")
    return Ran(status.tick - first, status.tick, why, status.stop, lines, condition)


def _condition_of(hit: str, pc: int, conditions: Sequence[Condition]) -> Condition:
    """The condition that a line `hit ..` names. ValueError or LookupError where it names none."""
    if hit == "break":
        return At(pc)
    if hit[:6] == "watch ":
        return [condition for condition in conditions if isinstance(condition, Watch)][int(hit[6:])]
    return FLAGS[hit]


# ---- saved states ----------------------------------------------------------------------------------------------------


def saving(session: Session, saved: Saved) -> Request[None]:
    """Saves the state of now in the slot of `saved`."""

    def read(answers: Sequence[Answer]) -> None:
        _ok(answers[0])
        saved.keep(session, answers[0].end)

    return Request((f"save {saved.slot(session)}",), read)


def restore(session: Session, saved: Saved) -> None:
    """Goes back to a saved state: with the next command, since what the program would answer is known."""
    session.settle()
    command = f"back {saved.slot(session)}"
    if not saved.end:
        return session.do(restoring(session, saved))
    session.owe(command, saved.end)
    session.console[:] = saved.console
    session.log[:] = saved.log


def restoring(session: Session, saved: Saved) -> Request[None]:
    """Goes back to a saved state."""

    def read(answers: Sequence[Answer]) -> None:
        _ok(answers[0])
        session.console[:] = saved.console
        session.log[:] = saved.log

    return Request((f"back {saved.slot(session)}",), read)
