"""Reading a trace event by event, with the machine at the step of the event that was read last."""

from __future__ import annotations

from typing import Iterator, Sequence

from .conditions import Condition
from .events import Console, Event
from .requests import running
from .session import Session, Settings

__tracebackhide__ = True  # pytest shows no frame of the package

FIRST_PART = 256  # steps; each part is twice the one before it
LONGEST_PART = 16_384


class Part:
    """A part of a run that the machine has made ahead of its reader. It begins at the tick `begin`, where the machine
    was saved in a slot."""

    def __init__(self, slot: int, begin: int) -> None:
        self.slot = slot
        self.begin = begin
        self.here = begin  # the tick of the event that was read last
        self.undone = 0  # how many steps were taken back
        self.events: list[Event] = []  # those that weren't read, the last one first

    def settle(self, session: Session) -> None:
        """Brings the machine back to the step of the event that was read last: it makes the part again up to there,
        since it is deterministic."""
        session.ahead = None
        again = self.here - self.begin
        self.undone = session.status.tick - self.here
        if not self.undone:
            return
        commands = [f"back {self.slot}", *Settings("none", ()).changes(None)]
        session.run_again(commands + ([f"run {again}"] if again else []))
        printed = sum(isinstance(event, Console) and event.tick > self.here for event in self.events)
        if printed:
            del session.console[-printed:]
        self.events = [event for event in self.events if event.tick <= self.here]


class Walk(Iterator[Event]):
    """The events of a run, which the machine makes in parts, ahead of the reader. The end of each part that isn't read
    is taken back as soon as something else is done with the machine."""

    def __init__(
        self, session: Session, slot: int, steps: int, trace: str, conditions: Sequence[Condition]
    ) -> None:
        """`slot` is one that no saved state has."""
        self._session = session
        self._left = steps
        self._trace = trace
        self._conditions = conditions
        self._length = FIRST_PART
        self._is_over = False
        self._part = Part(slot, 0)

    def __next__(self) -> Event:
        while not self._part.events:
            if self._part.undone:
                self._left += self._part.undone
                self._is_over, self._length, self._part.undone = False, FIRST_PART, 0
            if self._is_over or self._left <= 0:
                if self._session.ahead is self._part:
                    self._session.ahead = None  # the machine stays at the end
                raise StopIteration
            self._run()
        event = self._part.events.pop()
        self._part.here = event.tick
        return event

    def _run(self) -> None:
        session = self._session
        if session.ahead is self._part:
            session.ahead = None  # the part was read to its end
        session.settle()
        self._part = part = Part(self._part.slot, session.status.tick)
        steps = min(self._left, self._length)
        ran = session.do(running(session, steps, self._conditions, self._trace, (f"save {part.slot}",)))
        part.events = ran.events[::-1]
        self._length = min(2 * self._length, LONGEST_PART)
        self._left -= ran.steps
        self._is_over = ran.why != "steps"
        session.ahead = part
