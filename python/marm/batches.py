"""Several requests in one exchange."""

from __future__ import annotations

from types import TracebackType
from typing import Any, Callable, Generic, Optional, Type, TypeVar

from . import requests
from .conditions import Address, Until, conditions_of
from .errors import MarmError
from .results import Decision, Ran, Region, State
from .session import Request, Saved, Session

__tracebackhide__ = True  # pytest shows no frame of the package

T = TypeVar("T")


class Later(Generic[T]):
    """The value of a request of a batch, once the batch was sent."""

    __slots__ = ("_value", "error", "is_sent")

    def __init__(self) -> None:
        self._value: Optional[T] = None
        self.error: Optional[MarmError] = None  # why there is no value
        self.is_sent = False

    @property
    def value(self) -> T:
        """The value. Raises the error where there is one, and ValueError before the batch is sent."""
        if not self.is_sent:
            raise ValueError("the batch wasn't sent")
        if self.error is not None:
            raise self.error
        return self._value  # type: ignore[return-value]

    def settle(self, value: T, error: Optional[MarmError]) -> None:
        """Sets the value, or the error."""
        self._value, self.error, self.is_sent = value, error, True


class Batch:
    """Requests that are sent together, in their order: by `send`, or at the end of a `with` block.

    Each method does what that of Machine does, and returns a Later. What one of them refuses isn't in the way of the
    next ones. `send` raises the first error, after all were carried out."""

    def __init__(self, session: Session, address_of: Callable[[Address], int]) -> None:
        self._session = session
        self._address_of = address_of
        self._requests: list[Request[Any]] = []
        self._laters: list[Later[Any]] = []

    def __enter__(self) -> Batch:
        return self

    def __exit__(
        self, kind: Optional[Type[BaseException]], error: Optional[BaseException], _: Optional[TracebackType]
    ) -> None:
        if kind is None:
            self.send()

    def __len__(self) -> int:
        return len(self._requests)

    def _add(self, request: Request[T]) -> Later[T]:
        later: Later[T] = Later()
        self._requests.append(request)
        self._laters.append(later)
        return later

    def set(self, register: str, value: int) -> Later[None]:
        """Places a value into a register, by its name in Machine.regs."""
        return self._add(requests.placing_register(self._session, register, value))

    def write_word(self, address: Address, value: int) -> Later[None]:
        """Places a word."""
        return self._add(requests.placing_word(self._session, self._address_of(address), value))

    def pulse(self, line: int) -> Later[None]:
        """Pulses an interrupt line."""
        return self._add(requests.signalling(self._session, "pulse", line))

    def rise(self, line: int) -> Later[None]:
        """Raises an interrupt line."""
        return self._add(requests.signalling(self._session, "rise", line))

    def fall(self, line: int) -> Later[None]:
        """Lowers an interrupt line."""
        return self._add(requests.signalling(self._session, "fall", line))

    def nmi(self) -> Later[None]:
        """Makes NMI pending."""
        return self._add(requests.putting(self._session, "signal nmi"))

    def regs(self) -> Later[dict[str, int]]:
        """Reads the registers."""
        return self._add(requests.REGISTERS)

    def read(self, address: Address, size: int) -> Later[bytes]:
        """Reads bytes of flash, RAM and devices."""
        return self._add(requests.reading(self._address_of(address), size))

    def read_word(self, address: Address) -> Later[int]:
        """Reads the word at an address."""
        return self._add(requests.reading_word(self._address_of(address)))

    def explain(self, address: Address, who: str, access: str) -> Later[Decision]:
        """Asks for the rule that would decide an access now."""
        return self._add(requests.explaining(self._address_of(address), who, access))

    def regions(self) -> Later[list[Region]]:
        """Reads the regions of the MPU."""
        return self._add(requests.REGIONS)

    def state(self) -> Later[State]:
        """Reads the state."""
        return self._add(requests.STATE)

    def step(self) -> Later[Ran]:
        """Makes a step, with all lines of its trace."""
        return self.run(1, trace="all")

    def run(self, steps: int = requests.MAX_STEPS, until: Until = None, trace: str = "console") -> Later[Ran]:
        """Makes up to `steps` steps, 1 to 1,000,000."""
        conditions = conditions_of(until, self._address_of)
        return self._add(requests.running(self._session, steps, conditions, trace))

    def save(self, into: Optional[Saved] = None) -> Saved:
        """Saves the state that the machine has then, in a slot of its own, or again in that of `into`."""
        saved = into or Saved(self._session)
        self._add(requests.saving(self._session, saved))
        return saved

    def restore(self, saved: Saved) -> Later[None]:
        """Goes back to a state that is saved, by this batch too."""
        return self._add(requests.restoring(self._session, saved))

    def send(self, check: bool = True) -> None:
        """Sends all requests, and raises the first error among them. With `check=False` errors are only in the
        Laters."""
        sent, self._requests = self._requests, []
        laters, self._laters = self._laters, []
        for later, outcome in zip(laters, self._session.send(sent)):
            later.settle(outcome.value, outcome.error)
        errors = [later.error for later in laters if later.error is not None]
        if check and errors:
            raise errors[0]
