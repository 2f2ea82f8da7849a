"""The core registers as attributes and as a mapping."""

from __future__ import annotations

from typing import Iterator, MutableMapping

from .requests import NUMBERS, REGISTERS, SPECIALS, placing_register
from .session import Session

__tracebackhide__ = True  # pytest shows no frame of the package

NAMES = (*NUMBERS, *SPECIALS)


class Registers(MutableMapping[str, int]):
    """The core registers of now, as `m.regs.r0` or `m.regs["r0"]`, as integers from 0 to 2 ** 32 - 1.

    r0 to r12, sp (the stack pointer in use), lr, pc, xpsr, msp, psp, primask, basepri, faultmask, control. Setting one
    is a `place`, which may be refused (PlaceRefused): in a handler, and in an exception entry, only r0 to r12 and lr
    can be set. Of xpsr the flags alone are set. A name that isn't a register's is a KeyError or an AttributeError, a
    value that isn't from 0 to 2 ** 32 - 1 a ValueError."""

    __slots__ = ("_session",)
    _session: Session

    def __init__(self, session: Session) -> None:
        object.__setattr__(self, "_session", session)

    def _now(self) -> dict[str, int]:
        session = self._session
        session.settle()
        if session.registers is None:
            session.registers = session.do(REGISTERS)
        return session.registers

    def __getitem__(self, name: str) -> int:
        return self._now()[name]

    def __setitem__(self, name: str, value: int) -> None:
        self._session.do(placing_register(self._session, name, value))

    def __delitem__(self, name: str) -> None:
        raise TypeError("a register can't be deleted")

    def __iter__(self) -> Iterator[str]:
        return iter(NAMES)

    def __len__(self) -> int:
        return len(NAMES)

    def __getattr__(self, name: str) -> int:
        if name not in NAMES:
            raise AttributeError(f"there is no register {name!r}")
        return self[name]

    def __setattr__(self, name: str, value: int) -> None:
        if name not in NAMES:
            raise AttributeError(f"there is no register {name!r}")
        self[name] = value

    def __repr__(self) -> str:
        values = self._now()
        return " ".join([f"{name}={values[name]:08X}" for name in NAMES])
