"""Going back: what is put into a machine is recorded with its tick, and the machine is deterministic."""

from __future__ import annotations

from typing import Callable, Optional

from .conditions import Until
from .requests import putting, restore
from .results import Ran
from .session import Saved, Session

__tracebackhide__ = True  # pytest shows no frame of the package

# Runs so many steps, up to these conditions.
Run = Callable[[int, Until], Ran]


def replay(session: Session, run: Run, since: Saved, tick: int) -> None:
    """Goes to `tick` on the way from `since` to now. ValueError where `since` or `tick` isn't on it."""
    later = _after(session, since)
    if not since.tick <= tick <= session.status.tick:
        raise ValueError(f"tick {tick} isn't between {since.tick} and {session.status.tick}")
    restore(session, since)
    for at, command in later:
        if at > tick:
            break
        _run_to(session, run, at)
        session.do(putting(session, command))
    _run_to(session, run, tick)


def last(session: Session, run: Run, until: Until, since: Saved) -> Optional[Ran]:
    """Goes back to just before the step of the last hit of the conditions since `since`, and returns the run that it
    ended. None, and the machine as it was, where there is none. ValueError where `since` isn't on the way to now."""
    later = _after(session, since)
    end = session.status.tick
    found: Optional[Ran] = None
    restore(session, since)
    for at, command in [*later, (end, "")]:
        while session.status.tick < at:
            ran = run(at - session.status.tick, until)
            if ran.condition is not None:
                found = ran
        if command:
            session.do(putting(session, command))
    if found is not None:
        replay(session, run, since, found.tick if found.why == "break" else found.tick - 1)
    return found


def _after(session: Session, since: Saved) -> list[tuple[int, str]]:
    """What was put into the machine after the state was saved. The machine came from that state to now where all that
    was put before it is the same."""
    session.settle()
    count = len(since.log)
    later = session.log[count:]
    is_past = since.tick <= (later[0][0] if later else session.status.tick)
    if since.tick < 0 or tuple(session.log[:count]) != since.log or not is_past:
        raise ValueError(f"{since!r} isn't on the way to now")
    return later


def _run_to(session: Session, run: Run, tick: int) -> None:
    if tick > session.status.tick:
        run(tick - session.status.tick, ())
