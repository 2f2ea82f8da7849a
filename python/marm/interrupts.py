"""^C that waits for the end of an answer."""

from __future__ import annotations

import signal
import threading
from types import FrameType, TracebackType
from typing import Any, Optional, Type

__tracebackhide__ = True  # pytest shows no frame of the package


class Uninterrupted:
    """A block that ^C doesn't break off: KeyboardInterrupt is raised at its end. The second ^C breaks it off.

    It leaves handlers of the caller's own alone. Threads but the main one never see ^C. To set a handler takes longer
    than a short answer, which is why only long ones are such blocks."""

    __slots__ = ("_before", "_came")

    def __enter__(self) -> None:
        self._came = False
        self._before: Any = None
        if threading.current_thread() is threading.main_thread():
            if signal.getsignal(signal.SIGINT) is signal.default_int_handler:
                self._before = signal.signal(signal.SIGINT, self._hold)

    def _hold(self, number: int, frame: Optional[FrameType]) -> None:
        if self._came:
            raise KeyboardInterrupt
        self._came = True

    def __exit__(
        self, kind: Optional[Type[BaseException]], error: Optional[BaseException], _: Optional[TracebackType]
    ) -> None:
        if self._before is not None:
            signal.signal(signal.SIGINT, self._before)
        if self._came and kind is None:
            raise KeyboardInterrupt
