"""An ARMv7-M machine whose traces are proved, under a script: `marm debug` as an object.

    import marm

    with marm.Machine("round_robin.elf", "round_robin.toml") as m:
        ran = m.run_to(marm.REFUSED)
        print(ran.cause)                         # 2738 S 20000000 4 u mpu none
        print(m.explain(0x20000000, "u", "w"))   # none mpu

It needs Python 3.9 or later and the program `marm` (on PATH, in the environment's MARM, or as the argument `program`).
docs/SCRIPTING.md is the page for a user. The package isn't proved: what it says are lines of the program, which is."""

from .batches import Batch, Later
from .boards import Board, BoardEvent, Device, Ram
from .conditions import ENTRY, FAULT, REFUSED, Accesses, At, Condition, Reads, Until, Watch, Writes
from .errors import (
    CommandError, Dead, Hung, MarmError, NoProgram, NoSlot, NotMemory, NotReached, PlaceRefused, ProtocolError,
    StartError, SweepError,
)
from .events import Access, Console, Entry, Event, Fault, Return, Stop, parse_event
from .images import build_image, symbols_of
from .machine import Machine
from .program import ProgramInfo, program_info
from .registers import Registers
from .results import Decision, Ran, Region, Span, State
from .session import Saved
from .sweeps import Result, sweep, windows
from .worlds import Interval, Shared, Tasks, World, tasks

__all__ = [
    "ENTRY", "FAULT", "REFUSED", "Access", "Accesses", "At", "Batch", "Board", "BoardEvent", "CommandError",
    "Condition", "Console", "Dead", "Decision", "Device", "Entry", "Event", "Fault", "Hung", "Interval", "Later",
    "Machine", "MarmError", "NoProgram", "NoSlot", "NotMemory", "NotReached", "PlaceRefused", "ProgramInfo",
    "ProtocolError", "Ram", "Ran", "Reads", "Region", "Registers", "Result", "Return", "Saved", "Shared", "Span",
    "StartError", "State", "Stop", "SweepError", "Tasks", "Until", "Watch", "World", "Writes", "build_image",
    "parse_event", "program_info", "sweep", "symbols_of", "tasks", "windows",
]
