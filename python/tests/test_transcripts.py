"""Sessions of the program, line by line. Without the program the package reads its answers from the transcripts; with
it the transcripts are what the program answers. `python3 -m tests.test_transcripts` writes them anew. CI
compares the same transcripts with the program (`crates/transcripts`)."""

from __future__ import annotations

import sys
import unittest
from typing import Callable, Sequence, Union
from unittest import mock

import marm
from marm.wire import Answer, Wire

from .support import COUNTER_BOARD, FIRMWARE, KERNELS, PACKAGE, REPOSITORY, needs_program

FOLDER = REPOSITORY / "crates" / "transcripts" / "data"
ROUND_ROBIN = (KERNELS / "round_robin.elf", KERNELS / "round_robin.toml")
COUNTER = (FIRMWARE / "counter.elf", COUNTER_BOARD)

Case = unittest.TestCase


def refused_access(case: Case, m: marm.Machine) -> None:
    """Task c's store to task a's memory, and why it is refused."""
    ran = m.run_to(marm.REFUSED)
    case.assertEqual((ran.why, ran.steps, str(ran.cause)), ("refused", 2738, "2738 S 20000000 4 u mpu none"))
    case.assertEqual(ran.console, b"a1\nb1\nc1\na2\nb2\nc2\na3\nb3\nc3\n")
    case.assertEqual(m.explain(0x2000_0000, "u", "w"), marm.Decision("none", False))
    case.assertEqual((m.regions()[1].base, m.regions()[1].size, m.next), (0x2000_0400, 512, "Stack"))
    state = m.state()
    case.assertEqual((state.status["CFSR"], state.status["MMFAR"], state.pending), (0x82, 0x2000_0000, {4}))
    ran = m.run(until=[marm.Reads(0x10), marm.ENTRY], trace="exceptions")
    case.assertEqual((ran.condition, str(ran.cause)), (marm.Reads(0x10), "2740 V 00000010 4 p ok vec"))


def places(case: Case, m: marm.Machine) -> None:
    """Values that are placed, those that are refused, and a state that is restored."""
    with m.saved():
        m.regs.r0, m.regs.xpsr = 0x1234, 0xF800_0000
        m.write_word(0x2000_0000, 7)
        case.assertEqual((m.regs.r0, m.regs.xpsr, m.read(0x2000_0000, 5)), (0x1234, 0xF900_0000, b"\7\0\0\0\0"))
    case.assertEqual((m.regs.r0, m.read_word(0x2000_0000)), (0, 0))
    for address, value, words in (
        (0x2000_0002, 0, "1 NotAligned"), (0x3000_0000, 0, "2 NoSuchPlace"),
        (0xE000_ED94, 2, "4 Refused unpredictable mpu-ctrl"),
    ):
        with case.assertRaises(marm.PlaceRefused) as caught:
            m.write_word(address, value)
        case.assertEqual(str(caught.exception).partition(": refused ")[2], words)
    case.assertEqual(str(m.run(trace="refused").stop), "breakpoint 0")
    with case.assertRaises(marm.PlaceRefused) as caught:
        m.regs.r0 = 1
    case.assertEqual((caught.exception.number, caught.exception.name), (3, "Stopped"))
    with case.assertRaises(marm.NotMemory):
        m.read(m.ram.stop - 1, 2)


def signals(case: Case, m: marm.Machine) -> None:
    """An interrupt at a tick, its handler, and a line that isn't there."""
    m.run_to(marm.Writes(0xE000_E100))
    with case.assertRaises(marm.PlaceRefused):
        m.pulse(1)
    m.pulse(0)
    ran = m.run_to(marm.ENTRY)
    case.assertEqual((str(ran.cause), m.pc, m.regs.xpsr & 0x1FF), (f"{m.tick} X 16", m.address("line_0"), 16))
    m.run_to(marm.Writes("interrupts"))
    case.assertEqual(m.read_word("interrupts"), 1)
    m.nmi()
    case.assertEqual(str(m.run_to(marm.ENTRY).cause), f"{m.tick} X 2")


SCENES: dict[str, tuple[Callable[[Case, marm.Machine], None], Sequence[object]]] = {
    "refused_access": (refused_access, ROUND_ROBIN), "places": (places, ROUND_ROBIN), "signals": (signals, COUNTER),
}


def machine(files: Sequence[object], program: Union[str, Sequence[str], None] = None) -> marm.Machine:
    return marm.Machine(*files, program=program)  # type: ignore[arg-type]


def transcript(name: str, case: Case) -> str:
    """Returns the transcript of a scene with the program."""
    lines: list[str] = []
    exchange = Wire._exchange

    def record(wire: Wire, commands: Sequence[str]) -> list[Answer]:
        answers = exchange(wire, commands)
        for command, answer in zip(commands, answers):
            lines.extend([f"> {command}", *answer.lines, f"= {answer.end}"])
        return answers

    scene, files = SCENES[name]
    with mock.patch.object(Wire, "_exchange", record), machine(files) as m:
        scene(case, m)
    return "\n".join(lines) + "\n"


class Transcripts(unittest.TestCase):
    def test_the_package_reads_them(self) -> None:
        for name, (scene, files) in SCENES.items():
            player = [sys.executable, str(PACKAGE / "tests" / "player.py"), str(FOLDER / f"{name}.txt")]
            with self.subTest(name), machine(files, player) as m:
                scene(self, m)

    @needs_program
    def test_the_program_answers_them(self) -> None:
        for name in SCENES:
            with self.subTest(name):
                self.assertEqual(transcript(name, self), (FOLDER / f"{name}.txt").read_text())


if __name__ == "__main__":
    for scene_name in SCENES:
        (FOLDER / f"{scene_name}.txt").write_text(transcript(scene_name, unittest.TestCase()))
