"""The laws on the kernels, and what the program alone can show."""

from __future__ import annotations

import random
import re
import unittest
from typing import Callable, Union

import marm

from . import laws
from .support import KERNELS, kernel, needs_program

STORE = 2738  # the tick of task c's store to task a's memory
LOOP = marm.build_image({0: bytes.fromhex("00040020 09000000 fee7")})  # B .


@needs_program
class RoundRobin(laws.Laws):
    steps = 3000

    def make(self) -> marm.Machine:
        return kernel("round_robin")

    def test_start(self) -> None:
        m = self.m
        self.assertEqual((m.tick, m.pc, m.next, m.stop), (0, 0x400, "Instruction", None))
        self.assertEqual((m.flash, m.ram), (range(0x4000), range(0x2000_0000, 0x2000_2000)))
        self.assertEqual((m.lines, m.priority_bits, len(m.regions())), (0, 4, 8))

    def test_to_the_end(self) -> None:
        ran = self.m.run()
        self.assertEqual((ran.why, str(ran.stop), self.m.run(5).steps), ("stop", "breakpoint 0", 0))
        self.assertEqual(ran.console, (KERNELS / "expected" / "round_robin.txt").read_bytes())

    def test_a_refused_access_and_its_reason(self) -> None:
        m = self.m
        ran = m.run_to(marm.REFUSED)
        self.assertEqual((str(ran.cause), m.tick), (f"{STORE} S 20000000 4 u mpu none", STORE))
        self.assertEqual(ran.access.address, 0x2000_0000)
        self.assertEqual(m.explain(0x2000_0000, "u", "w"), marm.Decision("none", False))
        self.assertEqual(m.explain(0x2000_0400, "u", "w"), marm.Decision("r1", True))
        self.assertEqual(m.explain(0x2000_0000, "p", "w").rule, "bg")
        self.assertEqual((m.regions()[1].base, m.regions()[1].size), (0x2000_0400, 512))
        self.assertEqual((m.state().status["CFSR"], m.state().pending), (0x82, {4}))

    def test_entries_where_the_reader_is(self) -> None:
        """In the handler's first step IPSR is the exception."""
        m, seen = self.m, set()
        for event in m.trace(3000, "exceptions"):
            if isinstance(event, marm.Entry):
                self.assertEqual(m.regs.xpsr & 0x1FF, event.exception)
                seen.add(event.exception)
        self.assertEqual(seen, {4, 11, 14, 15})

    def test_registers(self) -> None:
        m = self.m
        m.regs.r0, m.regs["r7"], m.regs.psp = 5, 0xFFFF_FFFF, 0x2000_1003
        self.assertEqual((m.regs.r0, m.regs.r7, m.regs.psp), (5, 0xFFFF_FFFF, 0x2000_1000))
        m.regs.xpsr = 0xF800_0000
        self.assertEqual(m.regs.xpsr, 0xF900_0000)
        for name, value in (
            ("primask", 1), ("faultmask", 1), ("basepri", 0x40), ("basepri", 0x80), ("msp", 0x2000_0100),
            ("control", 3), ("sp", 0x2000_0200), ("lr", 0xFFFF_FFF9), ("pc", 0x410),
        ):
            m.regs[name] = value
            self.assertEqual(m.regs[name], value, name)
        self.assertEqual((m.regs.sp, m.regs.psp, m.regs.msp), (0x2000_0200, 0x2000_0200, 0x2000_0100))

    def test_refusals(self) -> None:
        m = self.m
        for address, value, name in (
            (0x2000_0002, 0, "NotAligned"), (0x3000_0000, 0, "NoSuchPlace"), (0xE000_ED94, 2, "Refused"),
        ):
            with self.assertRaises(marm.PlaceRefused) as caught:
                m.write_word(address, value)
            self.assertEqual(caught.exception.name, name)
        self.assertEqual(str(caught.exception.stop), "unpredictable mpu-ctrl")
        with self.assertRaises(marm.PlaceRefused):
            m.pulse(0)  # the board has no line

    def test_in_a_handler(self) -> None:
        """R0 to R12, LR and memory can be placed there, also between the two steps of its entry."""
        m = self.m
        for _ in range(2):
            m.run_to([marm.ENTRY, marm.Accesses(0x2000_01E0)])
            m.regs.r5, m.regs.lr = 0x1234, m.regs.lr
            m.write_word(0x2000_1FF0, 0x55)
            self.assertEqual((m.regs.r5, m.read_word(0x2000_1FF0)), (0x1234, 0x55))
        m.restore(m.start)
        m.run_to(marm.ENTRY)
        for name in ("sp", "pc", "msp", "psp", "control", "xpsr"):
            with self.assertRaises(marm.PlaceRefused) as caught:
                m.regs[name] = 0
            self.assertEqual((caught.exception.number, caught.exception.name), (3, "Stopped"), name)

    def test_after_the_stop(self) -> None:
        m = self.m
        m.run()
        puts: list[Callable[[], None]] = [lambda: m.write_word(0x2000_0000, 1), m.nmi, lambda: m.regs.update(r0=1)]
        for put in puts:
            with self.assertRaises(marm.PlaceRefused) as caught:
                put()
            self.assertEqual(caught.exception.name, "Stopped")

    def test_code_that_is_placed(self) -> None:
        """What was kept of code isn't stale after a place, nor after going back."""
        m = self.m
        m.run_to(marm.At("task_a"))
        pc, here = m.pc, m.save()
        for _ in range(3):
            m.write(pc, bytes.fromhex("2a20"))  # MOVS R0, #42
            m.step()
            self.assertEqual((m.regs.r0, m.pc), (42, pc + 2))
            m.restore(here)
            before = m.read(pc, 4)
            m.write(pc, bytes.fromhex("2b20"))
            m.step()
            self.assertEqual(m.regs.r0, 43)
            m.restore(here)
            self.assertEqual(m.read(pc, 4), before)
            m.step()
            self.assertNotIn(m.regs.r0, (42, 43))
            m.restore(here)

    def test_half_of_an_entry_at_a_breakpoint(self) -> None:
        """A run ends there by its steps, and goes on: a breakpoint is that of an instruction."""
        m = self.m
        m.run(STORE - 1)
        at = marm.At(m.pc)
        for following in ("Stack", "Vector"):
            ran = m.run(1, at)
            self.assertEqual((marm.At(m.pc), m.next, ran.why, ran.condition), (at, following, "steps", None))
        m.restore(m.start)
        m.run(STORE - 2)
        self.assertEqual((m.run(1, at).why, m.next), ("break", "Instruction"))

    def test_a_vector_is_read(self) -> None:
        self.assertEqual(str(self.m.run_to(marm.Reads(0x3C)).cause), "845 V 0000003C 4 p ok vec")

    def test_expect(self) -> None:
        m = self.m
        m.expect("b2\nc2")
        self.assertEqual(m.console, b"a1\nb1\nc1\na2\nb2\nc2")
        self.assertEqual(m.expect(re.compile(rb"CFSR ([0-9A-F]{8})")).group(1), b"00000082")

    def test_subregions(self) -> None:
        """A region of 256 bytes without its subregions 1 and 6."""
        m = self.m
        rasr = 1 << 28 | 3 << 24 | 0x42 << 8 | 7 << 1 | 1
        for register, value in ((0x98, 5), (0x9C, 0x2000_0100), (0xA0, rasr), (0x94, 1)):
            m.write_word(0xE000_ED00 + register, value)
        spans = m.access_map(range(0x2000_0118, 0x2000_0204), "u")
        self.assertEqual([(s.rights, s.first & 0xFFF, s.last & 0xFFF) for s in spans], [
            ("rw-", 0x118, 0x11F), ("---", 0x120, 0x13F), ("rw-", 0x140, 0x1BF), ("---", 0x1C0, 0x1DF),
            ("rw-", 0x1E0, 0x1FF), ("---", 0x200, 0x203)])


@needs_program
class Nested(laws.Laws):
    steps = 9300
    runs = 60

    def make(self) -> marm.Machine:
        return marm.Machine(KERNELS / "nested.elf", self.board)

    @property
    def board(self) -> marm.Board:
        """The kernel's own, with less memory."""
        own = marm.Board.load(KERNELS / "nested.toml")
        return marm.Board(0x1_0000, 0x1_0000, lines=own.lines, events=own.events)

    def test_signals_are_the_events_of_a_script(self) -> None:
        """At random ticks, in handlers and entries too."""
        draw, m = random.Random(5), self.m
        for _ in range(25):
            tick, line = draw.randrange(14_000), draw.randrange(4)
            what = draw.choice(("pulse", "rise", "fall", "nmi"))
            m.restore(m.start)
            m.run(tick)
            m.nmi() if what == "nmi" else getattr(m, what)(line)
            signalled = m.run(1000, trace="all").lines
            board = self.board.with_event(tick + 1, None if what == "nmi" else line, what)
            with marm.Machine(KERNELS / "nested.elf", board) as scripted:
                scripted.run(tick)
                self.assertEqual(scripted.run(1000, trace="all").lines, signalled, (tick, line, what))


@needs_program
class Faults(laws.Laws):
    steps = 6000
    runs = 60

    def make(self) -> marm.Machine:
        return kernel("faults", "nested")


@needs_program
class Lines(unittest.TestCase):
    """Signals of lines of which a device drives one."""

    def setUp(self) -> None:
        device = marm.Device(0x4000_0000, 8, line=0, enable=0x4000_0004)
        self.m = marm.Machine(LOOP, marm.Board(1024, 1024, lines=3, devices=(device,)))
        self.addCleanup(self.m.close)

    def test_a_line_that_a_device_drives(self) -> None:
        """It takes no signal, at the call, and the machine goes on."""
        m = self.m
        for name in ("pulse", "rise", "fall"):
            for line in (0, 3, -1, True, m.lines + 2**32):
                with self.assertRaises(marm.PlaceRefused) as caught:
                    getattr(m, name)(line)
                self.assertEqual((caught.exception.number, caught.exception.name), (2, "NoSuchPlace"))
        for _ in range(2):
            m.pulse(1)
            m.rise(2)
            m.fall(2)
        self.assertEqual((m.run(3).steps, m.state().pending), (3, {17, 18}))

    def test_words_of_a_device(self) -> None:
        """They are read and placed as memory is: it raises its line here. A register of the core isn't memory."""
        m = self.m
        m.write(0x4000_0002, b"\1\2\3\4")
        self.assertEqual((m.read(0x4000_0000, 8), m.read_word(0x4000_0004)), (b"\0\0\1\2\3\4\0\0", 0x0403))
        m.write_word(0x4000_0000, 3)
        m.run(1)
        self.assertEqual((m.read_word(0x4000_0000), m.state().pending), (3, {16}))
        for address in (0x3FFF_FFFF, 0x4000_0005, 0xE000_ED94):
            with self.assertRaises(marm.NotMemory):
                m.read(address, 4)


@needs_program
class Runs(unittest.TestCase):
    def test_a_run_of_several_parts(self) -> None:
        """It makes the steps that were asked for, and no more."""
        with marm.Machine(LOOP, marm.Board(1024, 1024), timeout=600.0) as m:
            ran = m.run(150_000)
            self.assertEqual((ran.steps, ran.tick, m.tick), (150_000, 150_000, 150_000))
            ran = m.run(30_000, trace="all")
            self.assertEqual((ran.steps, ran.tick, m.tick, len(ran.lines)), (30_000, 180_000, 180_000, 30_000))


@needs_program
class Starts(unittest.TestCase):
    def test_refused(self) -> None:
        image = marm.build_image({0: bytes(8)})
        small = marm.Board(1024, 1024)
        cases: list[tuple[bytes, Union[marm.Board, str], str]] = [
            (b"", small, "marm: load 1 Truncated"), (image, marm.Board(1000, 1024), "OutOfRange"),
            (image, small.with_event(3, 5), "OutOfRange"), (image, "no-such.toml", "marm: io"),
        ]
        for data, board, words in cases:
            with self.assertRaises(marm.StartError) as caught:
                marm.Machine(data, board)
            self.assertIn(words, str(caught.exception))

    def test_an_image_without_a_linker(self) -> None:
        """ADDS R0, #1 at 8, and BKPT 0."""
        image = marm.build_image({0: bytes.fromhex("00040020 09000000 0130 00be")})
        with marm.Machine(image, marm.Board(1024, 1024)) as m:
            m.regs.r0 = 0xFFFF_FFFF
            ran = m.run(10, trace="all")
            self.assertEqual((m.regs.r0, m.regs.xpsr >> 29, str(ran.stop)), (0, 3, "breakpoint 0"))
            self.assertEqual(ran.lines, ["1 F 00000008 2 p ok off", "2 F 0000000A 2 p ok off"])


if __name__ == "__main__":
    unittest.main()
