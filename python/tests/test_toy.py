"""The laws, and what is the package's own, on a machine that needs no program."""

from __future__ import annotations

import gc
import os
import pickle
import re
import signal
import threading
import time
import unittest
from typing import Callable, Union
from unittest import mock

import marm
from marm.interrupts import Uninterrupted

from . import laws
from .support import toy


# (a job in a script's background, and one of nohup, ignores it, and so do its children)
is_sigint_taken = signal.getsignal(signal.SIGINT) is signal.default_int_handler
needs_sigint = unittest.skipUnless(is_sigint_taken, "SIGINT is ignored here")


class Toys(laws.Laws):
    def make(self) -> marm.Machine:
        return toy()

    def test_start(self) -> None:
        m = self.m
        self.assertEqual((m.tick, m.pc, m.next, m.stop), (0, 0x100, "Instruction", None))
        self.assertEqual((m.flash, m.ram, m.lines), (range(1024), range(0x2000_0000, 0x2000_0400), 3))
        self.assertEqual(repr(m), "<marm.Machine at tick 0, pc 00000100, Instruction>")

    def test_registers(self) -> None:
        m = self.m
        m.regs.r3, m.regs["pc"], m.regs.psp = 0xFFFF_FFFF, 0x180, 5
        self.assertEqual((m.regs.r3, m.pc, m.regs["psp"], len(m.regs)), (0xFFFF_FFFF, 0x180, 5, 23))
        self.assertIn("r3=FFFFFFFF", repr(m.regs))
        for broken in ("r13", "rip"):
            with self.assertRaises(AttributeError):
                getattr(m.regs, broken)
            with self.assertRaises(AttributeError):
                setattr(m.regs, broken, 1)
            with self.assertRaises(KeyError):
                m.regs[broken]
        with self.assertRaises(TypeError):
            del m.regs["r0"]

    def test_memory(self) -> None:
        m = self.m
        m.write(0x2000_0003, b"abcdef")
        self.assertEqual(m.read(0x2000_0000, 12), b"\0\0\0abcdef\0\0\0")
        self.assertEqual((len(m.read(m.ram.start, 1024)), m.read(0, 0), m.read_word(0)), (1024, b"", 0xFFFF_FFFF))
        m.write(0x2000_0000, b"")
        for address, size in ((0x2000_03FF, 2), (0x3000_0000, 1)):
            with self.assertRaises(marm.NotMemory):
                m.read(address, size)
        with self.assertRaises(marm.NotMemory):
            m.write(0x2000_03FE, b"abc")
        with self.assertRaises(KeyError) as caught:
            m.read("no_symbol", 4)
        self.assertEqual(caught.exception.args, ("the image has no symbol 'no_symbol'",))

    def test_values_that_are_no_words(self) -> None:
        """They aren't cut, and nothing changes."""
        m, batch = self.m, self.m.batch()
        for value in (-1, 2**32, 2**32 + 5):
            puts: list[Callable[[], object]] = [
                lambda: m.write_word(m.ram.start, value), lambda: m.regs.update(r3=value),
                lambda: batch.write_word(m.ram.start, value), lambda: batch.set("r3", value),
            ]
            for put in puts:
                with self.assertRaises(ValueError):
                    put()
        with self.assertRaises(TypeError):
            m.write_word(m.ram.start, 1.5)  # type: ignore[arg-type]
        self.assertEqual((len(batch), m.read_word(m.ram.start), m.regs.r3), (0, 0, 0))
        m.write_word(m.ram.start, True)
        self.assertEqual(m.read_word(m.ram.start), 1)

    def test_refusals(self) -> None:
        m = self.m
        with self.assertRaises(marm.PlaceRefused) as caught:
            m.write_word(0xE000_ED94, 2)
        error = caught.exception
        self.assertEqual((error.number, error.name, str(error.stop)), (4, "Refused", "unpredictable mpu-ctrl"))
        self.assertEqual(str(error), "`place word 3758157204 2`: refused 4 Refused unpredictable mpu-ctrl")
        with self.assertRaises(marm.PlaceRefused):
            m.pulse(2)
        with self.assertRaises(marm.CommandError) as wrong:
            m.run(5, marm.Reads(0, "x"))  # type: ignore[arg-type]
        self.assertEqual((wrong.exception.number, wrong.exception.command), (2, "watch r 0 x"))
        self.assertEqual(m.run_to(marm.Reads(0x2000_0000, 64)).tick, 7)
        with self.assertRaises(marm.CommandError):
            m.run(5, marm.Reads(0, "x"))  # type: ignore[arg-type]
        self.assertEqual(m.run_to(marm.Reads(0x2000_0000, 64)).tick, 14)  # what was set before is set again
        m.run()
        with self.assertRaises(marm.PlaceRefused):
            m.nmi()
        self.assertEqual(m.run(5).why, "stop")

    def test_signals(self) -> None:
        m = self.m
        m.pulse(1)
        m.rise(0)
        m.fall(0)
        m.nmi()
        self.assertEqual([m.run_to(marm.ENTRY).tick for _ in range(3)], [1, 2, 3])
        with m.batch() as b:
            b.pulse(0), b.rise(0), b.fall(0), b.nmi()
        self.assertEqual([m.run_to(marm.ENTRY).tick for _ in range(3)], [4, 5, 6])

    def test_lines_that_take_no_signal(self) -> None:
        """One that a device drives, and numbers of no line: refused at the call, alone and in a batch, and the machine
        goes on."""
        m = self.m
        for name in ("pulse", "rise", "fall"):
            for line in (2, 3, 2**32 - 1, 2**32, m.lines + 2**32, -1, True, False):
                for _ in range(2):
                    with self.assertRaises(marm.PlaceRefused) as caught:
                        getattr(m, name)(line)
                    error = caught.exception
                    self.assertEqual((error.command, error.number, error.name, error.stop),
                                     (f"signal {name} {line}", 2, "NoSuchPlace", None))
                batch = m.batch()
                refused, ran = getattr(batch, name)(line), batch.run(1)
                with self.assertRaises(marm.PlaceRefused) as caught:
                    batch.send()
                self.assertEqual((str(refused.error), ran.value.steps), (str(error), 1))
            for other in ("0", 1.0, None):
                with self.assertRaises(TypeError):
                    getattr(m, name)(other)
        self.assertEqual((m.tick, m.read_word(0x2000_0100), m.is_lost), (24, 0, False))
        m.pulse(1)
        self.assertEqual(m.run_to(marm.ENTRY).tick, 25)
        m.run()
        with self.assertRaises(marm.PlaceRefused) as caught:
            m.pulse(1)
        self.assertEqual(caught.exception.name, "Stopped")

    def test_a_restore_and_a_signal_go_out_with_the_next_command(self) -> None:
        """From the second signal of a line on: the first answer says that no device drives it."""
        m = self.m
        saved = m.save()
        m.pulse(0)
        m.rise(1)
        m.restore(saved)
        with mock.patch.object(m._wire, "exchange", wraps=m._wire.exchange) as exchange:
            m.run(30)
            m.restore(saved)
            m.pulse(0)
            self.assertEqual((m.tick, m.pc, m.stop, m.console), (0, 0x100, None, b""))
            self.assertEqual(exchange.call_count, 1)
            self.assertEqual(m.run(1, trace="exceptions").lines, ["1 X 16"])
            self.assertEqual(exchange.call_count, 2)
            m.rise(1)
            self.assertEqual((m.next, exchange.call_count), ("Stack", 3))
            with self.assertRaises(marm.PlaceRefused):
                m.rise(2)
            self.assertEqual(exchange.call_count, 4)
            m.close()
            with self.assertRaises(ValueError):
                m.restore(saved)

    def test_half_of_an_entry_at_a_breakpoint(self) -> None:
        """A run ends there by its steps, and goes on: a breakpoint is that of an instruction."""
        m = self.m
        m.pulse(0)
        m.pulse(0)
        at = marm.At(0x102)
        ran = m.run(1, at)
        self.assertEqual((m.pc, m.next, ran.why, ran.condition), (0x102, "Stack", "steps", None))
        m.restore(m.start)
        m.pulse(0)
        m.pulse(0)
        self.assertEqual([m.run(10, at).why, m.tick], ["steps", 10])
        m.restore(m.start)
        self.assertEqual((m.run(1, at).why, m.next), ("break", "Instruction"))

    def test_a_run_of_several_parts(self) -> None:
        """It makes the steps that were asked for, and no more."""
        m = self.m
        with mock.patch("marm.machine.STEPS_OF_A_PART", 40), mock.patch("marm.machine.STEPS_OF_A_TRACED_PART", 30):
            for steps in (39, 40, 41, 100):
                for trace in ("console", "all"):
                    m.restore(m.start)
                    ran = m.run(steps, trace=trace)
                    self.assertEqual((ran.steps, ran.tick, m.tick), (steps, steps, steps), trace)

    def test_expect(self) -> None:
        m = self.m
        m.expect(b"cde")
        self.assertEqual((m.tick, m.console), (55, b"abcde"))
        self.assertEqual(m.expect(re.compile(rb"[h-z]+j")).group(), b"hij")
        self.assertEqual(m.tick, 110)
        with self.assertRaises(marm.NotReached) as caught:
            m.expect(b"!")
        self.assertTrue(str(caught.exception).startswith("b'!' wasn't printed, but b'klmn"), caught.exception)
        self.assertIsNotNone(m.stop)

    def test_expect_text(self) -> None:
        """A str is its UTF-8, and each message has the text as it was given."""
        m = self.m
        self.assertEqual(m.expect("cde").group(), b"cde")
        m.restore(m.start)
        texts: list[tuple[Union[str, bytes, re.Pattern[bytes]], str]] = [
            ("\u00b5.", "'\u00b5.'"), (b"a.", "b'a.'"), (re.compile(rb"a\.b"), repr(rb"a\.b")),
        ]
        for text, words in texts:
            with self.assertRaises(marm.NotReached) as caught:
                m.expect(text, 40)
            self.assertTrue(str(caught.exception).startswith(f"{words} wasn't printed"), caught.exception)
            m.restore(m.start)
        with self.assertRaises(TypeError):
            m.expect(re.compile("a"), 1)  # type: ignore[arg-type]

    def test_no_condition(self) -> None:
        """None, as an empty list, is no condition."""
        m = self.m
        self.assertEqual((m.run(10, None).why, m.run(10, []).tick), ("steps", 20))
        self.assertEqual({event.tick for event in m.trace(3, "all", None)}, {21, 22, 23})
        with m.batch() as b:
            ran = b.run(4, None)
        self.assertEqual(ran.value.why, "steps")

    def test_not_reached(self) -> None:
        m = self.m
        for steps in (10, 10_000):
            with self.assertRaises(marm.NotReached):
                m.run_to(marm.At(0x300), steps)
        with self.assertRaises(marm.NotReached) as caught:
            m.run_to([marm.ENTRY, marm.At(0x300)], 5)
        self.assertIn("[ENTRY, At(0x300)] wasn't met in 0 steps: breakpoint 0", str(caught.exception))
        self.assertEqual(self.m.run(0).why, "stop")
        with self.assertRaises(ValueError):
            self.m.run(-1)

    def test_map(self) -> None:
        m = self.m
        spans = m.access_map(range(0x1FFF_FFF8, 0x2000_0050), "u")
        self.assertEqual([(s.first, s.last, s.rights) for s in spans], [
            (0x1FFF_FFF8, 0x1FFF_FFFF, "---"), (0x2000_0000, 0x2000_003F, "rw-"), (0x2000_0040, 0x2000_004F, "---")])
        self.assertEqual([s.rights for s in m.access_map(m.ram, "p")], ["rwx"])
        for wrong in (range(0), range(0, 8, 2)):
            with self.assertRaises(ValueError):
                m.access_map(wrong, "u")

    def test_wrong_words(self) -> None:
        m = self.m
        for who, access in (("x", "r"), ("u", "a")):
            with self.assertRaises(ValueError):
                m.explain(0, who, access)
        with self.assertRaises(ValueError):
            m.run(5, trace="none")
        with self.assertRaises(ValueError):
            m.run(5, [marm.At(k) for k in range(17)])
        with self.assertRaises(ValueError):
            toy(7)

    def test_a_state_of_another_machine(self) -> None:
        with toy() as other, self.assertRaises(ValueError):
            self.m.restore(other.save())

    def test_a_machine_stays_where_it_is(self) -> None:
        with self.assertRaises(TypeError):
            pickle.dumps(self.m)

    def test_two_threads(self) -> None:
        """Of two that use one machine at once the second gets an error; neither gets the other's answer."""
        m, errors, barrier = self.m, [], threading.Barrier(2)

        def use() -> None:
            barrier.wait()
            for _ in range(300):
                try:
                    assert m.explain(0x2000_0000, "u", "w").rule == "r1"
                except ValueError as error:
                    errors.append(str(error))

        threads = [threading.Thread(target=use) for _ in range(2)]
        for thread in threads:
            thread.start()
        for thread in threads:
            thread.join()
        self.assertLessEqual(set(errors), {"another thread is using the machine: make one for each thread"})
        self.assertFalse(m.is_lost)

    @needs_sigint
    def test_control_c(self) -> None:
        """It comes out of a long run between two answers, and the machine goes on."""
        m = self.m
        for delay in (0.005, 0.01, 0.015, 0.02):
            m.restore(m.start)
            timer = threading.Timer(delay, lambda: os.kill(os.getpid(), signal.SIGINT))
            timer.start()
            with self.assertRaises(KeyboardInterrupt):
                m.run(5000, trace="all")
                time.sleep(10)
            self.assertEqual(m.run(trace="all").stop, marm.Stop("breakpoint", "0"))
            self.assertEqual((m.tick, len(m.console)), (1000, 90))

    @needs_sigint
    def test_uninterrupted(self) -> None:
        """KeyboardInterrupt comes at the end of the block; the second ^C breaks it off; other handlers stay."""
        reached = []
        with self.assertRaises(KeyboardInterrupt):
            with Uninterrupted():
                with Uninterrupted():
                    os.kill(os.getpid(), signal.SIGINT)
                reached.append(1)
            reached.append(2)
        with self.assertRaises(KeyboardInterrupt):
            with Uninterrupted():
                os.kill(os.getpid(), signal.SIGINT)
                os.kill(os.getpid(), signal.SIGINT)
                reached.append(3)
        self.assertEqual(reached, [1])
        self.assertIs(signal.getsignal(signal.SIGINT), signal.default_int_handler)
        self.addCleanup(signal.signal, signal.SIGINT, signal.default_int_handler)
        signal.signal(signal.SIGINT, lambda *_: reached.append(4))
        with Uninterrupted():
            os.kill(os.getpid(), signal.SIGINT)
        self.assertEqual(reached, [1, 4])

    def test_no_process_is_left(self) -> None:
        """A machine that nothing refers to ends its program, without the collector's help."""
        gc.disable()
        self.addCleanup(gc.enable)
        m = toy()
        for event in m.trace():
            if event.tick == 20:
                break
        with self.assertRaises(marm.PlaceRefused):
            m.write_word(1, 1)
        number = m.process_id
        del m
        with self.assertRaises(ProcessLookupError):
            os.kill(number, 0)


if __name__ == "__main__":
    unittest.main()
