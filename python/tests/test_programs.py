"""Programs that end, hang, or answer what they shouldn't: an error of the package, within a time."""

from __future__ import annotations

import os
import random
import signal
import sys
import time
import unittest
from typing import Callable
from unittest import mock

import marm
from marm.wire import Answer, Wire

HEAD = """import os, sys, time
def say(text): sys.stdout.write(text); sys.stdout.flush()
def hear(): return sys.stdin.readline()
"""
FACTS = "script 1\\nflash 00000000 1024\\nram 20000000 1024\\npriority_bits 4\\nlines 0\\nregions 8\\nslots 4\\n"
STARTED = f"hear(); say('{FACTS}= 0 00000008 Instruction\\n'); hear(); say('ok\\n= 0 00000008 Instruction\\n')\n"
EXPLAINED = "hear(); say('bg ok\\n= 0 00000008 Sleep\\n'); hear()\n"


def program(body: str) -> list[str]:
    """Returns a program that does this, whatever its arguments are."""
    return [sys.executable, "-c", HEAD + body]


class Programs(unittest.TestCase):
    def machine(self, body: str, timeout: float = 5.0) -> marm.Machine:
        m = marm.Machine(b"", "none.toml", program=program(body), timeout=timeout, slots=2)
        self.addCleanup(m.close)
        return m

    def test_refuses_its_files(self) -> None:
        with self.assertRaises(marm.StartError) as caught:
            self.machine("sys.stderr.write('marm: load 2 NotElf\\n'); sys.exit(3)")
        self.assertEqual((caught.exception.status, str(caught.exception)), (3, "marm: load 2 NotElf"))

    def test_ends_without_a_word(self) -> None:
        with self.assertRaises(marm.StartError) as caught:
            self.machine("sys.exit(4)")
        self.assertEqual(str(caught.exception), "marm ended with status 4 before its first answer")

    def test_knows_no_scripts(self) -> None:
        for answer in ("error 1\\n", "error 2\\n"):
            with self.assertRaises(marm.ProtocolError):
                self.machine(f"hear(); say('{answer}'); time.sleep(60)")

    def test_another_version(self) -> None:
        with self.assertRaises(marm.ProtocolError):
            self.machine(STARTED.replace("script 1", "script 2"))

    def test_facts_that_are_none(self) -> None:
        few = FACTS.replace("slots 4", "slots 1")
        for facts in ("script 1\\n", "script 1\\nflash 0 x\\nram 0 1\\n", "hello\\n", "", few):
            with self.assertRaises(marm.ProtocolError):
                self.machine(f"hear(); say('{facts}= 0 00000008 Instruction\\n'); hear()")

    def test_ends_later(self) -> None:
        m = self.machine(STARTED + "hear(); sys.stderr.write('marm: io\\n'); sys.exit(5)")
        with self.assertRaises(marm.Dead) as caught:
            m.regions()
        self.assertEqual((caught.exception.status, str(caught.exception)), (5, "marm ended with status 5: marm: io"))
        with self.assertRaises(marm.Dead):
            m.step()
        self.assertTrue(m.is_lost)

    def test_is_killed(self) -> None:
        m = self.machine(STARTED + "hear(); time.sleep(60)")
        os.kill(m.process_id, signal.SIGKILL)
        with self.assertRaises(marm.Dead) as caught:
            m.regions()
        self.assertEqual(caught.exception.status, -signal.SIGKILL)

    def test_writes_many_messages(self) -> None:
        """A pipe would be full."""
        m = self.machine("sys.stderr.write('x' * 300000)\n" + STARTED + EXPLAINED)
        self.assertEqual(m.explain(0, "p", "r").rule, "bg")

    def within(self, seconds: float, call: Callable[[], object]) -> marm.Hung:
        begun = time.monotonic()
        with self.assertRaises(marm.Hung) as caught:
            call()
        self.assertLess(time.monotonic() - begun, seconds)
        return caught.exception

    def test_hangs_at_once(self) -> None:
        error = self.within(5, lambda: self.machine("time.sleep(60)", 0.3))
        self.assertEqual((error.seconds, error.command), (0.3, "script 1"))

    def test_hangs_later(self) -> None:
        m = self.machine(STARTED + "time.sleep(60)", 0.5)
        self.within(5, m.step)
        self.within(0.1, m.step)

    def test_answers_without_an_end(self) -> None:
        """A byte now and then is no answer."""
        m = self.machine(STARTED + "hear()\nwhile True: say('1 O 61\\n'); time.sleep(0.02)", 0.5)
        self.within(5, m.step)

    def test_answers_fast_without_an_end(self) -> None:
        """The time is up though there is always something to be read."""
        m = self.machine(STARTED + "hear()\nos.execvp('yes', ['yes', '1 O 61'])", 30.0)
        m._wire.timeout = 0.1
        read = Wire._read

        def read_slowly(wire: Wire, answers: list[Answer]) -> bool:
            has_answer = read(wire, answers)
            time.sleep(0.05)
            return has_answer

        with mock.patch.object(Wire, "_read", read_slowly), mock.patch("marm.wire.LONGEST_ANSWER", 1 << 20):
            error = self.within(10, m.step)
        self.assertEqual((error.seconds, error.command), (0.1, "trace all"))

    def test_answers_more_bytes_than_any_answer_has(self) -> None:
        """In short lines and in long ones. Answers below that are read, whatever they have together."""
        for text, count in (("1 O 61\\n", 7), ("x" * 999 + "\\n", 1000)):
            with mock.patch("marm.wire.LONGEST_ANSWER", 200_000):
                m = self.machine(STARTED + f"hear()\nwhile True: say('{text}' * {70_000 // count})", 60.0)
                begun = time.monotonic()
                with self.assertRaises(marm.ProtocolError) as caught:
                    m.regions()
                self.assertLess(time.monotonic() - begun, 30)
                self.assertEqual(str(caught.exception), "an answer has more than 200000 bytes")
                m = self.machine(STARTED + f"for _ in range(3): hear(); say('{text}' * {140_000 // count}); "
                                 "say('= 0 00000008 Sleep\\n')\nhear()")
                answers = m._wire.exchange(["x", "y", "z"])
                self.assertEqual([len(answer.lines) for answer in answers], [140_000 // count] * 3)

    def test_the_time_is_that_of_one_answer(self) -> None:
        """Of four that come after half a second each, none takes the second and a half that one may take."""
        m = self.machine(STARTED + "for _ in range(4): hear(); time.sleep(0.5); say('bg ok\\n= 0 00000008 Sleep\\n')\n"
                         "hear()", 1.5)
        begun = time.monotonic()
        with m.batch() as b:
            decisions = [b.explain(0, "p", "r") for _ in range(4)]
        self.assertEqual([decision.value.rule for decision in decisions], ["bg"] * 4)
        self.assertGreater(time.monotonic() - begun, 1.5)

    def test_closes_its_input(self) -> None:
        m = self.machine(STARTED + "os.close(0); time.sleep(60)", 0.5)
        time.sleep(0.2)
        self.within(5, m.step)

    def test_a_line_without_an_end(self) -> None:
        m = self.machine(STARTED + "hear()\nwhile True: say('x' * 10000)")
        with self.assertRaises(marm.ProtocolError):
            m.step()

    def test_answers_slowly(self) -> None:
        m = self.machine(STARTED + "hear()\nfor c in 'bg ok\\n= 0 00000008 Sleep\\n': say(c); time.sleep(0.01)\nhear()")
        self.assertEqual(m.explain(0, "p", "r"), marm.Decision("bg", True))

    def test_answers_too_much(self) -> None:
        for more in ("more\\n", "mo", "= 0 00000008 Sleep\\n"):
            m = self.machine(STARTED + f"hear(); say('bg ok\\n= 0 00000008 Sleep\\n{more}'); hear()")
            with self.assertRaises(marm.ProtocolError):
                m.explain(0, "p", "r")

    def test_closed(self) -> None:
        m = self.machine(STARTED + "hear()")
        m.close()
        m.close()
        with self.assertRaises(ValueError):
            m.regions()

    def test_stays_after_the_end_of_its_input(self) -> None:
        m = self.machine(STARTED + "time.sleep(60)")
        begun = time.monotonic()
        m.close()
        self.assertLess(time.monotonic() - begun, 5)
        with self.assertRaises(ProcessLookupError):
            os.kill(m.process_id, 0)

    def test_a_fork(self) -> None:
        """It can't use its parent's machine, and doesn't end it."""
        m = self.machine(STARTED + EXPLAINED)
        child = os.fork()
        if child == 0:
            try:
                m.regions()
            except ValueError:
                m.close()
                os._exit(7)
            os._exit(1)
        self.assertEqual(os.WEXITSTATUS(os.waitpid(child, 0)[1]), 7)
        self.assertTrue(m.explain(0, "p", "r"))

    def test_files_are_removed(self) -> None:
        """As soon as the program has answered: it has read them."""
        m = marm.Machine(b"image", marm.Board(1, 1), slots=2, program=program(
            "at = sys.argv.index('--board')\npaths = sys.argv[at + 1:at + 3]\n"
            + "texts = [open(path).read() for path in paths]\n"
            + STARTED + "hear(); say(f'{paths[0]}:{paths[1]}:{texts[1]}\\n= 0 00000008 Sleep\\n'); hear()"))
        with m:
            board, image, text = m._wire.exchange(["which"])[0].lines[0].split(":")
            self.assertEqual((text, board[-5:], image[-4:]), ("image", ".toml", ".elf"))
            self.assertEqual([path for path in (board, image) if os.path.exists(path)], [])


class Garbage(unittest.TestCase):
    def test_any_answer_is_a_value_or_an_error(self) -> None:
        draw = random.Random(3)
        good = ["bg ok", "ok", "refused 3 Stopped", "error 2", "at 00000100", "hit watch 9", "5 O 41", "stop lockup",
                "R0 00000000", "= 5 00000100 Sleep", "= 5 00000100 stop lockup", "= 6", "20000000: 00 --", "r0 0 0",
                "= x y z", "=", "", "hit x", "refused", "error", "PENDING x", "CLOCK 0"]
        for _ in range(60):
            lines = [draw.choice(good) for _ in range(draw.randrange(1, 8))]
            lines += ["= 7 00000100 Sleep"] * (draw.random() < 0.7)
            text = "".join([line + "\n" for line in lines])
            if draw.random() < 0.2:
                text = text[:draw.randrange(len(text))] + chr(draw.randrange(256))
            answers = program(STARTED + f"hear(); say({text!r})")
            with marm.Machine(b"", "b", program=answers, timeout=2.0, slots=2) as m:
                asked: list[Callable[[], object]] = [
                    m.regions, m.state, m.step, lambda: m.read(0, 4), lambda: m.explain(0, "p", "r"), m.save, m.nmi,
                    lambda: m.run(5, marm.Writes(0)), lambda: m.regs.pc, lambda: list(m.trace(5)),
                    lambda: m.last(marm.ENTRY),
                ]
                try:
                    draw.choice(asked)()
                except marm.MarmError:
                    pass


class Pipes(unittest.TestCase):
    def test_more_than_the_pipes_hold(self) -> None:
        """50,000 lines at once, and as many back: neither side waits for the other for ever."""
        wire = Wire(program("for line in sys.stdin: say(line + '= 0 00000000 Sleep\\n')"), "b", "i", 10.0)
        self.addCleanup(wire.close)
        lines = [f"{'x' * 40} {k}" for k in range(50_000)]
        self.assertEqual([answer.lines for answer in wire.exchange(lines)], [[line] for line in lines])


if __name__ == "__main__":
    unittest.main()
