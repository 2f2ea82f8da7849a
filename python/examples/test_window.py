"""When does an interrupt break `counter = counter + 1`? A sweep lets it come at every tick of the run, and looks
whether a count was lost. `python3 -m examples.test_window` draws what it finds."""

from __future__ import annotations

import unittest

import marm

from tests.support import COUNTER_BOARD, FIRMWARE, needs_program

ROUNDS = 4  # of the main line; the handler adds one more
NVIC_ISER0 = 0xE000_E100
PLAIN, ATOMIC = str(FIRMWARE / "counter.elf"), str(FIRMWARE / "counter_atomic.elf")


def is_lost(m: marm.Machine, tick: int) -> bool:
    """Lets the interrupt come now, and returns whether a count is lost."""
    m.pulse(0)
    ran = m.run(1000)
    assert str(ran.stop) == "breakpoint 0" and m.read_word("interrupts") == 1, ran
    return m.read_word("counter") != ROUNDS + 1


def same(tick: int) -> int:
    return tick


def ticks_of(image: str) -> range:
    """Returns the ticks after which the interrupt may come: from its enabling to the end."""
    with marm.Machine(image, COUNTER_BOARD) as m:
        first = m.run_to(marm.Writes(NVIC_ISER0)).tick
        m.run(1000)
        return range(first, m.tick - 1)


def results_of(image: str) -> list[marm.Result]:
    return marm.sweep(is_lost, ticks_of(image), image=image, board=COUNTER_BOARD, at=same)


def picture(image: str, results: list[marm.Result]) -> str:
    """Returns a line for each tick: the next instruction, its access to data, and what an interrupt before it does."""
    lines = ["tick  next      access       an interrupt before it"]
    with marm.Machine(image, COUNTER_BOARD) as m:
        for tick, lost in results:
            m.run(tick - m.tick)
            pc = m.pc
            with m.saved():
                data = [e for e in m.step().events if isinstance(e, marm.Access) and e.kind != "F"]
            access = f"{data[0].kind} {data[0].address:08X}" if data else ""
            lines.append(f"{tick:4}  {pc:08X}  {access:11}  {'######## a count is lost' if lost else '.'}")
    return "\n".join(lines)


@needs_program
class Windows(unittest.TestCase):
    def test_plain(self) -> None:
        """A window for each round, from the load to the store: both instructions behind which the sum is in a
        register."""
        results = results_of(PLAIN)
        windows = marm.windows(results)
        self.assertEqual([len(window) for window in windows], [2] * ROUNDS)
        with marm.Machine(PLAIN, COUNTER_BOARD) as m:
            counter = m.address("counter")
            for window in windows:
                m.run(window.start - 1 - m.tick)
                self.assertEqual(m.step().lines[-1], f"{window.start} L {counter:08X} 4 p ok off")
                m.run(1)
                self.assertEqual(m.step().lines[-1], f"{window.stop} S {counter:08X} 4 p ok off")
        self.assertEqual(picture(PLAIN, results).count("#### a count is lost"), 2 * ROUNDS)

    def test_as_by_the_script(self) -> None:
        """The same by the board's script, in a machine for each tick."""
        for tick, lost in results_of(PLAIN):
            with marm.Machine(PLAIN, COUNTER_BOARD.with_event(tick + 1, 0)) as m:
                m.run(1000)
                self.assertEqual(m.read_word("counter") != ROUNDS + 1, lost, tick)

    def test_atomic(self) -> None:
        """LDREX and STREX lose nothing."""
        results = results_of(ATOMIC)
        self.assertGreater(len(results), 30)
        self.assertEqual(marm.windows(results), [])


def main() -> None:
    for image in (PLAIN, ATOMIC):
        results = results_of(image)
        windows = marm.windows(results)
        print(f"{image.rpartition('/')[2]}: {len(results)} ticks, {len(windows)} windows in which a count is lost")
        print(picture(image, results), "\n")


if __name__ == "__main__":
    main()
