#!/usr/bin/env python3
"""Measures the package on the program that the environment's MARM names. Usage: python/speed.py [ROUNDS]"""

from __future__ import annotations

import sys
import time
from typing import Callable

import marm

from tests.support import COUNTER_BOARD, FIRMWARE, kernel

IMAGE = str(FIRMWARE / "counter.elf")
ROUNDS_OF_A_BATCH = 100
VARIANTS = 480


def by_methods(m: marm.Machine, rounds: int) -> None:
    """Saves, places, runs, asks and goes back: five exchanges a round."""
    address = m.ram.start
    for number in range(rounds):
        saved = m.save()
        m.write_word(address, number)
        m.run(50)
        assert m.explain(address, "p", "w")
        m.restore(saved)
        saved.free()


def in_batches(m: marm.Machine, rounds: int) -> None:
    """The same, a hundred rounds in one exchange."""
    address, saved = m.ram.start, m.save()
    for begin in range(0, rounds, ROUNDS_OF_A_BATCH):
        with m.batch() as batch:
            for number in range(begin, min(rounds, begin + ROUNDS_OF_A_BATCH)):
                batch.save(saved)
                batch.write_word(address, number)
                batch.run(50)
                decision = batch.explain(address, "p", "w")
                batch.restore(saved)
        assert decision.value


def in_a_sweep() -> None:
    """An interrupt after each of 480 ticks, by one machine."""
    results = marm.sweep(is_counted, range(VARIANTS), image=IMAGE, board=COUNTER_BOARD)
    assert len(results) == VARIANTS


def by_a_process_each() -> None:
    """The same, by a machine for each tick."""
    for tick in range(VARIANTS):
        with marm.Machine(IMAGE, COUNTER_BOARD) as m:
            is_counted(m, tick)


def is_counted(m: marm.Machine, tick: int) -> bool:
    m.run(5 + tick % 20)
    m.pulse(0)
    m.run(1000)
    return m.read_word("interrupts") == 1


def seconds(call: Callable[[], None]) -> float:
    """Returns the shortest time of three."""
    times = []
    for _ in range(3):
        begun = time.perf_counter()
        call()
        times.append(time.perf_counter() - begun)
    return min(times)


def main(rounds: int) -> None:
    with kernel("round_robin") as m:
        m.run(100)
        print(f"{rounds} rounds by methods: {seconds(lambda: by_methods(m, rounds)):.2f} s")
        print(f"{rounds} rounds in batches: {seconds(lambda: in_batches(m, rounds)):.2f} s")
    print(f"{VARIANTS} variants in a sweep: {seconds(in_a_sweep):.3f} s")
    print(f"{VARIANTS} variants by a process each: {seconds(by_a_process_each):.2f} s")


if __name__ == "__main__":
    main(int(sys.argv[1]) if len(sys.argv) > 1 else 10_000)
