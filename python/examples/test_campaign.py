"""A fault-injection campaign: one bit of a register or of RAM flips at some tick, and what becomes of the run is
counted. `python3 -m examples.test_campaign [FLIPS [WORKERS]]` prints the counts, and when which flips do harm."""

from __future__ import annotations

import random
import sys
import time
import unittest
from collections import Counter
from concurrent.futures import ProcessPoolExecutor
from typing import NamedTuple, Optional, Union

import marm

from tests.support import CHECKSUM_BOARD, FIRMWARE, needs_program

IMAGE = str(FIRMWARE / "checksum.elf")
REGISTERS = [*(f"r{k}" for k in range(13)), "sp", "lr", "pc"]
RAM = [*range(0x2000_0000, 0x2000_0060, 4), *range(0x2000_03E0, 0x2000_0400, 4)]  # the table, and the stack
OUTCOMES = ("same output", "wrong output", "refused by the MPU", "other fault", "other stop", "hang")
MAX_STEPS = 20_000  # more than ten times the undisturbed run
COLUMNS = 64


class Flip(NamedTuple):
    """A bit of a register, or of the word at an address, that flips after a tick."""

    tick: int
    where: Union[str, int]
    bit: int


def expected() -> bytes:
    """Returns what the firmware has to print, computed from its source."""
    value, table = 12345, []
    for _ in range(24):
        value = (value * 1664525 + 1013904223) % 2**32
        table.append(value)
    checksum = 0
    for value in sorted(table):
        checksum = (checksum << 5 | checksum >> 27) % 2**32 ^ value
    return f"{checksum:08X}\n".encode()


def flips(count: int, ticks: int, seed: int) -> list[Flip]:
    """Returns random flips before the last of these ticks: half of them in registers, half in RAM."""
    draw = random.Random(seed)
    places: list[list[Union[str, int]]] = [[*REGISTERS], [*RAM]]
    return [Flip(draw.randrange(1, ticks), draw.choice(places[k % 2]), draw.randrange(32)) for k in range(count)]


def tick_of(flip: Flip) -> int:
    return flip.tick


def outcome(m: marm.Machine, flip: Flip) -> str:
    """Flips the bit, and returns what becomes of the run."""
    if isinstance(flip.where, str):
        m.regs[flip.where] ^= 1 << flip.bit
    else:
        m.write_word(flip.where, m.read_word(flip.where) ^ 1 << flip.bit)
    ran = m.run(MAX_STEPS, marm.FAULT, trace="refused")
    if ran.why == "fault":
        refused = any(isinstance(event, marm.Access) and event.outcome == "mpu" for event in ran.events)
        return "refused by the MPU" if refused else "other fault"
    if ran.stop is None:
        return "hang"
    if str(ran.stop) != "breakpoint 0":
        return "other stop"
    return "same output" if m.console == expected() else "wrong output"


def undisturbed() -> int:
    """Returns how many ticks the undisturbed run takes."""
    with marm.Machine(IMAGE, CHECKSUM_BOARD) as m:
        ran = m.run(MAX_STEPS)
        assert str(ran.stop) == "breakpoint 0" and ran.console == expected(), ran
        return ran.tick


def campaign(variants: list[Flip], executor: Optional[ProcessPoolExecutor]) -> list[marm.Result]:
    return marm.sweep(outcome, variants, image=IMAGE, board=CHECKSUM_BOARD, at=tick_of, executor=executor)


def chart(results: list[marm.Result], ticks: int) -> str:
    """Returns a line for each outcome: its share of the flips of each part of the run, from . (none) to 9."""
    columns: list[list[str]] = [[] for _ in range(COLUMNS)]
    for flip, value in results:
        columns[flip.tick * COLUMNS // ticks].append(value)
    lines = []
    for kind in OUTCOMES:
        shares = [column.count(kind) / max(1, len(column)) for column in columns]
        lines.append(f"{kind:20}" + "".join(["." if share == 0 else str(min(9, int(share * 10))) for share in shares]))
    return "\n".join(lines)


@needs_program
class Campaign(unittest.TestCase):
    def test_the_undisturbed_run(self) -> None:
        self.assertGreater(MAX_STEPS, 10 * undisturbed())

    def test_in_parallel(self) -> None:
        """Two processes find what one does, and each outcome is one of those named."""
        ticks = undisturbed()
        variants = flips(300, ticks, 2026)
        here = campaign(variants, None)
        with ProcessPoolExecutor(2) as pool:
            self.assertEqual(campaign(variants, pool), here)
        counts = Counter(value for _, value in here)
        self.assertLessEqual(set(counts), set(OUTCOMES))
        for kind in ("same output", "wrong output", "refused by the MPU"):
            self.assertGreater(counts[kind], 0, counts)
        self.assertEqual(len(chart(here, ticks).splitlines()), len(OUTCOMES))


def main(count: int, workers: int) -> None:
    ticks = undisturbed()
    variants = flips(count, ticks, 2026)
    begun = time.perf_counter()
    with ProcessPoolExecutor(workers) as pool:
        results = campaign(variants, pool)
    seconds = time.perf_counter() - begun
    print(f"{count} flips in {seconds:.2f} s by {workers} processes: {count / seconds:,.0f} a second")
    table = Counter((isinstance(flip.where, str), value) for flip, value in results)
    for kind in OUTCOMES:
        print(f"  {kind:20}{table[True, kind]:6} in registers{table[False, kind]:6} in RAM")
    print(f"\nThe share of each outcome, by the tick of the flip: a column is {ticks / COLUMNS:.0f} ticks")
    print(chart(results, ticks))


if __name__ == "__main__":
    main(*map(int, (sys.argv[1:] + ["10000", "2"][len(sys.argv) - 1:])[:2]))
