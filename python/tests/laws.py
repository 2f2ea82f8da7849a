"""What holds of each machine: tests that run on the toy and on the program."""

from __future__ import annotations

import random
import unittest
from typing import Any, Callable, Optional, Sequence

import marm
from marm import Condition


def snapshot(m: marm.Machine) -> tuple[Any, ...]:
    """Returns all that can be seen of a machine: of its RAM the words that aren't 0, so that a message shows few."""
    data = m.read(m.ram.start, len(m.ram))
    words = {f"{m.ram.start + at:08X}": data[at:at + 4].hex() for at in range(0, len(data), 4) if any(data[at:at + 4])}
    return dict(m.regs), words, m.tick, m.next, m.stop, m.console


def covers(condition: Condition, access: marm.Access) -> bool:
    """Returns whether an access meets a watchpoint: byte by byte."""
    if not isinstance(condition, (marm.Reads, marm.Writes, marm.Accesses)):
        return False
    kinds = {marm.Reads: "LUV", marm.Writes: "SK", marm.Accesses: "SKLUV"}[type(condition)]
    assert isinstance(condition.address, int)
    watched = range(condition.address, condition.address + condition.size)
    touched = range(access.address, access.address + access.size)
    return access.granted and access.kind in kinds and bool({*touched} & {*watched})


def why_it_ends(conditions: Sequence[Condition], event: marm.Event) -> str:
    """Returns as what an event ends a run, or nothing."""
    if isinstance(event, marm.Access):
        if any(covers(condition, event) for condition in conditions):
            return "watch"
        if event.outcome != "ok" and marm.REFUSED in conditions:
            return "refused"
    if isinstance(event, marm.Fault) and marm.FAULT in conditions:
        return "fault"
    if isinstance(event, marm.Entry) and marm.ENTRY in conditions:
        return "exception"
    return ""


def stores_of(events: Sequence[marm.Event]) -> list[marm.Access]:
    """Returns the stores that were granted."""
    return [event for event in events if isinstance(event, marm.Access) and event.kind == "S" and event.granted]


class Recording:
    """A run, step by step, up to the stop: the events of each step, and the address and kind of the next one."""

    def __init__(self, m: marm.Machine) -> None:
        self.events: list[list[marm.Event]] = [[]]
        self.places = [(m.pc, m.next)]
        while m.stop is None:
            self.events.append(m.step().events)
            self.places.append((m.pc, m.next))
        self.last = m.tick

    def end(self, first: int, steps: int, conditions: Sequence[Condition]) -> tuple[int, str, Optional[marm.Event]]:
        """Returns where and why a run from `first` ends, and the event that ends it."""
        breaks = [condition.address for condition in conditions if isinstance(condition, marm.At)]
        tick = first
        while tick < min(first + steps, self.last):
            tick += 1
            for event in self.events[tick]:
                why = why_it_ends(conditions, event)
                if why:
                    return tick, why, event
            if self.places[tick][0] in breaks and self.places[tick][1] == "Instruction":
                return tick, "break", None
        return tick, "stop" if tick == self.last else "steps", None


class Laws(unittest.TestCase):
    """A subclass says which machine, for how many steps."""

    steps = 1000
    runs = 100

    def make(self) -> marm.Machine:
        raise unittest.SkipTest("no machine of its own")

    def setUp(self) -> None:
        self.m = self.make()
        self.addCleanup(self.m.close)
        self.random = random.Random(59)

    def test_a_run_in_parts_is_the_run(self) -> None:
        m = self.m
        whole = m.run(self.steps, trace="all").lines
        end = snapshot(m)
        for size in (1, 7, 999):
            m.restore(m.start)
            lines: list[str] = []
            while m.tick < end[2]:
                lines += m.run(min(size, end[2] - m.tick), trace="all").lines
            self.assertEqual(lines, whole)
            self.assertEqual(snapshot(m), end)

    def test_a_walk_is_the_run(self) -> None:
        m = self.m
        whole = m.run(self.steps, trace="all").lines
        end = snapshot(m)
        m.restore(m.start)
        self.assertEqual([str(event) for event in m.trace(self.steps)], whole)
        self.assertEqual(snapshot(m), end)

    def test_the_machine_is_where_the_reader_is(self) -> None:
        """Also where a selection leaves out most steps, and whoever looks makes it go back."""
        m = self.m
        for which in ("all", "refused", "exceptions", "console"):
            m.restore(m.start)
            whole = m.run(self.steps, trace=which)
            end = snapshot(m)
            m.restore(m.start)
            read, printed = [], b""
            for event in m.trace(self.steps, which):
                read.append(str(event))
                printed += bytes([event.byte]) if isinstance(event, marm.Console) else b""
                if which != "all" or self.random.random() < 0.01:
                    self.assertEqual(m.tick, event.tick)
                    self.assertEqual(m.regs.pc, m.pc)
                if self.random.random() < 0.1:
                    self.assertTrue(m.console.startswith(printed))
            self.assertEqual(read, whole.lines)
            self.assertEqual(snapshot(m), end)

    def test_a_loop_that_is_left(self) -> None:
        m = self.m
        for tick in (1, 100, 255, 256, 257, 700):
            m.restore(m.start)
            m.run(tick)
            there = snapshot(m)
            m.restore(m.start)
            for event in m.trace():
                if event.tick == tick:
                    break
            self.assertEqual(snapshot(m), there)

    def test_what_is_changed_in_a_loop_counts(self) -> None:
        m = self.m
        for count, _ in enumerate(m.trace(60)):
            if count == 20:
                m.regs.r12 = 0x1234
                here = m.tick
        self.assertEqual((m.regs.r12, m.tick), (0x1234, 60))
        self.assertGreater(60, here)

    def test_restoring_is_exact(self) -> None:
        m = self.m
        m.run(self.steps // 2)
        before = snapshot(m)
        with m.saved():
            m.regs.r12 = 99
            m.write(m.ram.stop - 7, b"seven")
            m.run(self.steps)
            with m.saved():
                m.run(1)
        self.assertEqual(snapshot(m), before)
        m.run(self.steps)
        end = snapshot(m)
        m.restore(m.start)
        self.assertEqual(snapshot(m)[2:], (0, "Instruction", None, b""))
        m.run(2 * self.steps)
        self.assertEqual(snapshot(m)[1:2], end[1:2])

    def test_a_state_of_a_future_that_was_left(self) -> None:
        """What was printed up to a saved state comes back with it."""
        m = self.m
        m.run(self.steps)
        late, then = m.save(), snapshot(m)
        m.restore(m.start)
        m.run(3)
        m.restore(late)
        self.assertEqual(snapshot(m), then)

    def test_slots(self) -> None:
        m = self.m
        kept = [m.save() for _ in range(4)]
        with self.assertRaises(marm.NoSlot):
            m.save()
        del kept[1]
        m.save()
        kept[0].free()
        with self.assertRaises(ValueError):
            m.restore(kept[0])
        m.restore(kept[1])

    def test_where_runs_end(self) -> None:
        """Random conditions: as the single steps say."""
        m, draw = self.m, self.random
        recording = Recording(m)
        data = [e.address for step in recording.events for e in step if isinstance(e, marm.Access) and e.kind != "F"]
        kinds: list[Callable[[], Condition]] = [
            lambda: marm.At(draw.choice(recording.places)[0]),
            lambda: marm.REFUSED, lambda: marm.FAULT, lambda: marm.ENTRY,
            lambda: marm.Reads(draw.choice(data) + draw.choice((0, 1, 3)), draw.choice((1, 2, 4, 16))),
            lambda: marm.Writes(draw.choice(data) & ~3, draw.choice((1, 4, 64))),
            lambda: marm.Accesses(draw.choice(data), 1),
        ]
        for _ in range(self.runs):
            conditions = [draw.choice(kinds)() for _ in range(draw.randrange(4))]
            first, steps = draw.randrange(recording.last), draw.choice((1, 10, 100, 3000, 20_000))
            m.restore(m.start)
            m.run(first)
            ran = m.run(steps, conditions, draw.choice(("all", "refused", "exceptions", "console")))
            tick, why, cause = recording.end(first, steps, conditions)
            expected = (tick, tick, tick - first, why, cause)
            self.assertEqual((m.tick, ran.tick, ran.steps, ran.why, ran.cause), expected, conditions)
            self.assertEqual(ran.condition is None, why in ("steps", "stop"))

    def test_conditions_on_the_same_bytes(self) -> None:
        """Reads, writes and accesses of one address are three conditions."""
        m = self.m
        stores = stores_of(m.run(self.steps, trace="all").events)
        address = stores[0].address
        for condition in (marm.Reads(address, 1), marm.Writes(address, 1), marm.Reads(address, 1)):
            m.restore(m.start)
            ran = m.run(self.steps, condition)
            if ran.why == "watch":
                self.assertIn(ran.access.kind, condition.kinds)
        m.restore(m.start)
        self.assertEqual(m.run_to(marm.Writes(address, 1)).tick, stores[0].tick)

    def test_a_batch_that_is_never_sent(self) -> None:
        """It sets nothing."""
        m = self.m
        m.batch().run(5, marm.At(m.pc), "all")
        m.run(10)
        with m.saved():
            again = m.run(self.steps, marm.ENTRY)
        m.batch().run(5, marm.ENTRY)
        self.assertEqual(m.run(self.steps, marm.ENTRY).tick, again.tick)

    def test_a_batch_is_the_calls(self) -> None:
        m = self.m
        m.run(100)
        a = m.ram.start
        with m.saved() as here:
            m.write_word(a, 7)
            ran = m.run(50, trace="all")
            expected = (ran.steps, ran.lines, m.explain(a, "u", "w"), m.read(a, 8), dict(m.regs))
            m.restore(here)
            after = snapshot(m)
            with m.batch() as b:
                kept = b.save()
                b.write_word(a, 7)
                run, decision, data, regs = b.run(50, trace="all"), b.explain(a, "u", "w"), b.read(a, 8), b.regs()
                word = b.read_word(a)
                b.restore(kept)
                then = b.run(3)
                step = b.step()
                b.restore(kept)
                rest = b.run()
                b.restore(kept)
                b.run(3)
            self.assertEqual((run.value.steps, run.value.lines, decision.value, data.value, regs.value), expected)
            self.assertEqual((then.value.steps, m.tick), (3, after[2] + 3))
            self.assertEqual(word.value, int.from_bytes(data.value[:4], "little"))
            self.assertEqual(step.value.lines, m.step().lines)
            m.restore(kept)
            self.assertEqual(rest.value.lines, m.run().lines)
            m.restore(kept)
            self.assertEqual(snapshot(m), after)

    def test_errors_of_a_batch(self) -> None:
        m = self.m
        batch = m.batch()
        refused, tick, elsewhere = batch.write_word(m.ram.start + 1, 1), batch.run(1), batch.read(m.ram.stop - 1, 2)
        with self.assertRaises(ValueError):
            tick.value
        with self.assertRaises(marm.PlaceRefused):
            batch.send()
        self.assertEqual((len(batch), tick.value.tick, m.tick), (0, 1, 1))
        with self.assertRaises(marm.PlaceRefused):
            refused.value
        with self.assertRaises(marm.NotMemory):
            elsewhere.value
        batch.send()
        batch.write_word(m.ram.start + 1, 1)
        batch.send(check=False)

    def test_replay_puts_again(self) -> None:
        m = self.m
        m.run(40)
        m.regs.r12 = 77
        middle = m.save()
        m.run(5)
        m.write_word(m.ram.stop - 4, 0x55)
        there = snapshot(m)
        m.run(300)
        end = snapshot(m)
        for since in (m.start, middle):
            m.replay(345, since)
            self.assertEqual(snapshot(m), end)
        m.replay(45)
        self.assertEqual(snapshot(m), there)
        m.run(300)
        self.assertEqual(snapshot(m), end)
        m.replay(39)
        self.assertNotEqual(m.regs.r12, 77)
        for tick, since in ((41, middle), (40, m.start), (-1, m.start)):
            with self.assertRaises(ValueError):
                m.replay(tick, since)

    def test_what_was_put_goes_with_the_state(self) -> None:
        """A state that is restored brings back what was put before it, and leaves what was put after it."""
        m = self.m
        m.run(40)
        before = m.save()
        m.regs.r12 = 77
        after = m.save()
        m.run(20)
        with_it = snapshot(m)
        m.restore(before)
        m.run(20)
        without_it = snapshot(m)
        for state, end in ((after, with_it), (before, without_it), (after, with_it)):
            m.restore(state)
            m.run(20)
            m.replay(60)
            self.assertEqual(snapshot(m), end)
        m.restore(before)
        with self.assertRaises(ValueError):
            m.replay(40, after)

    def test_last(self) -> None:
        m = self.m
        events = m.run(self.steps, trace="all").events
        end = snapshot(m)
        stores = stores_of(events)
        written = [e for e in events if isinstance(e, marm.Access) and e.kind in "SK"]
        for store in self.random.sample(stores, 8):
            condition = marm.Writes(store.address, store.size)
            newest = [e for e in events if isinstance(e, marm.Access) and covers(condition, e)][-1]
            ran = m.last(condition)
            assert ran is not None
            self.assertEqual(ran.tick, newest.tick)
            self.assertEqual(m.tick, newest.tick - 1)
            self.assertIn(str(newest), m.step().lines)
            m.run(end[2] - m.tick)
            self.assertEqual(snapshot(m), end)
        never = next(a for a in m.ram if not any(e.address <= a < e.address + e.size for e in written))
        self.assertIsNone(m.last(marm.Writes(never, 1)))
        self.assertEqual(snapshot(m), end)

    def test_last_at_a_breakpoint(self) -> None:
        """The machine is at the breakpoint, where the run that reached it last ended."""
        m = self.m
        places = []
        for _ in range(200):
            m.step()
            places.append((m.pc, m.next))
        end = snapshot(m)
        for place in self.random.sample([place for place in places if place[1] == "Instruction"], 6):
            newest = max(tick for tick, there in enumerate(places, 1) if there == place)
            ran = m.last(marm.At(place[0]))
            assert ran is not None
            self.assertEqual((ran.why, ran.tick, m.tick, m.pc), ("break", newest, newest, place[0]))
            m.run(200 - newest)
            self.assertEqual(snapshot(m), end)

    def test_a_state_that_is_later_than_now(self) -> None:
        """It isn't on the way to now, whether or not something was put since: the machine stays."""
        m = self.m
        m.run(50)
        later = m.save()
        m.restore(m.start)
        for put in (False, True):
            m.run(20)
            if put:
                m.regs.r12 = 77
                m.run(60)
            here = snapshot(m)
            calls: list[Callable[[], object]] = [
                lambda: m.replay(m.tick, later), lambda: m.replay(50, later), lambda: m.last(marm.REFUSED, later),
            ]
            for call in calls:
                with self.assertRaises(ValueError):
                    call()
                self.assertEqual(snapshot(m), here)

    def test_signals_are_put_again(self) -> None:
        """`replay` and `last` make a run with its pulses, rises, falls and NMI: the same lines and registers."""
        m = self.m
        if m.lines < 2:
            self.skipTest("the board has no two lines")
        signals: list[Callable[[], None]] = [
            lambda: m.pulse(0), lambda: m.rise(1), lambda: m.fall(1), lambda: m.pulse(1), m.nmi,
        ]
        m.run(self.steps // 2)
        events = []
        for signal in signals:
            signal()
            here = m.tick
            ran = m.run(25, trace="all")
            events += ran.events
        end = snapshot(m)
        m.replay(m.tick)
        self.assertEqual(snapshot(m), end)
        m.replay(here)
        self.assertEqual((m.run(25, trace="all").lines, snapshot(m)), (ran.lines, end))
        entry = [event for event in events if isinstance(event, marm.Entry)][-1]
        found = m.last(marm.ENTRY)
        assert found is not None
        self.assertEqual((found.cause, m.tick), (entry, entry.tick - 1))
        m.run(end[2] - m.tick)
        self.assertEqual(snapshot(m), end)
        m.restore(m.start)
        m.run(end[2])
        self.assertNotEqual(snapshot(m), end)

    def test_signals_of_a_batch_are_put_again(self) -> None:
        m = self.m
        if m.lines < 2:
            self.skipTest("the board has no two lines")
        with m.batch() as b:
            b.run(self.steps // 2), b.pulse(0), b.run(25), b.rise(1), b.run(25), b.fall(1), b.nmi(), b.run(25)
        end = snapshot(m)
        m.replay(m.tick)
        self.assertEqual(snapshot(m), end)

    def test_runs_of_a_batch(self) -> None:
        """Each counts its own steps."""
        with self.m.batch() as b:
            runs = [b.run(5), b.run(5), b.run(7)]
        self.assertEqual([(ran.value.steps, ran.value.tick) for ran in runs], [(5, 5), (5, 10), (7, 17)])

    def test_the_ends_of_memory(self) -> None:
        """The first and the last word of each memory, and its last byte."""
        m = self.m
        for memory in (m.flash, m.ram):
            for address, data in (
                (memory.start, b"1st."), (memory.stop - 4, b"last"), (memory.stop - 1, b"!"),
                (memory.stop - 6, b"sixth."),
            ):
                m.write(address, data)
                self.assertEqual(m.read(address, len(data)), data)
            with self.assertRaises(marm.NotMemory):
                m.write(memory.stop - 4, b"five.")
