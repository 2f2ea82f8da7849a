"""Sweeps without an executor, by threads, by processes, and by Dask where it is installed."""

from __future__ import annotations

import importlib
import os
import signal
import sys
import tempfile
import threading
import time
import traceback
import unittest
from concurrent.futures import BrokenExecutor, Executor, ProcessPoolExecutor, ThreadPoolExecutor
from typing import Any, Iterable, Optional
from unittest import mock

import marm

from .support import PACKAGE

TOY = [sys.executable, str(PACKAGE / "tests" / "toy.py")]
TICKS = range(3, 60)


def tick_of(variant: int) -> int:
    return variant


def where(m: marm.Machine, variant: int) -> tuple[int, int, bytes]:
    """Where the machine is, and what a change made of it, which is undone after the call."""
    found = m.tick, m.regs.r0, m.console
    m.regs.r0 = 1000 + variant
    m.run(100)
    return found


def ticks_seen(m: marm.Machine, variant: int) -> int:
    return m.tick


def prepare(m: marm.Machine) -> None:
    m.run_to(marm.Writes(0x2000_0004))


def fails_at_20(m: marm.Machine, variant: int) -> int:
    if variant == 20:
        raise RuntimeError("twenty")
    return variant


class Stubborn(Exception):
    """One that can be pickled, and not be read again."""

    def __init__(self, one: int, other: int) -> None:
        super().__init__("stubborn")


def fails_stubbornly(m: marm.Machine, variant: int) -> int:
    if variant % 2:
        raise Stubborn(1, variant)
    return variant


def saves_and_fails(m: marm.Machine, variant: int) -> int:
    kept = [m.save() for _ in range(3)]
    if variant % 2:
        raise RuntimeError(f"{variant}: {len(kept)}")
    return m.tick


def ends_the_program(m: marm.Machine, variant: int) -> int:
    """Loses the machine at each third variant: by the program's end, by hand, and where nobody notices."""
    if variant % 3 == 0:
        os.kill(m.process_id, signal.SIGKILL)
        m.step()
    if variant % 3 == 1:
        m.close()
    return variant


def ends_its_process(m: marm.Machine, variant: int) -> int:
    if variant == 20:
        time.sleep(1.0)
        os._exit(1)
    return variant


def prepares_one(m: marm.Machine) -> None:
    """Fails from the second machine on that is made with a file."""
    os.mkdir(os.environ["MARM_ONE"])


def tick_or_none(variant: int) -> int:
    return {3: 3, 5: 5}[variant]


def sweep(variants: Iterable[int], function: Any = where, **options: Any) -> list[marm.Result]:
    return marm.sweep(function, variants, image=b"", board="none.toml", program=TOY, **options)


class Sweeps(unittest.TestCase):
    def expected(self, executor: Optional[Executor], **options: Any) -> None:
        console = "abcdefghi"
        results = sweep(TICKS, at=tick_of, executor=executor, **options)
        self.assertEqual(results, [(k, (k, k, console[:k // 11].encode())) for k in TICKS])

    def test_here(self) -> None:
        self.expected(None)
        self.expected(None, chunk=7)

    def test_by_threads(self) -> None:
        with ThreadPoolExecutor(2) as pool:
            self.expected(pool)
            self.expected(pool, chunk=7)

    def test_by_processes(self) -> None:
        with ProcessPoolExecutor(2) as pool:
            self.expected(pool)

    def test_by_dask(self) -> None:
        try:
            distributed: Any = importlib.import_module("distributed")
        except ImportError:
            self.skipTest("distributed isn't installed")
        with distributed.LocalCluster(n_workers=2, threads_per_worker=1, dashboard_address=None) as cluster:
            with distributed.Client(cluster) as client:
                self.expected(client.get_executor())

    def test_variants_in_any_order(self) -> None:
        ticks = [*TICKS[::2], *TICKS[1::2][::-1]]
        self.assertEqual([(k, value[0]) for k, value in sweep(ticks, at=tick_of)], [(k, k) for k in ticks])
        self.assertEqual(sweep([]), [])

    def test_prepared(self) -> None:
        self.assertEqual([value[0] for _, value in sweep([1, 2, 3], prepare=prepare)], [5, 5, 5])
        self.assertEqual([value[0] for _, value in sweep([5, 8, 6], prepare=prepare, at=tick_of)], [5, 8, 6])

    def test_ticks_that_are_not_on_the_run(self) -> None:
        """Before the end of `prepare`, and after the stop at tick 1000; the stop itself is on it."""
        for variants, words in (
            ([8, 4], "variant 4: ValueError: tick 4 is before the end of `prepare`, at tick 5"),
            ([-1], "variant -1: ValueError: tick -1 is before the end of `prepare`, at tick 5"),
            ([1000, 1001, 999], "variant 1001: ValueError: tick 1001 is after the stop, at tick 1000"),
        ):
            for chunk in (None, 1):
                with self.assertRaises(marm.SweepError) as caught:
                    sweep(variants, ticks_seen, at=tick_of, chunk=chunk, prepare=prepare)
                self.assertEqual(str(caught.exception), words)
                self.assertIsInstance(caught.exception.__cause__, ValueError)
        self.assertEqual(sweep([1000], ticks_seen, at=tick_of), [(1000, 1000)])
        with ThreadPoolExecutor(2) as pool, self.assertRaises(marm.SweepError):
            sweep([999, 1001], ticks_seen, at=tick_of, executor=pool)

    def test_a_list(self) -> None:
        """It can be read twice, and after the executor has ended."""
        with ThreadPoolExecutor(2) as pool:
            results = sweep([7, 3], ticks_seen, at=tick_of, executor=pool)
        for _ in range(2):
            self.assertEqual([(variant, value) for variant, value in results], [(7, 7), (3, 3)])

    def failed(self, variants: Iterable[int], function: Any, **options: Any) -> marm.SweepError:
        with self.assertRaises(marm.SweepError) as caught:
            sweep(variants, function, **options)
        return caught.exception

    def test_an_exception_names_its_variant(self) -> None:
        """It is the cause of the error that comes out, and the results so far are there."""
        with ProcessPoolExecutor(2) as pool, ThreadPoolExecutor(2) as threads:
            for executor, chunk in ((None, None), (None, 7), (threads, 7), (pool, 7)):
                error = self.failed(range(30), fails_at_20, executor=executor, chunk=chunk)
                self.assertEqual((error.variant, str(error)), (20, "variant 20: RuntimeError: twenty"))
                self.assertIsInstance(error.__cause__, RuntimeError)
                self.assertEqual(str(error.__cause__), "twenty")
                self.assertEqual([*error.results[:20]], [(k, k) for k in range(20)])
                self.assertLessEqual(set(error.results[20:]), {(k, k) for k in range(21, 30)})
                self.assertEqual([*error.results], sorted(error.results))
                text = "".join(traceback.format_exception(type(error), error, error.__traceback__))
                self.assertIn('raise RuntimeError("twenty")', text)

    def test_results_of_other_chunks_are_there(self) -> None:
        """Those that were done already, as the first chunk fails."""
        done = threading.Event()

        def fails_last(m: marm.Machine, variant: int) -> int:
            if variant == 0:
                done.wait(60)
                raise RuntimeError
            if variant == 9:
                threading.Timer(0.5, done.set).start()
            return variant

        with ThreadPoolExecutor(2) as pool:
            error = self.failed(range(10), fails_last, executor=pool, chunk=1)
        self.assertEqual((str(error), error.results), ("variant 0: RuntimeError", [(k, k) for k in range(1, 10)]))

    def test_no_thread_goes_on(self) -> None:
        """Once the error is out no call is under way, and none follows: a fork while a machine starts would keep its
        start from ending. The results of those that had begun are there."""
        begun, calls = threading.Event(), []

        def fails_first(m: marm.Machine, variant: int) -> int:
            if variant == 0:
                begun.wait(60)
                raise RuntimeError
            begun.set()
            time.sleep(0.02)
            calls.append(variant)
            return variant

        with ThreadPoolExecutor(2) as pool:
            error = self.failed(range(200), fails_first, executor=pool, chunk=100)
            results = [(k, k) for k in calls]
            time.sleep(0.2)
            self.assertEqual(([*error.results], [(k, k) for k in calls]), (results, results))
        self.assertIn(len(results), range(1, 100))

    def test_exceptions_as_values(self) -> None:
        """The sweep goes on, and each stands in its variant's place."""
        with ProcessPoolExecutor(2) as pool, ThreadPoolExecutor(2) as threads:
            for executor in (None, threads, pool):
                results = sweep(range(30), fails_at_20, executor=executor, chunk=8, on_error="return")
                self.assertEqual([variant for variant, _ in results], [*range(30)])
                self.assertEqual(results[:20] + results[21:], [(k, k) for k in range(30) if k != 20])
                self.assertEqual(repr(results[20].value), "RuntimeError('twenty')")
        with self.assertRaises(ValueError) as caught:
            marm.windows(results)
        self.assertEqual(str(caught.exception), "variant 20 has no value, but RuntimeError('twenty')")
        for name, wrong in (("on_error", "ignore"), ("chunk", 0), ("chunk", -1)):
            with self.assertRaises(ValueError):
                sweep(range(3), fails_at_20, **{name: wrong})

    def test_ticks_as_values(self) -> None:
        """A tick that isn't on the run, and an exception of `at`, are their variants' alone."""
        results = sweep([3, 8, 1001, 7], ticks_seen, at=tick_of, prepare=prepare, on_error="return")
        self.assertEqual([str(value) for _, value in results], [
            "tick 3 is before the end of `prepare`, at tick 5", "8", "tick 1001 is after the stop, at tick 1000", "7"])
        results = sweep([5, 4, 3], ticks_seen, at=tick_or_none, on_error="return")
        self.assertEqual([repr(value) for _, value in results], ["5", "KeyError(4)", "3"])
        error = self.failed([5, 4, 3], ticks_seen, at=tick_or_none)
        self.assertEqual((str(error), error.results), ("variant 4: KeyError: 4", []))

    def test_a_machine_that_was_lost(self) -> None:
        """The next variant has a new one, which is prepared and at its tick."""
        results = sweep(range(6, 15), ends_the_program, at=tick_of, prepare=prepare, on_error="return")
        self.assertEqual([type(value) for _, value in results], [marm.Dead, int, int] * 3)
        self.assertEqual([value for _, value in results if isinstance(value, int)], [7, 8, 10, 11, 13, 14])

    def test_states_that_were_saved_before_an_exception(self) -> None:
        """Their slots are free again, though the exceptions are kept."""
        with ThreadPoolExecutor(2) as pool:
            for executor in (None, pool):
                options = {"executor": executor, "chunk": 10, "on_error": "return"}
                results = sweep(range(3, 13), saves_and_fails, at=tick_of, **options)
                self.assertEqual([repr(value) for _, value in results],
                                 [f"RuntimeError('{k}: 3')" if k % 2 else f"{k}" for k in range(3, 13)])

    def test_exceptions_that_cannot_be_pickled(self) -> None:
        with ProcessPoolExecutor(2) as pool:
            results = sweep(range(4), fails_stubbornly, executor=pool, on_error="return")
        self.assertEqual([repr(value) for _, value in results],
                         ["0", "RuntimeError('Stubborn: stubborn')", "2", "RuntimeError('Stubborn: stubborn')"])

    def test_progress(self) -> None:
        """After each variant, or after each chunk of an executor: how many are done, of how many, and the new ones."""
        for executor, chunk, calls in ((None, None, 6), (None, 4, 6), (ThreadPoolExecutor(2), 4, 2)):
            seen: list[tuple[int, int, list[marm.Result]]] = []
            ticks = [9, 3, 7, 5, 4, 8]
            results = sweep(ticks, ticks_seen, at=tick_of, executor=executor, chunk=chunk,
                            progress=lambda *call: seen.append(call))
            self.assertEqual(([call[1] for call in seen], seen[-1][0]), ([6] * calls, 6))
            self.assertEqual([call[0] for call in seen], [*range(1, 7)] if calls == 6 else [4, 6])
            self.assertCountEqual([new for call in seen for new in call[2]], results)
            self.assertEqual(results, [(tick, tick) for tick in ticks])
            if executor is not None:
                executor.shutdown()

    def test_an_interrupt(self) -> None:
        """KeyboardInterrupt comes out as it is; `progress` has had the results."""
        seen: list[marm.Result] = []

        def interrupts(m: marm.Machine, variant: int) -> int:
            if variant == 3:
                raise KeyboardInterrupt
            return variant

        with self.assertRaises(KeyboardInterrupt):
            sweep(range(9), interrupts, on_error="return", progress=lambda done, count, new: seen.extend(new))
        self.assertEqual(seen, [(0, 0), (1, 1), (2, 2)])

    def test_a_process_that_ends(self) -> None:
        """The executor's error comes out with the results so far."""
        with ProcessPoolExecutor(1) as pool:
            error = self.failed(range(30), ends_its_process, executor=pool, chunk=4)
        self.assertIsInstance(error.__cause__, BrokenExecutor)
        self.assertEqual((error.variant, [*error.results]), (20, [(k, k) for k in range(20)]))

    def test_a_start_that_fails_later(self) -> None:
        """It comes out as it is where there is no result, and else with the results so far."""
        with tempfile.TemporaryDirectory() as folder:
            with mock.patch.dict(os.environ, MARM_ONE=os.path.join(folder, "one")):
                error = self.failed([1, 2, 3], fails_at_20, prepare=prepares_one, chunk=2, on_error="return")
                self.assertIsInstance(error.__cause__, FileExistsError)
                self.assertEqual((error.variant, error.results), (3, [(1, 1), (2, 2)]))
                with self.assertRaises(FileExistsError):
                    sweep([1, 2, 3], fails_at_20, prepare=prepares_one, chunk=2, on_error="return")

    def test_no_machine_is_left(self) -> None:
        """After an exception the machine of a sweep is closed, while the exception is kept."""
        machines: list[marm.Machine] = []

        def fails(m: marm.Machine, variant: int) -> int:
            machines.append(m)
            raise RuntimeError

        error = self.failed([1, 2], fails)
        self.assertEqual(([m.is_lost for m in machines], error.variant), ([True], 1))

    def test_an_error_of_the_start_comes_out(self) -> None:
        refuses = [sys.executable, "-c", "import sys; sys.exit('marm: load 1 Truncated')"]
        with ProcessPoolExecutor(2) as pool, self.assertRaises(marm.StartError):
            marm.sweep(where, range(3), image=b"", board="b", program=refuses, executor=pool)

    def test_windows(self) -> None:
        self.assertEqual(marm.windows(enumerate([0, 1, 1, 0, 1])), [range(1, 3), range(4, 5)])
        self.assertEqual(marm.windows([(3, True), (5, True), (6, False)]), [range(3, 4), range(5, 6)])


if __name__ == "__main__":
    unittest.main()
