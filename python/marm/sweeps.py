"""One function over many variants of a run, on any executor of `concurrent.futures`."""

from __future__ import annotations

import operator
import pickle
import threading
import traceback
from concurrent.futures import Executor, Future, ThreadPoolExecutor, wait
from contextlib import closing
from dataclasses import dataclass
from typing import Any, Callable, Generator, Iterable, NamedTuple, Optional, Sequence, TypeVar, Union

from .boards import Board, Path
from .errors import SweepError
from .machine import Image, Machine
from .wire import Program

__tracebackhide__ = True  # pytest shows no frame of the package

V = TypeVar("V")
R = TypeVar("R")

CHUNKS = 32
LARGEST_CHUNK = 1000


class Result(NamedTuple):
    """A variant, and what the function returned for it, or with on_error="return" the exception that it raised."""

    variant: Any
    value: Any


Progress = Callable[[int, int, "list[Result]"], object]


def sweep(
    function: Callable[[Machine, V], R], variants: Iterable[V], *, image: Image, board: Union[Board, Path],
    prepare: Optional[Callable[[Machine], object]] = None, at: Optional[Callable[[V], int]] = None,
    executor: Optional[Executor] = None, chunk: Optional[int] = None, on_error: str = "raise",
    progress: Optional[Progress] = None, program: Program = None, timeout: float = 30.0,
) -> list[Result]:
    """Calls `function(machine, variant)` for each variant, and returns the results in the order of the variants.

    Each call gets the machine in the same state: that after `prepare(machine)`. With `at`, the undisturbed run goes on
    from there to the tick `at(variant)` first; a tick before the end of `prepare`, or after the stop, is a ValueError
    of this variant. What a call does to the machine is undone; after one that lost it there is a new machine. Each
    machine goes through its variants by rising ticks.

    An exception of `function` or `at` ends the sweep by SweepError, which names the variant, has the exception as its
    cause, and has the results that were there. With on_error="return" the exception is the variant's value, without the
    local variables of its frames, and the sweep goes on. `progress(done, count, new)` is called after each variant, and
    with an executor after each chunk: `done` of `count` variants are done, and `new` are the results since the last
    call.

    `executor` is any of `concurrent.futures`, or Dask's `client.get_executor()`; without one all is done here. Variants
    that share a machine are a chunk: `chunk` is how many these are at most (otherwise an executor gets 32 chunks or
    more). For executors with other processes the functions are those of a module, and variants and results can be
    pickled. `image`, `board`, `program` and `timeout` are as for Machine. An exception of the start of a machine, of
    `prepare` or of the executor comes out as it is, or once there are results by SweepError."""
    if on_error not in ("raise", "return"):
        raise ValueError(f"on_error={on_error!r}: neither 'raise' nor 'return'")
    if chunk is not None and chunk < 1:
        raise ValueError(f"chunk={chunk}: not 1 or more")
    numbered = list(enumerate(variants))
    whole_image = image if isinstance(image, (bytes, str)) else str(image)
    is_apart = executor is not None and not isinstance(executor, ThreadPoolExecutor)
    task = _Task(function, whole_image, board, prepare, at, program, timeout, on_error == "return", is_apart)
    found = _Found(len(numbered), task.goes_on, progress)
    usual = len(numbered) if executor is None else min(LARGEST_CHUNK, -(-len(numbered) // CHUNKS))
    size = usual or 1 if chunk is None else chunk
    parts = [numbered[begin:begin + size] for begin in range(0, len(numbered), size)]
    if executor is None:
        for part in parts:
            with closing(task.outcomes(part)) as outcomes:
                for outcome in outcomes:
                    found.take([outcome])
    else:
        _do_elsewhere(executor, task, parts, found)
    return found.results


class _Outcome(NamedTuple):
    """What became of a variant: what the function returned, or an exception. `is_of_chunk`: it came up before the first
    variant of a chunk. `frames`: its traceback, where that can't go with it."""

    number: int
    variant: Any
    value: Any
    error: Optional[Exception] = None
    is_of_chunk: bool = False
    frames: str = ""


Part = Sequence["tuple[int, Any]"]  # variants with their numbers


@dataclass(frozen=True)
class _Task:
    """What is done for a chunk."""

    function: Callable[[Machine, Any], Any]
    image: Union[bytes, str]
    board: Union[Board, Path]
    prepare: Optional[Callable[[Machine], object]]
    at: Optional[Callable[[Any], int]]
    program: Program
    timeout: float
    goes_on: bool
    is_apart: bool  # in another process, perhaps

    def __call__(self, part: Part, ended: Optional[threading.Event] = None) -> list[_Outcome]:
        """Returns the outcomes of these variants; the last is that of the exception that ends the sweep, if any, or
        that of the variant in which the sweep was ended elsewhere."""
        found = []
        with closing(self.outcomes(part)) as outcomes:
            for outcome in outcomes:
                found.append(_portable(outcome) if self.is_apart else outcome)
                if outcome.error is not None and not self.goes_on or ended is not None and ended.is_set():
                    break
        return found

    def outcomes(self, part: Part) -> Generator[_Outcome, None, None]:
        """Yields the outcomes of these variants, by rising ticks."""
        try:
            bench = _Bench(self)
        except Exception as error:
            yield _Outcome(*part[0], None, error, True)
            return
        try:
            ticks: dict[int, int] = {}
            for number, variant in part:
                try:
                    ticks[number] = bench.first if self.at is None else operator.index(self.at(variant))
                except Exception as error:
                    yield _Outcome(number, variant, None, _without_first_frame(error))
            by_tick = [numbered for numbered in part if numbered[0] in ticks]
            for number, variant in sorted(by_tick, key=lambda numbered: ticks[numbered[0]]):
                yield self._outcome(bench, number, variant, ticks[number])
        finally:
            bench.machine.close()

    def _outcome(self, bench: _Bench, number: int, variant: Any, tick: int) -> _Outcome:
        try:
            return _Outcome(number, variant, self.function(bench.machine_at(tick), variant))
        except Exception as error:
            if self.goes_on:
                _free_frames(error)
            return _Outcome(number, variant, None, _without_first_frame(error))

    def new_machine(self) -> Machine:
        """Returns a machine that is prepared."""
        machine = Machine(self.image, self.board, program=self.program, timeout=self.timeout)
        try:
            if self.prepare is not None:
                self.prepare(machine)
        except BaseException:
            machine.close()
            raise
        return machine


class _Bench:
    """A machine on the undisturbed run, at the tick of the variant that comes next. It is made once, and again after
    each variant that lost it."""

    def __init__(self, task: _Task) -> None:
        self._task = task
        self.machine = task.new_machine()
        self._here = self.machine.save()
        self.first = self.machine.tick

    def machine_at(self, tick: int) -> Machine:
        """Returns the machine at a tick that isn't below those before. ValueError where the run isn't there."""
        if self.machine.is_lost:
            self.machine = self._task.new_machine()
            self._here = self.machine.save()
        self.machine.restore(self._here)
        if self.machine.tick < tick:
            self.machine.run(tick - self.machine.tick)
            self._here.free()
            self._here = self.machine.save()
        here = self.machine.tick
        if here != tick:
            side = "after the stop" if here < tick else "before the end of `prepare`"
            raise ValueError(f"tick {tick} is {side}, at tick {here}")
        return self.machine


def _do_elsewhere(executor: Executor, task: _Task, parts: Sequence[Part], found: _Found) -> None:
    """Does the chunks by an executor, and takes their outcomes in the order of the chunks. Those that it does in this
    process have ended when this returns or raises: while a thread starts a program, a fork (that of a pool of
    processes) keeps the pipe by which the thread learns that the program has started, and both wait for ever."""
    ended = None if task.is_apart else threading.Event()
    futures = [executor.submit(task, part, ended) for part in parts]
    try:
        for part, future in zip(parts, futures):
            found.take(_outcomes_of(future, part))
    except SweepError as error:
        _end(futures, ended)
        for future in futures:
            if future.done() and not future.cancelled() and future.exception() is None:
                found.keep(future.result())
        error.results = found.results
        raise
    finally:
        _end(futures, ended)


def _end(futures: Sequence[Future[list[_Outcome]]], ended: Optional[threading.Event]) -> None:
    """Takes back the chunks that haven't begun. Ends those of this process after the variant that each is at."""
    begun = [future for future in futures if not future.cancel()]
    if ended is not None:
        ended.set()
        wait(begun)


def _outcomes_of(future: Future[list[_Outcome]], part: Part) -> list[_Outcome]:
    try:
        return future.result()
    except Exception as error:  # the executor's own
        return [_Outcome(*part[0], None, error, True)]


class _Found:
    """The results that were found so far."""

    def __init__(self, count: int, goes_on: bool, progress: Optional[Progress]) -> None:
        self._count = count
        self._goes_on = goes_on
        self._progress = progress
        self._by_number: dict[int, Result] = {}

    @property
    def results(self) -> list[Result]:
        """The results, in the order of the variants."""
        return [self._by_number[number] for number in sorted(self._by_number)]

    def take(self, outcomes: Sequence[_Outcome]) -> None:
        """Takes outcomes, and calls `progress`. Raises the exception among them that ends the sweep, if there is
        one."""
        self.keep(outcomes)
        failed = next((outcome for outcome in outcomes if not self._is_result(outcome)), None)
        if failed is not None:
            self._fail(failed)
        if self._progress is not None:
            new = sorted([outcome.number for outcome in outcomes])
            self._progress(len(self._by_number), self._count, [self._by_number[number] for number in new])

    def keep(self, outcomes: Sequence[_Outcome]) -> None:
        """Keeps the results among outcomes."""
        for outcome in filter(self._is_result, outcomes):
            value = outcome.value if outcome.error is None else _with_frames(outcome)
            self._by_number[outcome.number] = Result(outcome.variant, value)

    def _is_result(self, outcome: _Outcome) -> bool:
        return outcome.error is None or self._goes_on and not outcome.is_of_chunk

    def _fail(self, outcome: _Outcome) -> None:
        error = _with_frames(outcome)
        if outcome.is_of_chunk and not self._by_number:
            raise error
        words = f"{type(error).__name__}: {error}" if str(error) else type(error).__name__
        raise SweepError(outcome.variant, words, self.results) from error


# ---- exceptions ------------------------------------------------------------------------------------------------------


def _without_first_frame(error: Exception) -> Exception:
    """Returns an exception with the traceback of what was called. (Before its version 8 pytest hides no frame of a
    cause.)"""
    frames = error.__traceback__
    return error.with_traceback(frames.tb_next or frames) if frames else error


class _Frames(Exception):
    """The traceback of an exception in another process, as its cause: a text."""

    def __str__(self) -> str:
        return f"\n{self.args[0]}"


def _with_frames(outcome: _Outcome) -> Exception:
    """Returns the exception of an outcome, with the traceback of its process where that is another one."""
    assert outcome.error is not None
    if outcome.frames and outcome.error.__traceback__ is None:
        outcome.error.__cause__ = _Frames(outcome.frames)
    return outcome.error


def _portable(outcome: _Outcome) -> _Outcome:
    """Returns the outcome with a traceback as text, and with another exception where its own can't be pickled."""
    error = outcome.error
    if error is None:
        return outcome
    frames = "".join(traceback.format_exception(type(error), error, error.__traceback__))
    try:
        pickle.loads(pickle.dumps(error))
    except Exception:
        error = RuntimeError(f"{type(error).__name__}: {error}")
    return outcome._replace(error=error, frames=frames)


def _free_frames(error: BaseException) -> None:
    """Clears the local variables of the frames of an exception and of those before it: states that are saved in them
    would keep their slots."""
    seen: set[int] = set()
    left: list[Optional[BaseException]] = [error]
    while left:
        one = left.pop()
        if one is not None and id(one) not in seen:
            seen.add(id(one))
            traceback.clear_frames(one.__traceback__)
            left += [one.__cause__, one.__context__]


def windows(results: Iterable[tuple[int, object]]) -> list[range]:
    """Returns the ranges of neighbouring variants, which rise, whose values are true. ValueError where a value is an
    exception."""
    found: list[range] = []
    for variant, value in results:
        if isinstance(value, Exception):
            raise ValueError(f"variant {variant!r} has no value, but {value!r}") from value
        if value and found and found[-1].stop == variant:
            found[-1] = range(found[-1].start, variant + 1)
        elif value:
            found.append(range(variant, variant + 1))
    return found
