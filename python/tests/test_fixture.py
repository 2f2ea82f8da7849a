"""The fixture of pytest. Without pytest these tests are skipped."""

from __future__ import annotations

import hashlib
import importlib
import os
import pkgutil
import re
import shutil
import sys
import unittest
from importlib.util import find_spec
from pathlib import Path
from typing import Any, Callable
from xml.etree import ElementTree

try:
    import pytest
except ImportError as error:
    raise unittest.SkipTest("pytest isn't installed") from error

import marm

from .support import PACKAGE

pytest_plugins = "pytester"
TOY = PACKAGE / "tests" / "toy.py"
WORKERS: list[list[str]] = [[], *([["-n", "2"]] if find_spec("xdist") else [])]  # without them and with them

FAILING = """
from tests.support import FUNCTION, image_with

IMAGE = image_with(("task_c", 0x1A1, 0x40, FUNCTION, 1))

def test_it(marm_machine):
    m = marm_machine(IMAGE, "none.toml")
    m.run(100)
    assert m.console == b"?"

def test_lost(marm_machine):
    m = marm_machine(b"", "none.toml")
    m.close()
    assert False

def test_two(marm_machine):
    one, two = marm_machine(b"", "none.toml"), marm_machine(b"", "none.toml")
    one.run(5)
    assert two.tick == 0
"""

OTHER_FAILURES = """
import pytest

@pytest.fixture
def started(marm_machine):
    m = marm_machine("no-such.elf", "none.toml")
    m.run_to([], 40)

def test_in_a_fixture(started):
    pass

def test_without_a_traceback(marm_machine):
    marm_machine(b"", "none.toml").run(22)
    pytest.fail("no frames", pytrace=False)
"""

CALLS_THAT_FAIL = """
import marm

def test_read(marm_machine):
    m = marm_machine(b"", "none.toml")
    m.read(
        "no_symbol", 4)

def test_walk(marm_machine):
    for event in marm_machine(b"", "none.toml").trace(trace="none"):
        pass

def test_batch(marm_machine):
    with marm_machine(b"", "none.toml").batch() as batch:
        batch.pulse(7)

def test_place(marm_machine):
    with marm_machine(b"", "none.toml").saved() as saved:
        marm_machine(b"", "none.toml").restore(saved)

def fails(m, variant):
    return 1 // variant

def test_sweep():
    marm.sweep(fails, [1, 0], image=b"", board="none.toml")
"""

LEFT_OPEN = """
import gc, os, pytest

gc.disable()
machines, folder = [], None

def test_makes(marm_machine):
    global folder
    machines.extend([marm_machine(b"image", "none.toml"), marm_machine(b"", "none.toml")])
    assert [m.is_lost for m in machines] == [False, False]

def test_closed():
    assert [m.is_lost for m in machines] == [True, True]
    for m in machines:
        with pytest.raises(ProcessLookupError):
            os.kill(m.process_id, 0)

def test_fails(marm_machine):
    machines[:] = [marm_machine(b"", "none.toml")]
    assert False

def test_closed_after_a_failure():
    assert [m.is_lost for m in machines] == [True]
"""


WITHOUT_THE_FIXTURE = """
import multiprocessing
from concurrent.futures import ProcessPoolExecutor
import marm

def tick_of(variant):
    return variant

def tick(m, variant):
    return m.tick

def test_machine(monkeypatch):
    monkeypatch.chdir("/")
    with marm.Machine(b"", "none.toml") as m:
        assert m.run(5).tick == 5

def test_sweep():
    assert marm.sweep(tick, [3, 2], image=b"", board="none.toml", at=tick_of) == [(3, 3), (2, 2)]

def test_processes():
    with ProcessPoolExecutor(2, multiprocessing.get_context("spawn")) as pool:
        assert marm.sweep(tick, [3, 2], image=b"", board="none.toml", at=tick_of, executor=pool) == [(3, 3), (2, 2)]
"""


@pytest.fixture
def run(pytester: pytest.Pytester, monkeypatch: pytest.MonkeyPatch) -> Callable[..., Any]:
    """Runs a file of tests in a pytest of its own."""

    def run_file(text: str, *options: str) -> Any:
        pytester.makepyfile(text)
        monkeypatch.setenv("PYTHONPATH", str(PACKAGE))
        return pytester.runpytest_subprocess("-p", "marm.pytest_plugin", *options)

    return run_file


def test_the_report_of_a_failure(run: Callable[..., Any]) -> None:
    result = run(FAILING, "--marm", str(TOY))
    result.assert_outcomes(passed=1, failed=2)
    result.stdout.fnmatch_lines(
        ["*machine 0*", "*at tick 100, pc *", "PC is in task_c + 0x28", "r0=00000064 *", "console: abcdefghi"])
    result.stdout.fnmatch_lines(["*the machine is lost: the machine is closed*"])


def failures_of(path: Path) -> list[str]:
    """Returns the texts of the failures and errors of a JUnit file, in their order."""
    nodes = ElementTree.parse(path).iter()
    return [node.text or "" for node in nodes if node.tag in ("failure", "error")]


def test_the_junit_file(run: Callable[..., Any], pytester: pytest.Pytester) -> None:
    """The symbol at PC, the registers and the console are in it too, with the workers of pytest-xdist as well."""
    for options in WORKERS:
        run(FAILING, f"--marm={TOY}", "--junitxml=out.xml", *options).assert_outcomes(passed=1, failed=2)
        texts = failures_of(pytester.path / "out.xml")
        sections = [text.partition(" machine 0 ")[2].splitlines()[1:5] for text in texts]
        lost, (machine, place, registers, console) = sorted(sections, key=len)
        assert machine == "<marm.Machine at tick 100, pc 000001C8, Instruction>"
        assert place == "PC is in task_c + 0x28"
        assert registers.startswith("r0=00000064 r1=00000009 ") and " pc=000001C8 " in registers
        assert (console, lost) == ("console: abcdefghi", ["the machine is lost: the machine is closed"])


def test_other_failures(run: Callable[..., Any], pytester: pytest.Pytester) -> None:
    """One in a fixture of the test's own has the machines too, and so has one without a traceback."""
    result = run(OTHER_FAILURES, f"--marm={TOY}", "--junitxml=out.xml")
    result.assert_outcomes(errors=1, failed=1)
    result.stdout.fnmatch_lines(["*machine 0*", "*at tick 40, pc *", "PC is in an image that can't be read: *"])
    result.stdout.fnmatch_lines(
        ["no frames", "*machine 0*", "*at tick 22, pc *", "PC is in no symbol", "r0=00000016 *"])
    texts = failures_of(pytester.path / "out.xml")
    assert [" machine 0 " in text and "console: " in text for text in texts] == [True, True]


def test_machines_are_closed(run: Callable[..., Any]) -> None:
    """After their test, also where it fails and where something refers to them."""
    run(LEFT_OPEN, f"--marm={TOY}").assert_outcomes(passed=3, failed=1)


def test_frames_of_the_package(run: Callable[..., Any]) -> None:
    """A traceback ends in the test, and has its lines alone; of a sweep it has the function's too."""
    result = run(CALLS_THAT_FAIL, f"--marm={TOY}", "--show-capture=no")
    result.assert_outcomes(failed=5)
    assert [line for line in result.stdout.lines if line.startswith(str(PACKAGE / "marm"))] == []
    files = [line.split(":")[0] for line in result.stdout.lines if re.match(r"[\w./-]+\.py:\d+: ", line)]
    assert len(files) >= 6 and set(files) == {"test_frames_of_the_package.py"}
    result.stdout.fnmatch_lines([">*m.read(", "E*KeyError: \"the image has no symbol 'no_symbol'\""])
    result.stdout.fnmatch_lines([">*return 1 // variant", "E*SweepError: variant 0: ZeroDivisionError: *"])


def test_each_module_hides_its_frames() -> None:
    for found in pkgutil.iter_modules(marm.__path__):
        assert importlib.import_module(f"marm.{found.name}").__tracebackhide__ is True, found.name


def test_the_head_and_the_property(run: Callable[..., Any], pytester: pytest.Pytester) -> None:
    """Both say which program answers."""
    text = f"{TOY}: marm toy, sha256 {hashlib.sha256(TOY.read_bytes()).hexdigest()}, not proved"
    for options in WORKERS:
        result = run("def test_it(): pass", f"--marm={TOY}", "--junitxml=out.xml", *options)
        result.assert_outcomes(passed=1)
        result.stdout.fnmatch_lines([f"marm: {text}"])
        properties = ElementTree.parse(pytester.path / "out.xml").iter("property")
        assert [(node.get("name"), node.get("value")) for node in properties] == [("marm", text)]


def test_the_head_without_a_program(run: Callable[..., Any], monkeypatch: pytest.MonkeyPatch) -> None:
    """It names the program that isn't there; where none is named it says nothing."""
    result = run("def test_it(): pass", "--marm", "no-such-program")
    result.stdout.fnmatch_lines(["marm: there is no program 'no-such-program', which MARM (or --marm) names"])
    monkeypatch.delenv("MARM", raising=False)
    monkeypatch.setenv("PATH", os.path.dirname(sys.executable))
    if not shutil.which("marm"):
        run("def test_it(): pass").stdout.no_fnmatch_line("marm: *")


def test_workers(run: Callable[..., Any]) -> None:
    """The report comes out of the workers of pytest-xdist too."""
    pytest.importorskip("xdist")
    result = run(FAILING, "--marm", str(TOY), "-n", "2")
    result.assert_outcomes(passed=1, failed=2)
    result.stdout.fnmatch_lines(["*machine 0*", "PC is in task_c + 0x28", "r0=*", "console: abcdefghi"])


def test_no_program(run: Callable[..., Any], monkeypatch: pytest.MonkeyPatch) -> None:
    """One that is named has to be there, by --marm or by MARM."""
    result = run(FAILING, "--marm", "no-such-program")
    result.assert_outcomes(failed=3)
    result.stdout.fnmatch_lines(["*NoProgram*"])
    monkeypatch.setenv("MARM", "no-such-program")
    result = run(FAILING)
    result.assert_outcomes(failed=3)
    result.stdout.fnmatch_lines(["*NoProgram*no-such-program*, which MARM (or --marm) names*"])


def test_nothing_names_a_program(run: Callable[..., Any], monkeypatch: pytest.MonkeyPatch) -> None:
    """Then the test is skipped, where none is on PATH."""
    monkeypatch.delenv("MARM", raising=False)
    monkeypatch.setenv("PATH", os.path.dirname(sys.executable))
    if shutil.which("marm"):
        pytest.skip("marm is beside the interpreter")
    run(FAILING).assert_outcomes(skipped=3)


def test_all_take_the_program_of_the_option(run: Callable[..., Any], monkeypatch: pytest.MonkeyPatch) -> None:
    """Machines and sweeps that are made without the fixture too, in other processes and folders too."""
    monkeypatch.setenv("MARM", "no-such-program")
    result = run(WITHOUT_THE_FIXTURE, "--marm", os.path.relpath(TOY))
    result.assert_outcomes(passed=3)
    monkeypatch.setenv("MARM", str(TOY))
    result = run(WITHOUT_THE_FIXTURE, "--marm", "no-such-program")
    result.assert_outcomes(failed=3)
    result = run(WITHOUT_THE_FIXTURE)
    result.assert_outcomes(passed=3)


def test_the_environment_comes_back(pytester: pytest.Pytester, monkeypatch: pytest.MonkeyPatch) -> None:
    """After the run MARM is what it was."""
    monkeypatch.setenv("MARM", "before")
    pytester.makepyfile("import os\ndef test_it(): assert os.environ['MARM'] == 'during'")
    pytester.runpytest_inprocess("-p", "marm.pytest_plugin", "--marm", "during").assert_outcomes(passed=1)
    assert os.environ["MARM"] == "before"


def test_errors_are_marms() -> None:
    assert issubclass(marm.NoProgram, marm.MarmError)
