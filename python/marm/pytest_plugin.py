"""The fixture `marm_machine` of pytest.

    def test_it(marm_machine):
        m = marm_machine("firmware.elf", "board.toml")

Its machines are closed after the test. Where the test fails, the report and the JUnit file have, of each, the symbol at
PC, the registers and the end of the console. The head of the run, and a property of the JUnit file, say which program
answers. With pytest-xdist each worker has its own machines. The option --marm stands for the environment's MARM."""

from __future__ import annotations

import os
from typing import Any, Callable, Iterator, Optional, Union

import pytest

from .boards import Board, Path
from .errors import MarmError, NoProgram
from .machine import Image, Machine
from .program import program_info
from .wire import find_program

__tracebackhide__ = True  # pytest shows no frame of the package

CONSOLE_BYTES = 2000
MACHINES: pytest.StashKey[list[Machine]] = pytest.StashKey()
PROGRAM: pytest.StashKey[str] = pytest.StashKey()  # what is said of the program, "" where there is none


def pytest_addoption(parser: pytest.Parser) -> None:
    """Adds the option --marm."""
    help_text = "the program marm (otherwise the environment's MARM, or marm on PATH)"
    parser.getgroup("marm").addoption("--marm", metavar="PROGRAM", help=help_text)


def pytest_configure(config: pytest.Config) -> None:
    """Names the program of --marm in the environment, for each Machine and sweep of this run and of its processes."""
    program = config.getoption("--marm", None)
    if program is None:
        return
    patch = pytest.MonkeyPatch()
    patch.setenv("MARM", os.path.abspath(program) if os.path.dirname(program) else program)
    config.add_cleanup(patch.undo)


def pytest_report_header(config: pytest.Config) -> Optional[str]:
    """Returns the line about the program, where there is one."""
    about = _about(config)
    return f"marm: {about}" if about else None


def pytest_sessionstart(session: pytest.Session) -> None:
    """Gives the JUnit file, where one is written, the property `marm`: the line about the program."""
    for plugin in session.config.pluginmanager.get_plugins():
        add = getattr(plugin, "add_global_property", None)  # that of the JUnit file; a worker of xdist writes none
        about = _about(session.config) if add else ""
        if add and about:
            add("marm", about)


def _about(config: pytest.Config) -> str:
    if PROGRAM not in config.stash:
        try:
            config.stash[PROGRAM] = str(program_info())
        except NoProgram as error:
            config.stash[PROGRAM] = str(error) if os.environ.get("MARM") else ""
        except OSError as error:
            config.stash[PROGRAM] = str(error)
    return config.stash[PROGRAM]


@pytest.fixture
def marm_machine(request: pytest.FixtureRequest) -> Iterator[Callable[..., Machine]]:
    """Returns a function that makes a machine, with the arguments of marm.Machine. The test is skipped where nothing
    names a program, and none is on PATH."""
    machines: list[Machine] = []
    request.node.stash[MACHINES] = machines

    def make(image: Image, board: Union[Board, Path], **options: Any) -> Machine:
        program = options.get("program")
        try:
            find_program(program)
        except NoProgram as error:
            if program is not None or os.environ.get("MARM"):
                raise
            pytest.skip(str(error))
        machine = Machine(image, board, **options)
        machines.append(machine)
        return machine

    yield make
    for machine in machines:
        machine.close()


def _report(item: pytest.Item, call: pytest.CallInfo[None]) -> Iterator[Any]:
    """Adds what the test's machines are like to the report of its failure."""
    outcome: Any = yield
    report = outcome.get_result()
    if report.when == "teardown" or not report.failed:
        return  # (after the teardown all machines are closed)
    add_section = getattr(report.longrepr, "addsection", None)  # to the traceback, which the JUnit file has too
    machines = item.stash[MACHINES] if MACHINES in item.stash else []
    for number, machine in enumerate(machines):
        section = (f"machine {number}", _text_of(machine))
        if add_section:
            add_section(*section)
        else:
            report.sections.append(section)


def _text_of(machine: Machine) -> str:
    """Returns where a machine is, its registers, and the end of its console."""
    try:
        console = machine.console[-CONSOLE_BYTES:].decode("utf-8", "replace")
        return f"{machine!r}\nPC is in {_symbol_of(machine)}\n{machine.regs!r}\nconsole: {console}"
    except (MarmError, ValueError) as error:
        return f"the machine is lost: {error}"


def _symbol_of(machine: Machine) -> str:
    try:
        return machine.symbol_at(machine.pc) or "no symbol"
    except OSError as error:
        return f"an image that can't be read: {error}"


pytest_runtest_makereport: Any = pytest.hookimpl(hookwrapper=True)(_report)
