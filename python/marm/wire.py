"""The program as a process, and the exchange of commands and answers with it. No other module knows of pipes."""

from __future__ import annotations

import os
import select
import shutil
import subprocess
import tempfile
import threading
import time
import weakref
from typing import IO, NamedTuple, NoReturn, Optional, Sequence, Union

from .errors import Dead, Hung, MarmError, NoProgram, ProtocolError, StartError

__tracebackhide__ = True  # pytest shows no frame of the package

VERSION = 1
READ_SIZE = 1 << 16
LONGEST_ANSWER = 1 << 28  # in bytes: of the calls' answers only that of a batch's run with all lines may come near it

Program = Union[str, Sequence[str], None]


class Answer(NamedTuple):
    """The lines of an answer, and its end line without `= `."""

    lines: list[str]
    end: str


def find_program(program: Program) -> list[str]:
    """Returns the command that starts marm: `program`, or the environment's MARM, or `marm` on PATH. NoProgram where it
    isn't there or isn't executable."""
    named = os.environ.get("MARM") if program is None else ""
    if program is None:
        program = named or "marm"
    command = [program] if isinstance(program, str) else [os.fspath(word) for word in program]
    if not command or shutil.which(command[0]) is None:
        advice = ", which MARM (or --marm) names" if named else ": set MARM, or pass `program`"
        raise NoProgram(f"there is no program {command[0] if command else ''!r}{advice}")
    return command


def run_to_end(
    command: Sequence[str], board: Union[str, bytes], image: Union[str, bytes], timeout: float
) -> tuple[int, str, str]:
    """Runs a command of the program to its end, and returns its status, its output and its messages. Hung where it
    takes longer than `timeout` seconds. `board` and `image` are paths, or contents as bytes."""
    files = _Files()
    try:
        paths = ["--board", files.path_of(board, ".toml"), files.path_of(image, ".elf")]
        ended = subprocess.run([*command, *paths], stdin=subprocess.DEVNULL, capture_output=True, timeout=timeout)
    except subprocess.TimeoutExpired:
        raise Hung(timeout, " ".join(command)) from None
    finally:
        files.remove()
    return ended.returncode, ended.stdout.decode("utf-8", "replace"), ended.stderr.decode("utf-8", "replace")


class Wire:
    """A session of the program. Every failure ends the process, and every later exchange raises the same error.

    `board` and `image` are paths, or contents as bytes. `timeout` is in seconds, for each answer."""

    def __init__(
        self, command: Sequence[str], board: Union[str, bytes], image: Union[str, bytes], timeout: float
    ) -> None:
        self.timeout = timeout
        self.failed: Optional[Exception] = None
        self._has_answered = False
        self._rest = b""  # the beginning of a line
        self._lines: list[str] = []  # of the answer that is arriving
        self._arrived = 0  # its bytes
        self._lock = threading.Lock()
        self._owner = os.getpid()
        self._files = _Files()
        self._messages: IO[bytes] = tempfile.TemporaryFile()  # standard error; a pipe might fill up
        try:
            board, image = self._files.path_of(board, ".toml"), self._files.path_of(image, ".elf")
            # in a session of its own, so that ^C at a terminal doesn't reach it
            self._process = subprocess.Popen(
                [*command, "--board", board, image], stdin=subprocess.PIPE, stdout=subprocess.PIPE,
                stderr=self._messages, bufsize=0, start_new_session=True,
            )
        except BaseException:
            self._files.remove()
            self._messages.close()
            raise
        self.close = weakref.finalize(self, _end, self._process, self._messages, self._files, self._owner)
        assert self._process.stdin and self._process.stdout
        self._in = self._process.stdin.fileno()
        self._out = self._process.stdout.fileno()
        os.set_blocking(self._in, False)
        self._reader = select.poll()
        self._reader.register(self._out, select.POLLIN)
        self._both = select.poll()
        self._both.register(self._out, select.POLLIN)
        self._both.register(self._in, select.POLLOUT)

    @property
    def process_id(self) -> int:
        """The number of the process."""
        return self._process.pid

    @property
    def is_lost(self) -> bool:
        """Whether the session has failed, or is closed."""
        return self.failed is not None or not self.close.alive

    def exchange(self, commands: Sequence[str]) -> list[Answer]:
        """Sends the commands at once and returns their answers. The program answers while commands wait in the pipe, so
        their number isn't bounded."""
        self.check()
        if not self._lock.acquire(blocking=False):
            raise ValueError("another thread is using the machine: make one for each thread")
        try:
            return self._exchange(commands)
        except BaseException as error:
            if self.failed is None:
                self._fail(error if isinstance(error, MarmError) else Dead(-1, "its answer was broken off"))
            raise
        finally:
            self._lock.release()

    def check(self) -> None:
        """Raises the error that ended the session, if one did, and ValueError where it is closed or is another
        process's."""
        if self.failed is not None:
            raise self.failed
        if not self.close.alive:
            raise ValueError("the machine is closed")
        if os.getpid() != self._owner:
            raise ValueError("a fork of its process can't use a machine: make one there")

    def fail(self, error: MarmError) -> NoReturn:
        """Ends the session by this error."""
        self._fail(error)
        raise error

    def _fail(self, error: Exception) -> None:
        self.failed = error
        self._process.kill()
        self.close()

    def _exchange(self, commands: Sequence[str]) -> list[Answer]:
        waiting = self._write(("\n".join(commands) + "\n").encode())
        count = len(commands)
        answers: list[Answer] = []
        deadline = time.monotonic() + self.timeout
        while len(answers) < count:
            poll = self._both if waiting else self._reader
            has_answer = False
            for descriptor, _ in poll.poll(max(0.0, deadline - time.monotonic()) * 1000):
                if descriptor == self._in:
                    waiting = self._write(waiting)
                else:
                    has_answer = self._read(answers)
            now = time.monotonic()
            if has_answer:
                deadline = now + self.timeout
            elif now >= deadline:
                self.fail(Hung(self.timeout, commands[len(answers)]))
        if len(answers) > count or self._lines or self._rest:
            self.fail(ProtocolError("the program answered more than it was asked"))
        return answers

    def _write(self, data: bytes) -> bytes:
        """Writes what goes without waiting, and returns the rest."""
        try:
            return data[os.write(self._in, data):]
        except BlockingIOError:
            return data
        except BrokenPipeError:
            return b""  # the reader sees the end of the program

    def _read(self, answers: list[Answer]) -> bool:
        """Reads what is there, appends the answers that it ends, and returns whether there is one."""
        data = os.read(self._out, READ_SIZE)
        if not data:
            self.fail(self._ended())
        self._arrived += len(data)
        if self._rest:
            data = self._rest + data
        whole, feed, self._rest = data.rpartition(b"\n")
        if not feed:
            if len(data) > READ_SIZE:
                self.fail(ProtocolError("a line has no end"))
            return False
        before = len(answers)
        for line in whole.decode("ascii", "replace").split("\n"):
            if line[:2] == "= ":
                answers.append(Answer(self._lines, line[2:]))
                self._lines = []
            else:
                self._lines.append(line)
        if not self._has_answered:
            self._check_start(answers)
        has_answer = len(answers) > before
        if has_answer:
            self._arrived = 0
        elif self._arrived > LONGEST_ANSWER:
            self.fail(ProtocolError(f"an answer has more than {LONGEST_ANSWER} bytes"))
        return has_answer

    def _check_start(self, answers: list[Answer]) -> None:
        """A program without scripts answers an error, and no end line follows."""
        if not answers and self._lines[0].startswith("error"):
            self.fail(ProtocolError(f"this marm doesn't know version {VERSION} of scripts: {self._lines[0]}"))
        self._has_answered = bool(answers)
        if answers:
            self._files.remove()

    def _ended(self) -> MarmError:
        """The error of a program that closed its output."""
        try:
            status = self._process.wait(1.0)
        except subprocess.TimeoutExpired:
            self._process.kill()
            status = self._process.wait()
        self._messages.seek(0)
        message = self._messages.read(READ_SIZE).decode("utf-8", "replace")
        return Dead(status, message) if self._has_answered else StartError(status, message)


class _Files:
    """Temporary files, which are removed once the program has read them."""

    def __init__(self) -> None:
        self._paths: list[str] = []

    def path_of(self, file: Union[str, bytes], suffix: str) -> str:
        if isinstance(file, str):
            return file
        handle, path = tempfile.mkstemp(suffix, "marm-")
        self._paths.append(path)
        with os.fdopen(handle, "wb") as it:
            it.write(file)
        return path

    def remove(self) -> None:
        while self._paths:
            try:
                os.unlink(self._paths.pop())
            except OSError:
                pass


def _end(process: subprocess.Popen[bytes], messages: IO[bytes], files: _Files, owner: int) -> None:
    """Ends the process: the end of its input does, and otherwise it is killed. A fork of the owner leaves it alone."""
    if os.getpid() != owner:
        return
    for pipe in (process.stdin, process.stdout):
        if pipe:
            pipe.close()
    try:
        process.wait(0.2)
    except subprocess.TimeoutExpired:
        process.kill()
        process.wait()
    messages.close()
    files.remove()
