"""Which program answers: its file, its version, its sha256, and whether it is proved."""

from __future__ import annotations

import hashlib
import os
import shutil
import subprocess
from typing import NamedTuple, Optional, Sequence

from .wire import Program, find_program

__tracebackhide__ = True  # pytest shows no frame of the package

WAIT = 10.0  # seconds: longer, where the program has to be built first
UNPROVED = (".git/marm-work/unproved/marm", ".building/unproved/marm")  # where the repository's script keeps that build
BUILT = "/crates/marm/out/marm"  # where the repository has the proved program
PACKED = "../share/doc/marm/PROVED"  # what a package says of its program, seen from there


class ProgramInfo(NamedTuple):
    """A program: the file that answers, what it says of its version, with the commit where that is known ("" where it
    says nothing), the sha256 of the file, and whether a record says that it is proved: None where there is no record
    of this file."""

    path: str
    version: str
    sha256: str
    proved: Optional[bool]

    def __str__(self) -> str:
        proved = {True: "proved", False: "not proved", None: "no record that it is proved"}[self.proved]
        return f"{self.path}: {self.version or 'no version'}, sha256 {self.sha256}, {proved}"


def program_info(program: Program = None) -> ProgramInfo:
    """Returns which program answers where `program` is named so, or by default the environment's MARM or `marm` on
    PATH. NoProgram where it isn't there.

    A record is the stamp that the repository's script leaves beside a program, the script's `--proved`, or the file
    PROVED of a package, as long as it has this file's sha256."""
    command = find_program(program)
    path = os.path.realpath(shutil.which(command[0]) or command[0])
    with open(path, "rb") as file:
        is_script = file.read(2) == b"#!"
    return _info_of_script(command, path) if is_script else _info_of_file(command, path)


def _info_of_script(command: Sequence[str], path: str) -> ProgramInfo:
    """A script runs the proved program, or else a build without proofs."""
    proved = _words_of([*command, "--proved"])
    if os.path.isfile(proved):
        return ProgramInfo(proved, _words_of([*command, "--version"]), _sum_of(proved), True)
    builds = [os.path.join(os.path.dirname(path), name) for name in UNPROVED]
    build = next(filter(os.path.isfile, builds), path)
    return ProgramInfo(build, _words_of([*command, "--version"]), _sum_of(build), False)


def _info_of_file(command: Sequence[str], path: str) -> ProgramInfo:
    version, own_sum = _words_of([*command, "--version"]), _sum_of(path)
    stamp, packed = _record(path + ".stamp"), _record(os.path.join(os.path.dirname(path), PACKED))
    if stamp.get("program") == own_sum:
        script = path[:-len(BUILT)] + "/marm"
        if path.endswith(BUILT) and _words_of([script, "--proved"]) == path:
            version = _words_of([script, "--version"]) or version  # with the commit of its sources
        return ProgramInfo(path, version, own_sum, "proved" in stamp)
    if packed.get("sha256") == own_sum:
        if "commit" in packed and not version.endswith(")"):
            version += f" ({packed['commit'][:8]})"
        return ProgramInfo(path, version, own_sum, "proved" in packed)
    return ProgramInfo(path, version, own_sum, None)


def _words_of(command: Sequence[str]) -> str:
    """Returns the first line that a command writes; nothing where it fails, or takes longer than some seconds."""
    try:
        process = subprocess.Popen(
            command, stdin=subprocess.DEVNULL, stdout=subprocess.PIPE, stderr=subprocess.DEVNULL
        )
    except OSError:
        return ""
    try:
        output, _ = process.communicate(timeout=WAIT)
    except subprocess.TimeoutExpired:
        process.terminate()  # (the script ends what it has begun)
        try:
            output, _ = process.communicate(timeout=WAIT)
        except subprocess.TimeoutExpired:
            process.kill()
            output, _ = process.communicate()
    lines = output.decode("utf-8", "replace").splitlines()
    return lines[0] if lines and process.returncode == 0 else ""


def _sum_of(path: str) -> str:
    with open(path, "rb") as file:
        return hashlib.sha256(file.read()).hexdigest()


def _record(path: str) -> dict[str, str]:
    """Returns the lines of a record by their first words; none where it can't be read."""
    try:
        with open(path, encoding="utf-8", errors="replace") as file:
            lines = [line.split(None, 1) for line in file]
    except OSError:
        return {}
    return {words[0]: words[1].strip() for words in lines if len(words) == 2}
