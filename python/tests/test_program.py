"""Which program answers: files, scripts and records of some that are none."""

from __future__ import annotations

import hashlib
import os
import shutil
import stat
import subprocess
import tempfile
import time
import unittest
from pathlib import Path
from unittest import mock

import marm

from .support import needs_program

# A script as `./marm`: it names the proved program, or fails.
SCRIPT = """#!/bin/sh
case $1 in
--proved) {proved} ;;
--version) {version} ;;
*) exit 2 ;;
esac
"""


def sum_of(path: Path) -> str:
    return hashlib.sha256(path.read_bytes()).hexdigest()


class Programs(unittest.TestCase):
    def setUp(self) -> None:
        folder = tempfile.TemporaryDirectory()
        self.addCleanup(folder.cleanup)
        self.top = Path(folder.name).resolve()

    def program(self, name: str) -> Path:
        """Returns a file that is no script, and answers `--version`."""
        path = self.file(name, "")
        shutil.copyfile(os.path.realpath("/bin/echo"), path)
        self.version = subprocess.run([path, "--version"], stdout=subprocess.PIPE, text=True).stdout.split("\n")[0]
        return path

    def script(self, name: str, proved: str, version: str) -> Path:
        return self.file(name, SCRIPT.format(proved=proved, version=version))

    def file(self, name: str, text: str) -> Path:
        path = self.top / name
        path.parent.mkdir(parents=True, exist_ok=True)
        path.write_text(text)
        path.chmod(path.stat().st_mode | stat.S_IXUSR)
        return path

    def info(self, path: Path) -> marm.ProgramInfo:
        return marm.program_info(str(path))

    def test_a_file_without_a_record(self) -> None:
        path = self.program("marm")
        info = self.info(path)
        self.assertEqual(info, (str(path), self.version, sum_of(path), None))
        self.assertEqual(str(info), f"{path}: {self.version}, sha256 {sum_of(path)}, no record that it is proved")

    def test_a_stamp(self) -> None:
        """It counts as long as it has the file's sum, and the line of what proved it."""
        path = self.program("marm")
        for program, rest, proved in (
            (sum_of(path), "proved by kit-1\n", True), (sum_of(path), "", False), ("0" * 64, "proved by kit-1\n", None),
        ):
            self.file("marm.stamp", f"sources {'1' * 64}\nprogram {program}\n{rest}")
            self.assertEqual(self.info(path).proved, proved)

    def test_the_record_of_a_package(self) -> None:
        """It has the commit too."""
        path = self.program("bin/marm")
        for program, more, proved in ((sum_of(path), " (0123abcd)", True), ("0" * 64, "", None)):
            self.file("share/doc/marm/PROVED", f"marm 7.0 for x86-64 Linux\n\nprogram        bin/marm\n"
                      f"sha256         {program}\nproved by      kit-1\ncommit         0123abcdef\n")
            self.assertEqual(self.info(path)[1:], (self.version + more, sum_of(path), proved))

    def test_a_script_of_a_proved_program(self) -> None:
        """The program that it runs is the one that answers; so it is where that is named itself."""
        path = self.program("crates/marm/out/marm")
        script = self.script("marm", f"echo '{path}'", "echo 'marm 7.0 (0123abcd)'")
        proved = (str(path), "marm 7.0 (0123abcd)", sum_of(path), True)
        self.assertEqual(self.info(script), proved)
        self.assertTrue(str(self.info(script)).endswith(", proved"))
        self.file("crates/marm/out/marm.stamp", f"sources 1\nprogram {sum_of(path)}\nproved by kit-1\n")
        self.assertEqual(self.info(path), proved)
        self.script("marm", "exit 1", "echo 'marm 8.0 (89abcdef)'")  # the sources have changed since
        self.assertEqual(self.info(path), (str(path), self.version, sum_of(path), True))

    def test_a_script_without_a_proved_program(self) -> None:
        script = self.script("marm", "exit 1", "echo 'marm 7.0 (0123abcd+)'")
        self.assertEqual(self.info(script), (str(script), "marm 7.0 (0123abcd+)", sum_of(script), False))
        for name in (".building/unproved/marm", ".git/marm-work/unproved/marm"):
            build = self.program(name)
            info = self.info(script)
            self.assertEqual(info, (str(build), "marm 7.0 (0123abcd+)", sum_of(build), False))
        self.assertTrue(str(info).endswith(", not proved"))

    def test_one_that_gives_no_version(self) -> None:
        """It fails, or takes its time, as one that is built first."""
        for version in ("echo 'marm 7.0'; exit 125", "echo 'marm 7.0'; exec sleep 60"):
            script = self.script("marm", "exit 1", version)
            begun = time.monotonic()
            with mock.patch("marm.program.WAIT", 0.5):
                self.assertEqual(str(self.info(script)), f"{script}: no version, sha256 {sum_of(script)}, not proved")
            self.assertLess(time.monotonic() - begun, 20)

    def test_where_it_is_looked_for(self) -> None:
        """By the environment's MARM, or on PATH; a link names its file."""
        path = self.program("other/marm")
        link = self.top / "marm"
        link.symlink_to(path)
        with mock.patch.dict(os.environ, MARM=str(link)):
            self.assertEqual(marm.program_info().path, str(path))
        with mock.patch.dict(os.environ, PATH=f"{self.top}:{os.environ['PATH']}"):
            os.environ.pop("MARM", None)
            self.assertEqual(marm.program_info().path, str(path))
        with self.assertRaises(marm.NoProgram):
            marm.program_info("no-such-program")


@needs_program
class Program(unittest.TestCase):
    def test_the_program(self) -> None:
        """It says its version, and the sum is that of a file."""
        info = marm.program_info()
        self.assertRegex(info.version, r"^marm \d+\.\d+")
        self.assertEqual(info.sha256, sum_of(Path(info.path)))


if __name__ == "__main__":
    unittest.main()
