#!/usr/bin/env python3
"""Proves and builds the program marm, as ./marm --prove does: `rt ci` does it, in a room.

    prove.py FOLDER     FOLDER is for the work

The room is a copy of the crates that marm is built on, without their mutations. So the program counts as proved where
CI would pass these crates but for mutations, an edit changes nothing that is being proved, and no other command has to
wait. `rt ci` proves crates side by side, each as soon as those that it uses are done. A kit that keeps each proof on
this computer has a later run, of CI too, take what this one has proved, also where it was stopped or killed. MARM_JOBS
is the most crates that are proved side by side.
"""

import fcntl
import hashlib
import os
import random
import re
import shutil
import signal
import subprocess
import sys
import tempfile
import time

TOP = os.path.dirname(os.path.realpath(__file__))
PROGRAM = "marm"
NOTHING = subprocess.DEVNULL
# What takes back the line that `show` writes on a terminal.
BACK = "\r\033[K" if sys.stderr.isatty() else ""
# What `rt ci` says of a crate once it is done, or can't be.
PROVED = re.compile(r"rt: (\w+) (?:proved|is kept: .*)")
FAILED = re.compile(r"rt: (\w+)(?:: its tests are)? NOT PROVED(?:: .*)?")
WAITS = re.compile(r"rt: \w+(?:: its tests)?: another run on this machine is proving the same; waiting for it")
# Runs `rt ci` so that it keeps its proofs in a folder that is named.
KEEPING = """
import sys
names = {"__name__": "rt", "__file__": sys.argv[1]}
with open(sys.argv[1], encoding="utf-8") as file:
    exec(compile(file.read(), sys.argv[1], "exec"), names)
names["STORE"] = sys.argv[2]
sys.exit(names["main"](["ci"]))
"""


def say(text):
    print(f"{BACK}marm: {text}", file=sys.stderr, flush=True)


# ---- sources ---------------------------------------------------------------------------------------------------------


def read_rows():
    """Returns the lines of crates.txt of marm and of all crates that it is built on, by their names."""
    rows, found = {}, {}
    with open(f"{TOP}/crates.txt", encoding="utf-8") as file:
        for line in file:
            name, _, below = line.partition("#")[0].partition(":")
            if name.strip():
                rows[name.split()[0]] = (line, below.split())

    def visit(name):
        if name in rows and name not in found:
            found[name] = rows[name][0]
            for it in rows[name][1]:
                visit(it)

    visit(PROGRAM)
    return found


def make_room(room, rows):
    """Copies the crates of these lines, without what was built of them, and without their mutations."""
    # (`rt ci` runs at the top of a repository)
    os.mkdir(f"{room}/.git")
    shutil.copy2(f"{TOP}/HANDLES", room)
    with open(f"{room}/crates.txt", "w", encoding="utf-8") as file:
        file.writelines(rows.values())
    for name in rows:
        shutil.copytree(f"{TOP}/crates/{name}", f"{room}/crates/{name}", symlinks=True, ignore=left_out)


def left_out(folder, names):
    return {"out", "must-fail"}.intersection(names) if os.path.dirname(folder) == f"{TOP}/crates" else set()


def sources_of(folder):
    """Returns the sha256 of the sources in a folder that the program is built on."""
    words = [f"{TOP}/marm", "--sources", folder]
    return subprocess.run(words, stdin=NOTHING, capture_output=True, text=True, check=True).stdout.strip()


def sum_of(path):
    with open(path, "rb") as file:
        return hashlib.sha256(file.read()).hexdigest()


# ---- the work --------------------------------------------------------------------------------------------------------


def words_of(folder):
    """Returns the words that run `rt ci`. It keeps its proofs beside the kit: where only others can write there, in the
    folder for the work."""
    rt = os.path.realpath(shutil.which("rt"))
    if not os.access(os.path.dirname(os.path.dirname(os.path.dirname(rt))), os.W_OK):
        with open(rt, encoding="utf-8", errors="replace") as file:
            if "\nSTORE = " in file.read():
                return [sys.executable, "-B", "-c", KEEPING, rt, f"{folder}/kept"]
    return ["rt", "ci"]


def start_in(group):
    """Has a new process join a group, and use no more processors than MARM_JOBS: `rt ci` proves as many crates side by
    side as it may use, or fewer where they need more memory than is free."""
    os.setpgid(0, group)
    most, may = os.environ.get("MARM_JOBS", ""), sorted(os.sched_getaffinity(0))
    if most.isdigit() and 0 < int(most) < len(may):
        os.sched_setaffinity(0, random.sample(may, int(most)))


class Run:
    """A run of `rt ci` in the room, and how far it is."""

    def __init__(self, folder, room, names, lock):
        self.room, self.names = room, names
        self.log = open(f"{folder}/prove.log", "w+", encoding="utf-8", errors="replace")
        self.said = []                     # since a crate was done
        self.done, self.failed = set(), None
        self.began = time.time()
        self.shown = ""
        # It kills what was started, however this process ends. Until then nobody else gets the lock.
        ends, self.held = os.pipe()
        how = {"stdin": ends, "stdout": NOTHING, "stderr": NOTHING, "pass_fds": [lock]}
        self.guard = subprocess.Popen(["sh", "-c", "read _; kill -9 0"], **how, preexec_fn=os.setpgrp)
        os.close(ends)
        with open(self.log.name, "ab") as log:
            how = {"cwd": room, "preexec_fn": lambda: start_in(self.guard.pid)}
            self.process = subprocess.Popen(words_of(folder), **how, stdin=NOTHING, stdout=log, stderr=log)

    def time(self):
        minutes, seconds = divmod(int(time.time() - self.began), 60)
        return f"{minutes} min {seconds:02} s"

    def read(self):
        """Reads the lines that `rt ci` has written since the last call."""
        while not self.failed:
            at, line = self.log.tell(), self.log.readline()
            if not line.endswith("\n"):
                self.log.seek(at)
                return
            self.said.append(line)
            proved, failed = PROVED.fullmatch(line.rstrip()), FAILED.fullmatch(line.rstrip())
            if proved:
                self.done.add(proved[1])
                self.said = []
            elif failed:
                self.failed = failed[1]
            elif WAITS.fullmatch(line.rstrip()):
                say(line.rstrip().partition(": ")[2])

    def show(self):
        """Shows how far it is. `rt ci` makes the folder out of a crate once it begins with it."""
        begun = [it for it in sorted(self.names) if os.path.isdir(f"{self.room}/crates/{it}/out")]
        now = " ".join(it for it in begun if it not in self.done)
        text = f"marm: {len(self.done)} of {len(self.names)} crates proved and built, now: {now}"
        if BACK:
            print(f"{BACK}{text} ({self.time()})", end="", file=sys.stderr, flush=True)
        elif text != self.shown:
            print(f"{text} ({self.time()})", file=sys.stderr, flush=True)
            self.shown = text

    def is_well(self):
        """Waits for the end, or for a crate that can't be proved. Returns whether all are."""
        status = None
        while status is None and not self.failed:
            self.show()
            time.sleep(0.3)
            status = self.process.poll()
            self.read()
        return status == 0 and not self.failed

    def stop(self):
        os.killpg(self.guard.pid, signal.SIGKILL)
        self.process.wait()
        print(BACK, end="", file=sys.stderr, flush=True)


def lock_work(folder):
    """Returns the lock that one run has at a time. Where another has it, waits until that ends, and begins anew."""
    os.makedirs(folder, exist_ok=True)
    lock = os.open(f"{folder}/prove.lock", os.O_CREAT | os.O_RDWR)
    try:
        fcntl.flock(lock, fcntl.LOCK_EX | fcntl.LOCK_NB)
    except BlockingIOError:
        say("another run is proving the program: this one goes on once that has ended")
        fcntl.flock(lock, fcntl.LOCK_EX)
        os.execv(f"{TOP}/marm", [f"{TOP}/marm", "--prove"])
    return lock


def lock_crate(name):
    """Waits until no `rt` works in a crate's folder, and returns what keeps others out until it is closed."""
    held = os.open(f"{TOP}/crates/{name}", os.O_RDONLY)
    try:
        fcntl.flock(held, fcntl.LOCK_EX | fcntl.LOCK_NB)
    except BlockingIOError:
        say(f"waiting for another rt to end, in crates/{name}")
        fcntl.flock(held, fcntl.LOCK_EX)
    return held


def install(room, sources):
    """Puts the program that was built in the room, with its stamp, in the place of another. Returns its path."""
    inside = f"crates/{PROGRAM}/out/{PROGRAM}"
    program = f"{TOP}/{inside}"
    kit = subprocess.run(["rt", "version"], stdin=NOTHING, capture_output=True, text=True, check=True).stdout
    held = lock_crate(PROGRAM)
    os.makedirs(os.path.dirname(program), exist_ok=True)
    shutil.copy2(f"{room}/{inside}", f"{program}.new")
    with open(f"{program}.stamp.new", "w", encoding="utf-8") as stamp:
        stamp.write(f"sources {sources}\nprogram {sum_of(f'{program}.new')}\nproved by --prove with {kit.strip()}\n")
    os.replace(f"{program}.new", program)
    os.replace(f"{program}.stamp.new", f"{program}.stamp")
    os.close(held)
    return program


def prove(folder, lock):
    """Proves and builds the program. Returns the status to end with."""
    say("proving and building the program; from nothing that takes about an hour on 4 cores")
    room, rows = tempfile.mkdtemp(dir=f"{folder}/rooms"), read_rows()
    make_room(room, rows)
    sources = sources_of(room)
    run = Run(folder, room, [*rows], lock)
    try:
        is_well = run.is_well()
    finally:
        run.stop()
    if not is_well:
        sys.stderr.write("".join(run.said))
        say(f"the crate {run.failed} could not be proved" if run.failed else "the program could not be proved or built")
    elif not sources == sources_of(room) == sources_of(TOP):
        say("a source was changed while the program was being proved; the next --prove takes what is kept")
    else:
        say(f"all {len(rows)} crates proved and built in {run.time()}")
        program = install(room, sources)
        print(f"{sum_of(program)}  {program}")
        return 0
    return 1


def main(folder):
    for number in (signal.SIGHUP, signal.SIGINT, signal.SIGTERM):
        signal.signal(number, lambda it, _: sys.exit(128 + it))
    unwritable = first_unwritable(folder)
    if unwritable:
        say(f"the folder {unwritable} can't be written, so nothing can be proved here")
        return 1
    lock, rooms = lock_work(folder), f"{folder}/rooms"
    # (what a run that was killed has left)
    shutil.rmtree(rooms, ignore_errors=True)
    os.makedirs(rooms, exist_ok=True)
    try:
        return prove(folder, lock)
    finally:
        shutil.rmtree(rooms, ignore_errors=True)


def first_unwritable(folder):
    """Returns a folder that the work needs and that can't be written, if there is one."""
    while not os.path.exists(folder):
        folder = os.path.dirname(folder)
    return next((it for it in (folder, f"{TOP}/crates/{PROGRAM}") if not os.access(it, os.W_OK | os.X_OK)), None)


if __name__ == "__main__":
    try:
        sys.exit(main(sys.argv[1]))
    except OSError as error:
        say(f"the program can't be proved: {error.filename or 'the system'}: {error.strerror}")
        sys.exit(1)
