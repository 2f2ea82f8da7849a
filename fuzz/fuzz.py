"""Tries images, boards, sessions and arguments on the proved program, until the time is over, and prints how many of
each, the first lines of the answers, and each answer that isn't as rules.py wants it."""

import collections
import multiprocessing
import os
import random
import shlex
import sys
import time

import boards
import bounds
import corpus
import images
import packets
import rules
import sessions
from programs import answer_of, written

MARM, SLOW, TOP, FOLDER, SEED = sys.argv[1:6]
SECONDS, JOBS, FIRST = (int(word) for word in sys.argv[6:9])

STEPS = [0, 1, 10, 100, 100, 300, 1000, 1000, 10_000]

# How many of a hundred cases are of each kind.
KINDS = {"image": 30, "board": 27, "both": 5, "session": 20, "arguments": 5, "tasks": 4, "page": 3, "gdb": 6}

# What each answer has to be: where nothing is named, that of a run.
JUDGES = {"session": rules.wrong_session, "arguments": rules.wrong_words, "tasks": rules.wrong_tasks}
JUDGES |= {"page": rules.wrong_page, "gdb": rules.wrong_packets}


class Case:
    """A case: its files, its arguments, the commands on standard input, and the most steps that it makes."""

    def __init__(self, source, seeds, folder):
        self.kind = source.choices(list(KINDS), list(KINDS.values()))[0]
        self.image, self.board = source.choice(seeds.pairs)
        if self.kind in ("image", "both", "page", "tasks") or self.kind in ("session", "gdb") and source.random() < 0.3:
            self.image, self.board = images.image(source, seeds)
        if self.kind in ("board", "both"):
            self.board = boards.board(source, seeds)
        self.session, self.steps = b"", source.choice(STEPS)
        paths = written(folder, "image.elf", self.image), written(folder, "board.toml", self.board)
        self.words = ["run", "--board", paths[1], "--steps", str(self.steps), paths[0]]
        if self.kind == "session":
            self.session, self.words = sessions.session(source, seeds), ["debug", "--board", paths[1], paths[0]]
        elif self.kind == "arguments":
            self.words = sessions.arguments(source, *paths)
        elif self.kind in ("tasks", "page", "gdb"):
            self.words[0] = "report" if self.kind == "page" else self.kind
            self.session = packets.session(source) if self.kind == "gdb" else b""

    def wrong(self, counts):
        """Returns what is wrong with the answers, or None; counts the first lines."""
        answer = answer_of([MARM, *self.words], self.session)
        if answer is None:
            return "no end in time"
        counts[self.kind, summary(answer)] += 1
        judge = JUDGES.get(self.kind, rules.wrong_run)
        return judge(answer) or self.wrong_again(answer) or self.wrong_on_slow(answer) or self.wrong_in_session(answer)

    def wrong_again(self, answer):
        """Returns what is wrong with a second run, which has no more than docs/ROBUSTNESS.md says that it needs."""
        limits = bounds.limits(self.image, self.board, self.kind == "gdb")
        again = answer_of([MARM, *self.words], self.session, limits)
        if again is None or not again.same(answer):
            status = "no end" if again is None else f"status {again.status}"
            return f"a second run with the limits {', '.join(limits)} answers otherwise: {status} after {answer.status}"
        most = bounds.seconds(answer, self.board, self.session, self.steps)
        least = min(answer.seconds, again.seconds)
        return None if least <= most else f"{least:.2f} s, where {most:.2f} is the most"

    def is_run_to_stop(self, answer):
        """Returns whether a case is a run with the usual arguments that ended with a stop."""
        return self.kind in ("image", "board", "both") and answer.status in (0, 4)

    def wrong_on_slow(self, answer):
        """Returns what is wrong with the trace of Slow, where there is a trace."""
        if not self.is_run_to_stop(answer):
            return None
        slow = answer_of([SLOW, "--slow", self.words[2], str(self.steps), self.words[5]])
        return None if slow and slow.status == 0 and slow.out == answer.out else "Slow writes another trace"

    def wrong_in_session(self, answer):
        """Returns what is wrong with a debug session that makes the steps of a run, where these are at most 1,000."""
        if not self.is_run_to_stop(answer) or not 0 < self.steps <= 1000:
            return None
        session = answer_of([MARM, "debug", *self.words[1:3], self.words[5]], f"run {self.steps}\n".encode())
        lines, wanted = (text.splitlines() for text in (session.out, answer.out))
        same = lines[:-1] == wanted[:-1] and (lines[-1] == wanted[-1] or lines[-1].startswith(b"at "))
        return None if session.status == 0 and same else "a session writes other lines than the run"


def summary(answer):
    """Returns in a few words how a case ended: the status and the refusal or the stop."""
    text = answer.err or (answer.out.splitlines() or [b""])[-1]
    first = text.partition(b"\n")[0].decode(errors="replace")
    return f"{answer.status} {first}" if first.startswith(("marm:", "stop")) else f"{answer.status}"


def keep(folder, case, number, wrong):
    """Keeps the files of a case in a folder of its own, with the command."""
    kept = os.path.join(FOLDER, f"finding-{number}")
    os.makedirs(kept, exist_ok=True)
    for name, content in (("image.elf", case.image), ("board.toml", case.board), ("session", case.session)):
        written(kept, name, content)
    words = shlex.join([MARM] + [word.replace(folder, kept) for word in case.words])
    slow = shlex.join([SLOW, "--slow", f"{kept}/board.toml", str(case.steps), f"{kept}/image.elf"])
    text = f"# {wrong}\n{words} <{kept}/session\n# on Slow: {slow}\n"
    written(kept, "command", text.encode("utf-8", "surrogateescape"))
    print(f"case {number}: {wrong}: {kept}", flush=True)


def work(worker):
    """Tries every JOBS-th case until the time is over, and returns the counts and the number of findings."""
    folder = os.path.join(FOLDER, f"worker-{worker}")
    os.makedirs(folder)
    seeds, counts, findings, number = corpus.Corpus(TOP), collections.Counter(), 0, FIRST + worker
    while time.monotonic() < END:
        case = Case(random.Random(f"{SEED} {number}"), seeds, folder)
        wrong = case.wrong(counts)
        if wrong:
            keep(folder, case, number, wrong)
            findings += 1
        number += JOBS
    return counts, findings


END = time.monotonic() + SECONDS
if __name__ == "__main__":
    with multiprocessing.get_context("fork").Pool(JOBS) as pool:
        parts = pool.map(work, range(JOBS))
    total = sum((counts for counts, _ in parts), collections.Counter())
    for (kind, text), count in sorted(total.items()):
        print(f"{count:8} {kind:10} {text}")
    findings = sum(found for _, found in parts)
    print(f"{sum(total.values())} cases in {SECONDS} s, seed {SEED}: {findings} findings")
    sys.exit(1 if findings else 0)
