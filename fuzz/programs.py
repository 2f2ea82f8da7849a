"""Runs a program within limits, and what it answered."""

import os
import resource
import subprocess

# The seconds after which a run is ended.
PATIENCE = 120


class Answer:
    """What a run wrote, how it ended, and the seconds of processor time that it took."""

    def __init__(self, status, out, err, seconds):
        self.status, self.out, self.err, self.seconds = status, out, err, seconds

    def same(self, other):
        """Returns whether another run ended in the same way, with the same bytes."""
        return (self.status, self.out, self.err) == (other.status, other.out, other.err)


def used():
    """Returns the processor time that the runs so far took."""
    usage = resource.getrusage(resource.RUSAGE_CHILDREN)
    return usage.ru_utime + usage.ru_stime


def answer_of(words, session=b"", limits=()):
    """Runs a command and returns its answer; None where it doesn't end. Limits are options of the shell's `ulimit`."""
    set_up = "".join(f"ulimit {limit}; " for limit in limits)
    command = ["/bin/sh", "-c", f'{set_up}exec "$0" "$@"', *words] if limits else words
    before = used()
    try:
        run = subprocess.run(command, input=session, capture_output=True, timeout=PATIENCE)
    except subprocess.TimeoutExpired:
        return None
    return Answer(run.returncode, run.stdout, run.stderr, used() - before)


def written(folder, name, content):
    """Returns the path of a file with that content."""
    path = os.path.join(folder, name)
    with open(path, "wb") as file:
        file.write(content)
    return path
