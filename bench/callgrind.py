"""The host instructions that a run takes, as valgrind's callgrind counts them."""

import re
import subprocess
from concurrent.futures import ThreadPoolExecutor


def counted(words, text=""):
    """Returns how many instructions a command takes that reads this text."""
    valgrind = ["valgrind", "--tool=callgrind", "--callgrind-out-file=/dev/null"]
    run = subprocess.run(valgrind + words, input=text, stdout=subprocess.DEVNULL, stderr=subprocess.PIPE, text=True)
    return int(re.search(r"Collected : (\d+)", run.stderr)[1])


def a_step(run, steps, text=lambda count: ""):
    """Returns how many instructions a step takes: those of `run(2 * steps)`, a command that reads `text(2 * steps)`,
    without those of `run(steps)`."""
    with ThreadPoolExecutor(2) as pool:
        less, more = pool.map(lambda count: counted(run(count), text(count)), [steps, 2 * steps])
    return (more - less) / steps
