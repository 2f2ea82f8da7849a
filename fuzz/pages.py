"""What the pages say of stops and of a debug session's commands."""

import re
from pathlib import Path


def page(name):
    """Returns the text of a page."""
    return (Path(__file__).parents[1] / "docs" / name).read_text()


def stops():
    """Returns the names of stops by the first word of their lines, from the tables of docs/STOPS.md."""
    found = {"unpredictable": [], "outofprofile": []}
    for part in page("STOPS.md").split("\n## ")[1:]:
        kind = next((kind for kind in found if f"stop {kind}" in part.split("\n|")[0]), None)
        if kind:
            found[kind] += re.findall(r"^\| `([a-z-]+)` \|", part, re.M)
    return found


def other_lines():
    """Returns the lines of the trace that are no access, after their tick, as docs/TRACE.md shows one of each."""
    table = page("TRACE.md").split("| Line | What |", 1)[1].split("\n\n", 1)[0]
    return re.findall(r"^\| `\d+ ([^`]+)` \|", table, re.M)


def refusals():
    """Returns the lines of a value or a signal that is refused, as docs/DEBUGGING.md has them."""
    table = page("DEBUGGING.md").split("| Refusal | When |", 1)[1].split("\n\n", 1)[0]
    return re.findall(r"^\| `(refused [^`]+)` \|", table, re.M)


def commands():
    """Returns the commands of docs/DEBUGGING.md, each with the lines of its answer: `mem a n` with `<a>: <bytes>`."""
    table = page("DEBUGGING.md").split("| Command | Lines |", 1)[1].split("\n\n", 1)[0]
    rows = [re.split(r"(?<!\\)\|", line) for line in table.splitlines() if line.startswith("| `")]
    found = [[re.findall("`([^`]+)`", cell.replace("\\|", "|")) for cell in row[1:3]] for row in rows]
    return {forms[0]: lines for forms, lines in found}
