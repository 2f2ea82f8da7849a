"""The most host instructions that each figure of cost.sh may have: ceilings.csv has them, a row each."""

import csv
import os


def ceilings():
    """Returns the ceiling of each figure that has one, by the figure's name."""
    with open(os.path.join(os.path.dirname(__file__), "ceilings.csv"), encoding="utf-8", newline="") as file:
        return {row["what"]: float(row["at most"]) for row in csv.DictReader(file)}


def above(figures):
    """Prints the figures that are above their ceilings, and returns how many are."""
    known = ceilings()
    found = [(what, float(value)) for what, value in figures.items() if float(value) > known.get(what, float("inf"))]
    for what, value in found:
        print(f"{what}: {value:.1f}, and at most {known[what]:.1f} is wanted (crosscheck/ceilings.csv)")
    return len(found)
