"""Reads and writes system registers and special registers on marm and on QEMU's Cortex-M3, as privileged and as unprivileged
code, and compares what is read. Cases at which marm stops are left out; they are counted by how they end. What QEMU is known to
do otherwise isn't compared: docs/CROSSCHECK.md has the list."""

import collections
import random
import struct
import sys

from machines import LAST, NOTHING, each, on_marm, on_qemu, put_out, side_by_side
from system_cases import OPENING, RESET, privileged_case, refused_case, unprivileged_case
from system_known import masked

COUNT, SEED = int(sys.argv[5]), int(sys.argv[6])

# As in system.s: the operations of an entry, and the bytes of each. And how many steps an entry takes at most, and how many
# entries a run has.
MOST, OPERATION = 20, 20
STEPS = 10_000
PART = 300


def entry(case, _):
    """The entry of a case: a list of operations, each with its code, an address, a value and its name."""
    code = b"".join((code + b"\x70\x47").ljust(12, b"\0") + struct.pack("<II", address, value) for _, code, address, value in case)
    return struct.pack("<I", len(case)) + code.ljust(MOST * OPERATION, b"\0")


def described(case):
    """Returns a case as text."""
    return "; ".join(name + (f" {value:08X}" if name.startswith(("write", "MSR")) else "") for name, _, _, value in case)


class Group:
    """Cases that are run one behind the other, behind an opening that each needs."""

    def __init__(self, name, opening, cases):
        self.name, self.opening, self.cases = name, opening, cases

    def trace_of(self, number, case):
        """The trace of a case on marm, alone behind the opening."""
        return on_marm(entry, self.opening + [case], f"case{number}", STEPS * (len(self.opening) + 1))

    def ended(self, number, case):
        """How a case ends on marm."""
        return self.trace_of(number, case)[-1]

    def by_marm(self, entry, cases):
        """The lines that marm puts out for some cases."""
        cases = self.opening + cases
        return put_out(on_marm(entry, cases, "part", STEPS * len(cases)))[len(self.opening) :]

    def by_qemu(self, entry, cases):
        """The lines that QEMU puts out for some cases."""
        return on_qemu(entry, self.opening + cases)[len(self.opening) :]

    def compared(self):
        """The number of cases that differ, with the first of them printed."""
        endings = each(self.ended, self.cases)
        taken = [case for case, ending in zip(self.cases, endings) if ending == LAST]
        ours, theirs = side_by_side(self.by_marm, self.by_qemu, entry, taken, PART)
        differ = [
            (case, left, right)
            for case, left, right in zip(taken, ours, theirs)
            if NOTHING == left or masked(case, left) != masked(case, right)
        ]
        for case, left, right in differ[:10]:
            print(f"{described(case)}\n    marm {left}\n    QEMU {right}")
        for ending, count in collections.Counter(endings).most_common():
            print(f"{count:7} {ending}")
        print(f"{self.name}: {len(taken)} carried out, {len(differ)} differ")
        return len(differ)


class Refusals(Group):
    """Cases whose last operation is to be refused: a bus error on marm, a fault on both machines."""

    def ended(self, number, case):
        """How a case ends on marm: the end of its line where its one refusal is a bus error, or how its run ends."""
        trace = self.trace_of(number, case)
        lines, refused = put_out(trace), [line for line in trace if " bus " in line]
        return lines[-1][-1:] if len(lines) == len(self.opening) + 1 and len(refused) == 1 else trace[-1]

    def compared(self):
        """The number of cases that differ, with the first of them printed."""
        ours = each(self.ended, self.cases)
        theirs = [line[-1:] for line in on_qemu(entry, self.opening + self.cases)[len(self.opening) :]]
        theirs += [NOTHING] * (len(ours) - len(theirs))
        differ = [(case, left, right) for case, left, right in zip(self.cases, ours, theirs) if left != right]
        for case, left, right in differ[:10]:
            print(f"{described(case)}\n    marm {left}\n    QEMU {right}")
        print(f"{self.name}: {len(self.cases)} refused, {len(differ)} differ")
        return len(differ)


source = random.Random(SEED)
groups = [
    Group("what registers are at first", [], RESET),
    Group("privileged", [], [privileged_case(source) for _ in range(COUNT)]),
    Group("unprivileged", [OPENING], [unprivileged_case(source) for _ in range(COUNT // 10)]),
    Refusals("unprivileged accesses", [OPENING], [refused_case(source) for _ in range(COUNT // 10)]),
]
sys.exit(1 if sum([group.compared() for group in groups]) else 0)
