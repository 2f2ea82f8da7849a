"""Carries out random cases of exceptions on marm and on QEMU's Cortex-M3, and compares the records of all entries to handlers and
of the ends of cases. Usage: compare_exceptions.py MARM CROSSCHECK FOLDER SEED COUNT [CASE]"""

import collections
import random
import re
import sys
from concurrent.futures import ThreadPoolExecutor

from exception_cases import fixed_cases, name_of, random_case
from exception_known import KNOWN, compared
from exception_machines import ALIASED, STORED, all_on_qemu, assembled, on_marm, on_qemu
from exception_records import ACTIVE, FAULTS, described

SEED, COUNT = int(sys.argv[4]), int(sys.argv[5])
ONLY = int(sys.argv[6]) if len(sys.argv) > 6 else None

# How marm ends after a case, and how many cases are printed and how many runs there are side by side.
LAST, LOCKUP = "stop breakpoint 171", "stop lockup"
MAX_PRINTED = 10
JOBS = 2


def is_alone(case, records):
    """Whether a case has a run of its own on QEMU: it may leave an exception active."""
    last = records[-1]
    return case.is_alone or "end" not in last or last["end"] != 0 or last["IABR"] != 0 or last["SHCSR"] & ACTIVE != 0


def printed(number, case, ours, theirs):
    """Prints a case: what both machines do, and how it can be run alone."""
    print(f"case {number}: crosscheck/exceptions.sh {SEED} {COUNT} {number}")
    print(case.described())
    for name, (ending, records) in [("marm", ours), ("QEMU", theirs)]:
        for record in records[:12]:
            print(f"    {name}  {described(record)}")
        print(f"    {name}  {ending}")


def covered(records_of_cases):
    """Prints how often each fault was recorded, by the handler that was entered, and how often each exception was."""
    counts = collections.Counter()
    for records in records_of_cases:
        for record in records:
            if "exception" in record:
                name = name_of(record["exception"])
                mode = {1: "Handler", 9: "Thread, MSP", 13: "Thread, PSP"}.get(record["EXC_RETURN"] & 15, "INVPC")
                counts["IRQ" if name.startswith("IRQ") else name, mode] += 1
                for fault, bit in FAULTS.items():
                    if record["CFSR"] & bit and record["exception"] in (3, 4, 5, 6):
                        counts[fault, name] += 1
    for kind, names in [("entries", NAMES), ("faults", list(FAULTS))]:
        for first in names:
            row = [f"{second} {count}" for (name, second), count in sorted(counts.items()) if name == first]
            print(f"{kind:8} {first:12} " + "  ".join(row))


def lockup(lines):
    """Returns what a lockup of marm is called: a lockup, or one by a store to flash, by its last lines."""
    return "lockup by a store to flash" if len(lines) > 2 and re.search(STORED, lines[-3]) else "lockup"


NAMES = ["NMI", "HardFault", "MemManage", "BusFault", "UsageFault", "SVCall", "PendSV", "SysTick", "IRQ"]

source = random.Random(SEED)
numbered = [(number, case) for number, case in enumerate(fixed_cases() + [random_case(source) for _ in range(COUNT)])]
numbered = [(number, case) for number, case in numbered if ONLY in (None, number)]
cases = dict(numbered)
harness, parts = assembled(numbered)
entries = dict(zip(cases, parts))
with ThreadPoolExecutor(JOBS) as pool:
    ours = dict(zip(cases, pool.map(lambda number: on_marm(harness, entries[number], number), cases)))
    aliased = {number for number in cases if any(re.search(ALIASED, line) for line in ours[number][2])}
    taken = [number for number in cases if ours[number][0] == LAST and number not in aliased]
    locked = [number for number in cases if ours[number][0] == LOCKUP and number not in aliased]
    alone = [number for number in taken if is_alone(cases[number], ours[number][1])]
    together = [number for number in taken if number not in set(alone)]
    found = all_on_qemu(harness, [entries[number] for number in together])
    theirs = {number: (ending, records) for number, (records, ending) in zip(together, found)}
    for number, (ended, rest, ending) in zip(
        alone + locked, pool.map(lambda number: on_qemu(harness, [entries[number]], number), alone + locked)
    ):
        theirs[number] = ending, ended[0] if ended else rest
known, differ = collections.Counter(), []
for number in sorted(theirs):
    wanted = lockup(ours[number][2]) if number in set(locked) else "end"
    names, difference = compared(cases[number], entries[number], (wanted, ours[number][1]), theirs[number])
    known.update(names)
    if difference is not None:
        differ.append(number)
        print(f"case {number}: {difference}")
    if difference is not None and len(differ) <= MAX_PRINTED or ONLY is not None:
        printed(number, cases[number], (ours[number][0], ours[number][1]), theirs[number])
for number in cases if ONLY is not None else []:
    print("\n".join(ours[number][2]))
for ending, count in collections.Counter(ending for ending, _, _ in ours.values()).most_common():
    print(f"{count:7} {ending}")
print(f"{len(aliased):7} left out: an access to a bit-band alias")
for name, count in known.most_common():
    print(f"{count:7} {name}: {KNOWN[name]}")
covered([ours[number][1] for number in theirs])
records = sum(len(ours[number][1]) for number in theirs)
if len(differ) > MAX_PRINTED:
    print("differ too: " + " ".join(map(str, differ[MAX_PRINTED:])))
print(f"exceptions: {len(theirs)} cases with {records} records compared, of them {len(locked)} lockups, {len(differ)} differ")
sys.exit(1 if differ else 0)
