"""The records of a case: the words that a handler writes at each entry, and those of the end."""

import struct

# The words of a handler's record: EXC_RETURN, the frame's address and its words; and what follows in the record of the end too.
FRAME = ["R0", "R1", "R2", "R3", "R12", "LR", "PC", "xPSR"]
SYSTEM = ["CFSR", "HFSR", "MMFAR", "BFAR", "SHCSR", "ICSR", "IABR", "ISPR", "masks", "MSP", "PSP"]
HANDLER = ["exception", "EXC_RETURN", "frame", *FRAME, *SYSTEM]
END = ["end", *SYSTEM]

MMARVALID, BFARVALID = 1 << 7, 1 << 15

# The faults of CFSR by name, and the active bits of SHCSR.
FAULTS = {
    "IACCVIOL": 1 << 0,
    "DACCVIOL": 1 << 1,
    "MUNSTKERR": 1 << 3,
    "MSTKERR": 1 << 4,
    "IBUSERR": 1 << 8,
    "PRECISERR": 1 << 9,
    "UNSTKERR": 1 << 11,
    "STKERR": 1 << 12,
    "UNDEFINSTR": 1 << 16,
    "INVSTATE": 1 << 17,
    "INVPC": 1 << 18,
    "NOCP": 1 << 19,
    "UNALIGNED": 1 << 24,
    "DIVBYZERO": 1 << 25,
}
ACTIVE = 0xD8B


def record_of(words, names):
    """A record: values by name. An address that isn't valid is 0."""
    record = dict(zip(names, words))
    record[names[0]] &= 0x1FF
    record["MMFAR"] *= record["CFSR"] & MMARVALID != 0
    record["BFAR"] *= record["CFSR"] & BFARVALID != 0
    return record


def cases_of(output):
    """Returns the records of each case that came to its end, and those of a case that didn't."""
    cases, records, at = [], [], 0
    while at + 4 <= len(output):
        (first,) = struct.unpack_from("<I", output, at)
        names = {0x58: HANDLER, 0x5A: END}.get(first >> 24)
        if names is None or at + 4 * len(names) > len(output):
            break
        records.append(record_of(struct.unpack_from(f"<{len(names)}I", output, at), names))
        at += 4 * len(names)
        if names is END:
            cases.append(records)
            records = []
    return cases, records


def described(record):
    """Returns a record as text."""
    return " ".join(f"{name} {value}" if name == "exception" else f"{name} {value:08X}" for name, value in record.items())
