"""What a line of llvm-objdump says that an instruction does: the accesses that it makes, and where it goes on."""

import re
from dataclasses import dataclass, field

NUMBERS = {"sp": 13, "lr": 14, "pc": 15, **{f"r{number}": number for number in range(16)}}
CONDITIONS = "eq ne hs lo mi pl vs vc hi ls ge lt gt le al".split()

# The conditions that hold where no flag is set.
HOLD = {"ne", "lo", "pl", "vc", "ls", "ge", "gt", "al"}

SIZES = {"": 4, "b": 1, "h": 2, "sb": 1, "sh": 2}


@dataclass
class Machine:
    """The registers R0 to R14 that an instruction begins with, all flags clear, and its address."""

    registers: list
    at: int

    def register(self, name, aligned=False):
        """A register's value; the PC is four bytes further."""
        if name == "pc":
            return self.at + 4 & (~3 if aligned else ~0)
        return self.registers[NUMBERS[name]]


@dataclass
class Expectation:
    """The letter and size of each access and what its first address is computed from; and a way of going on."""

    accesses: list = field(default_factory=list)
    # A number of bytes from the instruction, a register that is gone to, or None where that isn't compared.
    behind: object = None

    def differs(self, machine, accesses, behind):
        """What is different, or None. Of a refused instruction only the accesses up to the refusal are there."""
        wanted = [(letter, place(machine) & 0xFFFFFFFF, size) for letter, place, size in self.accesses]
        wanted_bytes = [(letter, (address + byte) & 0xFFFFFFFF) for letter, address, size in wanted for byte in range(size)]
        bytes_made = [(letter, address + byte) for letter, address, size, _ in accesses for byte in range(size)]
        refused = bool(accesses) and accesses[-1][3] != "ok"
        if bytes_made != (wanted_bytes[: len(bytes_made)] if refused and bytes_made else wanted_bytes):
            return "other accesses"
        if refused or self.behind is None or behind is None:
            return None
        target = self.behind(machine) & 0xFFFFFFFF
        return None if behind == target else "it goes on elsewhere"


def registers_of(text):
    """The registers of a list in braces."""
    names = []
    for part in re.search(r"\{(.*)\}", text)[1].replace(" ", "").split(","):
        first, _, last = part.partition("-")
        names += range(NUMBERS[first], NUMBERS[last or first] + 1)
    return names


def offset_of(text):
    """What a number with a sign behind # is."""
    return int(text.replace("#", ""), 0)


def address_of(operands):
    """Returns how the address of an operand in brackets is computed."""
    inside = re.search(r"\[([^\]]*)\]", operands)[1]
    parts = [part.strip() for part in inside.split(",")]
    base = parts[0]
    if len(parts) == 1:
        return lambda machine: machine.register(base, True)
    if parts[1].startswith("#"):
        offset = offset_of(parts[1])
        return lambda machine: machine.register(base, True) + offset
    shift = offset_of(parts[2].split()[1]) if len(parts) == 3 else 0
    return lambda machine: machine.register(base) + (machine.register(parts[1]) << shift)


def one(letter, size, operands):
    """The access of a load or a store."""
    return [(letter, address_of(operands), size)]


def two(letter, operands):
    """The accesses of LDRD and STRD."""
    place = address_of(operands)
    return [(letter, place, 4), (letter, lambda machine: place(machine) + 4, 4)]


def several(letter, base, count, downward):
    """The accesses of a list, upward from the base or to it."""
    first = -4 * count if downward else 0
    return [(letter, lambda machine, at=at: machine.register(base) + first + 4 * at, 4) for at in range(count)]


def after(length):
    """Goes on with the next instruction."""
    return lambda machine: machine.at + length


def load_or_store(word, operands, length):
    """LDR, STR and their forms, or None."""
    match = re.fullmatch(r"(ldr|str)(sb|sh|b|h|)(t?)", word)
    if not match:
        return None
    to_pc = match[1] == "ldr" and operands.startswith("pc,")
    letter = "L" if match[1] == "ldr" else "S"
    return Expectation(one(letter, SIZES[match[2]], operands), None if to_pc else after(length))


def block(word, operands, length):
    """LDM, STM, PUSH and POP, or None."""
    match = re.fullmatch(r"(ldm|stm|push|pop)(db|ia|)", word)
    if not match:
        return None
    names = registers_of(operands)
    loads = match[1] in ("ldm", "pop")
    base = "sp" if match[1] in ("push", "pop") else operands.split(",")[0].strip(" !")
    downward = match[1] == "push" or match[2] == "db"
    return Expectation(several("L" if loads else "S", base, len(names), downward), None if loads and 15 in names else after(length))


def exclusive(word, operands, length):
    """LDREX, STREX and their forms, or None. Nothing is marked, so each store fails: it is a probe, of kind P."""
    match = re.fullmatch(r"(ldr|str)ex(b|h|)", word)
    if not match:
        return None
    return Expectation(one("L" if match[1] == "ldr" else "P", SIZES[match[2]], operands), after(length))


def memory(word, operands, length):
    """Instructions that make accesses, or None."""
    if word in ("ldrd", "strd"):
        return Expectation(two("L" if word == "ldrd" else "S", operands), after(length))
    if word in ("tbb", "tbh"):
        return Expectation(one("L", 1 if word == "tbb" else 2, operands))
    return load_or_store(word, operands, length) or block(word, operands, length) or exclusive(word, operands, length)


def sum_of(machine, word, operands):
    """Returns what MOV and ADD compute of registers; ADD of two operands adds to its first."""
    names = operands.replace(" ", "").split(",")
    names = names if word == "add" and len(names) == 2 else names[1:]
    return sum(machine.register(name) for name in names)


def branch(word, operands, length, place):
    """Instructions that go elsewhere, or None."""
    far = re.search(r"(0x[0-9a-f]+) <", operands)
    to_label = (lambda machine: machine.at + int(far[1], 16) - place) if far else None
    condition = word[1:] if word[:1] == "b" and word[1:] in CONDITIONS else None
    if word in ("b", "bl", "cbnz") or condition in HOLD:
        return Expectation([], to_label)
    if word == "cbz" or condition:
        return Expectation([], after(length))
    if word in ("bx", "blx"):
        return Expectation()
    if word in ("mov", "add") and operands.startswith("pc,"):
        return Expectation([], lambda machine: sum_of(machine, word, operands) & ~1)
    return None


def expectation(text, length, place):
    """What a line says, of an instruction of that length that stood at a place for the tool."""
    text = text.split(" @ ")[0] if "<" not in text else text
    word, _, operands = text.partition(" ")
    word = word.removesuffix(".w")
    operands = operands if word[0] in "bc" else operands.split(" @ ")[0]
    if word == "wfi":
        return Expectation()
    return memory(word, operands, length) or branch(word, operands, length, place) or Expectation([], after(length))
