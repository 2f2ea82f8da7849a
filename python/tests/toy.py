#!/usr/bin/env python3
"""A program that speaks the protocol of `marm debug` over a machine that is no ARM: for tests of the package alone.

Each step counts in R0. Some steps store it, load, print a letter, or are refused, by the tick alone; a signal enters a
handler, which counts in a word. After 1,000 steps the machine stops. Of its three interrupt lines a device drives the
last."""

from __future__ import annotations

import copy
import sys
from typing import Callable, Optional

FLASH, RAM, SIZE = 0, 0x2000_0000, 1024
COUNT = RAM + 0x100  # the word that handlers count in
LAST = 1000
LINES, FREE_LINES = 3, 2
SPECIALS = {3: "XPSR", 8: "MSP", 9: "PSP", 16: "PRIMASK", 17: "BASEPRI", 19: "FAULTMASK", 20: "CONTROL"}


class Toy:
    """The machine."""

    def __init__(self) -> None:
        self.tick = 0
        self.registers = {**{f"R{k}": 0 for k in range(13)}, "LR": 0, "PC": 0x100}
        self.registers.update({name: 0 for name in SPECIALS.values()})
        self.memory = {FLASH: bytearray(b"\xFF" * SIZE), RAM: bytearray(SIZE)}
        self.signalled = 0
        self.stop = ""

    def word(self, address: int) -> Optional[tuple[bytearray, int]]:
        for base, data in self.memory.items():
            if base <= address < base + SIZE:
                return data, address - base
        return None

    def store(self, address: int, value: int) -> bool:
        place = self.word(address)
        if place:
            place[0][place[1]:place[1] + 4] = value.to_bytes(4, "little")
        return place is not None

    def step(self) -> list[str]:
        self.tick += 1
        t, r = self.tick, self.registers
        events = [f"{t} F {r['PC']:08X} 2 p ok off"]
        r["PC"] = 0x100 + (r["PC"] + 2) % 0x100
        r["R0"] = (r["R0"] + 1) % 2**32
        if self.signalled:
            self.signalled -= 1
            data, at = self.memory[RAM], COUNT - RAM
            self.store(COUNT, int.from_bytes(data[at:at + 4], "little") + 1)
            events += [f"{t} X 16", f"{t} S {COUNT:08X} 4 p ok off"]
        address = RAM + t // 5 % 16 * 4
        if t % 5 == 0:
            self.store(address, r["R0"])
            events.append(f"{t} S {address:08X} 4 u ok r1")
        if t % 7 == 0:
            events.append(f"{t} L {address:08X} 4 u ok r1")
        if t % 11 == 0:
            events.append(f"{t} O {97 + r['R1'] % 26:02X}")
            r["R1"] += 1
        if t % 50 == 0:
            events += [f"{t} S 30000000 4 u mpu none", f"{t} ! 4 00000082 00000000"]
        if t == LAST:
            self.stop = "breakpoint 0"
        return events


class Session:
    """The commands."""

    def __init__(self, slots: int) -> None:
        self.toy = Toy()
        self.slots: list[Optional[Toy]] = [None] * slots
        self.trace = "all"
        self.conditions: dict[str, Callable[[list[str]], bool]] = {}  # by the words of a line `hit ..`
        self.watches: list[tuple[str, int, int]] = []
        self.breaks: list[int] = []

    def answer(self, line: str) -> str:
        name, *words = line.split(" ")
        method = getattr(self, f"do_{name}", None)
        try:
            return str(method(*words)) if method else "error 1\n"
        except (ValueError, IndexError, KeyError):
            return "error 2\n"
        except TypeError:
            return "error 1\n"

    def do_script(self, version: str) -> str:
        if version != "1":
            return "error 2\n"
        memory = f"flash {FLASH:08X} {SIZE}\nram {RAM:08X} {SIZE}\n"
        slots = f"slots {len(self.slots)}\nmore than a client knows\nmore\n"
        return "script 1\n" + memory + f"priority_bits 4\nlines {LINES}\nregions 8\n" + slots

    def do_next(self) -> str:
        if self.toy.stop:
            return f"stop {self.toy.stop}\n"
        return "Stack\n" if self.toy.signalled else "Instruction\n"

    def do_trace(self, which: str) -> str:
        self.trace = which
        return "ok\n"

    def do_clear(self) -> str:
        self.conditions, self.watches, self.breaks = {}, [], []
        return "ok\n"

    def do_break(self, address: str) -> str:
        self.breaks.append(int(address))
        return "ok\n"

    def do_watch(self, letter: str, address: str, size: str) -> str:
        if len(self.watches) == 16:
            return "error 3\n"
        self.watches.append(({"r": "L", "w": "S", "a": "SL"}[letter], int(address), int(size)))
        return "ok\n"

    def do_stop(self, what: str, _: str) -> str:
        flags: dict[str, tuple[str, Callable[[list[str]], bool]]] = {
            "refused": ("refused", lambda words: "mpu" in words), "faults": ("fault", lambda words: words[1] == "!"),
            "exceptions": ("exception", lambda words: words[1] == "X"),
        }
        hit, test = flags[what]
        self.conditions[hit] = test
        return "ok\n"

    def hit(self, event: str) -> str:
        words = event.split(" ")
        if words[-2] == "ok":
            for k, (kinds, first, size) in enumerate(self.watches):
                address = int(words[2], 16)
                if words[1] in kinds and address < first + size and first < address + int(words[3]):
                    return f"watch {k}"
        return next((hit for hit, test in self.conditions.items() if test(words)), "")

    def is_selected(self, event: str) -> bool:
        kind = event.split(" ")[1]
        kinds = {"all": "FSLXO!", "refused": "O!", "exceptions": "OX!", "console": "O", "none": ""}[self.trace]
        return kind in kinds or "mpu" in event and self.trace in ("refused", "exceptions")

    def do_run(self, count: str) -> str:
        toy, lines, hit = self.toy, "", ""
        for k in range(int(count)):
            if toy.stop or hit:
                break
            if k and toy.registers["PC"] in self.breaks and not toy.signalled:
                hit = "break"
                break
            for event in toy.step():
                new = self.hit(event)
                lines += event + "\n" if new or self.is_selected(event) else ""
                hit = hit or new
        end = f"stop {toy.stop}" if toy.stop else f"at {toy.registers['PC']:08X}"
        return lines + (f"hit {hit}\n" if hit else "") + end + "\n"

    def do_regs(self) -> str:
        return "".join([f"{name} {value:08X}\n" for name, value in self.toy.registers.items()])

    def do_mem(self, address: str, count: str) -> str:
        first = int(address)
        places = [self.toy.word(at) for at in range(first, first + int(count))]
        return f"{first:08X}: " + " ".join([f"{p[0][p[1]]:02X}" if p else "--" for p in places]) + "\n"

    def do_explain(self, address: str, who: str, access: str) -> str:
        if who == "p":
            return "bg ok\n"
        inside = RAM <= int(address) < RAM + 64
        return "r1 ok\n" if inside and access != "x" else "r1 mpu\n" if inside else "none mpu\n"

    def do_place(self, what: str, where: str, text: str = "") -> str:
        toy, value = self.toy, int(text)
        if what == "word" and int(where) % 4:
            return "refused 1 NotAligned\n"
        names = {**{str(k): f"R{k}" for k in range(13)}, "14": "LR", "15": "PC"}
        name = names.get(where) if what == "reg" else SPECIALS.get(int(where)) if what == "special" else None
        if toy.stop:
            return "refused 3 Stopped\n"
        if name:
            toy.registers[name] = value
        elif what == "word" and value == 2:
            return "refused 4 Refused unpredictable mpu-ctrl\n"
        elif what != "word" or not toy.store(int(where), value):
            return "refused 2 NoSuchPlace\n"
        return "ok\n"

    def do_signal(self, what: str, line: str = "0") -> str:
        if what not in ("pulse", "rise", "fall", "nmi"):
            return "error 2\n"
        if not line.isdecimal() or int(line) >= 2**32:
            return "error 2\n"
        if int(line) >= FREE_LINES or self.toy.stop:
            return "refused 2 NoSuchPlace\n" if int(line) >= FREE_LINES else "refused 3 Stopped\n"
        self.toy.signalled += what != "fall"
        return "ok\n"

    def do_save(self, slot: str) -> str:
        self.slots[int(slot)] = copy.deepcopy(self.toy)
        return "ok\n"

    def do_back(self, slot: str) -> str:
        kept = self.slots[int(slot)]
        if kept is None:
            return "error 3\n"
        self.toy = copy.deepcopy(kept)
        return "ok\n"


def main() -> None:
    if sys.argv[1:] == ["--version"]:
        print("marm toy")
        return
    session = Session(int(sys.argv[sys.argv.index("--slots") + 1]))
    while True:
        line = sys.stdin.readline()
        if not line or line == "quit\n":
            return
        answer = session.answer(line[:-1])
        toy = session.toy
        sys.stdout.write(f"{answer}= {toy.tick} {toy.registers['PC']:08X} {session.do_next()}")
        sys.stdout.flush()


if __name__ == "__main__":
    main()
