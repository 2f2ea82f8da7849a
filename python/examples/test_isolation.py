"""The tasks of the kernel `round_robin` are kept apart. For each word of RAM and each task the machine says what would
decide an access now, and a table says what it has to be. Then the task makes the store, and the machine says what
became of it."""

from __future__ import annotations

import unittest
from typing import Iterator

import marm

from tests.support import kernel, needs_program

# The memory of each task: 512 bytes, to be read and written. It may do nothing else with RAM.
MEMORY = {
    "task_a": range(0x2000_0000, 0x2000_0200),
    "task_b": range(0x2000_0200, 0x2000_0400),
    "task_c": range(0x2000_0400, 0x2000_0600),
}
STORE = bytes.fromhex("0860")  # STR R0, [R1]


@needs_program
class Isolation(unittest.TestCase):
    def setUp(self) -> None:
        self.m = kernel("round_robin")
        self.addCleanup(self.m.close)

    def tasks(self) -> Iterator[tuple[str, range]]:
        """Runs each task up to its first instruction, and yields its name and memory."""
        for task, memory in MEMORY.items():
            self.m.run_to(marm.At(task))
            yield task, memory

    def test_what_each_word_grants(self) -> None:
        m = self.m
        for task, memory in self.tasks():
            with m.batch() as batch:
                asked = {a: [batch.explain(a, "u", access) for access in "rwx"] for a in m.ram[::4]}
            for address, decisions in asked.items():
                rights = "".join([letter if d.value else "-" for letter, d in zip("rwx", decisions)])
                self.assertEqual(rights, "rw-" if address in memory else "---", f"{task} at {address:08X}")

    def test_the_map(self) -> None:
        """The same as spans of addresses."""
        for _, memory in self.tasks():
            around = [range(self.m.ram.start, memory.start), memory, range(memory.stop, self.m.ram.stop)]
            expected = [(r.start, r.stop - 1, "rw-" if r == memory else "---") for r in around if r]
            self.assertEqual([(s.first, s.last, s.rights) for s in self.m.access_map(self.m.ram, "u")], expected)

    def test_a_store_to_each_word(self) -> None:
        """In the task's own memory it is made; elsewhere it is refused, the word stays, and MemManage pends."""
        m = self.m
        for task, memory in self.tasks():
            with m.saved():
                m.write(m.pc, STORE)
                m.regs.r0 = 0xDEAD_BEEF
                here, before = m.save(), m.read(m.ram.start, len(m.ram))
                batch, made = m.batch(), []
                for address in m.ram[::4]:
                    batch.set("r1", address)
                    ran, word, state = batch.run(1, trace="all"), batch.read(address, 4), batch.state()
                    batch.restore(here)
                    made.append((address, ran, word, state))
                batch.send()
                for address, ran, word, state in made:
                    inside = address in memory
                    end = "ok r1" if inside else "mpu none"
                    self.assertEqual(ran.value.lines[1], f"{m.tick + 1} S {address:08X} 4 u {end}", task)
                    old = before[address - m.ram.start:][:4]
                    self.assertEqual(word.value, b"\xEF\xBE\xAD\xDE" if inside else old)
                    self.assertEqual(4 in state.value.pending, not inside)

    def test_a_refused_store_changes_nothing(self) -> None:
        """No byte of RAM, after one to each block of 256 bytes outside."""
        m = self.m
        for _, memory in self.tasks():
            with m.saved():
                m.write(m.pc, STORE)
                m.regs.r0 = 0xDEAD_BEEF
                before = m.read(m.ram.start, len(m.ram))
                for address in [a for a in m.ram[::256] if a not in memory]:
                    with m.saved():
                        m.regs.r1 = address
                        m.step()
                        self.assertEqual(m.read(m.ram.start, len(m.ram)), before)


if __name__ == "__main__":
    unittest.main()
