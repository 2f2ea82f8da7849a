"""Lines, boards and images as values. No program is needed."""

from __future__ import annotations

import pickle
import random
import sys
import tempfile
import time
import unittest

import marm
from marm import boards, conditions, results
from marm.images import Symbols
from marm.wire import Answer, find_program

from .support import ABSOLUTE, FIRMWARE, FUNCTION, GLOBAL, KERNELS, NO_TYPE, OBJECT, REPOSITORY
from .support import image_with, image_with_table

LINES = (
    "2738 S 20000000 4 u mpu none", "1 F 00000008 2 p ok off", "845 V 0000003C 4 p ok vec", "9 L E000ED04 4 p bus ppb",
    "7475 P 2000080A 1 p ok off", "845 X 15", "2738 ! 4 00000082 00000000", "850 R FFFFFFFD", "374 O 61",
)


class Events(unittest.TestCase):
    def test_a_line_and_back(self) -> None:
        for line in LINES:
            self.assertEqual(str(marm.parse_event(line)), line)

    def test_fields(self) -> None:
        event = marm.parse_event("2738 S 20000010 4 u mpu r12")
        assert isinstance(event, marm.Access)
        self.assertEqual(event, (2738, "S", 0x2000_0010, 4, False, "mpu", "r12"))
        self.assertEqual((event.granted, event.region), (False, 12))
        self.assertEqual(marm.parse_event("5 O 0A"), marm.Console(5, "O", 10))
        self.assertEqual(marm.parse_event("5 ! 3 00008200 40000000"), marm.Fault(5, "!", 3, 0x8200, 0x4000_0000))

    def test_kinds_are_never_equal(self) -> None:
        values = [marm.parse_event(line) for line in ("5 X 10", "5 O 0A", "5 R 0000000A")]
        self.assertEqual(len(set(values)), 3)

    def test_lines_that_are_none(self) -> None:
        for line in ("stop breakpoint 0", "", "1 Q 2", "1 X", "x X 3", "1 S 20000000 4 u mpu", "at 00000100"):
            with self.assertRaises(ValueError, msg=line):
                marm.parse_event(line)

    def test_stops(self) -> None:
        for words in ("breakpoint 0", "lockup", "unpredictable mpu-ctrl"):
            self.assertEqual(str(marm.Stop.parse(words)), words)


class Answers(unittest.TestCase):
    def test_decisions(self) -> None:
        for line, region, granted in (("none mpu", None, False), ("r15 ok", 15, True), ("bg ok", None, True)):
            decision = results.decision_of(line)
            self.assertEqual((str(decision), decision.region, bool(decision)), (line, region, granted))
        with self.assertRaises(ValueError):
            results.decision_of("none maybe")

    def test_regions(self) -> None:
        region = results.region_of_line("r1 20000401 13000011")
        self.assertEqual((region.number, region.base, region.size, region.enabled), (1, 0x2000_0400, 512, True))
        whole = marm.Region(0, 0, 63)
        self.assertEqual((whole.base, whole.size, whole.disabled_subregions), (0, 2**32, 0))
        self.assertEqual(marm.Region(0, 0, 0x420F).disabled_subregions, 0x42)

    def test_the_base_of_a_region(self) -> None:
        """Where ADDR isn't a multiple of the size, its low bits are no part of the base."""
        for rbar, rasr, base in (
            (0x2000_0410, 0x0300_0011, 0x2000_0400), (0x2000_0460, 0x0300_0011, 0x2000_0400),
            (0x2000_07E0, 0x0300_0011, 0x2000_0600), (0x2000_0460, 0x0300_0009, 0x2000_0460),
            (0x2FFF_FFE0, 0x0300_0039, 0x2000_0000),
        ):
            self.assertEqual(marm.Region(0, rbar, rasr).base, base, f"{rbar:08X} {rasr:08X}")

    def test_ends(self) -> None:
        self.assertEqual(results.status_of("2737 0000031C Instruction"), (2737, 0x31C, "Instruction", None))
        self.assertEqual(results.status_of("9 00000004 stop lockup"), (9, 4, "", marm.Stop("lockup", "")))
        for end in ("", "1 2", "x 00000000 Sleep"):
            with self.assertRaises(ValueError):
                results.status_of(end)

    def test_state(self) -> None:
        names = [*(f"R{k}" for k in range(13)), *"MSP PSP LR PC XPSR CONTROL PRIMASK FAULTMASK BASEPRI".split()]
        lines = [f"{name} {number:08X}" for number, name in enumerate(names)] + ["CLOCK 2738"]
        lines += ["CFSR 00000082", "HFSR 00000000", "MMFAR 20000000", "BFAR 00000000", "VTOR 00000000", "CCR 00000200"]
        state = results.state_of([*lines, "r0 00000300 0600000F", "PENDING 4 14", "ACTIVE"])
        self.assertEqual((state.clock, state.status["CFSR"], state.registers["msp"]), (2738, 0x82, 13))
        self.assertEqual((state.pending, state.active, state.regions[0].rasr), ({4, 14}, frozenset(), 0x0600000F))
        with self.assertRaises(KeyError):
            results.state_of(lines)

    def test_the_stack_pointer_in_use(self) -> None:
        for xpsr, control, name in ((0, 2, "psp"), (0, 0, "msp"), (15, 2, "msp"), (0x0100_0000, 3, "psp")):
            lines = [f"MSP {8:08X}", f"PSP {4:08X}", f"XPSR {xpsr:08X}", f"CONTROL {control:08X}"]
            values = results.registers_of(lines)
            self.assertEqual(values["sp"], values[name])

    def test_an_answer(self) -> None:
        self.assertEqual(Answer(["ok"], "0 00000000 Sleep").lines, ["ok"])


class Conditions(unittest.TestCase):
    def test_commands(self) -> None:
        for condition, command in (
            (marm.At(8), "break 8"), (marm.Reads(1, 2), "watch r 1 2"), (marm.Writes(4), "watch w 4 4"),
            (marm.Accesses(0), "watch a 0 4"), (marm.REFUSED, "stop refused on"), (marm.FAULT, "stop faults on"),
            (marm.ENTRY, "stop exceptions on"),
        ):
            self.assertEqual(condition.command, command)

    def test_names(self) -> None:
        """Messages show them as the caller writes them."""
        for condition, name in (
            (marm.At(0x100), "At(0x100)"), (marm.At("main"), "At('main')"), (marm.Reads(8), "Reads(0x8, 4)"),
            (marm.Writes("count", 2), "Writes('count', 2)"), (marm.Accesses(0), "Accesses(0x0, 4)"),
            (marm.REFUSED, "REFUSED"), (marm.FAULT, "FAULT"), (marm.ENTRY, "ENTRY"),
        ):
            self.assertEqual(repr(condition), name)

    def test_kinds_differ(self) -> None:
        four = [marm.Reads(4), marm.Writes(4), marm.Accesses(4), marm.Reads("four")]
        found = conditions.conditions_of(four, lambda address: 4)
        self.assertEqual(len(found), 3)

    def test_accesses_beside_the_watched_bytes(self) -> None:
        """They meet no watchpoint; those that share a byte with it do."""
        for address, size, met in (
            (0x104, 4, False), (0x104, 1, False), (0xFF, 1, False), (0xFC, 4, False), (0xFE, 2, False),
            (0x103, 1, True), (0x100, 1, True), (0xFF, 2, True), (0xFD, 4, True), (0x102, 4, True), (0x100, 4, True),
        ):
            store = marm.Access(9, "S", address, size, False, "ok", "r1")
            for condition in (marm.Writes(0x100), marm.Accesses(0x100, 4)):
                self.assertEqual(condition.is_met(store), met, str(store))
            self.assertFalse(marm.Reads(0x100).is_met(store))
            self.assertFalse(marm.Writes(0x100).is_met(store._replace(outcome="mpu")))
        byte = marm.Access(9, "L", 0x101, 1, False, "ok", "r1")
        self.assertEqual([marm.Reads(at, 1).is_met(byte) for at in (0x100, 0x101, 0x102)], [False, True, False])

    def test_pickled(self) -> None:
        event = marm.parse_event("5 X 15")
        self.assertTrue(pickle.loads(pickle.dumps(marm.ENTRY)).is_met(event))
        self.assertFalse(marm.FAULT.is_met(event))


class Boards(unittest.TestCase):
    board = marm.Board(1024, 2048, lines=2).with_event(9, 1, "rise").with_event(3)

    def test_text(self) -> None:
        self.assertEqual(
            self.board.toml(),
            "flash_base = 0\nflash_size = 1024\nram_size = 2048\npriority_bits = 4\nlines = 2\nregions = 8\n"
            '\n[[event]]\nat = 3\nnmi = true\n\n[[event]]\nat = 9\nline = 1\nwhat = "rise"\n')

    def test_second_ram(self) -> None:
        board = marm.Board(1024, 2048, lines=2, ram=marm.Ram(0x1000_0000, 8192)).with_event(3)
        self.assertEqual(
            board.toml(),
            "flash_base = 0\nflash_size = 1024\nram_size = 2048\npriority_bits = 4\nlines = 2\nregions = 8\n"
            "\n[[ram]]\nbase = 268435456\nsize = 8192\n\n[[event]]\nat = 3\nnmi = true\n")
        self.assertEqual(boards.parse_plain(board.toml())["ram"], [{"base": 0x1000_0000, "size": 8192}])
        with tempfile.NamedTemporaryFile("w", suffix=".toml") as file:
            file.write(board.toml())
            file.flush()
            self.assertEqual(marm.Board.load(file.name), board)
            file.write("[[ram]]\nbase = 0\nsize = 1024\n")
            file.flush()
            with self.assertRaises(ValueError):
                marm.Board.load(file.name)

    def test_devices(self) -> None:
        uart = marm.Device(0x4000_3800, ones=0xC0, stores="ignored", counts=True, line=1, enable=0x4000_380C)
        board = marm.Board(1024, 2048, lines=2, devices=(uart, marm.Device(0x4000_4000, 64)))
        board = board.with_poke(3, 0x4000_3800, 32)
        self.assertEqual(
            board.toml(),
            "flash_base = 0\nflash_size = 1024\nram_size = 2048\npriority_bits = 4\nlines = 2\nregions = 8\n"
            "\n[[device]]\nbase = 1073756160\nones = 192\nstores = \"ignored\"\ncounts = true\nline = 1\n"
            "enable = 1073756172\n\n[[device]]\nbase = 1073758208\nsize = 64\n"
            "\n[[event]]\nat = 3\npoke = 1073756160\nvalue = 32\n")
        self.assertEqual(boards.parse_plain(board.toml())["device"][1], {"base": 0x4000_4000, "size": 64})
        with tempfile.NamedTemporaryFile("w", suffix=".toml") as file:
            file.write(board.toml())
            file.flush()
            self.assertEqual(marm.Board.load(file.name), board)
            file.write("[[event]]\nat = 4\npoke = 0x4000_4000\n")
            file.flush()
            with self.assertRaises(ValueError):
                marm.Board.load(file.name)

    def test_events_of_one_tick_keep_their_order(self) -> None:
        board = marm.Board(1, 1).with_event(5, 1).with_event(5, 0).with_event(2, 3)
        self.assertEqual([event.line for event in board.events], [3, 1, 0])

    def test_load(self) -> None:
        with tempfile.NamedTemporaryFile("w", suffix=".toml") as file:
            file.write(self.board.toml())
            file.flush()
            self.assertEqual(marm.Board.load(file.name), self.board)
            file.write("\nflash_width = 3\n")
            file.flush()
            with self.assertRaises(ValueError):
                marm.Board.load(file.name)

    def test_plain_files(self) -> None:
        """The reader for Python below 3.11, against the one of 3.11."""
        for path in [*KERNELS.glob("*.toml"), *(REPOSITORY / "examples/boards").glob("*.toml")]:
            keys = boards.parse_plain(path.read_text())
            self.assertEqual(marm.Board.load(path).flash_size, keys["flash_size"])
            if sys.version_info >= (3, 11):
                import tomllib

                self.assertEqual(keys, tomllib.loads(path.read_text()))

    def test_files_that_are_not_plain(self) -> None:
        for text in ("flash_size", "a = 1\na = 2", "event = [{at = 1}]", "[board]"):
            with self.assertRaises(ValueError, msg=text):
                boards.parse_plain(text)


class Images(unittest.TestCase):
    def test_symbols(self) -> None:
        symbols = marm.symbols_of((FIRMWARE / "counter.elf").read_bytes())
        self.assertEqual((symbols["counter"], symbols["main"] & 1), (0x2000_0000, 0))
        self.assertNotIn("$t", symbols)

    def test_addresses_and_sizes(self) -> None:
        """Bit 0 is the Thumb bit of a function alone. A global symbol wins over a local one, wherever it stands."""
        symbols = Symbols(image_with(
            ("function", 0x101, 8, FUNCTION, 1), ("object", 0x2000_0003, 1, OBJECT, 2), ("label", 0x205, 0, NO_TYPE, 1),
            ("early", 0x2000_0010, 4, OBJECT, 2), ("early", 0x2000_0020, 5, OBJECT | GLOBAL, 2),
            ("late", 0x2000_0031, 6, OBJECT | GLOBAL, 2), ("late", 0x2000_0040, 7, OBJECT, 2),
            ("local", 0x2000_0051, 8, OBJECT, 2), ("local", 0x2000_0060, 9, OBJECT, 2),
            ("global", 0x2000_0071, 8, OBJECT | GLOBAL, 2), ("global", 0x2000_0080, 9, OBJECT | GLOBAL, 2),
            ("undefined", 5, 4, OBJECT | GLOBAL, 0), ("file", 7, 4, 4, ABSOLUTE), ("$t", 9, 0, NO_TYPE, 1),
        ))
        self.assertEqual(symbols.addresses, {
            "function": 0x100, "object": 0x2000_0003, "label": 0x205, "early": 0x2000_0020, "late": 0x2000_0031,
            "local": 0x2000_0051, "global": 0x2000_0071,
        })
        self.assertEqual([*symbols.sizes.values()], [8, 1, 0, 5, 6, 8, 8])
        self.assertEqual([*symbols.sizes], [*symbols.addresses])

    def test_the_symbol_of_an_address(self) -> None:
        """That which begins last of those that cover it; a function without a size reaches to the next symbol."""
        symbols = Symbols(image_with(
            ("outer", 0x101, 0x40, FUNCTION, 1), ("inner", 0x111, 0x10, FUNCTION | GLOBAL, 1),
            ("twin", 0x110, 0x10, OBJECT, 1), ("open", 0x181, 0, FUNCTION, 1), ("label", 0x184, 0, NO_TYPE, 1),
            ("next", 0x191, 4, FUNCTION, 1), ("last", 0x1A1, 0, FUNCTION, 1), ("number", 0x300, 8, OBJECT, ABSOLUTE),
        ))
        for address, name in (
            (0xFF, None), (0x100, "outer + 0x0"), (0x10F, "outer + 0xF"), (0x110, "inner + 0x0"),
            (0x11E, "inner + 0xE"), (0x120, "outer + 0x20"), (0x13F, "outer + 0x3F"), (0x140, None),
            (0x180, "open + 0x0"), (0x18E, "open + 0xE"), (0x190, "next + 0x0"), (0x194, None),
            (0x1A0, "last + 0x0"), (0x1A2, None), (0x304, None),
        ):
            self.assertEqual(symbols.name_at(address), name, f"{address:08X}")
        self.assertIsNone(Symbols(b"").name_at(0))

    def test_names_that_many_symbols_share(self) -> None:
        """A name is read once, and names that are ends of one another have a bound: an image of 1 MiB takes no time."""
        long, count = b"\0" + b"n" * (1 << 19) + b"\0", 1 << 15
        begun = time.process_time()
        shared = Symbols(image_with_table(long, [(1, 8 * k, 4, OBJECT, 1) for k in range(count)]))
        self.assertLess(time.process_time() - begun, 5)
        self.assertEqual([*map(len, shared.addresses)], [1 << 19])
        self.assertEqual(shared.name_at(8 * count - 8), "n" * (1 << 19) + " + 0x0")
        image = image_with_table(long[-(1 << 15):], [(k, 8 * k, 4, OBJECT, 1) for k in range(1 << 11)])
        self.assertLessEqual(sum(map(len, marm.symbols_of(image))), 4 * len(image))
        ends = image_with_table(b"\0counter\0", [(1 + k, k, 4, OBJECT, 1) for k in range(8)])
        self.assertEqual([*marm.symbols_of(ends)], ["counter", "ounter", "unter", "nter", "ter", "er", "r"])

    def test_a_table_that_many_headers_describe(self) -> None:
        """One symbol table is read, as by the program."""
        image = bytearray(image_with_table(b"\0name\0", [(1, 8 * k, 4, OBJECT, 1) for k in range(1 << 9)]))
        image[46:50] = (0).to_bytes(2, "little") + (0xFFFF).to_bytes(2, "little")  # headers of no size, all the same
        image[52:92] = image[92:132]
        begun = time.process_time()
        marm.symbols_of(bytes(image))
        self.assertLess(time.process_time() - begun, 5)

    def test_damaged(self) -> None:
        image = (FIRMWARE / "counter.elf").read_bytes()
        draw = random.Random(1)
        for length in range(0, len(image), 7):
            marm.symbols_of(image[:length])
        for _ in range(300):
            damaged = bytearray(image)
            for _ in range(3):
                damaged[draw.randrange(len(image))] = draw.randrange(256)
            marm.symbols_of(bytes(damaged))

    def test_built(self) -> None:
        image = marm.build_image({0x2000_0000: b"ab", 0: bytes(8)})
        self.assertEqual((image[52:56], image[-2:], marm.symbols_of(image)), (b"\1\0\0\0", b"ab", {}))


class Errors(unittest.TestCase):
    def test_pickled(self) -> None:
        """They come out of other processes as they are."""
        for error in (
            marm.StartError(3, "marm: load 1 Truncated\n"), marm.Dead(-9, ""), marm.Hung(0.5, "run 5"),
            marm.CommandError("run 0", 2), marm.PlaceRefused("place word 1 1", 1, "NotAligned"), marm.NotReached("y"),
            marm.PlaceRefused("place word 4 2", 4, "Refused", marm.Stop("unpredictable", "mpu-ctrl")),
            marm.NotMemory("z"), marm.NoProgram("x"), marm.SweepError(7, "RuntimeError: no", [(1, 2)]),
        ):
            again = pickle.loads(pickle.dumps(error))
            self.assertEqual((type(again), str(again), vars(again)), (type(error), str(error), vars(error)))

    def test_words(self) -> None:
        self.assertEqual(str(marm.StartError(3, "marm: load 1 Truncated\n")), "marm: load 1 Truncated")
        self.assertEqual(str(marm.Hung(0.5, "run 5")), "marm didn't answer `run 5` within 0.5 s, and was killed")

    def test_no_program(self) -> None:
        with self.assertRaises(FileNotFoundError):
            marm.Machine(b"", "b", program="no-such-program")
        with self.assertRaises(marm.NoProgram):
            find_program([])


if __name__ == "__main__":
    unittest.main()
