"""The text of `marm tasks`. The lines about round_robin are those of another machine, which was made from the rule
alone, with the names of its tasks. The lines about overlap were worked out by hand."""

from __future__ import annotations

import sys
import unittest

import marm
from marm.worlds import tasks_of

from .support import KERNELS, needs_program

ROUND_ROBIN = """\
world 1 steps 1788 tick 354 pc 00000100 code 00000100 00000128 task_a
map 1 00000000 000000FF flash --- none
map 1 00000100 000001FF flash r-x r0
map 1 00000200 00003FFF flash --- none
map 1 20000000 200001FF ram rw- r1
map 1 20000200 20001FFF ram --- none
map 1 40000000 40000FFF window --- none
world 2 steps 53 tick 911 pc 00000200 code 00000200 00000218 task_b
map 2 00000000 000001FF flash --- none
map 2 00000200 000002FF flash r-x r0
map 2 00000300 00003FFF flash --- none
map 2 20000000 200001FF ram --- none
map 2 20000200 200003FF ram rw- r1
map 2 20000400 20001FFF ram --- none
map 2 40000000 40000FFF window --- none
world 3 steps 39 tick 1041 pc 00000300 code 00000300 00000324 task_c
map 3 00000000 000002FF flash --- none
map 3 00000300 000003FF flash r-x r0
map 3 00000400 00003FFF flash --- none
map 3 20000000 200003FF ram --- none
map 3 20000400 200005FF ram rw- r1
map 3 20000600 20001FFF ram --- none
map 3 40000000 40000FFF window --- none
apart 1 2
apart 1 3
apart 2 3
stop breakpoint 0
"""

OVERLAP = """\
world 1 steps 137 tick 273 pc 00000100 code 00000100 00000130 writer
map 1 20000000 200001FF ram rw- r1
map 1 20000200 2000023F ram rw- r2
map 1 20000240 20001FFF ram --- none
world 2 steps 225 tick 443 pc 00000200 code 00000200 00000260
map 2 20000000 200001FF ram --- none
map 2 20000200 2000021F ram r-- r2
map 2 20000220 200003FF ram rw- r1
others 17
shares 1 2 20000220 2000023F
shares 2 1 20000220 2000023F
stop lockup
"""

NONE = (
    "", "stop breakpoint 0", "shares 1 2 20000220\nstop breakpoint 0\n", "world 2 steps 1\nstop breakpoint 0\n",
    "map 1 00000000 000000FF flash --- none\nstop breakpoint 0\n", OVERLAP.replace("others", "other"),
    OVERLAP.replace("others 17", "apart 1 2"), OVERLAP.replace("map 2", "map 1"),
    ROUND_ROBIN.replace("apart 1 3\n", ""),
)


class Lines(unittest.TestCase):
    def test_tasks_that_are_apart(self) -> None:
        tasks = tasks_of(ROUND_ROBIN.split("\n"))
        self.assertEqual([(world.number, world.steps, world.name) for world in tasks.worlds],
                         [(1, 1788, "task_a"), (2, 53, "task_b"), (3, 39, "task_c")])
        self.assertEqual(tasks.worlds[1][2:6], (911, 0x200, 0x200, 0x218))
        self.assertEqual([len(world.map) for world in tasks.worlds], [6, 7, 7])
        self.assertEqual(tasks.worlds[2].at(0x2000_0401), (0x2000_0400, 0x2000_05FF, "ram", "rw-", "r1"))
        self.assertEqual((tasks.worlds[2].at(0x2000_0401).region, tasks.worlds[2].at(0x4000_0000).region), (1, None))
        with self.assertRaises(IndexError):
            tasks.worlds[0].at(0x2000_2000)
        self.assertTrue(tasks.apart and tasks.are_apart(1, 3))
        self.assertEqual((tasks.shared, tasks.others, str(tasks.stop)), ([], 0, "breakpoint 0"))

    def test_tasks_that_share(self) -> None:
        tasks = tasks_of(OVERLAP.split("\n"))
        self.assertEqual(tasks.shared, [(1, 2, 0x2000_0220, 0x2000_023F), (2, 1, 0x2000_0220, 0x2000_023F)])
        self.assertFalse(tasks.apart or tasks.are_apart(1, 2) or tasks.are_apart(2, 1))
        self.assertEqual((tasks.worlds[1].name, tasks.others, str(tasks.stop)), (None, 17, "lockup"))

    def test_no_tasks(self) -> None:
        tasks = tasks_of(["stop breakpoint 0", ""])
        self.assertEqual((tasks.worlds, tasks.apart), ([], True))

    def test_steps_in_worlds_without_a_number(self) -> None:
        """Then the tasks aren't apart, though no two of them share a byte."""
        tasks = tasks_of(ROUND_ROBIN.replace("apart 1 2\n", "others 3\napart 1 2\n").split("\n"))
        self.assertEqual((tasks.shared, tasks.others, tasks.are_apart(1, 2)), ([], 3, True))
        self.assertFalse(tasks.apart)

    def test_statuses(self) -> None:
        """Status 4 is a run that ended at another stop: its lines are read. Others are refusals."""
        for status in (0, 4):
            self.assertEqual(answered(OVERLAP, status), tasks_of(OVERLAP.split("\n")))
        for status in (1, 2, 3, 5):
            with self.assertRaises(marm.StartError) as caught:
                answered("", status)
            self.assertEqual((caught.exception.status, str(caught.exception)), (status, "marm: no"))

    def test_texts_that_are_none(self) -> None:
        for text in NONE:
            with self.assertRaises((ValueError, IndexError), msg=text):
                tasks_of(text.split("\n"))


def answered(text: str, status: int) -> marm.Tasks:
    """Returns what a program that writes this text and ends so has answered."""
    program = f"import sys; sys.stdout.write({text!r}); sys.stderr.write('marm: no\\n'); sys.exit({status})"
    return marm.tasks(b"", "none.toml", program=[sys.executable, "-c", program])


@needs_program
class Program(unittest.TestCase):
    def test_round_robin(self) -> None:
        tasks = marm.tasks(KERNELS / "round_robin.elf", KERNELS / "round_robin.toml", steps=20_000)
        self.assertEqual(tasks, tasks_of(ROUND_ROBIN.split("\n")))

    def test_a_mailbox_that_is_allowed(self) -> None:
        image, board = (KERNELS / "mailbox.elf").read_bytes(), KERNELS / "mailbox.toml"
        self.assertEqual(marm.tasks(image, board).shared, [(1, 2, 0x2000_0200, 0x2000_021F)])
        self.assertTrue(marm.tasks(image, board, allow=[(0x2000_0200, 0x2000_021F)]).apart)

    def test_an_image_that_is_refused(self) -> None:
        with self.assertRaises(marm.StartError) as caught:
            marm.tasks(b"no image", KERNELS / "mailbox.toml")
        self.assertEqual(caught.exception.status, 3)

    def test_a_run_that_ends_in_lockup(self) -> None:
        """UDF, whose fault escalates to HardFault, and UDF as the handler of that."""
        vectors = bytes.fromhex("00040020" + 3 * "11000000")
        tasks = marm.tasks(marm.build_image({0: vectors + bytes.fromhex("00de")}), marm.Board(1024, 1024))
        self.assertEqual((str(tasks.stop), tasks.worlds, tasks.apart), ("lockup", [], True))
