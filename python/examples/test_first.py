"""The first test of docs/SCRIPTING.md, for pytest: the fixture `marm_machine` makes the machine and closes it."""

from __future__ import annotations

from typing import Callable

import marm

from tests.support import KERNELS


def test_task_c_is_ended(marm_machine: Callable[..., marm.Machine]) -> None:
    m = marm_machine(KERNELS / "round_robin.elf", KERNELS / "round_robin.toml")
    ran = m.run_to(marm.REFUSED)
    assert str(ran.cause) == "2738 S 20000000 4 u mpu none"
    assert m.explain(0x2000_0400, "u", "w")
    assert not m.explain(0x2000_0000, "u", "w")
    m.expect(b"c has ended")
