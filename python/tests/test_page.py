"""The code on docs/SCRIPTING.md is run, from the top of the repository."""

from __future__ import annotations

import os
import re
import unittest
from typing import Any

from .support import REPOSITORY, needs_program

PAGE = REPOSITORY / "docs" / "SCRIPTING.md"


@needs_program
class Page(unittest.TestCase):
    def test_its_code_runs(self) -> None:
        blocks = re.findall(r"^```python\n(.*?)^```$", PAGE.read_text(), re.M | re.S)
        self.assertGreater(len(blocks), 3)
        names: dict[str, Any] = {}
        before = os.getcwd()
        os.chdir(REPOSITORY)
        self.addCleanup(os.chdir, before)
        for number, block in enumerate(blocks):
            with self.subTest(number):
                exec(compile(block, f"{PAGE.name}, block {number}", "exec"), names)


if __name__ == "__main__":
    unittest.main()
