"""The images, boards and sessions of the repository, from which the others are made."""

import glob
import os

# The commands that a session of the repository doesn't have.
COMMANDS = b"regs\nregions\nstep\nbreak 0x100\nrun 50\nexplain 0x20000000 u w\nmem 0x20000000 16\ntask 10\nnext\n"
COMMANDS += b"watch a 0x20000000 64\nstop exceptions on\ntrace console\nrun 50\nclear\nstate\nscript 1\nrun 50\nquit\n"


def content(path):
    """Returns the bytes of a file."""
    with open(path, "rb") as file:
        return file.read()


class Corpus:
    """What the repository holds: an image and a board that fits it are a pair."""

    def __init__(self, top):
        data = os.path.join(top, "crates", "test_firmware", "data")
        boards = os.path.join(top, "examples", "boards")
        kernels = os.path.join(top, "examples", "kernels")
        programs = os.path.join(top, "examples", "firmware")
        firmware, small = content(os.path.join(programs, "board.toml")), content(os.path.join(boards, "small.toml"))
        self.pairs = [(content(os.path.join(data, "first.elf")), small)]
        self.pairs.append((content(os.path.join(programs, "crc32-loop.elf")), firmware))
        for path in sorted(set(glob.glob(os.path.join(data, "*.elf"))) - {os.path.join(data, "first.elf")}):
            name = os.path.splitext(os.path.basename(path))[0].removesuffix("_filled")
            own = os.path.join(kernels, name + ".toml")
            self.pairs.append((content(path), content(own) if os.path.exists(own) else firmware))
        paths = sorted(glob.glob(os.path.join(boards, "*.toml")) + glob.glob(os.path.join(kernels, "*.toml")))
        self.boards = [firmware] + [content(path) for path in paths]
        # (with other images its runs would be as long as they say)
        self.sessions = [content(os.path.join(kernels, "task_b.txt")).replace(b"run 1000000", b"run 2000"), COMMANDS]
