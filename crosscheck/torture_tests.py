"""gcc's execution tests: their sources, the options that each asks for, and how one is built with the start kit."""

import glob
import os
import re
import subprocess

# The folders of tests, and the options that their scripts (*.exp) give all tests there. A test of `builtins` has a
# second file, and main.c is that of all.
FOLDERS = {
    "execute": "-w",
    "execute/ieee": "-w -fno-inline",
    "execute/builtins": "-w -fno-tree-dse -fno-tree-loop-distribute-patterns -fno-tracer -fno-ipa-ra "
    "-fno-inline-functions -Wl,--allow-multiple-definition",
}

# An option that a test asks for, whatever the target: `{ dg-options "-fwrapv" }`. What .x files ask for of this target.
ASKED = re.compile(r'\{\s*dg-(?:additional-)?options\s+\{?\s*"([^"]*)"\s*\}?\s*\}')
ASKED_BESIDE = {
    "abs-1": "-fno-builtin-abs",
    "compare-fp-3": "-fno-trapping-math",
    "compare-fp-4": "-fno-trapping-math",
    "fp-cmp-7": "-fno-trapping-math",
    "pr38016": "-fno-ivopts -fno-gcse",
}

TARGET = ["arm-none-eabi-gcc", "-mthumb", "-mcpu=cortex-m3"]
LIMIT = 120

# The largest stack that a test asks for has 0x80100 bytes.
LINK = ["-nostartfiles", "-static", "-Wl,-n", "-Wl,-s", "-Wl,--defsym=STACK_SIZE=0x90000"]


class Test:
    """One test: its name, its files and its options."""

    def __init__(self, folder, path):
        self.name = f"{folder}/{os.path.basename(path)[:-2]}".split("/", 1)[1]
        self.files = [path]
        if folder.endswith("builtins"):
            self.files += [f"{path[:-2]}-lib.c", os.path.join(os.path.dirname(path), "lib", "main.c")]
        with open(path, encoding="latin-1") as file:
            asked = " ".join(ASKED.findall(file.read()))
        self.options = f"{FOLDERS[folder]} {asked} {ASKED_BESIDE.get(os.path.basename(path)[:-2], '')}".split()


def tests_of(folder, only):
    """All tests, in the order of their names, or the one of a name."""
    found = [
        Test(part, path)
        for part in FOLDERS
        for path in sorted(glob.glob(os.path.join(folder, part, "*.c")))
        if not path.endswith("-lib.c")
    ]
    return [test for test in found if only in ("", test.name)]


class Kit:
    """The start kit's objects, and its linker script."""

    def __init__(self, kit, folder):
        self.script = os.path.join(kit, "link.ld")
        self.objects = {name: os.path.join(folder, name + ".o") for name in ("start.s", "syscalls.c", "regions.c")}
        for name, path in self.objects.items():
            subprocess.run([*TARGET, "-O2", "-c", os.path.join(kit, name), "-o", path], check=True)

    def command(self, test, level, image):
        """The command that builds a test at a level, such as O2 or confined-O2."""
        names = ["start.s", "syscalls.c"] + ["regions.c"] * level.startswith("confined-")
        objects = [self.objects[name] for name in names]
        words = [*TARGET, "-" + level.split("-")[-1], *test.options, *test.files, *objects]
        return [*words, *LINK, "-T", self.script, "-lm", "-o", image]


def errors_of(command):
    """What a command that fails says, or None where it ends well in the time that it has."""
    try:
        ended = subprocess.run(command, stdin=subprocess.DEVNULL, capture_output=True, timeout=LIMIT)
    except subprocess.TimeoutExpired:
        return "too slow"
    return ended.stderr.decode(errors="replace") if ended.returncode else None


def built(kit, test, level, image):
    """Builds a test. Returns "built", or why there is no image: "larger than RAM"; "refused" where GCC makes none with its
    own start code and linker script either; and otherwise "not linked"."""
    errors = errors_of(kit.command(test, level, image))
    if errors is None:
        return "built"
    if "region `RAM' overflowed" in errors:
        return "larger than RAM"
    elsewhere = [*TARGET, "-" + level.split("-")[-1], *test.options, *test.files, "--specs=rdimon.specs", "-lm"]
    return "refused" if errors_of([*elsewhere, "-o", image]) else "not linked"
