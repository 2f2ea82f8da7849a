"""Runs gdb over scripts, and looks for the lines that each one wants, in their order. Usage: gdb_scripts.py MARM TOP
IMAGES [SCRIPT..]. The first lines of a script name its kernel (`# kernel NAME`), and its board where it has another
one's (`# board NAME`)."""
import pathlib
import subprocess
import sys


def wanted_lines(script):
    return [line[3:] for line in script.splitlines() if line.startswith("#= ")]


def option(script, name):
    for line in script.splitlines():
        if line.startswith(f"# {name} "):
            return line.split()[2]
    return None


def run_gdb(marm, top, images, path):
    """Returns what gdb printed."""
    script = path.read_text()
    kernel = option(script, "kernel")
    board = top / "examples/kernels" / f"{option(script, 'board') or kernel}.toml"
    image = images / f"{kernel}.elf"
    server = f"{marm} gdb --board {board} {image}"
    settings = ["set pagination off", "set confirm off", "set width 0"]
    words = ["gdb-multiarch", "-nx", "-q", "-batch"]
    for setting in settings:
        words += ["-iex", setting]
    words += ["-ex", f"target remote | {server}"]
    # each command by an option of its own: an error in one doesn't end the others
    for command in script.splitlines():
        if command and not command.startswith("#"):
            words += ["-ex", command]
    words.append(str(image))
    try:
        return subprocess.run(words, stdout=subprocess.PIPE, stderr=subprocess.STDOUT, text=True, errors="replace",
                              timeout=120).stdout
    except subprocess.TimeoutExpired:
        return "no end within 120 seconds"


def first_missing(lines, printed):
    """Returns the first wanted line that isn't there after those before it."""
    at = 0
    for line in lines:
        found = printed.find(line, at)
        if found < 0:
            return line
        at = found + len(line)
    return None


def main():
    marm, top, images = sys.argv[1], pathlib.Path(sys.argv[2]), pathlib.Path(sys.argv[3])
    folder = top / "crosscheck/gdb"
    paths = [folder / f"{name}.gdb" for name in sys.argv[4:]] or sorted(folder.glob("*.gdb"))
    failed = 0
    for path in paths:
        printed = run_gdb(marm, top, images, path)
        missing = first_missing(wanted_lines(path.read_text()), printed)
        if missing is None:
            print(f"{path.stem}: as wanted")
        else:
            failed += 1
            print(f"{path.stem}: NOT FOUND: {missing}\n{printed}")
    print(f"{len(paths) - failed} of {len(paths)} scripts print what is wanted")
    sys.exit(1 if failed else 0)


main()
