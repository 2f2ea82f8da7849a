"""What a run and a session need at most, as docs/ROBUSTNESS.md says: stack, address space, processor time."""

import tomllib

# KiB of stack: without its board, in a session of gdb, for a byte of the board's file, and at most.
STACK, STACK_OF_GDB, STACK_OF_BOARD, MAX_STACK = 192, 256, 0.25, 3072

# KiB of address space: of the program with 2 MiB of flash and RAM and 32 MiB of kept instructions, for a byte of the
# image's file, and of the board's.
SPACE, SPACE_OF_IMAGE, SPACE_OF_BOARD = 44 * 1024, 4 / 1024, 1

# KiB of address space in a session of gdb: of the memory of the states that are kept beside two of them, and, for each
# of all these states, of room for the events of a script and of the words of devices. A mark takes three states.
SPACE_OF_STATES, SPACE_OF_STATE, STATES_OF_MARK, MAX_MARKS = 64 * 1024, 2 * 1024, 3, 8

# The most bytes of flash and of RAM each, and of a second RAM.
MOST, MOST_OF_SECOND = 1 << 20, 1 << 24

# Seconds of processor time: of a start, of a byte that is written, of a step, of a byte of the board or the commands.
START, WRITTEN, STEP, READ = 0.5, 1e-6, 20e-6, 10e-6


def size(table, key, most):
    """Returns the bytes that a table has at a key; the most, where it has no such number there."""
    value = table.get(key) if isinstance(table, dict) else None
    return value if isinstance(value, int) and 0 <= value <= most else most


def memory(board):
    """Returns the KiB of flash and RAM of a board, and of its second RAM; the most, where Python doesn't read it."""
    try:
        table = tomllib.loads(board.decode())
    except (ValueError, RecursionError):
        return 2 * MOST / 1024, MOST_OF_SECOND / 1024
    first = size(table, "flash_size", MOST) + size(table, "ram_size", MOST)
    rams = table.get("ram", [])
    second = size(rams[0] if isinstance(rams, list) and rams else None, "size", MOST_OF_SECOND) if rams else 0
    return first / 1024, second / 1024


def limits(image, board, is_gdb):
    """Returns the limits of a run or a session, as options of the shell's `ulimit`."""
    stack = min((STACK_OF_GDB if is_gdb else STACK) + STACK_OF_BOARD * len(board), MAX_STACK)
    first, second = memory(board)
    space = SPACE + second + SPACE_OF_IMAGE * len(image) + SPACE_OF_BOARD * len(board)
    if is_gdb:
        marks = min(SPACE_OF_STATES // max(STATES_OF_MARK * (first + second), 1), MAX_MARKS)
        space += SPACE_OF_STATES + 2 * (first + second) + (2 + STATES_OF_MARK * marks) * SPACE_OF_STATE
    return [f"-s {int(stack)}", f"-v {int(space)}"]


def seconds(answer, board, session, steps):
    """Returns the most seconds of processor time of a run or a session with that answer."""
    return START + WRITTEN * len(answer.out) + STEP * steps + READ * (len(board) + len(session))
