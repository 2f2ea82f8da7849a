"""Debug sessions and arguments: numbers at the edges, lines of 79 to 82 bytes, many commands, other bytes."""

import edits
import pages

NUMBERS = ["0", "1", "2", "16", "17", "50", "256", "257", "1000", "1000000", "1000001", "4294967295"]
NUMBERS += ["4294967296", "0x0", "0xFFFFFFFF", "0x100000000", "0x20000000", "0x20001ffe", "0xE000ED94"]
NUMBERS += ["0x", "0X10", "+5", "-1", "007", "1_0", "x", ""]
COMMANDS = list(pages.commands())
WORDS = [form.split()[0] for form in COMMANDS] + ["help", "STEP", "steps", "\u00e9", "\ufeffstep"]

STEPS = ["0", "1", "10", "1000", "4294967296", "4294967297", "18446744073709551616", "-1", "0x10", ""]
STEPS += ["1e3", " 1", "\u0661"]


def number(source):
    """Returns a number, mostly a small one, or what a command refuses as a number."""
    if source.random() < 0.6:
        return str(source.randrange(1, 300))
    return source.choice([source.choice(NUMBERS), hex(source.choice(edits.EDGES))])


def any_words(source):
    """Returns up to four words, commands or numbers."""
    return " ".join(source.choice([source.choice(WORDS), number(source)]) for _ in range(source.randrange(5)))


def argument(source, name):
    """Returns what a command takes in place of a name: one of its letters, mostly, or a number."""
    return source.choice([*name.split("|") * 2, "P", "R"]) if "|" in name else number(source)


def one_of(form):
    """Returns what makes a command of a form of docs/DEBUGGING.md, as `explain a p|u r|w|x`."""
    word, *names = form.split()
    return lambda source: " ".join([word, *(argument(source, name) for name in names)])


# The forms of a command: those of the page but the end of a session, some with other numbers, and any words.
FORMS = [one_of(form) for form in COMMANDS if form != "quit"] + [
    lambda source: f"run {source.randrange(1, 2000)}",
    lambda source: f"break 0x{source.randrange(0, 0x400, 2):x}",
    lambda source: f"mem 0x{0x20000000 + source.randrange(999):x} 9",
    any_words,
]


def command(source):
    """Returns a command, mostly a right one."""
    text = source.choice(FORMS)(source)
    if source.random() < 0.05:
        text = text.ljust(source.choice([79, 80, 81, 82, 5000]), source.choice(" 0a"))
    return text + source.choice([" ", "\r", "\0", "  1", "\t"]) if source.random() < 0.08 else text


def session(source, corpus):
    """Returns the commands of a session."""
    count = source.choice([1, 5, 20, 20, 20, 20, 20, 100, 100, 1000])
    text = "\n".join(command(source) for _ in range(count)).encode() + source.choice([b"\n", b"\n", b"", b"\n\n"])
    if source.random() < 0.1:
        text = source.choice(corpus.sessions) + text
    return edits.edited(source, text, edits.ANY) if source.random() < 0.3 else text


def arguments(source, image, board):
    """Returns the arguments of a run or a session, with words that are left out, repeated or of another kind."""
    words = ["run", "--board", board, "--steps", source.choice(STEPS), image]
    if source.random() < 0.5:
        words = ["debug", "--board", board, image]
    for _ in range(source.randrange(3)):
        at = source.randrange(len(words) + 1)
        others = ["--help", "-h", "--version", "-V", "--", "-", "", "--steps", "--board", "--bord", "help", "run"]
        others += ["debug", f"--steps={source.choice(STEPS)}", f"--board={board}", "--steps=", "/", "/nowhere/x"]
        others += [board, "\u200b", "\udcff"]  # (the last is the byte FF, which is no text in UTF-8)
        words[at : at + source.randrange(2)] = source.choice([[], [source.choice(others)]])
    return words
