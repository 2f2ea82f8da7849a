"""Boards: those of the repository with other bytes, words and numbers, and boards with values at the edges."""

import re

import edits

KEYS = ["flash_base", "flash_size", "ram_size", "priority_bits", "lines", "regions"]
NUMBERS = [0, 1, 2, 3, 4, 7, 8, 9, 15, 16, 17, 239, 240, 241, 1000, 1023, 1024, 1025, 4096, 8192]
NUMBERS += [1 << 20, (1 << 20) + 1024, 0x1FFFFC00, 0x20000000, 1 << 31, 1 << 32, 1 << 48, (1 << 48) + 1]
NUMBERS += [(1 << 63) - 1, 1 << 63, 1 << 64, -1, -1024]
FORMS = ["{}", "{:#x}", "{:#o}", "{:#b}", "+{}", "-{}", "{:_}", "0{}", "{}.0", "{}e0", '"{}"']
FORMS += ["[{}]", "{{ a = {} }}", "{}_"]
VALUES = ["true", "false", '"rise"', '"pulse"', "'fall'", "inf", "nan", "1979-05-27", "07:32:00", "[]", "{}", '""']
VALUES += ["1e400", "1979-05-27T07:32:00Z", '"""\n"""', "'''\n'''", '"\\u0000"', '"\\uD800"', '"\\q"']
VALUES.append("[1, [2], {a=3}]")

# Characters that aren't seen, or that TOML treats in its own way.
HIDDEN = ["\u200b", "\ufeff", "\u202e", "\u00a0", "\0", "\r", "\t", "\x7f", "\u0085", "\u2028"]
HIDDEN += ["\ud7ff", "\U0010ffff", '"', "#"]


def number(source):
    """Returns an integer in one of TOML's forms, or in a form that TOML doesn't have."""
    value = source.choice(NUMBERS) + source.choice([0, 0, 0, 1, -1])
    return source.choice(FORMS).format(value) if source.random() < 0.5 else str(value)


def token(source, text):
    """Puts another number, value or key at the place of one."""
    found = list(re.finditer(r"[\w.+-]+|\"[^\"]*\"", text))
    if not found:
        return text
    match = source.choice(found)
    key = source.choice([*KEYS, "event", "at", "line", "what", "nmi"])
    new = source.choice([number(source), source.choice(VALUES), key])
    return text[: match.start()] + new + text[match.end() :]


def line(source, text):
    """Removes, repeats or moves a line."""
    lines = text.split("\n")
    taken = lines.pop(source.randrange(len(lines)))
    for _ in range(source.choice([0, 1, 1, 2])):
        lines.insert(source.randrange(len(lines) + 1), taken)
    return "\n".join(lines)


def hidden(source, text):
    """Inserts a character that isn't seen."""
    at = source.randrange(len(text) + 1)
    return text[:at] + source.choice(HIDDEN) + text[at:]


def long(source, text):
    """Adds a key, a string, a comment or a number of many characters."""
    many = "a" * source.choice([79, 80, 81, 82, 1000, 20_000])
    digits = "9" * len(many)
    forms = [f"{many} = 1", f'"{many}" = 1', f"{many}.b = 1", f"flash_base.{many} = 1", f'lines = "{many}"']
    forms += [f"# {many}", f"lines = {digits}", f"lines = 0.{digits}", f"[{many}]"]
    forms += [f"[[{many}]]", f"lines = 0x{'f' * len(many)}"]
    return text + "\n" + source.choice(forms) + "\n"


def nested(many):
    """Returns a table of that many levels, each with a key of 80 parts: TOML's reader counts both apart."""
    return "{" + ("c." * 79 + "c={") * (many - 1) + "}" * many


def deep(source, text):
    """Adds a value or a key with many levels."""
    many = source.choice([10, 79, 80, 81, 82, 127, 128, 129, 1000, 10_000])
    forms = ["x = " + "[" * many + "]" * many, "x = " + "{a=" * many + "1" + "}" * many, "a." * many + "a = 1"]
    forms += [f"x = {nested(min(many, 81))}", "x = " + "[" * many, "[" + "a." * many + "a]"]
    forms += ["[[" + "a." * many + "a]]", "x = " + "[{a=" * many]
    return text + "\n" + source.choice(forms) + "\n"


def event(source, at):
    """Returns an event, mostly a right one."""
    lines = [f'line = {source.randrange(12)}\nwhat = "{what}"' for what in ("rise", "fall", "pulse")]
    kind = source.choice(["nmi = true", *lines])
    if source.random() < 0.03:
        wrong = ["nmi = false", "line = 0", 'what = "rise"', f"{kind}\nnmi = true", f"{kind}\nmore = 1", "line = 240"]
        kind = source.choice(wrong)
    return f"[[event]]\nat = {at}\n{kind}\n"


def events(source, text):
    """Adds events: at most 40 mostly, rarely some thousands."""
    at, added = 0, []
    for _ in range(source.choice([1, 2, 8, 40, 40, 3000])):
        at += source.choice([0, 1, 1, 5, 100])
        added.append(event(source, at if source.random() < 0.995 else source.choice(NUMBERS)))
    return text + "\n" + "".join(added)


def whole(source):
    """Returns a board of its own, each value at an edge of its range or one beside it."""
    near = lambda values: source.choice(values * 6 + NUMBERS)
    lines = [f"flash_base = {near([0, 0, 1024, 0x08000000, 0x1FF00000])}", f"priority_bits = {near([3, 4, 8])}"]
    lines += [f"{key} = {near([1024, 4096, 1 << 20])}" for key in ("flash_size", "ram_size")]
    lines.append(f"lines = {near([0, 1, 32, 240])}")
    if source.random() < 0.5:
        lines.append(f"regions = {near([8, 16])}")
    source.shuffle(lines)
    return "\n".join(lines) + "\n"


EDITS = [token, token, token, token, line, line, hidden, long, deep, events, events, events]


def board(source, corpus):
    """Returns a board."""
    text = (whole(source).encode() if source.random() < 0.3 else source.choice(corpus.boards)).decode()
    for _ in range(source.choice([0, 1, 1, 2, 3])):
        text = source.choice(EDITS)(source, text)
    content = text.encode("utf-8", "surrogatepass")
    return edits.edited(source, content, edits.ANY) if source.random() < 0.15 else content
