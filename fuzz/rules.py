"""What each answer of marm has to be (docs/marm.1, docs/TRACE.md, docs/DEBUGGING.md), and what it may need
(docs/ROBUSTNESS.md)."""

import re

import pages

REFUSALS = {
    "load": "Truncated NotElf NotElf32Little NotExecutable NotArm HeaderSize SegmentOutsideFile SegmentOverlap"
    " TooManySegments",
    "board": "NotToml MissingKey WrongKind OutOfRange EventsOutOfOrder UnknownKey OutOfMemory",
}
NAMED = [f"{kind} {number} {name}" for kind, names in REFUSALS.items() for number, name in enumerate(names.split(), 1)]
NAMED += ["start 10 SegmentOutsideMemory", "start 11 NoMemory", "size"]

# The first line on standard error, by the status.
FIRST = {2: ["usage"], 3: NAMED, 5: ["io"]}

# What a run may have on standard error: notes for a person.
NOTES = re.compile(rb"(?:marm: note: [^\n]+\n)*")

# The lines of a trace and of a stop.
WORD = "[0-9A-F]{8}"
RULE = "(?:xn|vec|ppb|off|neg|r1[0-5]|r[0-9]|bg|none)"
ACCESS = f"[FLSKUVP] {WORD} [124] [pu] (?:ok|mpu|bus) {RULE}"


def number(text):
    """Returns what may be in place of a number: of eight digits or two, the first a 0, hexadecimal, otherwise decimal."""
    if len(text) == 8:
        return WORD
    return "[0-9A-F]{2}" if re.fullmatch("0.", text) else "(?:0|[1-9][0-9]*)"


def other_line(example):
    """Returns the lines that are like one: the letter, and then numbers."""
    letter, *numbers = example.split(" ")
    return " ".join([letter, *map(number, numbers)])


LINE = f"[1-9][0-9]* (?:{'|'.join([ACCESS, *map(other_line, pages.other_lines())])})\n"
QUIET = "stop (?:steps|breakpoint [0-9]+)\n"
NAMES = [f"{kind} {name}" for kind, names in pages.stops().items() for name in names]
NAMED_STOP = f"stop (?:{'|'.join(['lockup', 'reset', *NAMES])})\n"

# What is written in place of a name in a line of an answer: for other names eight digits.
PARTS = {
    "k": "[0-9]+",
    "rule": RULE,
    "bytes": "(?:[0-9A-F]{2}|--)(?: (?:[0-9A-F]{2}|--))*",
    "name": "(?:R[0-9]|R1[0-2]|MSP|PSP|LR|PC|XPSR|CONTROL|PRIMASK|FAULTMASK|BASEPRI)",
    "status": "(?:CFSR|HFSR|MMFAR|BFAR|VTOR|CCR)",
    "ticks": "(?:0|[1-9][0-9]*)",
    "size": "(?:0|[1-9][0-9]*)",
    "numbers": "[0-9]+(?: [0-9]+)*",
    "what": "(?:break|refused|fault|exception)",
    "kind": "(?:Instruction|Stack|Vector|Sleep)",
    "next": "(?:Instruction|Stack|Vector|Sleep|stop [a-z0-9 -]+)",
    "usage": "[a-z][^\n]*  [a-z][^\n]*",
    "stop": f"(?:{'|'.join(['lockup', 'reset', *NAMES])})",
}


def form(line):
    """Returns the form of a line of an answer, in which a name in angle brackets is of a part."""
    return re.sub("<([a-z]+)>", lambda name: PARTS.get(name[1], WORD), line) + "\n"


# The other lines of a debug session: of its commands, and of a line that is none.
# Each form is there once, so that a wrong answer is told from them without trying each of their orders.
SHOWN = [*(line for lines in pages.commands().values() for line in lines), *pages.refusals(), "error [12]"]
OTHER = "|".join(dict.fromkeys(map(form, SHOWN)))

TRACE = {
    0: re.compile(f"(?:{LINE})*{QUIET}".encode()),
    4: re.compile(f"(?:{LINE})*{NAMED_STOP}".encode()),
}
ANSWERS = re.compile(f"(?:{LINE}|{QUIET}|{NAMED_STOP}|{OTHER})*".encode())

# The lines of `marm tasks` (docs/TASKS.md).
COUNT = "[1-9][0-9]*"
WORLDS = (
    f"world {COUNT} steps {COUNT} tick {COUNT} pc {WORD} code {WORD} {WORD}(?: [^\n]+)?\n"
    f"|map {COUNT} {WORD} {WORD} (?:flash|ram|window) (?:[r-][w-][x-]) {RULE}\n"
    f"|apart {COUNT} {COUNT}\n|shares {COUNT} {COUNT} {WORD} {WORD}\n|others {COUNT}\n"
)
TASKS = {
    0: re.compile(f"(?:{WORLDS})*{QUIET}".encode()),
    4: re.compile(f"(?:{WORLDS})*{NAMED_STOP}".encode()),
}

# The parts of a session of gdb: acknowledgements, and packets with their checksums.
REPLY = re.compile(rb"[+-]|\$([^$#]*)#([0-9a-f]{2})")

# The most bytes of a page (docs/REPORT.md).
MAX_PAGE = 2 << 20


def wrong_refusal(answer):
    """Returns what is wrong with a refusal: its first line, or something on standard output."""
    first = answer.err.partition(b"\n")[0].decode(errors="replace")
    if first not in [f"marm: {text}" for text in FIRST[answer.status]]:
        return f"status {answer.status} with the first line {first!r}"
    if answer.out and answer.status == 3:
        return "status 3 with a byte on standard output"
    return None


def wrong_run(answer):
    """Returns what is wrong with the answer of a run, or None."""
    if answer.status in FIRST:
        return wrong_refusal(answer)
    if answer.status not in TRACE:
        return f"status {answer.status}"
    if not NOTES.fullmatch(answer.err):
        return f"status {answer.status} with more than notes on standard error"
    if not TRACE[answer.status].fullmatch(answer.out):
        return f"status {answer.status} with a trace that doesn't have its form"
    return None


def wrong_unless(answer, statuses, wrong_output):
    """Returns what is wrong with a refusal; or with an answer that has to have one of these statuses, nothing on
    standard error, and an output in which nothing is wrong."""
    if answer.status in FIRST:
        return wrong_refusal(answer)
    if answer.status not in statuses:
        return f"status {answer.status}"
    return f"status {answer.status} with a byte on standard error" if answer.err else wrong_output(answer)


def wrong_tasks(answer):
    """Returns what is wrong with the text about the worlds of a run, or None."""
    wrong = "a text about worlds that doesn't have its form"
    return wrong_unless(answer, TASKS, lambda it: None if TASKS[it.status].fullmatch(it.out) else wrong)


def wrong_page(answer):
    """Returns what is wrong with the page about a run, or None."""

    def wrong_output(it):
        is_page = it.out.startswith(b"<!DOCTYPE html>\n") and it.out.endswith(b"</html>\n")
        return None if is_page and len(it.out) < MAX_PAGE else f"{len(it.out)} bytes that are no page"

    return wrong_unless(answer, TRACE, wrong_output)


def wrong_packets(answer):
    """Returns what is wrong with a session of gdb, or None."""

    def wrong_output(it):
        replies = list(REPLY.finditer(it.out))
        if sum(len(reply[0]) for reply in replies) != len(it.out):
            return "an answer that isn't made of packets"
        is_right = all(reply[2] is None or sum(reply[1]) % 256 == int(reply[2], 16) for reply in replies)
        return None if is_right else "a packet with another checksum"

    return wrong_unless(answer, [0], wrong_output)


def wrong_session(answer):
    """Returns what is wrong with the answer of a debug session, or None."""
    wrong = "an answer that doesn't have its form"
    return wrong_unless(answer, [0], lambda it: None if ANSWERS.fullmatch(it.out) else wrong)


def wrong_words(answer):
    """Returns what is wrong with the answer to arguments: that of a run or a session, or help or the version."""
    if answer.status == 2 or answer.out.startswith(b"marm "):
        return None if answer.status == 0 and not answer.err else wrong_refusal(answer)
    return wrong_session(answer) if answer.status == 0 and wrong_run(answer) else wrong_run(answer)
