"""Sessions of gdb: packets as gdb sends them, some with another checksum or with other bytes."""

import edits
import sessions

ADDRESSES = ["0", "8", "100", "fff", "20000000", "20000ffc", "40000000", "e000ed94", "ffffffff", "100000000", "x"]
LENGTHS = ["0", "1", "2", "4", "10", "400", "1001", "ffffffff"]

# Packets without numbers.
PLAIN = "? ! g c s bc bs C05 S05 vCont? vCont;c vCont;s vCont;s:1;c Hg0 Hc-1 T1 qC qAttached qfThreadInfo".split()
PLAIN += "qsThreadInfo qSupported:swbreak+;hwbreak+ qSymbol:: vMustReplyEmpty QStartNoAckMode F0 F-1,4,C x".split()
PLAIN += ["qXfer:memory-map:read::0,fff", "qXfer:features:read:target.xml:0,fff"]

# Commands of `monitor`, which are sent as hexadecimal digits.
MONITOR = ["help", "explain 0x20000000 u w", "regions", "state", "next", "history", "trace all", "trace refused", "why"]
MONITOR += ["stop refused on", "stop faults on", "stop exceptions on", "step over", "step into", "budget 50", "restart"]
MONITOR += ["lines off", "place reg 0 1", "place word 0x20000000 7", "place special 16 1", "STOP"]


def number(source, numbers):
    """Returns a number in hexadecimal, mostly one of a list."""
    return source.choice(numbers) if source.random() < 0.8 else f"{source.choice(edits.EDGES):x}"


def digits(source, count):
    """Returns the digits of so many bytes."""
    return source.randbytes(count).hex()


def data(source):
    """Returns the data of a packet, mostly one that gdb could send."""
    place = f"{number(source, ADDRESSES)},{number(source, LENGTHS)}"
    count = source.choice([0, 1, 2, 4, 4, 16])
    point = f"{source.choice('zZ')}{source.randrange(6)},{number(source, ADDRESSES)},{source.choice(LENGTHS)}"
    written = f"M{number(source, ADDRESSES)},{count:x}:{digits(source, count)}"
    forms = [f"m{place}", written, point, f"G{digits(source, 92)}"]
    forms += [f"p{source.randrange(30):x}", f"P{source.randrange(30):x}={digits(source, 4)}"]
    forms += [f"qRcmd,{source.choice([*MONITOR, sessions.command(source)]).encode().hex()}", *source.sample(PLAIN, 6)]
    return source.choice(forms).encode()


def packet(source):
    """Returns a packet with the acknowledgement of the answer to it, or something that isn't one."""
    text = data(source)
    total = sum(text) % 256 if source.random() < 0.95 else source.randrange(256)
    return b"$" + text + f"#{total:02x}".encode() + source.choice([b"+", b"+", b"+", b"", b"-", b"\x03"])


def session(source):
    """Returns the bytes of a session, to its end or with packets after it."""
    text = b"+" + b"".join(packet(source) for _ in range(source.choice([1, 5, 20, 20, 60, 200])))
    text += source.choice([b"", b"$D#44", b"$k#6b", b"$D;1#b0"])
    return edits.edited(source, text, edits.ANY) if source.random() < 0.3 else text
