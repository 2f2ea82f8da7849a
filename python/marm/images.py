"""The symbols of an image, and images made without a linker."""

from __future__ import annotations

import struct
from typing import Iterator, Mapping, NamedTuple, Optional

__tracebackhide__ = True  # pytest shows no frame of the package

SYMBOL_TABLE = 2
FUNCTION = 2
HIGHEST_TYPE = 2  # no type, object, function
ABSOLUTE = 0xFFF1  # the section of a symbol whose value is a number, and no address
MOST_OF_NAMES = 4  # bytes of all names for each byte of the image: names share bytes, but not without end


class Symbol(NamedTuple):
    """A function, an object or a label that an image defines, of `size` bytes, or 0 where the table says no size. The
    address of a function is without its Thumb bit."""

    name: str
    address: int
    size: int
    is_function: bool
    is_global: bool
    is_absolute: bool

    @property
    def covers_addresses(self) -> bool:
        """Whether it may name an address: it has a size, or is a function."""
        return not self.is_absolute and (self.is_function or self.size != 0)

    def covers(self, address: int, latest: int) -> bool:
        """Returns whether it covers an address. One without a size covers its own, and where it begins at `latest`, as
        no later symbol does, those after it too."""
        if self.size:
            return self.address <= address < self.address + self.size
        return self.address in (address, latest)


def symbols_of(image: bytes) -> dict[str, int]:
    """Returns the addresses of the functions, objects and labels that an ELF file defines, by name; that of a function
    without its Thumb bit. Of two symbols of one name a global one is taken, or else the first.

    A file without a symbol table, or a damaged one, has the symbols that can be read, if any: the program may run
    it."""
    return Symbols(image).addresses


class Symbols:
    """The symbols of the first symbol table of an ELF file, as far as they can be read: `addresses` and `sizes` by
    name, of two of one name a global one or else the first."""

    def __init__(self, image: bytes) -> None:
        self._covering: list[Symbol] = []  # in the order of the table
        found: dict[str, Symbol] = {}
        try:
            for symbol in _symbols(image):
                known = found.get(symbol.name)
                if known is None or symbol.is_global and not known.is_global:
                    found[symbol.name] = symbol
                if symbol.covers_addresses:
                    self._covering.append(symbol)
        except (struct.error, ValueError, IndexError):
            pass
        self.addresses = {name: symbol.address for name, symbol in found.items()}
        self.sizes = {name: symbol.size for name, symbol in found.items()}

    def name_at(self, address: int) -> Optional[str]:
        """Returns the symbol that covers an address, as `marm report` names it, and how far into it that is: of several
        the one that begins last, and of these the first. A function without a size reaches to the next symbol."""
        latest = max((symbol.address for symbol in self._covering if symbol.address <= address), default=0)
        has_next = any(symbol.address > address for symbol in self._covering)
        covering = [symbol for symbol in self._covering if symbol.covers(address, latest if has_next else address)]
        if not covering:
            return None
        nearest = max(covering, key=lambda symbol: symbol.address)  # the first of them
        return f"{nearest.name} + 0x{address - nearest.address:X}"


def _symbols(image: bytes) -> Iterator[Symbol]:
    (offset,) = struct.unpack_from("<I", image, 32)
    size, count = struct.unpack_from("<HH", image, 46)
    sections = [struct.unpack_from("<10I", image, offset + k * size) for k in range(count)]
    section = next((section for section in sections if section[1] == SYMBOL_TABLE), None)
    if section is None:
        return
    names = _Names(image, sections[section[6]][4])
    for at in range(section[4], section[4] + section[5], 16):
        name, value, length, info, _, index = struct.unpack_from("<IIIBBH", image, at)
        if index == 0 or info & 15 > HIGHEST_TYPE:
            continue
        text = names.name_at(name)
        if text and text[0] != "$":
            is_function = info & 15 == FUNCTION
            address = value & ~1 if is_function else value
            yield Symbol(text, address, length, is_function, info >> 4 != 0, index == ABSOLUTE)


class _Names:
    """The names of a string table, each read once: many symbols may have one, and the end of one may be another."""

    def __init__(self, image: bytes, begin: int) -> None:
        self._image = image
        self._begin = begin
        self._left = MOST_OF_NAMES * len(image)
        self._found: dict[int, str] = {}

    def name_at(self, offset: int) -> str:
        """Returns the name at an offset of the table. ValueError where it has no end, or where all names together are
        longer than those of any linker."""
        if offset not in self._found:
            begin = self._begin + offset
            end = self._image.index(b"\0", begin)
            self._left -= end - begin
            if self._left < 0:
                raise ValueError("the names are too long")
            self._found[offset] = self._image[begin:end].decode("utf-8", "replace")
        return self._found[offset]


def build_image(segments: Mapping[int, bytes]) -> bytes:
    """Returns an ELF file that loads these bytes at these addresses.

    The first two words at the board's `flash_base` are the stack pointer and the address of the first instruction, with
    bit 0 set."""
    offset = 52 + 32 * len(segments)
    headers, body = b"", b""
    for address, data in sorted(segments.items()):
        headers += struct.pack("<8I", 1, offset + len(body), address, address, len(data), len(data), 5, 1)
        body += data
    ident = b"\x7fELF\x01\x01\x01" + bytes(9)
    header = struct.pack("<HHIIIIIHHHHHH", 2, 40, 1, 0, 52, 0, 0, 52, 32, len(segments), 40, 0, 0)
    return ident + header + headers + body
