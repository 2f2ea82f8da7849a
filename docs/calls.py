"""The calls in the blocks of Rust on pages: each has as many arguments as a function of that name takes."""

import re

FUNCTION = re.compile(r"\bfn\s+(\w+)\s*")
METHOD = re.compile(r"\s*(&\s*('\w+\s+)?)?(mut\s+)?self\b")
CALL = re.compile(r"(?:\b(\w+)(?:<[^<>()]*>)?::)?\b(\w+)(?:::<[^()]*>)?\(")
# an `impl` or a trait, as it is laid out: its head and its body
OWNER = re.compile(r"^(?:pub(?:\([a-z]+\))?\s+)?(?:impl|trait)\b([^{;]*)\{(.*?)^\}", re.M | re.S)


def closing(text, at, has_types):
    """Returns where the bracket at a place is closed. The brackets of types count in a signature alone."""
    opened = 0
    for place in range(at, len(text)):
        is_type = has_types and text[place] in "<>" and text[place - 1] not in "-="
        if text[place] in "([{" or is_type and text[place] == "<":
            opened += 1
        elif text[place] in ")]}" or is_type:
            opened -= 1
            if opened == 0:
                return place
    return None


def parts(text, has_types):
    """Returns the parts of a list between commas, those inside brackets whole."""
    found, start, at = [], 0, 0
    while at < len(text):
        if text[at] in "([{" or has_types and text[at] == "<":
            at = closing(text, at, has_types) or at
        elif text[at] == ",":
            found.append(text[start:at])
            start = at + 1
        at += 1
    return [part for part in [*found, text[start:]] if part.strip()]


def signatures(code):
    """Yields the name of each function in code, and how many arguments a call of it has."""
    for match in FUNCTION.finditer(code):
        at = match.end()
        if code[at] == "<":
            at = closing(code, at, True) + 1
        list_of = parts(code[at + 1:closing(code, at, True)], True)
        yield match[1], len(list_of) - bool(list_of and METHOD.match(list_of[0]))


def owner_of(head):
    """Returns the type that an `impl` is of, or the trait."""
    while re.search(r"<[^<>]*>", head):
        head = re.sub(r"<[^<>]*>", "", head)
    return re.findall(r"\w+", head.split(" where ")[0].split(" for ")[-1].split(":")[0])[-1:]


class Calls:
    """How many arguments functions take: by their names in each crate, and in each type or trait."""

    def __init__(self, sources):
        self.of_crate, self.of_owner = {}, {}
        for crate, code in sources:
            for name, count in signatures(code):
                self.of_crate.setdefault(name, {}).setdefault(crate, set()).add(count)
            for head, body in OWNER.findall(code):
                for name, count in signatures(body):
                    self.of_owner.setdefault((*owner_of(head), name), set()).add(count)

    def taken(self, owner, name, crate):
        """Returns how many arguments a function can have, or nothing where it isn't known: one of the type that is
        named, or else of the page's crate, or else of any."""
        if owner and owner[0].isupper():
            return self.of_owner.get((owner, name), set())
        crates = self.of_crate.get(name, {})
        return crates.get(crate) or set().union(*crates.values())

    def wrong(self, code, crate):
        """Yields the calls in a block of code that have another number of arguments, with the places of the lines."""
        for match in CALL.finditer(code):
            end = closing(code, match.end() - 1, False)
            taken = self.taken(match[1], match[2], crate)
            if end is None or not taken or code[:match.start()].endswith("fn "):
                continue
            count = len(parts(code[match.end():end], False))
            if count not in taken:
                yield code.count("\n", 0, match.start()), f"{match[2]} with {count} arguments"
