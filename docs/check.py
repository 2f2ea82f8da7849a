#!/usr/bin/env python3
"""Checks that each name on the pages is in the repository.

    python3 docs/check.py            all pages; exits 1 and lists 'file:line: name' where a name is missing
    python3 docs/check.py PAGE..     these pages alone
    python3 docs/check.py --fix      writes the numbers and tables of marks first, in these pages or in all

A number or a table that a script can write has a mark beside it, which marks.py explains: it has to be what counts.py
counts in the sources, or what bench/results.csv has last.

A page is README.md, CONTRIBUTING.md, docs/*.md or crates/*/README.md. A name is what stands there in code quotes:

    `name`, `name()`         a definition of specs/ or proofs/, an item, field, variant, clause or parameter of src/
    `Owner::name`            the same, of that type, trait, module or crate
    `Owner.name`             the same
    `a/path.rt`, `file.rt`   a file or folder, from the top, from the page's crate, or the end of one path alone
    `kept/places`            a table of tests: a file of crates/*/data
    `a-word`                 a word that src/ or specs/ write or read: a stop, a key, a rule. A text of three words or
                             more is a message, and its words are no names
    `--option`               an option of the program, or of the script `marm`, in docs/marm.1 or in the script
    `some code = 1`          each name in it
    `command word ..`        the files in it

Where the text says whose a name is, the name has to be there:

    `a`, `b` of `crate`      in that crate, also a file: `file.rt` of `crate`; of `Type`: a member of that type or trait
    the record `Name`        a record of specs/, or a struct of src/
    exec `plan`              in a table with a column "Definition", "Function" or "Test": in the chapter or the crate
                             ahead of the name, or else in those of the paragraph above the table

A call in a block of Rust has as many arguments as a function of its name takes (calls.py). The links of all pages are
checked too. Without a page, the manual page docs/marm.1 is formatted too, by `groff -ww` and
`man --warnings` where they are installed: each warning is an error. So is a file in crates/*/data that differs from the
one of that name in examples/, or in the data of another crate, a command of the debugger that the help or
docs/DEBUGGING.md leaves out, a named stop that docs/STOPS.md or the images of rows leave out, and a page that is
longer than MAX_LINES says.
"""

import fnmatch
import glob
import os
import re
import shutil
import subprocess
import sys

sys.dont_write_bytecode = True  # (so that no folder of them stands among the pages)

from calls import Calls
from marks import Marks

TOP = os.path.dirname(os.path.dirname(os.path.abspath(__file__)))

MANUAL_PAGE = "docs/marm.1"
PYTHON_PAGE = "docs/SCRIPTING.md"

# the page of the words of rows of tests
ROWS_PAGE = "docs/ROWS.md"
SCRIPT = "marm"

# ---- what is no name of the repository -------------------------------------------------------------------------

# programs, and the first words of commands
COMMANDS = set("""rt make man groff python3 valgrind taskset ld.lld arm-none-eabi-ld arm-none-eabi-gcc clang gcc git apt-get cargo rustup
llvm-readelf llvm-objdump llvm-mc llvm-objcopy qemu-system-arm readelf awk date ulimit""".split())

# the commands of gdb and its packets, on the pages about it
GDB_PAGES = re.compile("docs/GDB.md|crates/(gdb\\w*|transcripts)/README.md")
GDB_COMMANDS = set("""G reverse-stepi reverse-continue break hbreak tbreak step stepi next until advance finish continue info set jump
call print x bt load detach disconnect kill quit monitor place target maintenance on off""".split())

# what `rt` takes: its words and options
RT_WORDS = set("""check ci test try lib lemma fmt tidy plant must-fail version doc run new verdict all names help --only
--margin --fail-alloc --test --max --start --allow-holes""".split())

# words of Rust, of antt, of std and of the kit's libraries that pages speak of
LANGUAGE = set("""crate usize u8 u16 u32 u64 i32 i64 bool str String Vec Option Result Some None Ok Err true false self mut
fn pub impl struct enum trait match for in let if else use mod unsafe derive while cold Default Clone Copy Drop Model Write
Read Global panic unwrap refl rw let's suc zero omega is_err split_at abbrev unfoldable record data with where opaque ghost ensures
requires using unfolding auto search simp loop items view invariant Value ArrayVec codes decimal find Appends Keeps
OnOk OnErr IfOk IfErr OnTrue OnFalse IsSome IsOk All AllPairs append_known is_utf8 parse_document Members length drop
take unwrap_or Prelude Type nat_le nat_lt is_some Invariants Answers Proof old new now result const tactic cond""".split())

# names of the ELF format, of linkers, of the C library, of other tools and of their files
OUTSIDE = set("""e_ident EI_CLASS EI_DATA e_type e_machine e_phoff e_phentsize e_phnum e_entry e_version e_flags e_ehsize
p_type p_offset p_paddr p_filesz p_vaddr p_memsz p_flags p_align MEMORY PHDRS FILEHDR FLASH RAM AT LOADADDR ORIGIN
PROVIDE KEEP memcpy memmove memset strcmp strstr printf malloc _sbrk _write _exit _read _close _fstat _isatty _lseek
mps2-an385 lm3s6965evb stm32vldiscovery -singlestep armv7m_nvic_complete_irq start.elf hello-newlib.elf hello-plain.elf objects.cpp preinit_array init_array ARM.exidx ARM.extab arm-none-eabi-size .gdbinit .bss .data setpan setend hi.c /opt/rattle /opt/rattle/bin bin/rattle logic/antt-project.json toolchain/bin/rattle-x64""".split())

# instructions and registers of the manual, and words of a trace line
MANUAL = re.compile(r"""^(R\d+|R\[n\]|[A-Z][A-Z0-9_]+(\.[A-Z0-9_]+)?   # registers, fields, instructions
    |[A-Z]\w*(\(\)|\[\])                                               # the manual's functions
    |r\d+|[r-][w-][x-]|[FLSKUVORX!pu]|xn|vec|ppb|off|neg|bg|none|ok|mpu|bus         # kinds, rights, rules and outcomes
    |0x[0-9A-Fa-f_]+|0b[01_]+|[0-9A-F]{4,8}|\d[\d,.]*)$""", re.X)

# variables, letters of a row, and words that stand for others
PLACEHOLDERS = set("""N NAME FILE IMAGE BOARD STEPS COUNT SEED ROUNDS PAGE WORD WORDS HEAD F T U C D L K E W ROOM number
name x i f b o z a c s n e d t mmm nnn ddd .. steps""".split())

# pages that speak of examples/, bench/, crosscheck/ and fuzz/ too
EXAMPLE_PAGES = {
    f"docs/{name}.md" for name in "FIRMWARE GDB KERNELS BUILDING PERFORMANCE CROSSCHECK AUDIT ROBUSTNESS".split()
}

# what the kit and a shell print or take
WHOLE = re.compile(r"^(rattle-kit-.*|--specs=\w+\.specs|-Wl,--[\w=.]+|Handles allowed: none\.|<!DOCTYPE html>|</html>|#\[test\]|grep .*|N passed, 0 failed|old \+\+ bytes|List ℕ|WHAT|rattle|git .*|.*::Chapter::.*)$")

# words of the last line of a check, and the folder in which `rt` keeps its work
VERDICT = re.compile(r"^((native|statements|libraries-built|logic-built|incremental|cache|bugs|hides|axioms)(=trusted)?|logic=(not-)?proved|checked=0|out/)$")

# a line of a trace, as an example
TRACE_LINE = re.compile(r"^(\d+ [FLSKUVORX!] |stop [a-z]+)")

# ---- what the repository has -----------------------------------------------------------------------------------


def read(path):
    with open(os.path.join(TOP, path), encoding="utf-8", errors="replace") as file:
        return file.read()


def tracked():
    listed = subprocess.run(["git", "-C", TOP, "ls-files", "-co", "--exclude-standard"], capture_output=True, text=True)
    return [path for path in listed.stdout.splitlines() if os.path.exists(os.path.join(TOP, path))]


ITEM = re.compile(r"\b(?:fn|struct|enum|trait|type|const|static|mod|ghost|ensures|requires|label)\s+([A-Za-z_]\w*)")
TYPED = re.compile(r"\b([a-z_]\w*)\s*:(?!:)")
VARIANT = re.compile(r"^\s+([A-Z]\w*)\s*(?:[,({]|= \d|$)", re.M)
FUNCTION = re.compile(r"\bfn\s+(\w+)")
MACRO = re.compile(r"macro_rules!\s*(\w+)")
BLOCK = re.compile(r"^(?:pub(?:\([a-z]+\))?\s+)?(impl|trait|enum|struct)\b([^{;]*)\{(.*?)^\}", re.M | re.S)
TEXT = re.compile(r'"([^"\\\n]{1,60})"')
RECORD = re.compile(r"^(?:pub )?(?:record|(?:pub(?:\([a-z]+\))? )?struct) (\w+)", re.M)
SPEC = re.compile(r"^\s*(?:(?:abbrev|unfoldable|opaque|pub|record|data|mod|private|syntax)\s+)*([A-Za-z_][\w'-]*)\s*[:({]?", re.M)
# what counts as a name in the manual page and in the script that runs the program: their other words are prose
OPTION = re.compile(r"(?<![\w-])--[a-z][\w-]*")


def without_comments(text):
    return re.sub(r"//[^\n]*", "", text)


def words_of_texts(code):
    """Returns the words of the texts in code that have at most two: a longer one is a message, whose words are prose."""
    return {word for text in TEXT.findall(code) if len(text.split()) <= 2 for word in re.findall(r"[\w-]+", text)}


class Repository:
    def __init__(self):
        self.files = tracked()
        self.folders = {os.path.dirname(path) for path in self.files}
        for path in list(self.folders):
            while path:
                path = os.path.dirname(path)
                self.folders.add(path)
        # the tables of tests, below crates/*/data
        self.tables = {match[1] for match in map(re.compile(r"crates/\w+/data/(.*)\.txt$").match, self.files) if match}
        self.crates = [line.split(":")[0] for line in read("crates.txt").splitlines() if re.match(r"[a-z]\w*:", line)]
        of_tests = set(re.findall(r"^([a-z]\w*):", read("crates.txt").partition("\n# Tests\n")[2], re.M))
        self.below = {}                    # the crates and libraries of the kit that a crate is built on
        for line in read("crates.txt").splitlines():
            if re.match(r"[a-z]\w*:", line):
                name, uses = line.split(":")
                self.below[name] = uses.split()
        self.names = set(self.crates).union(*self.below.values())      # every name
        self.examples = set()              # every word of examples/, bench/, crosscheck/ and fuzz/
        self.python = set()                # every word of the Python package
        self.texts = set()                 # every word that is written or read
        self.rows = set()                  # every word that a program of tests writes or reads
        self.of_crate = {}                 # the names of a crate
        self.of_file = {}                  # the names of a file, by its stem: chapters and modules
        self.of_owner = {}                 # the members of a type or a trait
        self.traits_of = {}                # the traits that a type has
        self.records = set()               # the records of specs/ and proofs/, and the structs of src/
        self.tests = {}                    # the functions of a crate of tests: what other pages than its own name of it
        self.seen = {}                     # the names that a page can speak of
        self.calls = Calls((path.split("/")[1], without_comments(read(path))) for path in self.files
                           if re.match(r"crates/\w+/src/.*\.rt$", path))
        for path in self.files:
            parts = path.split("/")
            is_test = len(parts) > 1 and parts[1] in of_tests
            if path.endswith(".rt"):
                found = self.rust(read(path), is_test)
            elif path.endswith(".antt"):
                found = self.definitions(read(path))
            elif path in (MANUAL_PAGE, SCRIPT):
                self.texts.update(OPTION.findall(read(path).replace("\\-", "-")))
                continue
            elif path.startswith("python/") and path.endswith((".py", ".toml", ".sh")):
                self.python.update(re.findall(r"[\w.-]+", read(path)))
                continue
            elif path.endswith((".c", ".h", ".s", ".ld", ".py", ".rs", ".sh", "Makefile", ".toml", ".in")):
                self.examples.update(re.findall(r"[\w.-]+", read(path)))
                continue
            else:
                continue
            if is_test:
                functions = set(FUNCTION.findall(read(path)))
                self.tests.setdefault(parts[1], set()).update(functions)
                self.names |= functions
            else:
                self.names |= found
            stem = os.path.splitext(parts[-1])[0]
            self.of_file.setdefault(stem, set()).update(found)
            if parts[0] == "crates":
                self.of_crate.setdefault(parts[1], set()).update(found)
                if parts[2] == "must-fail":
                    self.names.add(parts[-1])
        self.names_of_files = {os.path.splitext(os.path.basename(path))[0] for path in self.files}
        self.names_of_files |= {folder for folder in self.folders if "/" not in folder}
        self.names |= self.names_of_files

    def rust(self, text, is_test):
        code = without_comments(text)
        self.records.update(RECORD.findall(code))
        reexported = " ".join(re.findall(r"^pub use ([^;]*);", code, re.M))
        found = set(re.findall(r"\w+\b(?!::)", reexported)) | set(ITEM.findall(code)) | set(MACRO.findall(code)) | set(TYPED.findall(code)) | set(VARIANT.findall(code))
        (self.rows if is_test else self.texts).update(words_of_texts(code))
        for kind, head, body in BLOCK.findall(code):
            owner = re.sub(r"<[^<>]*>", "", re.sub(r"<[^<>]*>", "", head)).split(" where ")[0].strip()
            trait = None
            if kind == "impl" and " for " in owner:
                trait, owner = (part.strip() for part in owner.split(" for ", 1))
            owner = owner.split(":")[0].split("(")[0].strip().lstrip("&").split(" ")[0].split("::")[-1]
            members = self.of_owner.setdefault(owner, set())
            members.update(ITEM.findall(body))
            members.update(VARIANT.findall(body))
            members.update(TYPED.findall(body))
            if trait:
                self.traits_of.setdefault(owner, set()).add(trait.split("::")[-1])
        return found

    def definitions(self, text):
        code = re.sub(r"--[^\n]*", "", text)
        self.records.update(RECORD.findall(code))
        self.texts.update(words_of_texts(code))
        return set(SPEC.findall(code))

    def has(self, name, page):
        if page in EXAMPLE_PAGES and name in self.examples:
            return True
        if page == PYTHON_PAGE and name.split(".")[-1] in self.python:
            return True
        if page == ROWS_PAGE and name in self.rows:
            return True
        return name in self.near(page) or name in self.texts or name in LANGUAGE or name in OUTSIDE

    def near(self, page):
        """The names that a page can speak of: for a crate's README those of the crate, of what it is built on, and of
        the crates that the page names; for the others all."""
        if page not in self.seen:
            self.seen[page] = self.names
            if page.startswith("crates/"):
                own = page.split("/")[1]
                reached, left = set(), [own] + [crate for crate in self.crates if re.search(rf"`{crate}`", read(page))]
                while left:
                    crate = left.pop()
                    if crate not in reached:
                        reached.add(crate)
                        left += self.below.get(crate, [])
                self.seen[page] = self.names_of_files.union(self.crates, *self.below.values())
                self.seen[page].update(*(self.spoken_of(crate, own) for crate in reached))
        return self.seen[page]

    def spoken_of(self, crate, own):
        """The names of a crate that the README of another one, or its own, can speak of."""
        names = self.of_crate.get(crate, set())
        return names if crate == own else self.tests.get(crate, names)

    def is_in_crate(self, name, crate):
        """Whether a crate has a name, a name of one of its types (`Owner::name`), a file, or a table of tests."""
        if "/" in name or re.search(r"\.[a-z]+$", name):
            forms = (name, f"*/{name}", f"{name}.txt", f"data/{name}.txt", f"{name}/*")
            return any(fnmatch.filter(self.files, f"crates/{crate}/{form}") for form in forms)
        parts = re.split(r"::|\.", re.sub(r"[!(<].*", "", name))
        return all(part in self.of_crate.get(crate, set()) or part == crate for part in parts) and (
            len(parts) == 1 or self.has_member(*parts[-2:]))

    def has_member(self, owner, name):
        places = [self.of_owner.get(owner, set()), self.of_file.get(owner, set()), self.of_crate.get(owner, set())]
        places += [self.of_owner.get(trait, set()) for trait in self.traits_of.get(owner, ())]
        if owner in self.of_owner or owner in self.of_file or owner in self.of_crate:
            return any(name in place for place in places)
        return False

    def has_path(self, path, page):
        path = re.sub(r"^\./", "", path).rstrip("/")
        if "NAME" in path:
            path = path.replace("NAME", "*")
        if path in self.folders or path in self.tables:
            return True
        if "*" in path:
            return (bool(fnmatch.filter(self.folders, path)) or bool(fnmatch.filter(self.tables, path))
                    or bool(fnmatch.filter(("/" + known for known in self.files), "*/" + path)))
        above = os.path.dirname(page)
        lowest = ("crates", "crates/reference", "crates/platform", "crates/instruction_set")
        for base in ("", above, os.path.join(above, "src"), os.path.join(above, "specs"), *lowest):
            full = os.path.normpath(os.path.join(base, path))
            if full in self.files or full in self.folders:
                return True
        return any(("/" + known).endswith("/" + path) for known in self.files) or any(
            ("/" + known).endswith("/" + path) for known in self.folders)


# ---- one name --------------------------------------------------------------------------------------------------


def missing(repo, span, page):
    """Returns what of a code span isn't in the repository."""
    span = span.strip()
    if not span or WHOLE.match(span) or VERDICT.match(span) or span in OUTSIDE or re.match(r"^[a-z]\d$", span) or MANUAL.match(span) or span in PLACEHOLDERS or span in LANGUAGE or TRACE_LINE.match(span):
        return []
    if re.match(r"^[\"'\[(<>=.,;:!?*+&|{}#\\-]+$", span) or PAGE_ID.fullmatch(span):
        return []
    words = span.split()
    if GDB_PAGES.fullmatch(page) and words[0] in GDB_COMMANDS:
        return []
    if words[0] in COMMANDS or words[0].startswith(("./", "../bin/", "crosscheck/", "bench/", "fuzz/", "docs/", "mutations/")) and len(words) > 1:
        lost = [w for w in words if "/" in w and w[0].isalpha() and w not in OUTSIDE and not repo.has_path(w, page)]
        if words[0] == "rt" and len(words) > 1 and words[1] not in RT_WORDS:
            lost.append(span)
        return lost
    if len(words) == 1:
        if re.match(r"^-{1,2}[A-Za-z]", span):
            return [] if span.split("=")[0] in repo.texts or span.lstrip("-") in repo.texts or span in OPTIONS or span in RT_WORDS else [span]
        if "/" in span or re.match(r"^[\w*-]+\.(rt|antt|py|sh|md|toml|elf|s|c|h|ld|txt|edit|1|in)$", span):
            return [] if span in OUTSIDE or repo.has_path(span, page) else [span]
        if re.match(r"^[\w-]+(-[\w]+)+$", span):
            return [] if span in repo.texts or repo.has(span, page) else [span]
    lost = []
    for chain in re.findall(r"[A-Za-z_][\w'<>:.!-]*", re.sub(r"\b(FLASH|RAM)\b|\b0x[0-9A-F]+|\\[ux][0-9A-F]*", "", span)):
        chain = chain.strip(":.!<>")
        generic = re.sub(r"<[^>]*>?", "", chain)
        parts = [part for part in re.split(r"::|\.", generic) if part]
        if not parts:
            continue
        if len(parts) == 1:
            if not known(repo, parts[0], page):
                lost.append(parts[0])
            continue
        for owner, name in zip(parts, parts[1:]):
            if name in ("new", "old", "now", "items", "default") and "." in generic:
                continue
            if owner in LANGUAGE or MANUAL.match(generic) or generic in OUTSIDE:
                continue
            if "::" in generic and not repo.has_member(owner, name):
                lost.append(generic)
                break
            if "::" not in generic and not (known(repo, owner, page) and known(repo, name, page)):
                lost.append(generic)
                break
    return lost


def known(repo, word, page):
    return repo.has(word, page) or bool(MANUAL.match(word)) or word in PLACEHOLDERS or word.lower() in ENGLISH


# ids, attributes and elements of the page that the crate report writes
PAGE_ID = re.compile(r"(data|cells|lane|fault|code|region|world|may|shares|[rs]\d+|none|bg)-[\w-]+|console-bytes|all-refusals|rect")


# options of compilers, linkers and disassemblers
OPTIONS = set("-pie -shared -r -Oz -O0 -O1 -O2 -O3 -Os -Wl,-n -n -T --mcpu=cortex-m3 -mthumb -mcpu=cortex-m3 -nostdlib -s".split())

# words of a message or of an example that are quoted whole
ENGLISH = set("marm is it takes an at and the before event of other entries has ended all run out lost ahead to none".split())

# ---- a page ----------------------------------------------------------------------------------------------------


def lines_of(page):
    """Yields the lines of a page with their numbers, and whether a line is part of a block of code. A line that is
    indented is one only after a blank line or another one; elsewhere it goes on with a paragraph or a list."""
    fenced, is_code, before = False, False, ""
    for number, line in enumerate(read(page).split("\n"), 1):
        if line.lstrip().startswith("```"):
            fenced = not fenced
            yield number, line, True
            continue
        is_code = line.startswith("    ") and (is_code or not before.strip())
        before = line
        yield number, line, fenced or is_code


def spans(line):
    return re.findall(r"(?<!`)`([^`]+)`(?!`)", line)


# names, and the crate, the file, the type or the trait whose they are
OWNED = re.compile(r"(`[^`]+`(?:(?:,|\s+and|,\s+and|\s+or)\s+`[^`]+`)*)(?:\s+\(private\))?\s+of\s+"
                   r"(?:the\s+(?:crate|type|trait)\s+)?`([A-Za-z_]\w*)`")
RECORDS = re.compile(r"\brecords?\s+`(\w+)`")


def by_owner(repo, page):
    """Yields the names of a page that aren't where the text says, and the records that are none, with their lines."""
    text = "\n".join("" if is_code else line for _, line, is_code in lines_of(page))
    for match in OWNED.finditer(text):
        owner = match[2]
        for name in re.findall(r"`([^`]+)`", match[1]):
            if owner in repo.of_crate:
                there = repo.is_in_crate(name, owner)
            else:
                there = owner not in repo.of_owner and owner not in repo.of_file or repo.has_member(owner, name)
            if not there:
                yield text.count("\n", 0, match.start()) + 1, f"{name} of {owner}"
    for match in RECORDS.finditer(text):
        if match[1] not in repo.records:
            yield text.count("\n", 0, match.start()) + 1, f"the record {match[1]}"


COLUMNS = ("Definition", "Function", "Function, clause", "Test")

# where the text above a table says that the names of its columns are
PLACES = {
    "Definition": re.compile(r"\bDefinitions in ((?:`\w+\.antt`(?:,| and)? ?)+)(and the chapters)?"),
    "Function, clause": re.compile(r"\b[Ff]unctions (?:\([^)]*\) )?in ((?:`\w+`(?:,| and)? ?)+)"),
    "Test": re.compile(r"\btests? in ((?:`\w+`(?:,| and)? ?)+)"),
}


def places_in(repo, paragraph):
    """Returns for the columns of a table the names that its section can mean, as far as its text says where they are."""
    found = {}
    for column, pattern in PLACES.items():
        match = pattern.search(paragraph)
        if match and not (match.lastindex and match.lastindex > 1):
            stems = [name.removesuffix(".antt") for name in re.findall(r"`([\w.]+)`", match[1])]
            found[column] = set().union(*(repo.of_file.get(stem, set()) | repo.of_crate.get(stem, set()) for stem in stems))
    return found


def in_columns(repo, header, line, places):
    """Returns the names of a row of a table that aren't where the row, or the text above the table, says."""
    lost = []
    cells = [cell.strip() for cell in line.strip().strip("|").split(" | ")]
    for title, cell in zip(header, cells):
        if title not in COLUMNS:
            continue
        place = None
        for token in re.findall(r"`[^`]+`|[A-Za-z_][\w*]*|[:;]", cell):
            if token in ":;":
                continue
            if not token.startswith("`"):
                if token in repo.of_crate or token in repo.of_file:
                    place = token
                elif re.match(r"^[A-Z]\w+$", token) and title == "Definition":
                    matches = [stem for stem in repo.of_file if token.endswith("*") and stem.startswith(token[:-1])]
                    if not matches:
                        lost.append(token)
                continue
            name = re.sub(r"\(.*", "", token.strip("`"))
            if "/" in name or " " in name or "::" in name or "." in name:
                continue
            if place is None:
                lost += [] if name in places.get(title, {name}) else [f"{title} {name}"]
            elif name not in repo.of_file.get(place, set()) and name not in repo.of_crate.get(place, set()):
                lost.append(f"{place} {name}")
    return lost


def wrong_calls(repo, page):
    """Yields the calls in a page's blocks of Rust that have another number of arguments than the functions take."""
    crate = page.split("/")[1] if page.startswith("crates/") else None
    for block in re.finditer(r"^```rust\n(.*?)^```", read(page), re.M | re.S):
        first = read(page).count("\n", 0, block.start(1)) + 1
        for line, text in repo.calls.wrong(without_comments(block[1]), crate):
            yield first + line, text


def check(repo, page):
    found = [*by_owner(repo, page), *wrong_calls(repo, page)]
    header, above = None, ""
    for number, line, is_code in lines_of(page):
        if is_code:
            continue
        if line.startswith("|"):
            if header is None:
                header = [cell.strip() for cell in line.strip().strip("|").split("|")]
            elif not re.match(r"^\|[-| :]+$", line):
                found += [(number, name) for name in in_columns(repo, header, line, places_in(repo, above))]
        else:
            header, above = None, "" if line.startswith("#") else f"{above} {line}"
        for span in spans(line):
            found += [(number, name) for name in missing(repo, span, page)]
        for target in re.findall(r"\]\(([^)#]+)(?:#[^)]*)?\)", re.sub(r"`[^`]*`", "", line)):
            if not target.startswith("http") and not os.path.exists(os.path.join(TOP, os.path.dirname(page), target)):
                found.append((number, target))
    return found


def lists(repo):
    """Returns what a list that has to be whole leaves out: the chapters, the crates and the pages."""
    lost = []
    rows = {line.split("|")[1].strip() for line in read("docs/REFERENCE.md").split("\n") if line.startswith("|")}
    listed = {name for row in rows for name in row.split(", ")}
    crates = ("instruction_set", "devices", "platform", "reference", "task_laws")
    folders = tuple(f"crates/{crate}/specs/" for crate in crates)
    chapters = {os.path.basename(path)[:-5] for path in repo.files if path.startswith(folders)} - {"Lib"}
    lost += [("docs/REFERENCE.md", chapter) for chapter in sorted(chapters - listed)]
    lost += [("docs/REFERENCE.md", name) for name in sorted(listed - chapters) if re.match(r"^[A-Z]\w+$", name) and name != "File"]
    text = read("docs/ARCHITECTURE.md")
    lost += [("docs/ARCHITECTURE.md", crate) for crate in repo.crates if not re.search(rf"(?<!\w){crate}(?!\w)", text)]
    for line in text.split("\n"):
        row = re.match(r"^\| ([a-z]\w*) \| .* \| ([^|]*) \|$", line)
        if row and row[1] in repo.crates and "those" not in row[2]:
            listed = [] if row[2] == "-" else row[2].split(", ")
            if listed != repo.below[row[1]]:
                lost.append(("docs/ARCHITECTURE.md", f"what {row[1]} is built on"))
        drawn = re.match(r"^ {4}.*?([\w:]+)(?:, ([\w:]+))? {2,}([a-z]\w*(?:, [a-z]\w*)?)(?: {2,}|$)", line)
        crates = drawn[3].split(", ") if drawn else []
        if drawn and all(crate in repo.crates for crate in crates):
            for name in filter(None, drawn.groups()[:2]):
                parts = name.split("::")
                if not any(parts[-1] in repo.of_crate[crate] for crate in crates):
                    lost.append(("docs/ARCHITECTURE.md", name))
    text = read("README.md")
    lost += [("README.md", path) for path in sorted(repo.files) if re.match(r"docs/[A-Z]+\.md$", path) and f"({path})" not in text]
    return lost


# how many lines a page may have, so that somebody can still read it at one sitting
MAX_LINES = {"README.md": 150, "CHANGELOG.md": 120, "CONTRIBUTING.md": 260, "docs/*.md": 260}

# where the help lists the debugger's commands
HELP_OF_DEBUG = "crates/command_line/src/texts.rt"

# the images that end at each named stop
IMAGES_OF_STOPS = "crates/rows/data/command/stops.txt"

# what formats the manual page, and writes its warnings to standard error
FORMATTERS = (["groff", "-ww", "-man", "-Tutf8", "-z", MANUAL_PAGE],
              ["man", "--warnings", "-E", "UTF-8", "-l", "-Tutf8", "-Z", MANUAL_PAGE])


def copies():
    """Lists the files in crates/*/data, but not in its folders, that aren't what examples/, or else a crate before, has
    under the same name."""
    originals = {os.path.basename(path): path for path in sorted(glob.glob(f"{TOP}/examples/**/*", recursive=True))}
    for path in sorted(filter(os.path.isfile, glob.glob(f"{TOP}/crates/*/data/*"))):
        original = originals.setdefault(os.path.basename(path), path)
        if open(path, "rb").read() != open(original, "rb").read():
            yield f"{os.path.relpath(path, TOP)}: not what {os.path.relpath(original, TOP)} is"


def manual_page():
    """Returns the warnings about the manual page, of each formatter that is installed."""
    found = []
    for command in FORMATTERS:
        if shutil.which(command[0]) is None:
            continue
        ended = subprocess.run(command, cwd=TOP, capture_output=True, text=True, stdin=subprocess.DEVNULL)
        warnings = [line for line in ended.stderr.splitlines() if line.strip()]
        if ended.returncode and not warnings:
            warnings = [f"{command[0]} ends with status {ended.returncode}"]
        found += warnings
    return found


def debugger_commands():
    """Returns which lists of the debugger's commands differ from the definition's words, or from each other."""
    word = re.compile(r'bytes_eq word \(codes "(\w+)"\)')
    defined = word.findall(read("crates/debugger_commands/specs/Commands.antt"))
    changes = word.findall(read("crates/debugger_commands/specs/Changes.antt").split("change_in slots word more =")[1])
    defined[defined.index("script"):defined.index("script")] = changes
    text = read(HELP_OF_DEBUG).split("AFTER_DEBUG", 1)[1].split("\n\n")[0]
    shown = re.findall(r"^  (\w+(?: [\w<>|]+)*)(?:  |$)", text, re.M)
    rows = re.findall(r"^\| `([^`]+)`", read("docs/DEBUGGING.md").split("| Command |", 1)[1].split("\n\n")[0], re.M)
    words = list(dict.fromkeys(form.split()[0] for form in shown))
    found = [] if words == defined else [f"{HELP_OF_DEBUG}: not the commands of the definition"]
    if [re.sub("[<>]", "", form) for form in shown] != [row.replace("\\|", "|") for row in rows]:
        found.append(f"docs/DEBUGGING.md: not the commands of {HELP_OF_DEBUG}")
    return found


def stops():
    """Returns which lists of the named stops leave one out: docs/STOPS.md, or the images of rows."""
    text = read("crates/platform/specs/Text.antt")
    defined = re.findall(r'^(?:unpredictable|unsupported)_text \w+ = codes "([\w-]+)"', text, re.M)
    parts = read("docs/STOPS.md").split("\n## ")
    listed = [name for part in parts if " NAME`." in part for name in re.findall(r"^\| `([\w-]+)` \|", part, re.M)]
    tested = re.findall(r"^out stop (?:unpredictable|outofprofile) ([\w-]+)", read(IMAGES_OF_STOPS), re.M)
    found = [f"docs/STOPS.md: {name} (left out, or no stop)" for name in sorted(set(defined) ^ set(listed))]
    untested = set(defined) - set(tested) - {"clock-end"}
    return found + [f"{IMAGES_OF_STOPS}: no image for {name}" for name in sorted(untested)]


def length():
    """Yields the pages that are too long."""
    for pattern, most in MAX_LINES.items():
        for path in sorted(glob.glob(os.path.join(TOP, pattern))):
            page = os.path.relpath(path, TOP)
            lines = read(page).count("\n")
            if lines > most:
                yield f"{page}: {lines} lines, and may have {most}"


def pages():
    found = ["README.md", "CONTRIBUTING.md"]
    for pattern in ("docs/*.md", "crates/*/README.md", "mutations/README.md"):
        found += sorted(os.path.relpath(path, TOP) for path in glob.glob(os.path.join(TOP, pattern)))
    return found


def write_marks(marks, page):
    """Writes what the marks of a page want."""
    text = read(page)
    fixed = marks.fixed(text)
    if fixed != text:
        with open(os.path.join(TOP, page), "w", encoding="utf-8") as file:
            file.write(fixed)


def of_pages(repo, chosen, fix):
    """Yields what is wrong on these pages, after their marks were written if that is wanted."""
    marks = Marks()
    for page in chosen:
        if fix:
            write_marks(marks, page)
        for number, text in [*check(repo, page), *marks.wrong(read(page))]:
            yield f"{page}:{number}: {text}"


def of_repository(repo):
    """Yields what is wrong with the lists, the copies and the manual page."""
    for page, name in lists(repo):
        yield f"{page}:1: {name} (left out of its list, or not there)"
    yield from copies()
    yield from debugger_commands()
    yield from stops()
    yield from length()
    for warning in manual_page():
        yield f"{MANUAL_PAGE}: {warning}"


def main():
    words = [word for word in sys.argv[1:] if word != "--fix"]
    chosen = [os.path.relpath(os.path.abspath(page), TOP) for page in words] or pages()
    repo = Repository()
    found = list(of_pages(repo, chosen, "--fix" in sys.argv[1:]))
    if not words:
        found += of_repository(repo)
    for line in found:
        print(line)
    sys.exit(1 if found else 0)


if __name__ == "__main__":
    main()
