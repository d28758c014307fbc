#!/usr/bin/env python3
"""Makes a machine from a readable description of its page map (Python, standard library only).

    python3 map.py maps/feeder.map > feeder.bin     the machine: table words, low byte first, then memory
    python3 map.py --groups maps/feeder.map         the groups of the description, with their core numbers

A description has a line `pages N`, then for each core, from 0 to at most 3, a line

    core NUMBER NAME group NAME asid NUMBER origin PAGE tables PAGE ..

and under it a line for each virtual page, in hexadecimal, with the page that it names (in decimal) and rights out of
user, write and execute:

    00400 -> 16 user execute

`origin` is the first-level table, and the pages after `tables` become second-level tables in the order in which they
are first needed. They are pages of memory, each named once; other cores may name them too. A virtual page may name any
page, a table or one beyond memory too. Text after # is a remark. The cores run in user mode and hold no walks and no
pending stores; all else is as after reset, and the pages hold zeros but for the tables.

The rule: from a core's origin on, through both levels, the entries that are present are those that the core's own lines
need, and no others. So it is mapped to the virtual pages that its own lines name, each with that page and those rights,
and uses no other tables, whatever it shares with other cores. A description that cannot be met so is refused, as one
that cannot be read is: one line on standard error says at which line and why, the status is 1, and nothing is written
to standard output.
"""
import struct
import sys

PAGE = 4096
ENTRIES = 1024
RIGHTS = {"write": 1, "user": 2, "execute": 4}
ALL_RIGHTS = sum(RIGHTS.values())
PRESENT, ACCESSED = 1 << 11, 1 << 7


class Bad(Exception):
    pass


def number(word, least, most, what, base=10):
    try:
        if not (word.isascii() and word.isalnum()):  # int would take signs and _ too
            raise ValueError
        n = int(word, base)
    except ValueError:
        raise Bad(f"{what} {word!r} is no number") from None
    if not least <= n <= most:
        raise Bad(f"{what} {word} is not {least} to {most}")
    return n


class Line:
    """A virtual page of a core, and the line that says what it names."""

    def __init__(self, at, core, va, page, rights):
        self.at, self.core, self.va, self.page, self.rights = at, core, va, page, rights

    def __str__(self):
        return f"virtual page {self.va:05x} of core {self.core.name}"


class Core:
    def __init__(self, at, words, cores, pages):
        names = ["core", None, None, "group", None, "asid", None, "origin", None, "tables"]
        if len(words) < 11 or any(n and n != w for n, w in zip(names, words)):
            raise Bad("a core is 'core NUMBER NAME group NAME asid NUMBER origin PAGE tables PAGE ..'")
        if cores == 4:
            raise Bad("a fifth core: a machine has at most four")
        if number(words[1], 0, 3, "core") != cores:
            raise Bad(f"core {cores} comes next")
        self.at, self.name, self.group = at, words[2], words[4]
        self.asid = number(words[6], 0, 63, "asid")
        named = [number(w, 0, (1 << 20) - 1, "page") for w in [words[8]] + words[10:]]
        for page in named:
            if page >= pages:
                raise Bad(f"page {page}, a table of core {self.name}, is beyond memory, which has {pages} pages")
            if named.count(page) > 1:
                raise Bad(f"page {page} stands twice in origin and tables of core {self.name}")
        self.origin, *self.tables = named
        self.lines = {}  # by virtual page
        self.seconds = {}  # the second-level tables that its lines need, by the high half of the virtual page
        self.own = set()  # the entries that its lines need, as page and index

    def add(self, at, words):
        va = number(words[0], 0, (1 << 20) - 1, "virtual page", 16)
        if va in self.lines:
            raise Bad(f"virtual page {va:05x} of core {self.name} is there already, at line {self.lines[va].at}")
        if len(words) < 3:
            raise Bad("a virtual page is 'VA -> PAGE RIGHTS ..'")
        page, rights = number(words[2], 0, (1 << 20) - 1, "page"), words[3:]
        for w in rights:
            if w not in RIGHTS:
                raise Bad(f"{w!r} is none of user, write, execute")
            if rights.count(w) > 1:
                raise Bad(f"{w!r} stands twice")
        self.lines[va] = Line(at, self, va, page, sum(RIGHTS[w] for w in rights))


def read(text):
    pages, cores = None, []
    for at, line in enumerate(text.split("\n"), 1):
        words = line.split("#")[0].split()
        if not words:
            continue
        try:
            if words[0] == "pages":
                if pages is not None:
                    raise Bad("'pages' is there already")
                if len(words) != 2:
                    raise Bad("the size of memory is 'pages N'")
                pages = number(words[1], 1, 4096, "number of pages")
            elif words[0] == "core":
                if pages is None:
                    raise Bad("a core before 'pages N'")
                cores.append(Core(at, words, len(cores), pages))
            elif words[1:2] == ["->"]:
                if not cores:
                    raise Bad("a virtual page before the first core")
                cores[-1].add(at, words)
            else:
                raise Bad(
                    "a line is 'pages N', 'core NUMBER ..' or 'VA -> PAGE RIGHTS ..'; there are no words for "
                    "anything else, and the machine has no walks and no pending stores"
                )
        except Bad as e:
            raise Bad(f"line {at}: {e}") from None
    if not cores:
        raise Bad(f"line {at}: the description ends without a core")
    return pages, cores


def entry(page, rights):
    return page << 12 | PRESENT | ACCESSED | rights << 8


def fill(cores):
    """The entries that the lines need: by page and index, the value, the level and the first line that needs it."""
    filled = {}

    def put(page, index, value, level, line):
        there, role, by = filled.setdefault((page, index), (value, level, line))
        if there != value:
            roles = f"; page {page} is a {level} table of one and a {role} table of the other" if level != role else ""
            raise Bad(
                f"line {line.at}: {line} needs entry {index} of page {page}, "
                f"which line {by.at} ({by}) fills with another value{roles}"
            )
        line.core.own.add((page, index))

    for core in cores:
        free = list(core.tables)
        for line in core.lines.values():
            high, low = divmod(line.va, ENTRIES)
            if high not in core.seconds:
                if not free:
                    raise Bad(f"line {line.at}: {line} needs one more table")
                core.seconds[high] = free.pop(0)
                put(core.origin, high, entry(core.seconds[high], ALL_RIGHTS), "first-level", line)
            put(core.seconds[high], low, entry(line.page, line.rights), "second-level", line)
    return filled


def check_shared(core, filled):
    """In the tables of a core, other cores' lines fill no entry that its own lines do not need."""
    highs = {page: high for high, page in core.seconds.items()}
    for (page, index), (_, _, line) in filled.items():
        if (page, index) in core.own or page != core.origin and page not in highs:
            continue
        if page == core.origin:
            first = index * ENTRIES
            role, gets = "the origin", f"a table for virtual pages {first:05x} to {first + ENTRIES - 1:05x}"
        else:
            role, gets = "a table", f"virtual page {highs[page] * ENTRIES + index:05x}"
        raise Bad(
            f"line {line.at}: {line} fills entry {index} of page {page}, {role} of core {core.name} (line {core.at}) "
            f"too, which gets {gets} by it; no line of core {core.name} says so"
        )


def present(m, page):
    """The present entries of a page of memory: by index, the page that each names and its rights."""
    words = struct.unpack_from(f"<{ENTRIES}I", m, PAGE * page)
    return {i: (w >> 12, w >> 8 & ALL_RIGHTS) for i, w in enumerate(words) if w & PRESENT}


def check_made(core, m):
    """The rule, read back from the memory as made; a text that breaks it was refused before."""
    first = {high: page for high, (page, _) in present(m, core.origin).items()}
    if first == core.seconds:
        said = {line.va: (line.page, line.rights) for line in core.lines.values()}
        found = {high * ENTRIES + low: e for high, page in first.items() for low, e in present(m, page).items()}
        if found == said:
            return
    raise Bad(f"line {core.at}: core {core.name} would not be mapped as its lines say; this is a mistake of map.py")


def memory(pages, cores):
    filled = fill(cores)
    for core in cores:
        check_shared(core, filled)
    m = bytearray(PAGE * pages)
    for (page, index), (value, _, _) in filled.items():
        struct.pack_into("<I", m, PAGE * page + 4 * index, value)
    for core in cores:
        check_made(core, m)
    return bytes(m)


def block(k, core):
    b = [0] * 256
    b[32 + 5], b[32 + 6], b[32 + 7] = core.origin << 12, core.asid, 1  # pto, asid, user mode
    b[67], b[70], b[72] = 1, 1, k << 24  # running, the first free record, the APIC's ID
    for r in range(1, 31):
        b[128 + 4 * r] = r + 1
    return b


def machine(pages, cores):
    words = [len(cores), pages] + [0] * 30
    for k, c in enumerate(cores):
        words += block(k, c)
    return struct.pack(f"<{len(words)}I", *words) + memory(pages, cores)


def main(args):
    if len(args) not in (1, 2) or (len(args) == 2 and args[0] != "--groups"):
        sys.exit(__doc__)
    try:
        with open(args[-1], encoding="utf-8") as f:
            pages, cores = read(f.read())
        made = machine(pages, cores)
        if len(args) == 2:
            for g in dict.fromkeys(c.group for c in cores):
                print(g, *(k for k, c in enumerate(cores) if c.group == g))
        else:
            sys.stdout.buffer.write(made)
    except (Bad, OSError) as e:
        sys.exit(f"map.py: {args[-1]}: {e}")
    except UnicodeDecodeError as e:
        at = e.object.count(b"\n", 0, e.start) + 1
        sys.exit(f"map.py: {args[-1]}: line {at}: not a text in UTF-8")


main(sys.argv[1:])
