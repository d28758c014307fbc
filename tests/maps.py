#!/usr/bin/env python3
"""Holds the machines that map.py makes against the descriptions that they are made of. Python, standard library only.

    python3 tests/maps.py target/bindings/mapped examples [ROUNDS]

Random descriptions, sound ones and ones with each kind of fault, are written as texts. What a text says is known from
the lists that it was written from, and a model of its table entries says whether it can be met, and if not, why not.
Where it can, the machine as the library reads it (tests/mapped.c) is the text: each core's virtual pages with page and
rights, its tables, and all other words as made. Where it cannot, map.py writes nothing, and one line says a fault that
the text has, with its line number. The files of examples/ that map.py and fault.py make are compared byte for byte.
ROUNDS says how often each kind is made.
"""
import collections, os, random, re, struct, subprocess, sys, tempfile

RIGHTS = ("write", "user", "execute")  # bits 0, 1 and 2
NAMES = ["planner", "north", "baltic", "skagen"]


class Core:
    def __init__(self, name, group, asid, origin, tables, lines):
        self.name, self.group, self.asid, self.origin, self.tables = name, group, asid, origin, tables
        self.lines = lines  # in their order: virtual page, the page that it names, rights as a number

    def needed(self):
        """The second-level table for each high half that the lines name, in the order of the lines."""
        return dict(zip(dict.fromkeys(va // 1024 for va, _, _ in self.lines), self.tables))

    def at(self, highs):
        """The lines with other high halves."""
        return [(highs[va // 1024] * 1024 + va % 1024, page, rights) for va, page, rights in self.lines]


# ---- sound descriptions: a number of pages, and cores


def target(r, pages):
    return r.choice([r.randrange(pages), r.randrange(pages), r.randrange(pages), pages, 4096, 2**20 - 1])


def some(r, least, tables=None):
    """Cores with tables of their own, up to four and at least so many."""
    pages = 4096 if r.random() < 0.02 else r.choice([20, 33, 64, 200])
    free = r.sample(range(pages), 16)
    cores = []
    for name in r.sample(NAMES, r.randint(least, 4)):
        n = tables or r.randint(1, 3)
        highs = r.sample([0, 1, 2, 3, 511, 1023, r.randrange(4, 511)], tables or r.randint(1, n))
        lows = [0, 1, 2, 256, 1023, r.randrange(1024)]
        vas = sorted({high * 1024 + r.choice(lows) for high in highs for _ in range(r.randint(1, 4))})
        lines = [(va, target(r, pages), r.randrange(8)) for va in r.sample(vas, len(vas))]
        cores.append(Core(name, r.choice(NAMES), r.randrange(64), free.pop(), [free.pop() for _ in range(n)], lines))
    return pages, cores


def two(r, tables=None):
    """The same, with at least two cores, and two of them."""
    pages, cores = some(r, 2, tables)
    return (pages, cores, *r.sample(cores, 2))


def twins(r, tables=None):
    """Two of the cores share all tables, and their lines agree, in another order within each table."""
    pages, cores, a, b = two(r, tables)
    order = list(a.needed())
    b.origin, b.tables = a.origin, list(a.tables)
    b.lines = sorted(r.sample(a.lines, len(a.lines)), key=lambda line: order.index(line[0] // 1024))
    return pages, cores, a, b


def own_tables(r):
    return some(r, 1)


def shared(r):
    return twins(r)[:2]


def other_highs(r):
    """The same second-level tables, by an origin of its own and at other virtual pages."""
    pages, cores, a, b = twins(r)
    b.origin = r.choice([p for p in range(pages) if all(p != c.origin and p not in c.tables for c in cores)])
    b.lines = b.at(dict(zip(b.needed(), r.sample(range(1024), 3))))
    return pages, cores


def both_roles(r):
    """The origin of one is a second-level table of the other, and by luck its one entry is right for both."""
    pages, cores, a, b = two(r, tables=1)
    (high,) = a.needed()
    b.tables, b.lines = [a.origin], [(r.randrange(1024) * 1024 + high, a.tables[0], 7)]
    return pages, cores


def idle_table(r):
    """A table that no line needs is the origin of another."""
    pages, cores, a, b = two(r)
    a.tables = list(a.needed().values()) + [b.origin]
    return pages, cores


# ---- descriptions that cannot be met


def other_page(r):
    pages, cores, _, b = twins(r)
    i = r.randrange(len(b.lines))
    va, page, rights = b.lines[i]
    b.lines[i] = va, page ^ 1, rights
    return pages, cores


def other_rights(r):
    pages, cores, _, b = twins(r)
    i = r.randrange(len(b.lines))
    va, page, rights = b.lines[i]
    b.lines[i] = va, page, rights ^ r.randint(1, 7)
    return pages, cores


def other_order(r):
    """Two need the tables in another order, so that the origin has to name each at two places."""
    pages, cores, _, b = twins(r, tables=r.randint(2, 3))
    order = list(b.needed())
    b.lines.sort(key=lambda line: -order.index(line[0] // 1024))
    return pages, cores


def one_origin(r):
    """One origin for two that have tables of their own, at the same high half."""
    pages, cores, a, b = two(r, tables=1)
    b.origin, b.lines = a.origin, b.at(dict(zip(b.needed(), a.needed())))
    return pages, cores


def table_more(r):
    """The same at other high halves: each gets the tables of the other."""
    pages, cores, a, b = two(r)
    free = [high for high in range(1024) if high not in a.needed()]
    b.origin, b.lines = a.origin, b.at(dict(zip(b.needed(), r.sample(free, 3))))
    return pages, cores


def nothing_said(r):
    """A core without lines has the origin of another."""
    pages, cores, a, b = two(r)
    b.origin, b.lines = a.origin, []
    return pages, cores


def line_more(r):
    """One has a line more in a table that both use: the other gets it too."""
    pages, cores, a, b = twins(r)
    first = r.choice(list(a.needed())) * 1024
    va = r.choice([va for va in range(first, first + 1024) if va not in [v for v, _, _ in a.lines]])
    b.lines.append((va, target(r, pages), r.randrange(8)))
    return pages, cores


def two_roles(r):
    """The origin of one is a second-level table of the other."""
    pages, cores, a, b = two(r)
    a.origin = r.choice(list(b.needed().values()))
    free = [high for high in range(1024) if high not in [va % 1024 for va, _, _ in b.lines]]
    a.lines = a.at(dict(zip(a.needed(), r.sample(free, 3))))
    return pages, cores


def two_roles_collide(r):
    """The same, and an entry is needed in both roles."""
    pages, cores, a, b = two(r, tables=1)
    (high,) = a.needed()
    page, rights = r.choice([(a.tables[0], r.randrange(7)), (a.tables[0] ^ 1, 7)])
    a.origin, b.lines = b.tables[0], [(r.randrange(1024) * 1024 + high, page, rights)]
    return pages, cores


def twice(r):
    pages, cores = some(r, 1)
    c = r.choice(cores)
    c.tables.insert(r.randint(0, len(c.tables)), r.choice([c.origin] + c.tables))
    return pages, cores


def table_beyond(r):
    pages, cores = some(r, 1)
    c, page = r.choice(cores), r.choice([pages, pages + 1, 4096, 2**20 - 1])
    if r.random() < 0.4:
        c.origin = page
    else:
        c.tables[r.randrange(len(c.tables))] = page
    return pages, cores


def too_few(r):
    pages, cores = some(r, 1, tables=r.randint(2, 3))
    r.choice(cores).tables.pop()
    return pages, cores


def crowded(r):
    """Few pages and entries, so that all of this comes by chance, sound too, and several at once."""
    cores = []
    for name in r.sample(NAMES, r.choice([2, 2, 3])):
        own = r.sample(range(5), r.randint(2, 3))
        lines = [(va, r.randrange(4), 7) for va in r.sample([0, 1, 1024, 1025], r.randint(0, 2))]
        cores.append(Core(name, name, 0, own[0], own[1:], lines))
    return 5, cores


# ---- the text


def write(r, pages, cores):
    """The lines of a text, and the numbers of the lines for each core k and for its virtual pages (k, va)."""
    lines, where = [], {}

    def blanks():
        return r.choice([" ", " ", " ", "  ", "\t", "   \t "])

    def line(words, what):
        while r.random() < 0.2:
            lines.append(r.choice(["", "  \t", "# a remark", "#pages 7", " # 00400 -> 3 user", "# für die Brücke"]))
        remark = r.choice([" ", "", "", "# one", " # 00400 -> 5", "\t## -> # user"])
        lines.append(r.choice(["", "", blanks()]) + "".join(w + blanks() for w in words).rstrip() + remark)
        where[what] = len(lines)

    line(["pages", str(pages)], "pages")
    for k, c in enumerate(cores):
        words = ["core", k, c.name, "group", c.group, "asid", c.asid, "origin", c.origin, "tables", *c.tables]
        line(map(str, words), k)
        for va, page, rights in c.lines:
            named = [w for i, w in enumerate(RIGHTS) if rights >> i & 1]
            digits = r.choice(["%05x", "%05x", "%x", "%05X", "%08x"]) % va
            line([digits, "->", str(page)] + r.sample(named, len(named)), (k, va))
    return lines + r.choice([[], [""]]), where


# ---- the model: what each entry of a table would have to be


def entries(cores):
    """By page and index of an entry, what lines need there: (page, rights), level, core and virtual page."""
    asked = collections.defaultdict(list)
    for k, c in enumerate(cores):
        tables = c.needed()
        for va, page, rights in c.lines:
            if va // 1024 in tables:
                asked[c.origin, va // 1024].append(((tables[va // 1024], 7), "first-level", k, va))
                asked[tables[va // 1024], va % 1024].append(((page, rights), "second-level", k, va))
    return asked


def can_be_met(cores):
    """Each entry has one value, and a walk from each origin comes to that core's tables and lines, and to no others."""
    asked = entries(cores)
    if any(len({value for value, *_ in there}) > 1 for there in asked.values()):
        return False
    memory = {place: there[0][0] for place, there in asked.items()}
    for c in cores:
        first = {i: table for (page, i), (table, _) in memory.items() if page == c.origin}
        found = {(h * 1024 + i, *e) for h, t in first.items() for (page, i), e in memory.items() if page == t}
        if first != c.needed() or found != set(c.lines):
            return False
    return True


def faults(pages, cores, where):
    """Each fault of a description as map.py is to say it, with its kind."""
    found = {}
    for k, c in enumerate(cores):
        for page in (c.origin, *c.tables):
            said = f"line {where[k]}: page {page}"
            if page >= pages:
                found[f"{said}, a table of core {c.name}, is beyond memory, which has {pages} pages"] = "beyond"
            if (c.origin, *c.tables).count(page) > 1:
                found[f"{said} stands twice in origin and tables of core {c.name}"] = "twice"
    if found:
        return found  # and which tables are needed is open

    def name(k, va):
        return f"virtual page {va:05x} of core {cores[k].name}"

    for k, c in enumerate(cores):
        for va, _, _ in c.lines:
            if va // 1024 not in c.needed():
                found[f"line {where[k, va]}: {name(k, va)} needs one more table"] = "too few"
    for (page, i), there in entries(cores).items():
        for value, level, k, va in there:
            line = f"line {where[k, va]}: {name(k, va)}"
            for other, role, j, by in there:
                if value != other and where[k, va] > where[j, by]:
                    said = f"{line} needs entry {i} of page {page}, which line {where[j, by]} ({name(j, by)}) "
                    said += "fills with another value"
                    if level != role:
                        said += f"; page {page} is a {level} table of one and a {role} table of the other"
                    found[said] = "other value" if level == role else "other role"
            for c, role, gets in not_asked(cores, page, i, there):
                said = f"{line} fills entry {i} of page {page}, {role} of core {cores[c].name} (line {where[c]}) too, "
                said += f"which gets {gets} by it; no line of core {cores[c].name} says so"
                found[said] = "table more" if role == "the origin" else "page more"
    return found


def not_asked(cores, page, i, there):
    """The cores that have such an entry in a table without needing it, what the page is for each, and what it gets."""
    for k, c in enumerate(cores):
        if k not in [j for _, _, j, _ in there]:
            if page == c.origin:
                yield k, "the origin", f"a table for virtual pages {i * 1024:05x} to {i * 1024 + 1023:05x}"
            for high, table in c.needed().items():
                if page == table:
                    yield k, "a table", f"virtual page {high * 1024 + i:05x}"


# ---- texts that cannot be read: way n of spoiling a line of a sound one, the number of that line and the message

PAGES_TWICE = ["pages 64", "pages 3", "pages"]
BAD_PAGES = [
    ("pages 0", "number of pages 0 is not 1 to 4096"),
    ("pages 4097", "number of pages 4097 is not 1 to 4096"),
    ("pages -1", "number of pages '-1' is no number"),
    ("pages 1_0", "number of pages '1_0' is no number"),
    ("pages 0x10", "number of pages '0x10' is no number"),
    ("pages", "the size of memory is 'pages N'"),
    ("pages 64 64", "the size of memory is 'pages N'"),
]
CORE_FORM = "a core is 'core NUMBER NAME group NAME asid NUMBER origin PAGE tables PAGE ..'"
BAD_CORES = [  # a word of the line by its place, and what stands there
    (1, "x", "core 'x' is no number"),
    (1, "7", "core 7 is not 0 to 3"),
    (2, "", CORE_FORM),
    (4, "", CORE_FORM),
    (5, "tables", CORE_FORM),
    (6, "64", "asid 64 is not 0 to 63"),
    (7, "", CORE_FORM),
    (9, "", CORE_FORM),
    (10, "#", CORE_FORM),
    (10, "walk", "page 'walk' is no number"),
]
BAD_LINES = [
    ("fedcb -> 3 user user", "'user' stands twice"),
    ("fedcb -> 3 write user write", "'write' stands twice"),
    ("fedcb -> 3 execute user write execute", "'execute' stands twice"),
    ("fedcb -> 3 user read", "'read' is none of user, write, execute"),
    ("fedcb -> 3 User", "'User' is none of user, write, execute"),
    ("fedcb -> 3 user -> 4", "'->' is none of user, write, execute"),
    ("fedcb -> 1048576 user", "page 1048576 is not 0 to 1048575"),
    ("fedcb -> +3 user", "page '+3' is no number"),
    ("fedcb -> 1a user", "page '1a' is no number"),
    ("fedcb -> user", "page 'user' is no number"),
    ("fedcb -> \u0663", "page '\u0663' is no number"),
    ("fedcb ->", "a virtual page is 'VA -> PAGE RIGHTS ..'"),
    ("100000 -> 3 user", "virtual page 100000 is not 0 to 1048575"),
    ("-1 -> 3 user", "virtual page '-1' is no number"),
    ("0040g -> 3 user", "virtual page '0040g' is no number"),
]
NO_WORDS = ["walk 00400 level 1 page 7", "walk 00400 -> 16 user", "pending store 00001000 7", "store 4096 7"]
NO_WORDS += ["mode 0 0", "fedcb 3 user", "fedcb->3 user", "-> 3 user", "Pages 64", "."]


def pages_twice(r, n, cores, lines, where):
    at = r.randint(where["pages"], len(lines))
    lines.insert(at, PAGES_TWICE[n])
    return at + 1, "'pages' is there already"


def bad_pages(r, n, cores, lines, where):
    lines[where["pages"] - 1], said = BAD_PAGES[n]
    return where["pages"], said


def no_pages(r, n, cores, lines, where):
    lines[where["pages"] - 1] = ""
    return where[0], "a core before 'pages N'"


def no_core(r, n, cores, lines, where):
    del lines[where[0] - 1 :]
    return len(lines), "the description ends without a core"


def line_too_early(r, n, cores, lines, where):
    at = r.randrange(where[0])
    lines.insert(at, "00400 -> 1 user")
    return at + 1, "a virtual page before the first core"


def next_core(r, n, cores, lines, where):
    k = r.randrange(len(cores))
    lines[where[k] - 1] = f"core {(k + 1 + n) % 4} more group more asid 0 origin 1 tables 2"
    return where[k], f"core {k} comes next"


def fifth_core(r, n, cores, lines, where):
    for k in [*range(len(cores), 4), 3 + n]:
        lines.append(f"core {k} more group more asid 0 origin 1 tables 2")
    return len(lines), "a fifth core: a machine has at most four"


def bad_core(r, n, cores, lines, where):
    at = where[r.randrange(len(cores))]
    place, word, said = BAD_CORES[n]
    words = lines[at - 1].split("#")[0].split()
    words[place] = word
    lines[at - 1] = " ".join(words)
    return at, said


def line_twice(r, n, cores, lines, where):
    k = r.randrange(len(cores))
    va, page, _ = r.choice(cores[k].lines)
    at = r.randint(where[k, va], where[k, cores[k].lines[-1][0]])
    lines.insert(at, f"{va:x} -> {page ^ n} user")
    return at + 1, f"virtual page {va:05x} of core {cores[k].name} is there already, at line {where[k, va]}"


def bad_line(r, n, cores, lines, where):
    k = r.randrange(len(cores))
    at = where[k, r.choice(cores[k].lines)[0]]
    lines[at - 1], said = BAD_LINES[n]
    return at, said


def no_words(r, n, cores, lines, where):
    at = r.randint(0, len(lines))
    lines.insert(at, NO_WORDS[n])
    said = "a line is 'pages N', 'core NUMBER ..' or 'VA -> PAGE RIGHTS ..'; there are no words for anything else, "
    return at + 1, said + "and the machine has no walks and no pending stores"


def no_text(r, n, cores, lines, where):
    at = r.randint(0, len(lines))
    lines.insert(at, "# K\udcf6ge")  # a byte f6
    return at + 1, "not a text in UTF-8"


# ---- one text


class Wrong(Exception):
    pass


def run(command, data=b""):
    got = subprocess.run(command, input=data, stdout=subprocess.PIPE, stderr=subprocess.PIPE, timeout=60)
    return got.returncode, got.stdout, got.stderr


def refusal(got, path):
    """What is said after the name of the file."""
    status, out, err = got
    said = re.fullmatch(re.escape(f"map.py: {path}: ") + r"(line [0-9]+: [^\n]*)\n", err.decode("utf-8", "replace"))
    if status != 1 or out or not said:
        raise Wrong(f"status {status}, {len(out)} bytes on standard output, and {err[-300:]} on standard error")
    return said[1]


def check_machine(mapped, machine, pages, cores):
    """The machine is the text."""
    status, out, err = run([mapped], machine)
    if status != 0:
        raise Wrong(f"the machine: {err}")
    lines = out.decode().split("\n")[:-1]
    read = {line for line in lines if not line.startswith("word")}
    said = {f"{k} {va:05x} {page} {rights}" for k, c in enumerate(cores) for va, page, rights in c.lines}
    said |= {f"{k} table {page}" for k, c in enumerate(cores) for page in (c.origin, *c.needed().values())}
    if read != said:
        raise Wrong(f"the machine has {sorted(read - said)} and not {sorted(said - read)}")

    size = 32 + 256 * len(cores)
    words = struct.unpack(f"<{size}I", machine[: 4 * size])
    own = {0: len(cores), 1: pages}
    for k, c in enumerate(cores):
        block = 32 + 256 * k
        own.update({block + 37: c.origin << 12, block + 38: c.asid, block + 39: 1, block + 67: 1})
    others = [line for line in lines if line.startswith("word") and int(line[5:]) not in own]
    if others or any(words[i] != value for i, value in own.items()):
        raise Wrong(f"the table words: {others} are not as made, or pages, pto, asid, mode or running are others")

    filled = set()
    for page in range(pages):
        at = 4 * size + 4096 * page
        if machine[at : at + 4096] != bytes(4096):
            filled |= {(page, i) for i, word in enumerate(struct.unpack_from("<1024I", machine, at)) if word}
    if filled != set(entries(cores)):
        raise Wrong(f"words of memory that are not zero, as page and index: {filled}")


SOUND = [own_tables, shared, other_highs, both_roles, idle_table]
FAULTY = {  # with the kind of fault that each has
    other_page: "other value",
    other_rights: "other value",
    other_order: "other value",
    one_origin: "other value",
    two_roles_collide: "other role",
    two_roles: "table more",
    table_more: "table more",
    nothing_said: "table more",
    line_more: "page more",
    twice: "twice",
    table_beyond: "beyond",
    too_few: "too few",
}
SPOILED = {  # with the number of ways
    pages_twice: len(PAGES_TWICE),
    bad_pages: len(BAD_PAGES),
    no_pages: 1,
    no_core: 1,
    line_too_early: 1,
    next_core: 3,
    fifth_core: 2,
    bad_core: len(BAD_CORES),
    line_twice: 2,
    bad_line: len(BAD_LINES),
    no_words: len(NO_WORDS),
    no_text: 1,
}


def try_one(make, n, r, mapped, program, path):
    """What came of a text: 'met', or the kind of the fault that was said."""
    pages, cores = some(r, 1) if make in SPOILED else make(r)
    lines, where = write(r, pages, cores)
    if make in SPOILED:
        at, said = make(r, n, cores, lines, where)
        found = {f"line {at}: {said}": make.__name__}
    else:
        found = faults(pages, cores, where)
        if make in SOUND and found or make in FAULTY and FAULTY[make] not in found.values():
            raise Wrong(f"the text is not what it is made to be: {found}")
        if not {"beyond", "twice", "too few"} & set(found.values()) and can_be_met(cores) != (not found):
            raise Wrong(f"the model does not know whether it can be met: {found}")

    with open(path, "wb") as f:
        f.write(r.choice(["\n", "\n", "\r\n"]).join(lines).encode("utf-8", "surrogateescape"))
    got = run([sys.executable, "-I", "-S", program, path])  # with the standard library alone
    if got[0] == 0:
        check_machine(mapped, got[1], pages, cores)
        if found or got[2]:
            raise Wrong(f"not refused, with {got[2]} on standard error, and its faults are {list(found)}")
        return "met"
    said = refusal(got, path)
    if said not in found:
        raise Wrong(f"{said!r} is none of its faults {list(found)}")
    if make is line_more and run([sys.executable, program, "--groups", path]) != got:
        raise Wrong("--groups does not refuse it")
    return found[said]


def check_files(examples):
    """The files that map.py and fault.py make, and the groups of a map. How many are not as they should be."""
    maps = sorted(name for name in os.listdir(examples + "/maps") if name.endswith(".map"))
    made = [(f"maps/{name[:-4]}.bin", ["map.py", f"{examples}/maps/{name}"]) for name in maps]
    made += [("fault.bin", ["fault.py"]), ("fault.page", ["fault.py", "--page", "0"])]
    failed = 0 if len(maps) >= 3 else 1
    for name, (program, *arguments) in made:
        with open(f"{examples}/{name}", "rb") as f:
            if run([sys.executable, f"{examples}/{program}"] + arguments) != (0, f.read(), b""):
                failed += 1
                print(f"maps: {name} is not what {program} makes")
    groups = run([sys.executable, f"{examples}/map.py", "--groups", f"{examples}/maps/feeder.map"])
    if groups != (0, b"planner 0\nnorth 1\nbaltic 2\nskagen 3\n", b""):
        failed += 1
        print(f"maps: the groups of feeder.map: {groups}")
    return failed


def main():
    mapped, examples = sys.argv[1], sys.argv[2]
    rounds = int(sys.argv[3]) if len(sys.argv) > 3 else 4
    r = random.Random(20261117)
    failed = check_files(examples)
    tries = [(make, n) for make, ways in SPOILED.items() for n in range(ways)]
    tries += rounds * [(make, 0) for make in 3 * (SOUND + list(FAULTY)) + 12 * [crowded]]
    counts = collections.Counter()
    with tempfile.TemporaryDirectory() as folder:
        path = folder + "/my.map"
        for make, n in tries:
            try:
                kind = try_one(make, n, r, mapped, f"{examples}/map.py", path)
                counts[kind] += 1
                counts["crowded, met" if kind == "met" else "crowded, refused"] += make is crowded
            except Wrong as e:
                failed += 1
                if failed <= 10:
                    with open(path, encoding="utf-8", errors="replace") as f:
                        print(f"maps: {make.__name__}: {str(e)[:1000]}\n{f.read()}")
    least = {"met": 3 * rounds * len(SOUND), "crowded, met": rounds, "crowded, refused": rounds}
    least.update({kind: 3 * rounds for kind in FAULTY.values()})
    least.update({make.__name__: ways for make, ways in SPOILED.items()})
    for kind, n in least.items():
        if counts[kind] < max(n, 1):
            failed += 1
            print(f"maps: {counts[kind]} texts of the kind '{kind}', and not {n} or more")
    kinds = ", ".join(f"{kind} {counts[kind]}" for kind in ["met"] + sorted(set(FAULTY.values())))
    unread = sum(counts[make.__name__] for make in SPOILED)
    print(f"maps: texts: {kinds}, cannot be read {unread}; {failed} failed")
    sys.exit(1 if failed else 0)


if __name__ == "__main__":
    main()
