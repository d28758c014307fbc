#!/usr/bin/env python3
"""Throws good and bad inputs at the program verdict. Whatever comes, it writes to standard output alone and ends by
itself, and what it writes is compared byte for byte: one line that says what is wrong, or the whole report that the
answers of the library for that group come to (tests/judged.c). All groups of each bundled map are asked, and maps of
four sizes on stacks of twelve. Python, standard library only.

    python3 tests/verdict.py target/bin/verdict JUDGED examples/maps [HOW_MANY]
"""
import os, random, re, resource, struct, subprocess, sys

MARKS = 64
LEGEND = """\
r w t: the group reads it, writes it, uses it as a table; R W T: the rest does
=: both read it; +: the group writes it or uses it as a table, the rest reads it
!: it spoils the verdict; .: neither the group nor the rest reaches it
"""
TABLE, WRITABLE = 2, 4
RUNNING = 67


# What the report has to be, from what the library answers (tests/judged.c).


def cores_of(cores):
    return " ".join(["no cores", "core", "cores", "cores", "cores"][len(cores)].split() + [str(k) for k in cores])


def side(name, cores, map_):
    pages, tables = sum(x != 0 for x in map_), sum(x & TABLE != 0 for x in map_)
    reaches = "1 page" if pages == 1 else "%d pages" % pages
    uses = "1 as a table" if tables == 1 else "%d as tables" % tables
    return "%s: %s; reaches %s, writes %d, uses %s\n" % (name, cores_of(cores), reaches, sum(x & WRITABLE != 0 for x in map_), uses)


def mark(own, rest):
    both = TABLE | WRITABLE
    if own & both == both or rest & both == both or (own and rest & both):
        return "!"
    if own and rest:
        return "+" if own & both else "="
    letter = "t" if (own | rest) & TABLE else "w" if (own | rest) & WRITABLE else "r"
    return letter if own else letter.upper() if rest else "."


def picture(own, rest):
    marks = "".join(map(mark, own, rest))
    return "".join("%4d %s\n" % (i, marks[i : i + MARKS]) for i in range(0, len(marks), MARKS))


def way(core, page, level, write, root, record, entries, first, second):
    high, low = first // 4 % 1024, second // 4 % 1024
    begins = [
        ["the page in pto", "virtual pages %05x to %05x" % (1024 * high, 1024 * high + 1023), "virtual page %05x" % (1024 * high + low)][entries],
        "the walk in record %d" % record,
        "the pending store in record %d" % record,
    ][root]
    through = ["", ", entry at %08x" % first, ", entries at %08x and %08x" % (first, second)][entries]
    return "core %d, %s%s" % (core, begins, through)


def reason(n, words):
    core, page, level = words[:3]
    there = way(*words[:9])
    if n == 1:
        return "core %d is not running in user mode\n" % core
    if n in (2, 3):
        return "the %s reaches page %d, beyond memory: %s\n" % (["group", "rest"][n - 2], page, there)
    if n in (4, 5):
        return "the %s can write its own table page %d: %s\n" % (["group", "rest"][n - 4], page, there)
    does = ["can write page %d, which the group reaches", "uses page %d, which the group reaches, as a table"][level != 0] % page
    return "the rest %s: %s\nthe group reaches page %d: %s\n" % (does, there, words[10], way(*words[9:]))


def report(judged, data, group):
    """What is to be said of a group of a machine; the machine is as long as its words 0 and 1 say."""
    cores = range(struct.unpack_from("<I", data)[0])
    runs = [struct.unpack_from("<I", data, 128 + 1024 * k + 4 * RUNNING)[0] == 1 for k in cores]
    rest = [k for k in cores if runs[k] and k not in group]
    stopped = [k for k in cores if not runs[k] and k not in group]
    numbers = [str(sum(1 << k for k in side_)) for side_ in (group, rest)]
    lines = subprocess.run([judged] + numbers, input=data, stdout=subprocess.PIPE, check=True, timeout=20).stdout.decode().split("\n")[:-1]
    answer = int(lines[0].split()[1])
    if answer >= 100:
        return "refused %s\n" % {104: "4: the tables are not sound", 113: "13: a core of the group is not there"}[answer]
    own, other = (bytes.fromhex(line.split()[1]) for line in lines[1:3])
    said = side("group", sorted(group), own) + side("rest", rest, other) + picture(own, other) + LEGEND
    for line in lines[3:]:
        n, *words = map(int, line.split()[1:])
        said += reason(n, words)
    if stopped:
        said += "not running, so not judged: %s\n" % cores_of(stopped)
    return said + ["not apart\n", "apart\n"][answer]


def shown(argument):
    return "'%s%s'" % ("".join(chr(x) if 32 <= x <= 126 else "?" for x in argument[:16]), ".." if len(argument) > 16 else "")


def expected(judged, arguments, data):
    """All that has to be said: the line for the first thing that is wrong, or the report."""
    named = [os.fsencode(argument) for argument in arguments]
    if sum(len(argument) + 1 for argument in named) > 4096:
        return "the arguments are too long: more than 4096 bytes\n"
    for argument in named:
        if argument not in (b"0", b"1", b"2", b"3"):
            return "%s is no core number: 0 to 3\n" % shown(argument)
    if not named:
        return "no group: name its cores, as in 'verdict 0 2'\n"
    if len(data) < 8:
        return "the input is cut at byte %d: words 0 and 1 are 8 bytes\n" % len(data)
    cores, pages = struct.unpack_from("<2I", data)
    if not 1 <= cores <= 4:
        return "word 0 says %d cores, not 1 to 4\n" % cores
    if not 1 <= pages <= 4096:
        return "word 1 says %d pages, not 1 to 4096\n" % pages
    has = 128 + 1024 * cores + 4096 * pages
    if len(data) != has:
        wrong = "cut at byte %d" % len(data) if len(data) < has else "too long"
        return "the input is %s: a machine (cores: %d, pages: %d) has %d bytes\n" % (wrong, cores, pages, has)
    return report(judged, data, {int(argument) for argument in named})


def cut(r, b):
    return b[: r.randrange(len(b))]


def cut_early(r, b):
    return b[: r.randrange(5400)]


def longer(r, b):
    return b + r.randbytes(r.choice([1, 2, 4096, 70000]))


def header(r, b):
    words = list(struct.unpack_from("<32I", b))
    words[r.choice([0, 0, 1, 1, r.randrange(32)])] = r.choice([0, 1, 2, 3, 4, 5, 63, 64, 65, 4096, 4097, 2**31, 2**32 - 1, r.getrandbits(32)])
    return struct.pack("<32I", *words) + b[128:]


def table_words(r, b):
    bytes_ = bytearray(b)
    n = (32 + 256 * min(max(struct.unpack_from("<I", b)[0], 1), 4)) * 4
    for _ in range(r.choice([1, 1, 1, 2, 5, 40])):
        struct.pack_into("<I", bytes_, 4 * r.randrange(2, n // 4), r.choice([0, 1, r.getrandbits(6), r.getrandbits(20), r.getrandbits(32)]))
    return bytes(bytes_)


def entries(r, b):
    """Words of the page tables: the map is another, and mostly still sound."""
    bytes_ = bytearray(b)
    start = 128 + 1024 * struct.unpack_from("<I", b)[0]
    for _ in range(r.choice([1, 3, 10, 100])):
        struct.pack_into("<I", bytes_, start + 4 * r.randrange(4 * 1024, 12 * 1024), r.getrandbits(18) << 12 | r.getrandbits(12))
    return bytes(bytes_)


def held(r, b):
    """Walks and pending stores, as a running machine holds them: most of them to another side's pages."""
    bytes_ = bytearray(b)
    for _ in range(r.choice([1, 2, 5])):
        block = 128 + 1024 * r.randrange(4)
        (n,) = struct.unpack_from("<I", bytes_, block + 4 * 70)
        record = block + 4 * (128 + 4 * n)
        page = r.choice([r.randrange(64), r.randrange(4, 12), 64])
        words = [r.getrandbits(20) << 12 | r.randrange(3) << 3 | r.getrandbits(3), page, 0]
        head = 69
        if r.random() < 0.3:
            words, head = [(page % 64) << 12 | 16, 7, 4], 68
        (free,) = struct.unpack_from("<I", bytes_, record)
        (first,) = struct.unpack_from("<I", bytes_, block + 4 * head)
        struct.pack_into("<4I", bytes_, record, first, *words)
        struct.pack_into("<I", bytes_, block + 4 * head, n)
        struct.pack_into("<I", bytes_, block + 4 * 70, free)
    return bytes(bytes_)


def fewer(r, b):
    """A machine of fewer cores: the group may name one that is not there."""
    n = r.randrange(1, 4)
    return struct.pack("<I", n) + b[4 : 128 + 1024 * n] + b[128 + 1024 * 4 :]


def stopping(r, b):
    """Some cores do not run."""
    bytes_ = bytearray(b)
    for k in r.sample(range(4), r.randrange(1, 4)):
        struct.pack_into("<I", bytes_, 128 + 1024 * k + 4 * RUNNING, 0)
    return bytes(bytes_)


def noise(r, b):
    return r.randbytes(r.choice([0, 1, 7, 8, 9, 40, 5248]))


def as_it_is(r, b):
    return b


def moved(maps, name, pages):
    """A bundled map in a memory of so many pages: all that it names stands in the last 64 of them."""
    with open("%s/%s.map" % (maps, name)) as source:
        text = source.read()
    away = pages - int(re.search(r"^pages (\d+)$", text, re.M)[1])

    def further(number):
        return str(int(number[0]) + away)

    text = re.sub(r"^pages (\d+)$", "pages %d" % pages, text, flags=re.M)
    text = re.sub(r"(?<=origin )\d+|(?<=-> )\d+", further, text)
    text = re.sub(r"(?<=tables )\d+( \d+)*", lambda tables: re.sub(r"\d+", further, tables[0]), text)
    made = subprocess.run([sys.executable, "%s/../map.py" % maps, "/dev/stdin"], input=text.encode(), stdout=subprocess.PIPE, check=True)
    return made.stdout


def asked(program, arguments, data, kilobytes, environment=None):
    """What the program writes on a stack of so many KB, or without a limit, or why it did not end as it has to."""

    def limited():
        most = resource.getrlimit(resource.RLIMIT_STACK)[1]
        resource.setrlimit(resource.RLIMIT_STACK, (most if kilobytes is None else kilobytes * 1024, most))

    got = subprocess.run([program] + arguments, input=data, capture_output=True, env=environment, preexec_fn=limited, timeout=60)
    if got.returncode != 0:
        return "status %d" % got.returncode
    return "bytes on standard error" if got.stderr else got.stdout.decode("ascii", "replace")


def with_words(data, cores, pages):
    return struct.pack("<2I", cores, pages) + data[8:]


def sizes(program, judged, maps):
    """Maps of four sizes on stacks of twelve, also with nearly as much around the program as the system allows: the
    report, or a line that says what to type. What else is wrong is said on any stack that has room for it."""
    small, large = "the stack is too small: type 'ulimit -s 8192' first\n", "a map of more than 1024 pages needs a larger stack: type 'ulimit -s 32768' first\n"
    full = {"X%d" % i: "x" * 131000 for i in range(64)}
    failed = 0
    for pages in (64, 1024, 1025, 4096):
        data = moved(maps, "competitor", pages)
        for kilobytes in (64, 512, 4096, 6143, 6144, 8192, 16384, 24575, 24576, 32768, 65536, None):
            size = kilobytes or 1 << 40
            needs = small if size < 6144 else large if size < 24576 and pages > 1024 else None
            room = min(size // 4, 6144) * 1024 - 20000
            around = dict(list(full.items())[: max(0, room // 131100)])
            bad = [with_words(data, 5, pages), with_words(data, 4, 5000), with_words(data, 0, 4097) + bytes(5000000)]
            questions = [(data, None), (data, around), (data + b"\0", None), (data + bytes(5000000), None)]
            for given, environment in questions + [(given, None) for given in bad]:
                said = (small if size < 6144 else None) if given in bad else needs
                said = said or expected(judged, ["2"], given)
                got = asked(program, ["2"], given, kilobytes, environment)
                if got != said:
                    failed += 1
                    print("verdict: %d pages, %d bytes, a stack of %s KB: %r in place of %r" % (pages, len(given), kilobytes, got[-200:], said[-200:]))
    return failed


def unread(program, judged):
    """Wrong arguments are answered while standard input stays open and nothing comes."""
    failed = 0
    for group in BAD_GROUPS:
        with subprocess.Popen([program] + group, stdin=subprocess.PIPE, stdout=subprocess.PIPE, stderr=subprocess.PIPE) as asking:
            try:
                status = asking.wait(timeout=20)
            except subprocess.TimeoutExpired:
                asking.kill()
                status = "none in 20 seconds"
            got = asking.stdout.read().decode("ascii", "replace"), asking.stderr.read(), status
        if got != (expected(judged, group, b""), b"", 0):
            failed += 1
            print("verdict: %r and no input: %r" % ([g[:20] for g in group[:3]], got))
    return failed


GROUPS = [[str(k) for k in range(4) if n >> k & 1] for n in range(1, 16)] + [["3", "3"], ["2", "0", "2"], ["3", "1"], ["2"] * 2048]
BAD_GROUPS = [[], [""], ["4"], ["-1"], ["00"], ["x7"], ["0", "x"], ["\x01\x7f"], ["é"], ["1" * 16], ["1" * 17], ["0"] * 300 + ["9"], ["'"], ["%s%n"], ["/"], [":"]]
BAD_GROUPS += [["3", ""], ["a" * 4095], ["a" * 4096], ["a" * 5000], ["0"] * 2049, ["0"] * 2047 + [""], ["0"] * 2048 + [""], ["0"] * 3000, ["0", "a" * 4095]]


def questions(r, good, count):
    """Each bundled map with each group, and with a core that does not run; then maps at random."""
    for data in good:
        for group in GROUPS:
            yield as_it_is, data, group
            yield stopping, stopping(r, data), group
    damages = [cut, cut_early, longer, header, table_words, table_words, table_words, entries, entries, held, held, fewer, stopping, noise]
    for _ in range(count):
        damage = r.choice(damages)
        yield damage, damage(r, r.choice(good)), r.choice(BAD_GROUPS) if r.random() < 0.1 else r.choice(GROUPS)


def main():
    program, judged, maps = sys.argv[1:4]
    count = int(sys.argv[4]) if len(sys.argv) > 4 else 3000
    good = [open("%s/%s.bin" % (maps, name), "rb").read() for name in ("feeder", "competitor", "own_table")]
    r = random.Random(20261116)
    failed, number, reports, apart, stopped = unread(program, judged) + sizes(program, judged, maps), 0, 0, 0, 0
    for damage, data, group in questions(r, good, count):
        said = expected(judged, group, data)
        got = asked(program, group, data, 8192)
        if got != said:
            failed += 1
            print("verdict: input %d (%s, %r): %r in place of %r" % (number, damage.__name__, [g[:20] for g in group[:3]], got[:300], said[:300]))
        number += 1
        reports += got.count("\n") > 1
        apart += got.endswith("\napart\n")
        stopped += "\nnot running, so not judged: " in got
    print("verdict: %d inputs, %d reports (%d apart, %d with cores not judged), %d failed" % (number, reports, apart, stopped, failed))
    if failed or reports < count // 20 or apart == 0 or stopped == 0:
        sys.exit(1)


if __name__ == "__main__":
    main()
