#!/usr/bin/env python3
"""Counts the places of older forms in crates/*/src, point by point, as docs/DESIGN-PASS.md names them.

tools/forms.py          a count for each kind of place
tools/forms.py --list   and each place, as file:line: text
"""
import collections
import pathlib
import re
import sys

ROOT = pathlib.Path(__file__).resolve().parent.parent
FILES = sorted(p for p in ROOT.glob("crates/*/src/**/*.rt") if "crates/refusals/" not in str(p))
PROOFS = sorted(p for p in ROOT.glob("crates/*/proofs/**/Answers.antt"))

# A line of code, or of a contract, that matches is a place.
LINES = [
    ("1a", "cases of own enums that say none or refused",
     r"^\s*(None|Nothing|Missing|Miss|Nowhere|Empty|NoReason|NotAStep|Refused(\(u32\))?),$"),
    ("1b", "refusals as numbers",
     r"\b[rR]efused\((\d+|n|number)\)|return 1\d\d;|=> 100 \+ n|=> 10[123],"),
    ("1c", "kinds as numbers or truth values: parameters, and tests against a number",
     r"\b(kind|store|long): (u32|bool)\b|\bif (n|kind|shorthand|mode|w\.start|w\.entries|mode) == (0b)?\d+ \{"),
    ("3", "loops by while", r"^\s*while "),
    ("4a", "enums turned to numbers, or numbers to enums, by a function",
     r"^\s*(pub(\(crate\))? )?fn (\w+_number|number|target_of|by_mode|as_reason|parse)\("),
    ("4b", "equality or a test for one case by hand",
     r"fn (is_none|is_accepted|same\w*)\(|\(b\[i \+ 1\] == first\)"),
    ("4c", "conversions of numbers by a function of our own",
     r"^\s*(pub(\(crate\))? )?fn (wide|flag|bit|high_half|low_half|accepted)\("),
    ("4d", "printing by functions of our own", r"^\s*(pub(\(crate\))? )?fn put\w*[<(]"),
    ("5a", "parameters that travel together: tables and memory", r"\b(t|tables): &(mut )?\[u32\],? (m|memory): &(mut )?\[u8\]"),
    ("5b", "parameters that travel together: a buffer and a place in it",
     r"\b(out|text): &mut \[u8\], at: usize"),
    ("6a", "buffers of a fixed length on the stack", r"= \[0u(8|32); "),
    ("6b", "parallel arrays", r"\bkeys: (&(mut )?)?\[u32"),
    ("7", "a function that a parameter switches between ways",
     r"fn \w+[<(].*\b(kind: u32|store: bool|long: bool|rule: Rule|want: Want|f: Flush)\b"),
]


def functions():
    """(file, line, name, text) of each function with its contract."""
    for path in FILES:
        text = path.read_text()
        for m in re.finditer(r"^( *)(pub(?:\(crate\))? )?(?:extern \"C\" )?fn (\w+)", text, re.M):
            indent = m.group(1)
            end = re.compile(r"^%s\}$" % indent, re.M).search(text, m.end())
            yield path, text.count("\n", 0, m.start()) + 1, m.group(3), text[m.start():end.end() if end else len(text)]


def shape(text):
    """The tokens of a body, with its own names, numbers and strings left out."""
    head, _, body = text.partition("\n{\n") if "\n{\n" in text else text.partition("{\n")
    body = re.sub(r"//.*", "", body)
    tokens = re.findall(r'b?"[^"]*"|\w+|[^\s\w]', body)
    words = {"if", "else", "return", "let", "mut", "while", "match", "for", "in", "true", "false", "self", "as"}
    return tuple(t if t in words or not re.match(r'[\w"]|b"', t) else "x" for t in tokens)


def twins():
    by_shape = collections.defaultdict(list)
    for path, line, name, text in functions():
        s = shape(text)
        if len(s) >= 12:
            by_shape[s].append((path, line, name))
    return [group for group in by_shape.values() if len(group) > 1]


def clauses():
    """Facts of `requires` that three or more functions ask, by their text without now and old."""
    by_fact = collections.defaultdict(set)
    for path, line, name, text in functions():
        for clause in re.findall(r"requires(?: \w+)? \{ (.*) \}$", text, re.M):
            for fact in clause.split(" × "):
                fact = re.sub(r"\.(now|old)\b", "", fact).strip()
                while fact.startswith("(") and fact.endswith(")") and fact.count("(") == fact.count(")"):
                    fact = fact[1:-1]
                by_fact[fact].add((path, line, name))
    return {f: p for f, p in by_fact.items() if len(p) >= 3}


def main():
    listing = "--list" in sys.argv[1:]

    def show(path, line, text):
        print(f"    {path.relative_to(ROOT)}:{line}: {text.strip()[:100]}")

    for point, what, pattern in LINES:
        places = [(p, i, l) for p in FILES for i, l in enumerate(p.read_text().splitlines(), 1)
                  if re.search(pattern, l) and not l.strip().startswith("//")]
        print(f"{point:3} {len(places):4}  {what}")
        if listing:
            for p, i, l in places:
                show(p, i, l)
    groups = twins()
    print(f"2   {sum(len(g) - 1 for g in groups):4}  functions whose body has the shape of another's, beyond the first of each shape")
    if listing:
        for g in groups:
            print("    " + "; ".join(f"{p.relative_to(ROOT)}:{l} {n}" for p, l, n in g))
    facts = clauses()
    print(f"5c  {sum(len(p) for p in facts.values()):4}  clauses with one of {len(facts)} facts that three or more functions ask")
    if listing:
        for f, p in sorted(facts.items(), key=lambda x: -len(x[1])):
            print(f"    {len(p):3} {f}")
    goals = sum(len(re.findall(r"^\s*pub \S+ : goal\.", p.read_text(), re.M)) for p in PROOFS)
    print(f"8   {goals:4}  answers, in {len(PROOFS)} files Answers.antt")


main()
