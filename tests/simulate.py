#!/usr/bin/env python3
"""Gives the run program and the independent simulator the same inputs and compares what they write, byte for byte: inputs
that are cut or out of range at each place, and lists of steps on either side of the parts in which the program reads
them, 1,024 steps each. Python, standard library only.

    python3 tests/simulate.py target/bin/simulate target/oracle/release/oracle examples/fault.bin [HOW_MANY]
"""
import random, struct, subprocess, sys

PAGE, STEP, PART = 4096, 24, 1024


def written(command, data):
    got = subprocess.run(command, input=data, capture_output=True, timeout=60)
    if got.returncode != 0 or got.stderr:
        return "status %d, %r" % (got.returncode, got.stderr[:200])
    return got.stdout.decode("ascii", "replace")


def random_step(r):
    """Six words: of every kind, mostly of cores that are there, sometimes with words that no step has."""
    words = [r.choice([0] * 8 + [4] * 4 + list(range(16))), r.randrange(5), r.choice([0, 0, r.getrandbits(5)]), 0, 0, 0]
    if r.random() < 0.2:
        words[r.randrange(6)] = r.choice([0, 1, r.getrandbits(8), r.getrandbits(32)])
    return struct.pack("<6I", *words)


def inputs(r, example, count):
    front = 2 + PAGE * example[1]
    steps = example[front:]
    # The example of 01: one core, one zero page, three steps.
    paper = bytes([1, 1]) + bytes(PAGE) + struct.pack("<18I", 11, 3, 1, 0, 0, 0, 4, 0, 0, 0, 0, 0, 15, 0, 0, 0, 0, 0)
    yield paper
    for n in (0, 1, 2, 3, 1000, PAGE, 1 + PAGE, 2 + PAGE, 3 + PAGE, 25 + PAGE, 26 + PAGE, 27 + PAGE, len(paper) - 1):
        yield paper[:n]
    for more in (1, 23, 24, 25):
        yield paper + bytes(more)
    for cores in (0, 1, 2, 3, 4, 5, 255):
        for pages in (0, 1, 2, 8, 9, 255):
            for lack in (0, 1):
                yield bytes([cores, pages]) + bytes(PAGE * pages - lack if pages else 0)
    for n in (1, PART - 1, PART, PART + 1, 2 * PART - 1, 2 * PART, 2 * PART + 1, 3 * PART + 7):
        for left in (0, 1, 23):
            whole = steps * (n * STEP // len(steps) + 1)
            yield example[:front] + whole[: n * STEP + left]
    for _ in range(count):
        cores, pages = r.randrange(1, 5), r.randrange(1, 9)
        memory = r.choice([bytes(PAGE * pages), r.randbytes(PAGE * pages), (example[2:front] * 8)[: PAGE * pages]])
        n = r.choice([1, 10, 100, 1000, 1024, 1500, 2048, 2500])
        yield bytes([cores, pages]) + memory + b"".join(random_step(r) for _ in range(n)) + r.randbytes(r.choice([0, 0, 0, 5]))


def main():
    program, oracle, file = sys.argv[1:4]
    count = int(sys.argv[4]) if len(sys.argv) > 4 else 2000
    r = random.Random(20261117)
    with open(file, "rb") as example:
        data = example.read()
    failed = 0
    number = 0
    seen = dict.fromkeys(["bad", "cut", "%d " % PART, "%d " % (2 * PART), " done", " interrupt", " refused"], 0)
    for number, given in enumerate(inputs(r, data, count), 1):
        got, said = written([program], given), written([oracle, "simulate"], given)
        if got != said:
            failed += 1
            line = next((k for k, (a, b) in enumerate(zip(got.split("\n"), said.split("\n"))) if a != b), None)
            print("simulate: input %d, %d bytes: first at line %s: %r in place of %r" % (number, len(given), line, got[:200], said[:200]))
        for mark in seen:
            seen[mark] += mark in said if mark[0] == " " else any(line.startswith(mark) for line in said.split("\n"))
    print("simulate: %d inputs, %s, %d failed" % (number, ", ".join("%r in %d" % mark for mark in seen.items()), failed))
    if failed or not all(seen.values()):
        sys.exit(1)


if __name__ == "__main__":
    main()
