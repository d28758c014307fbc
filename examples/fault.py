#!/usr/bin/env python3
"""Writes fault.bin, an input of the run program: a core boots, sets up page tables, enters user mode, takes a page
fault on a load and returns to it. README.md says what each step shows.

    python3 fault.py > fault.bin             the input
    python3 fault.py --steps                 the steps, one to a line, with their remarks
    python3 fault.py --page 0 > fault.page   a page of its memory, 0 to 4
"""
import struct
import sys

# ---- the few instructions that are needed; numbers stand low byte first in memory

SPECIAL = {"sr": 0, "esr": 1, "eca": 2, "epc": 3, "edata": 4, "pto": 5, "asid": 6, "mode": 7}


def i_type(opcode, rs, rt, imm):
    return opcode << 26 | rs << 21 | rt << 16 | imm & 0xFFFF


def r_type(opcode, rs, rt, rd, fun):
    return opcode << 26 | rs << 21 | rt << 16 | rd << 11 | fun


def lw(rt, offset, rs):
    return i_type(0b100011, rs, rt, offset)


def sw(rt, offset, rs):
    return i_type(0b101011, rs, rt, offset)


def addi(rt, rs, imm):
    return i_type(0b001000, rs, rt, imm)


def ori(rt, rs, imm):
    return i_type(0b001101, rs, rt, imm)


def lui(rt, imm):
    return i_type(0b001111, 0, rt, imm)


def bne(rs, rt, words):
    """A branch counts words from its own address."""
    return i_type(0b000101, rs, rt, words)


def movg2s(special, rt):
    return r_type(0b010000, 0b00100, rt, SPECIAL[special], 0)


def movs2g(rt, special):
    return r_type(0b010000, 0b00000, rt, SPECIAL[special], 0)


def mfence():
    return r_type(0, 0, 0, 0, 0b111110)


def sysc():
    return r_type(0, 0, 0, 0, 0b001100)


def eret():
    return r_type(0b010000, 0b10000, 0, 0, 0b011000)


def illegal():
    return 0xFFFFFFFF


# ---- page tables

PRESENT, WRITE, USER, EXECUTE = 1 << 11, 1 << 8, 1 << 9, 1 << 10
PAGE = 4096


def entry(page, flags):
    return page * PAGE | flags


# ---- memory: the kernel in page 0, first-level table in 1, second-level table in 2, the user's program in 3, its data in 4

KERNEL, FIRST, SECOND, PROGRAM, DATA = range(5)
ASID = 3
USER_PC = 0x0040_0000  # entry 1 of the first-level table, entry 0 of the second-level one
USER_DATA = 0x0040_1000  # entry 1 and entry 1

kernel = [
    movs2g(1, "eca"),  # 0 after reset, the causes after an interrupt: both start at pc 0
    bne(1, 0, 13),  # to the handler
    ori(2, 0, entry(SECOND, PRESENT | WRITE | USER | EXECUTE)),
    sw(2, FIRST * PAGE + 4, 0),
    ori(3, 0, entry(PROGRAM, PRESENT | USER | EXECUTE)),
    sw(3, SECOND * PAGE, 0),
    ori(4, 0, FIRST * PAGE),
    movg2s("pto", 4),
    ori(5, 0, ASID),
    movg2s("asid", 5),
    lui(6, USER_PC >> 16),
    movg2s("epc", 6),
    mfence(),  # waits until both entries are in memory
    eret(),
    # handler: the page of the data is made present, and the load is tried again
    ori(7, 0, entry(DATA, PRESENT | WRITE | USER)),
    sw(7, SECOND * PAGE + 4, 0),
    mfence(),
    eret(),
]

program = [
    lui(8, USER_PC >> 16),
    lw(9, USER_DATA + 4 - USER_PC, 8),
    addi(9, 9, 1),
    sw(9, USER_DATA + 8 - USER_PC, 8),
    lw(10, USER_DATA + 8 - USER_PC, 8),
    addi(11, 0, 42),
    bne(10, 11, 2),  # to the illegal word, unless the value is 42
    sysc(),
    illegal(),
]

memory = bytearray(5 * PAGE)


def load(page, words, at=0):
    struct.pack_into("<%dI" % len(words), memory, page * PAGE + at, *words)


load(KERNEL, kernel)
load(PROGRAM, program)
load(DATA, [41], 4)

# ---- steps


def walk(va, level, rights, base):
    return (va << 12 | ASID << 6 | level << 3 | rights, base)


NO_WALK = (0, 0)
steps = []


def step(kind, words, remark):
    steps.append(((kind, 0) + tuple(words) + (0,) * (4 - len(words)), remark))


def core(remark, fetch=NO_WALK, data=NO_WALK):
    step(0, fetch + data, remark)


def create(va, remark):
    step(1, (va,), remark)


def extend(w, remark):
    step(2, w, remark)


def accessed(w, remark):
    step(3, w, remark)


def drain(remark):
    step(4, (), remark)


PC, DV = USER_PC >> 12, USER_DATA >> 12
pc2, pc1, pc0 = walk(PC, 2, 7, FIRST), walk(PC, 1, 7, SECOND), walk(PC, 0, 6, PROGRAM)
dv2, dv1, dv0 = walk(DV, 2, 7, FIRST), walk(DV, 1, 7, SECOND), walk(DV, 0, 3, DATA)

core("movs2g eca: 0, so this is a boot")
core("bne is not taken")
core("ori: the entry that names the second-level table")
core("sw: it goes into the store buffer")
core("ori: the entry of the program's page")
core("sw")
core("ori")
core("movg2s pto: the first-level table")
core("ori")
core("movg2s asid")
core("lui")
core("movg2s epc: where the user's program starts")
core("mfence is refused while stores are pending")
drain("the first entry goes to memory")
drain("the second entry goes to memory")
drain("nothing is pending any more")
core("mfence")
core("eret: user mode, pc 00400000")
core("no walk is held that a fetch could use", pc0)
create(PC, "a walk for the program's page")
extend(pc2, "refused: the entry's accessed bit is not set yet")
accessed(pc2, "it is set in memory")
extend(pc2, "the walk reaches the second-level table")
accessed(pc1, "the accessed bit of the second entry")
extend(pc1, "the walk is complete")
core("lui, fetched through the complete walk", pc0)
create(DV, "a walk for the page of the data")
extend(dv2, "its first entry is the same, and is marked already")
accessed(dv1, "refused: the second entry is not present")
core("lw: page fault on the data, level 5; pc 0, system mode", pc0, dv1)
core("movs2g eca: not 0")
core("bne to the handler")
core("ori: the missing entry")
core("sw")
core("mfence is refused while the store is pending")
drain("the entry goes to memory")
core("mfence")
core("eret: back to the load")
core("refused: the fault dropped the walks of that page", pc0, dv1)
create(DV, "a new walk")
extend(dv2, "as before")
accessed(dv1, "now the entry is present")
extend(dv1, "the walk is complete")
core("lw succeeds: 41", pc0, dv0)
core("addi: 42", pc0)
core("sw, through the same walk", pc0, dv0)
core("lw: served by the pending store", pc0, dv0)
core("addi", pc0)
core("bne is not taken: 42 was loaded", pc0)
core("sysc: level 6", pc0)
drain("the user's store goes to memory")


def main():
    if sys.argv[1:] == ["--steps"]:
        for n, (words, remark) in enumerate(steps):
            print("%2d  %2d %d %8x %5x %8x %5x  %s" % ((n,) + words + (remark,)))
        return
    if sys.argv[1:2] == ["--page"]:
        if sys.argv[2:] not in [["0"], ["1"], ["2"], ["3"], ["4"]]:
            sys.exit("fault.py: --page wants a page, 0 to 4")
        at = PAGE * int(sys.argv[2])
        sys.stdout.buffer.write(memory[at : at + PAGE])
        return
    out = bytes([1, len(memory) // PAGE]) + memory
    for words, _ in steps:
        out += struct.pack("<6I", *words)
    sys.stdout.buffer.write(out)


main()
