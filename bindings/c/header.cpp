/*
 * mips86.h in C++: it needs no other header before it, may be included twice, and its functions have C linkage. Each is
 * called once, on a machine of one core and one page, so this links only if the library has every one under its plain
 * name. What the functions do is tried in test.c.
 * Exit status 0 if all answers are right, 1 if one is not.
 */
#include "mips86.h"
#include "mips86.h"

#include <cstdio>
#include <cstring>

static_assert(MIPS86_TABLE_WORDS(MIPS86_MOST_CORES) == 1056, "the words of four cores");

static bool right = true;

static void check(const char *what, uint32_t found, uint32_t expected) {
    if (found == expected) return;
    right = false;
    std::fprintf(stderr, "header.cpp: %s is %lu, expected %lu\n", what, static_cast<unsigned long>(found),
                 static_cast<unsigned long>(expected));
}

int main() {
    static uint32_t tables[MIPS86_TABLE_WORDS(1)];
    static uint8_t memory[MIPS86_PAGE_BYTES];
    const size_t words = MIPS86_TABLE_WORDS(1), length = MIPS86_PAGE_BYTES;
    const uint32_t line3[MIPS86_STEP_WORDS] = {11, 3, 1, 0, 0, 0}, address = 0;
    uint32_t accepted, beyond, reads, why[MIPS86_WHY_WORDS], led[MIPS86_ANSWER_WORDS];
    uint8_t map[1], text[MIPS86_TEXT_BYTES];

    check("make", mips86_make(tables, words, memory, length, 1), MIPS86_DONE);
    check("step", mips86_step(tables, words, memory, length, line3, MIPS86_STEP_WORDS), MIPS86_DONE);
    check("run", mips86_run(tables, words, memory, length, line3, MIPS86_STEP_WORDS, 1, &accepted), MIPS86_DONE);
    check("accepted", accepted, 1);
    check("reach", mips86_reach(tables, words, memory, length, 1, map, sizeof map, &beyond), MIPS86_DONE);
    check("map[0]", map[0], MIPS86_TABLE); /* pto is zero after reset, and so is memory */
    check("beyond", beyond, 0);
    check("apart", mips86_apart(tables, words, memory, length, 1), MIPS86_NO); /* the core is in system mode */
    check("why", mips86_why(tables, words, memory, length, 1, 0, why, MIPS86_WHY_WORDS), MIPS86_NOT_USER);
    check("why's core", why[MIPS86_WHY_CORE], 0);
    check("translate",
          mips86_translate(tables, words, memory, length, 0, &address, 1, led, MIPS86_ANSWER_WORDS, &reads),
          MIPS86_DONE);
    check("translate's answer", led[0], MIPS86_ABSENT);
    check("reads", reads, 1);
    check("disassemble", mips86_disassemble(0x0000000C, text, sizeof text), 4);
    check("strcmp", std::strcmp(reinterpret_cast<const char *>(text), "sysc") != 0, 0);
    return right ? 0 : 1;
}
