/*
 * Calls each function of mips86.h and checks its answer and every word and byte that it may write.
 * Exit status 0 if all checks hold, 1 if one does not.
 */
#include "mips86.h"

#include <stdio.h>
#include <stdlib.h>
#include <string.h>

static unsigned checks, failures;

static void check_at(int line, const char *what, unsigned long found, unsigned long expected) {
    checks++;
    if (found != expected) {
        failures++;
        fprintf(stderr, "test.c:%d: %s is %lu, expected %lu\n", line, what, found, expected);
    }
}
#define CHECK(found, expected) check_at(__LINE__, #found, (unsigned long)(found), (unsigned long)(expected))

/* places of the tables */
enum { CORES = 0, PAGES = 1, REFUSALS = 2, LINES = 3, BLOCK = 32, PTO = 37, ASID = 38, MODE = 39, PC = 64 };
enum { CORE_0_REFUSALS = 32 + 115 };
enum { RUNNING = 67, STORES = 68, WALKS = 69, FREE = 70, PORTS = 72, SIPIRR = 112, INITRR = 114, RECORDS = 128 };

/* a machine, and a copy of it to compare with; there is room for the fifth core that make refuses */
#define WORDS MIPS86_TABLE_WORDS(MIPS86_MOST_CORES + 1)
#define BYTES (16 * MIPS86_PAGE_BYTES)
static uint32_t tables[WORDS], expected[WORDS];
static uint8_t memory[BYTES], bytes[BYTES];
static size_t words;
static size_t length;

static void make(uint32_t cores, size_t pages) {
    words = MIPS86_TABLE_WORDS(cores);
    length = pages * MIPS86_PAGE_BYTES;
    memset(memory, 0, sizeof memory);
    CHECK(mips86_make(tables, words, memory, length, cores), MIPS86_DONE);
}

static void remember(void) {
    memcpy(expected, tables, sizeof tables);
    memcpy(bytes, memory, sizeof memory);
}

#define SAME() (memcmp(expected, tables, sizeof tables) == 0 && memcmp(bytes, memory, sizeof memory) == 0)

static uint32_t step(const uint32_t *s, size_t n) {
    return mips86_step(tables, words, memory, length, s, n);
}

static uint32_t run(const uint32_t *s, size_t n, uint32_t limit, uint32_t *accepted) {
    *accepted = 77;
    return mips86_run(tables, words, memory, length, s, n, limit, accepted);
}

static const uint32_t line3[6] = {11, 3, 1, 0, 0, 0};
static const uint32_t drain[6] = {4, 0, 0, 0, 0, 0};
static const uint32_t nothing[6] = {15, 0, 0, 0, 0, 0};
static const uint32_t core0[6] = {0, 0, 0, 0, 0, 0};

static void test_make(void) {
    memset(tables, 0xEE, sizeof tables);
    memset(memory, 0xDD, sizeof memory);
    remember();
    CHECK(mips86_make(tables, 288, memory, 4096, 0), 101);
    CHECK(mips86_make(tables, 32 + 256 * 5, memory, 4096, 5), 101);
    CHECK(mips86_make(tables, 1, memory, 1, 0), 101);
    CHECK(mips86_make(tables, 288, memory, 0, 1), 102);
    CHECK(mips86_make(tables, 288, memory, 4095, 1), 102);
    CHECK(mips86_make(tables, 287, memory, 4097, 1), 102);
    CHECK(mips86_make(tables, 287, memory, 4096, 1), 103);
    CHECK(mips86_make(tables, 289, memory, 4096, 1), 103);
    CHECK(mips86_make(tables, 288, memory, 4096, 2), 103);
    CHECK(SAME(), 1);
    size_t most = (size_t)MIPS86_MOST_PAGES * MIPS86_PAGE_BYTES;
    uint8_t *large = calloc(most + MIPS86_PAGE_BYTES, 1);
    CHECK(large != NULL, 1);
    if (large != NULL) {
        CHECK(mips86_make(tables, 288, large, most + MIPS86_PAGE_BYTES, 1), 102);
        CHECK(SAME(), 1);
        CHECK(mips86_make(tables, 288, large, most, 1), 0);
        CHECK(tables[PAGES], MIPS86_MOST_PAGES);
        free(large);
    }

    for (uint32_t cores = 1; cores <= 4; cores++) {
        memset(tables, 0xEE, sizeof tables);
        memset(memory, 0xDD, sizeof memory);
        remember();
        words = MIPS86_TABLE_WORDS(cores);
        CHECK(mips86_make(tables, words, memory, 8192, cores), 0);
        memset(expected, 0, words * sizeof *expected);
        expected[CORES] = cores;
        expected[PAGES] = 2;
        for (uint32_t k = 0; k < cores; k++) {
            uint32_t *block = expected + BLOCK + 256 * k;
            block[RUNNING] = k == 0;
            block[FREE] = 1;
            block[PORTS] = k << 24;
            for (uint32_t r = 1; r < 31; r++) block[RECORDS + 4 * r] = r + 1;
        }
        CHECK(SAME(), 1);
    }
}

/* the example of the run program */
static void test_example(void) {
    make(1, 1);
    remember();
    CHECK(step(line3, 6), 0);
    expected[LINES] = 8;
    CHECK(SAME(), 1);
    CHECK(step(drain, 6), 106);
    expected[CORE_0_REFUSALS] = 1;
    CHECK(SAME(), 1);
    CHECK(step(nothing, 6), 105);
    expected[REFUSALS] = 1;
    CHECK(SAME(), 1);
}

static void test_lengths(void) {
    static const uint32_t seven[7] = {4, 0, 0, 0, 0, 0, 0};
    make(1, 1);
    remember();
    CHECK(step(drain, 5), 105);
    CHECK(step(seven, 7), 105);
    CHECK(step(drain, 0), 105);
    expected[REFUSALS] = 3;
    CHECK(SAME(), 1);
    tables[REFUSALS] = 0xFFFFFFFF;
    remember();
    CHECK(step(line3, 5), 105);
    CHECK(SAME(), 1);
}

/* a step, its answer and the word that counts it, on a machine of four cores; mips86.h names these words */
static void test_refusals(void) {
    static const struct {
        uint32_t words[6];
        uint32_t number;
        size_t at;
    } rows[] = {
        {{4, 0, 0, 0, 0, 0}, 106, CORE_0_REFUSALS},           {{4, 3, 0, 0, 0, 0}, 106, CORE_0_REFUSALS + 3 * 256},
        {{8, 2, 0, 0, 0, 0}, 106, CORE_0_REFUSALS + 2 * 256}, {{7, 1, 0, 0, 0, 1}, 105, CORE_0_REFUSALS + 256},
        {{2, 1, 0, 0, 8, 0}, 105, CORE_0_REFUSALS + 256},     {{4, 4, 0, 0, 0, 0}, 105, REFUSALS},
        {{9, 3, 0, 0, 0, 0}, 106, REFUSALS},               {{11, 2, 2, 0, 0, 0}, 105, REFUSALS},
        {{12, 1, 0, 0, 0, 0}, 105, REFUSALS},
    };
    uint32_t accepted;
    CHECK(MIPS86_REFUSALS, REFUSALS);
    CHECK(MIPS86_CORE_REFUSALS(0), CORE_0_REFUSALS);
    CHECK(MIPS86_CORE_REFUSALS(3), CORE_0_REFUSALS + 3 * 256);
    for (size_t i = 0; i < sizeof rows / sizeof *rows; i++) {
        make(4, 1);
        tables[REFUSALS] = tables[MIPS86_CORE_REFUSALS(1)] = 0xFFFFFFFE;
        remember();
        for (uint32_t n = 0; n < 3; n++) {
            CHECK(step(rows[i].words, 6), rows[i].number);
            if (expected[rows[i].at] != 0xFFFFFFFF) expected[rows[i].at]++;
            CHECK(SAME(), 1);
        }
        CHECK(run(rows[i].words, 6, 1, &accepted), rows[i].number);
        CHECK(accepted, 0);
        if (expected[rows[i].at] != 0xFFFFFFFF) expected[rows[i].at]++;
        CHECK(SAME(), 1);
    }
}

/* INIT and the start of core 1 keep every count; a count may be any number, and the words after it are zero */
static void test_counts_kept(void) {
    static const uint32_t init[6] = {7, 1, 0, 0, 0, 0}, start[6] = {8, 1, 0, 0, 0, 0};
    uint32_t *block = tables + BLOCK + 256;
    make(2, 1);
    tables[MIPS86_REFUSALS] = 5;
    tables[MIPS86_CORE_REFUSALS(0)] = 6;
    tables[MIPS86_CORE_REFUSALS(1)] = 0xFFFFFFFF;
    block[INITRR] = block[SIPIRR] = 1;
    CHECK(step(init, 6), MIPS86_DONE);
    CHECK(step(start, 6), MIPS86_DONE);
    CHECK(block[RUNNING], 1);
    CHECK(tables[MIPS86_REFUSALS], 5);
    CHECK(tables[MIPS86_CORE_REFUSALS(0)], 6);
    CHECK(tables[MIPS86_CORE_REFUSALS(1)], 0xFFFFFFFF);
    block[116] = 1;
    remember();
    CHECK(step(init, 6), 104);
    CHECK(SAME(), 1);
}

static void test_unsound(void) {
    uint32_t accepted;
    make(1, 1);
    tables[BLOCK + RUNNING] = 2;
    remember();
    CHECK(step(line3, 6), 104);
    CHECK(step(line3, 5), 104);
    CHECK(run(line3, 6, 1, &accepted), 104);
    CHECK(accepted, 0);
    CHECK(run(line3, 5, 1, &accepted), 104);
    CHECK(SAME(), 1);
    make(1, 1);
    remember();
    CHECK(mips86_step(tables, words - 1, memory, length, line3, 6), 104);
    CHECK(mips86_step(tables, words, memory, length - 1, line3, 6), 104);
    CHECK(mips86_step(tables, 0, memory, 0, line3, 6), 104);
    CHECK(SAME(), 1);
}

/* addi 1 0 5, then a word that is no instruction; then a pc that is not divisible by four */
static void test_core(void) {
    static const uint8_t code[8] = {0x05, 0x00, 0x01, 0x20, 0xFF, 0xFF, 0xFF, 0xFF};
    make(2, 2);
    memcpy(memory, code, sizeof code);
    remember();
    CHECK(step(core0, 6), 0);
    expected[BLOCK + 1] = 5;
    expected[BLOCK + PC] = 4;
    CHECK(SAME(), 1);
    CHECK(step(core0, 6), MIPS86_INTERRUPT + 2);
    CHECK(tables[BLOCK + 1], 5);
    CHECK(tables[BLOCK + PC], 0);
    CHECK(tables[BLOCK + 32 + 3], 4); /* epc */
    CHECK(tables[BLOCK + 32 + 2], 4); /* eca: bit 2 */
    tables[BLOCK + PC] = 6;
    CHECK(step(core0, 6), MIPS86_INTERRUPT + 3);
    CHECK(tables[BLOCK + 32 + 3], 6);
    CHECK(tables[REFUSALS], 0);
    CHECK(tables[CORE_0_REFUSALS], 0);
}

static void test_run(void) {
    static const uint32_t schedule[24] = {11, 3, 1, 0, 0, 0, 11, 5, 1, 0, 0, 0, 4, 0, 0, 0, 0, 0, 11, 7, 1, 0, 0, 0};
    static uint32_t longest[6150];
    uint32_t accepted;
    make(1, 1);
    remember();
    CHECK(run(schedule, 24, 0, &accepted), MIPS86_LIMIT);
    CHECK(accepted, 0);
    CHECK(run(schedule, 0, 0, &accepted), MIPS86_DONE);
    CHECK(accepted, 0);
    CHECK(run(schedule, 23, 9, &accepted), 111);
    CHECK(accepted, 0);
    for (size_t i = 0; i < 6150; i += 6) {
        longest[i] = 11;
        longest[i + 1] = 3;
    }
    CHECK(run(longest, 6150, 9, &accepted), 111);
    CHECK(accepted, 0);
    CHECK(SAME(), 1);
    CHECK(run(longest, 6144, 2000, &accepted), MIPS86_DONE);
    CHECK(accepted, 1024);
    CHECK(SAME(), 1);
    CHECK(run(schedule, 24, 1, &accepted), MIPS86_LIMIT);
    CHECK(accepted, 1);
    expected[LINES] = 1 << 3;
    CHECK(SAME(), 1);
    CHECK(run(schedule, 12, 2, &accepted), MIPS86_DONE);
    CHECK(accepted, 2);
    expected[LINES] = 1 << 3 | 1 << 5;
    CHECK(SAME(), 1);
    CHECK(run(schedule, 24, 0xFFFFFFFF, &accepted), 106);
    CHECK(accepted, 2);
    expected[CORE_0_REFUSALS] = 1;
    CHECK(SAME(), 1);
}

/* ---- reach and apart */

enum { WRITE = 1, USER = 2, EXECUTE = 4, ALL = 7 };

/* the core is running in user mode, with its first-level table in this page; the low bits of pto say nothing */
static void user(uint32_t core, uint32_t table) {
    uint32_t *block = tables + BLOCK + 256 * core;
    block[RUNNING] = 1;
    block[MODE] = 1;
    block[PTO] = table << 12 | 0xABC;
}

/* puts a free record to the front of a chain */
static void hold(uint32_t core, uint32_t chain, uint32_t first, uint32_t second, uint32_t third) {
    uint32_t *block = tables + BLOCK + 256 * core, number = block[FREE], *record = block + RECORDS + 4 * number;
    block[FREE] = record[0];
    record[0] = block[chain];
    block[chain] = number;
    record[1] = first;
    record[2] = second;
    record[3] = third;
}

static void walk(uint32_t core, uint32_t level, uint32_t rights, uint32_t base) {
    hold(core, WALKS, 0x77u << 12 | core << 6 | level << 3 | rights, base, 0);
}

static void store(uint32_t core, uint32_t address) {
    hold(core, STORES, address, 0x5A, address % 4 == 0 ? 4 : 1);
}

static void entry(uint32_t table, uint32_t index, uint32_t page, uint32_t rights, uint32_t present) {
    uint32_t word = page << 12 | present << 11 | rights << 8;
    uint8_t *at = memory + table * MIPS86_PAGE_BYTES + 4 * index;
    for (int k = 0; k < 4; k++) at[k] = (uint8_t)(word >> 8 * k);
}

static uint8_t map[17];
static uint32_t beyond;

static uint32_t reach(uint32_t group, size_t nmap) {
    memset(map, 0xEE, sizeof map);
    beyond = 77;
    return mips86_reach(tables, words, memory, length, group, map, nmap, &beyond);
}

static uint32_t apart(uint32_t group) {
    return mips86_apart(tables, words, memory, length, group);
}

/* the group's map, byte by byte, and whether it reaches beyond; neither tables nor memory are written */
static void maps_to(int line, uint32_t group, const uint8_t *pages, uint32_t past) {
    remember();
    check_at(line, "reach", reach(group, 16), MIPS86_DONE);
    for (int page = 0; page < 16; page++) check_at(line, "a byte of the map", map[page], pages[page]);
    check_at(line, "the byte after the map", map[16], 0xEE);
    check_at(line, "beyond", beyond, past);
    check_at(line, "SAME()", SAME(), 1);
}
#define MAPS_TO(group, pages, past) maps_to(__LINE__, group, pages, past)

static void refuses(int line, uint32_t group, size_t nmap, uint32_t why) {
    remember();
    check_at(line, "reach", reach(group, nmap), MIPS86_REFUSED + why);
    for (size_t page = 0; page < sizeof map; page++) check_at(line, "a byte of the map", map[page], 0xEE);
    check_at(line, "beyond", beyond, 0);
    check_at(line, "apart", apart(group), why == 12 ? MIPS86_NO : MIPS86_REFUSED + why);
    check_at(line, "SAME()", SAME(), 1);
}
#define REFUSES(group, nmap, why) refuses(__LINE__, group, nmap, why)

static void test_group_refusals(void) {
    make(2, 16);
    tables[BLOCK + PTO] = 16 << 12; /* the group reaches beyond memory, which a refusal does not say */
    REFUSES(1, 15, 12);
    REFUSES(1, 17, 12);
    REFUSES(1, 0, 12);
    REFUSES(0, 16, 13);
    REFUSES(4, 16, 13);
    REFUSES(5, 16, 13);
    REFUSES(0x80000000, 16, 13);
    REFUSES(0x80000001, 16, 13);
    remember();
    CHECK(reach(0, 15), 112);
    CHECK(apart(0), 113);
    tables[BLOCK + RUNNING] = 2;
    REFUSES(1, 16, 4);
    REFUSES(1, 15, 4);
    REFUSES(0, 16, 4);
    REFUSES(0, 15, 4);
    tables[BLOCK + RUNNING] = 1;
    remember();
    CHECK(mips86_reach(tables, words - 1, memory, length, 1, map, 16, &beyond), 104);
    CHECK(mips86_reach(tables, words, memory, length - 4096, 1, map, 15, &beyond), 104);
    CHECK(mips86_apart(tables, words - 1, memory, length, 1), 104);
    CHECK(mips86_apart(tables, words, memory, length - 4096, 1), 104);
    CHECK(mips86_apart(tables, 0, memory, 0, 0), 104);
    CHECK(SAME(), 1);
}

/* three cores whose maps are known byte by byte; core 1 is not running and in system mode */
static void make_maps(void) {
    make(3, 16);
    user(0, 1);
    entry(1, 0, 2, ALL, 1); /* the rights of a first-level entry make no page writable */
    entry(1, 1023, 3, 0, 1);
    entry(1, 5, 12, ALL, 0); /* absent */
    entry(2, 0, 4, USER, 1);
    entry(2, 1023, 5, WRITE, 1);
    entry(2, 7, 12, ALL, 0); /* absent */
    entry(2, 8, 3, EXECUTE, 1);
    entry(3, 1, 4, USER | EXECUTE, 1);
    entry(4, 0, 12, ALL, 1); /* page 4 is no table */
    tables[BLOCK + 256 + PTO] = 15 << 12;
    walk(1, 2, 0, 6);
    entry(6, 512, 7, 0, 1);
    entry(7, 3, 5, USER, 1);
    entry(7, 4, 8, WRITE, 1);
    walk(1, 1, WRITE, 8);
    entry(8, 1, 2, USER, 1);
    walk(1, 0, WRITE, 9);
    walk(1, 0, USER | EXECUTE, 10);
    store(1, 0xB000);
    store(1, 0xBFFF);
    user(2, 13); /* in neither group below */
}

static const uint8_t map_of_0[16] = {0, 2, 2, 3, 1, 5, 0, 0, 0, 0, 0, 0, 0, 0, 0, 0};
static const uint8_t map_of_1[16] = {0, 0, 1, 0, 0, 1, 2, 2, 7, 5, 1, 5, 0, 0, 0, 2};
static const uint8_t map_of_both[16] = {0, 2, 3, 3, 1, 5, 2, 2, 7, 5, 1, 5, 0, 0, 0, 2};
static const uint8_t map_of_2[16] = {0, 0, 0, 0, 0, 0, 0, 0, 0, 0, 0, 0, 0, 2, 0, 0};

static void test_reach(void) {
    make_maps();
    MAPS_TO(1, map_of_0, 0);
    MAPS_TO(2, map_of_1, 0);
    MAPS_TO(3, map_of_both, 0);
    MAPS_TO(4, map_of_2, 0);

    /* each way beyond memory by itself: it leaves the other bytes, and is none of core 0's */
    make_maps();
    tables[BLOCK + 256 + PTO] = 16 << 12;
    CHECK(reach(2, 16), 0);
    CHECK(beyond, 1);
    CHECK(map[15], 0);
    MAPS_TO(1, map_of_0, 0);
    for (uint32_t level = 0; level < 3; level++) {
        make_maps();
        walk(1, level, ALL, 16);
        MAPS_TO(2, map_of_1, 1);
        MAPS_TO(1, map_of_0, 0);
        make_maps();
        walk(1, level, 0, 0xFFFFF);
        MAPS_TO(3, map_of_both, 1);
    }
    for (uint32_t table = 6; table < 8; table++) {
        make_maps();
        entry(table, 9, 16, 0, 0);
        MAPS_TO(2, map_of_1, 0);
        entry(table, 9, 16, 0, 1);
        MAPS_TO(2, map_of_1, 1);
        MAPS_TO(1, map_of_0, 0);
        entry(table, 9, 0xFFFFF, ALL, 1);
        MAPS_TO(2, map_of_1, 1);
    }
    static const uint32_t ports[4] = {0xFFFFF000, 0xFFFFF07F, 0xFFFFE000, 0xFFFFE004};
    for (int k = 0; k < 4; k++) {
        make_maps();
        store(1, ports[k]);
        MAPS_TO(2, map_of_1, 1);
        MAPS_TO(1, map_of_0, 0);
    }
}

/* Cores 0 and 1 share tables and pages 1 to 3, core 2 has pages 5 to 7; both sides read page 4, and core 2 reads page 3
 * too. Core 3 is not running, so it is of neither side: it is in system mode and reaches into both. */
static void make_sides(void) {
    make(4, 16);
    user(0, 1);
    user(1, 1);
    entry(1, 0, 2, ALL, 1);
    entry(2, 0, 3, WRITE | USER, 1);
    entry(2, 1, 4, USER | EXECUTE, 1);
    walk(0, 2, ALL, 1);
    walk(0, 1, ALL, 2);
    walk(1, 0, WRITE | USER, 3);
    store(1, 0x3000);
    user(2, 5);
    entry(5, 0, 6, ALL, 1);
    entry(6, 0, 7, WRITE | USER, 1);
    entry(6, 1, 4, USER, 1);
    entry(6, 2, 3, USER, 1);
    walk(2, 2, ALL, 5);
    walk(2, 1, ALL, 6);
    walk(2, 0, WRITE | USER, 7);
    store(2, 0x7000);
    tables[BLOCK + 3 * 256 + PTO] = 3 << 12;
    store(3, 0x1000);
    store(3, 0x5000);
    store(3, 0xFFFFF000);
}

/* the reason after a number, of cores 0 and 1, and its words; neither tables nor memory are written */
static void tells(int line, uint32_t after, uint32_t number, const uint32_t *reason) {
    uint32_t told[MIPS86_WHY_WORDS + 1];
    memset(told, 0xEE, sizeof told);
    remember();
    check_at(line, "why", mips86_why(tables, words, memory, length, 3, after, told, MIPS86_WHY_WORDS), number);
    for (int k = 0; k < MIPS86_WHY_WORDS; k++) check_at(line, "a word of the reason", told[k], reason[k]);
    check_at(line, "the word after the reason", told[MIPS86_WHY_WORDS], 0xEEEEEEEE);
    check_at(line, "SAME()", SAME(), 1);
}
#define TELLS(after, number, ...) tells(__LINE__, after, number, (const uint32_t[MIPS86_WHY_WORDS]){__VA_ARGS__})

static void tells_refusal(int line, uint32_t group, size_t nwords, uint32_t number) {
    uint32_t told[MIPS86_WHY_WORDS + 1];
    memset(told, 0xEE, sizeof told);
    check_at(line, "why", mips86_why(tables, words, memory, length, group, 0, told, nwords), MIPS86_REFUSED + number);
    for (int k = 0; k <= MIPS86_WHY_WORDS; k++) check_at(line, "a word of no reason", told[k], 0xEEEEEEEE);
}

static void test_why(void) {
    make_sides();
    TELLS(0, MIPS86_NO_REASON, 0);
    tells_refusal(__LINE__, 3, 9, 12);
    tells_refusal(__LINE__, 3, 17, 12);
    tells_refusal(__LINE__, 3, 19, 12);
    tells_refusal(__LINE__, 0, 17, 12);
    tells_refusal(__LINE__, 0, 18, 13);
    tells_refusal(__LINE__, 16, 18, 13);
    tables[BLOCK + 4] = 77; /* a general register says nothing */
    TELLS(0, MIPS86_NO_REASON, 0);
    tables[BLOCK + RUNNING] = 2;
    tells_refusal(__LINE__, 0, 8, 4);

    /* one of each, in their order; the lowest page, and of its ways the first */
    make_sides();
    tables[BLOCK + 2 * 256 + MODE] = 0;
    entry(2, 9, 20, USER, 1);
    entry(2, 8, 17, USER, 1);
    entry(2, 7, 20, USER, 1);
    walk(2, 2, 0, 16);
    entry(2, 6, 2, WRITE, 1);
    store(2, 0x5000);
    entry(6, 5, 4, WRITE, 1);
    entry(6, 4, 4, WRITE, 1);
    TELLS(0, MIPS86_NOT_USER, 2);
    TELLS(1, MIPS86_GROUP_BEYOND, 0, 17, 0, 0, 0, 0, 2, 0x1000, 0x2020);
    TELLS(2, MIPS86_REST_BEYOND, 2, 16, 2, 0, 1, 5);
    TELLS(3, MIPS86_GROUP_TABLE, 0, 2, 0, 1, 0, 0, 2, 0x1000, 0x2018);
    TELLS(4, MIPS86_REST_TABLE, 2, 5, 0, 1, 2, 6);
    TELLS(5, MIPS86_TOUCHES, 2, 4, 0, 1, 0, 0, 2, 0x5000, 0x6010, 0, 4, 0, 0, 0, 0, 2, 0x1000, 0x2004);
    TELLS(6, MIPS86_NO_REASON, 0);
    TELLS(0xFFFFFFFF, MIPS86_NO_REASON, 0);

    /* a walk of the rest that has not come to its end uses a page of the group as a table */
    make_sides();
    walk(2, 1, 0, 3);
    TELLS(0, MIPS86_TOUCHES, 2, 3, 1, 0, 1, 5, 0, 0, 0, 0, 3, 0, 1, 0, 0, 2, 0x1000, 0x2000);
    make_sides();
    entry(5, 7, 4, 0, 1);
    TELLS(0, MIPS86_TOUCHES, 2, 4, 1, 0, 0, 0, 1, 0x501C, 0, 0, 4, 0, 0, 0, 0, 2, 0x1000, 0x2004);

    /* the group's own way by a pending store, which its tables do not lead to */
    make_sides();
    store(1, 0x9000);
    store(2, 0x9004);
    TELLS(0, MIPS86_TOUCHES, 2, 9, 0, 1, 2, 5, 0, 0, 0, 1, 9, 0, 1, 2, 3);
}

/* the verdict for cores 0 and 1 on the sides with one thing changed, and the same sides again */
static void says(int line, uint32_t verdict) {
    remember();
    check_at(line, "apart", apart(3), verdict);
    check_at(line, "SAME()", SAME(), 1);
    make_sides();
}
#define SAYS(verdict) says(__LINE__, verdict)

static void test_apart(void) {
    make_sides();
    CHECK(apart(4), MIPS86_NO); /* core 2 reads what core 0 writes */
    CHECK(apart(1), MIPS86_NO); /* core 1 shares the table of core 0 */
    CHECK(apart(15), MIPS86_NO); /* core 3 stands */
    SAYS(MIPS86_YES);
    tables[BLOCK + 2 * 256 + RUNNING] = 0; /* the rest is empty */
    SAYS(MIPS86_YES);
    entry(6, 3, 4, USER | EXECUTE, 1);
    SAYS(MIPS86_YES);

    /* a core that is not running, or in system mode */
    tables[BLOCK + 256 + RUNNING] = 0;
    SAYS(MIPS86_NO);
    tables[BLOCK + 256 + MODE] = 2; /* bit 0 is the mode */
    SAYS(MIPS86_NO);
    tables[BLOCK + 256 + MODE] = 3;
    SAYS(MIPS86_YES);
    tables[BLOCK + 2 * 256 + MODE] = 0;
    SAYS(MIPS86_NO);
    tables[BLOCK + 3 * 256 + RUNNING] = 1; /* now it counts */
    SAYS(MIPS86_NO);

    /* a page beyond memory, for the group and for the rest */
    walk(0, 0, USER, 16);
    SAYS(MIPS86_NO);
    entry(1, 1, 16, 0, 1);
    SAYS(MIPS86_NO);
    store(1, 0xFFFFF000);
    SAYS(MIPS86_NO);
    walk(2, 0, USER, 16);
    SAYS(MIPS86_NO);
    entry(6, 3, 16, 0, 1);
    SAYS(MIPS86_NO);
    store(2, 0xFFFFE000);
    SAYS(MIPS86_NO);

    /* a page both writable and table for one side; without the write right it is none */
    entry(2, 3, 2, WRITE, 1);
    SAYS(MIPS86_NO);
    entry(2, 3, 2, USER | EXECUTE, 1);
    SAYS(MIPS86_YES);
    store(1, 0x1FFF);
    SAYS(MIPS86_NO);
    walk(0, 1, ALL, 3);
    SAYS(MIPS86_NO);
    entry(6, 3, 6, WRITE, 1);
    SAYS(MIPS86_NO);
    entry(6, 3, 6, USER | EXECUTE, 1);
    SAYS(MIPS86_YES);
    store(2, 0x5FFF);
    SAYS(MIPS86_NO);
    walk(2, 1, ALL, 7);
    SAYS(MIPS86_NO);

    /* a page that the group reaches is writable for the rest */
    entry(6, 3, 4, WRITE, 1);
    SAYS(MIPS86_NO);
    walk(2, 0, WRITE, 3);
    SAYS(MIPS86_NO);
    store(2, 0x2000);
    SAYS(MIPS86_NO);
    entry(2, 3, 7, USER, 1);
    SAYS(MIPS86_NO);

    /* a page that the group reaches is a table for the rest; the rest may read the group's tables */
    tables[BLOCK + 2 * 256 + PTO] = 2 << 12;
    SAYS(MIPS86_NO);
    walk(2, 1, 0, 4);
    SAYS(MIPS86_NO);
    entry(2, 3, 6, USER, 1);
    SAYS(MIPS86_NO);
    entry(6, 3, 2, USER, 1);
    SAYS(MIPS86_YES);
}

/* ---- translate */

#define MOST MIPS86_MOST_ADDRESSES
#define VA(first, second) ((uint32_t)(first) << 22 | (uint32_t)(second) << 12)

static uint32_t addresses[MOST + 1];
static uint32_t answers[MIPS86_ANSWER_WORDS * (MOST + 1) + 1];
static uint32_t reads;

static uint32_t translate(uint32_t core, size_t naddresses, size_t nanswers) {
    memset(answers, 0xEE, sizeof answers);
    reads = 77;
    return mips86_translate(tables, words, memory, length, core, addresses, naddresses, answers, nanswers, &reads);
}

/* an address and the three words for it */
struct led {
    uint32_t address, answer[MIPS86_ANSWER_WORDS];
};

/* where a core's addresses lead, and how many entries that takes; neither tables nor memory are written */
static void leads(int line, uint32_t core, uint32_t entries, const struct led *list, size_t n) {
    for (size_t i = 0; i < n; i++) addresses[i] = list[i].address;
    remember();
    check_at(line, "translate", translate(core, n, 3 * n), MIPS86_DONE);
    check_at(line, "reads", reads, entries);
    for (size_t i = 0; i < 3 * n; i++) check_at(line, "a word of an answer", answers[i], list[i / 3].answer[i % 3]);
    check_at(line, "the word after the answers", answers[3 * n], 0xEEEEEEEE);
    check_at(line, "SAME()", SAME(), 1);
}
#define LED(...) (const struct led[]){__VA_ARGS__}
#define LEADS(core, entries, ...) \
    leads(__LINE__, core, entries, LED(__VA_ARGS__), sizeof(LED(__VA_ARGS__)) / sizeof(struct led))
#define MAPPED(page, rights) {MIPS86_MAPPED, page, rights}
#define ABSENT(level) {MIPS86_ABSENT, level, 0}
#define BEYOND {MIPS86_BEYOND, 0, 0}

/* Core 1 is not running and in system mode; page 1 is its first-level table, pages 1, 2 and 15 are second-level ones.
 * Core 0 has the tables of page 15. No accessed bit is set. */
static void make_tables(void) {
    make(2, 16);
    tables[BLOCK + PTO] = 15 << 12;
    tables[BLOCK + 256 + PTO] = 1 << 12 | 0xABC;
    entry(1, 0, 2, ALL, 1);
    entry(1, 1, 2, 0, 1); /* the rights of a first-level entry say nothing */
    entry(1, 2, 2, ALL, 0); /* absent */
    entry(1, 3, 16, ALL, 1);
    entry(1, 4, 0xFFFFF, ALL, 1);
    entry(1, 5, 0xFFFFE, ALL, 1);
    entry(1, 6, 1, USER, 1);
    entry(1, 1023, 15, ALL, 1);
    entry(2, 0, 4, USER, 1);
    entry(2, 1, 5, WRITE, 1);
    entry(2, 2, 6, ALL, 0); /* absent */
    entry(2, 3, 16, EXECUTE, 1);
    entry(2, 4, 0xFFFFF, ALL, 1);
    entry(2, 1023, 0, 0, 1);
    entry(15, 1023, 7, ALL, 1);
}

/* what make_tables has for core 1: every kind of answer, and all entries that it has */
static void leads_all(int line, uint32_t core) {
    static const struct led all[] = {
        {VA(0, 0), MAPPED(4, USER)},
        {VA(0, 1), MAPPED(5, WRITE)},
        {VA(0, 2), ABSENT(1)},
        {VA(0, 3), MAPPED(16, EXECUTE)},
        {VA(0, 4), MAPPED(0xFFFFF, ALL)},
        {VA(0, 1023), MAPPED(0, 0)},
        {VA(1, 1), MAPPED(5, WRITE)},
        {VA(2, 0), ABSENT(2)},
        {VA(3, 0), BEYOND},
        {VA(4, 0), BEYOND},
        {VA(5, 1), BEYOND},
        {VA(6, 0), MAPPED(2, ALL)},
        {VA(1023, 1023), MAPPED(7, ALL)},
    };
    /* in page 1 entries 0 to 6 and 1023, of which 0 is met at both levels; six in page 2, one in page 15 */
    leads(line, core, 8 + 6 + 1, all, sizeof all / sizeof *all);
}

static void test_translate(void) {
    make_tables();
    leads_all(__LINE__, 1);
    LEADS(1, 2, {VA(0, 0), MAPPED(4, USER)});
    LEADS(1, 2, {VA(1023, 1023), MAPPED(7, ALL)}); /* the last word of memory */

    /* entries that addresses share: the first-level one, the second-level one, both */
    LEADS(1, 3, {VA(0, 0), MAPPED(4, USER)}, {VA(0, 1), MAPPED(5, WRITE)});
    LEADS(1, 3, {VA(0, 1), MAPPED(5, WRITE)}, {VA(1, 1), MAPPED(5, WRITE)});
    LEADS(1, 4, {VA(0, 0), MAPPED(4, USER)}, {VA(1, 1), MAPPED(5, WRITE)});
    LEADS(1, 2, {VA(0, 1), MAPPED(5, WRITE)}, {VA(0, 1), MAPPED(5, WRITE)}, {VA(0, 1), MAPPED(5, WRITE)});

    /* page 1 as the second-level table: an entry is met at both levels, by one address or by two, in either order */
    LEADS(1, 1, {VA(6, 6), MAPPED(1, USER)});
    LEADS(1, 2, {VA(6, 0), MAPPED(2, ALL)});
    LEADS(1, 3, {VA(6, 0), MAPPED(2, ALL)}, {VA(0, 0), MAPPED(4, USER)});
    LEADS(1, 3, {VA(0, 0), MAPPED(4, USER)}, {VA(6, 0), MAPPED(2, ALL)});
    LEADS(1, 2, {VA(6, 2), ABSENT(1)}, {VA(2, 6), ABSENT(2)});
    LEADS(1, 2, {VA(6, 3), MAPPED(16, ALL)}, {VA(3, 6), BEYOND});

    /* an absent entry is read too, whatever page it names */
    LEADS(1, 1, {VA(2, 0), ABSENT(2)});
    LEADS(1, 1, {VA(2, 0), ABSENT(2)}, {VA(2, 1), ABSENT(2)});
    LEADS(1, 2, {VA(7, 0), ABSENT(2)}, {VA(8, 0), ABSENT(2)});
    LEADS(1, 2, {VA(0, 2), ABSENT(1)});
    LEADS(1, 3, {VA(0, 2), ABSENT(1)}, {VA(0, 77), ABSENT(1)});

    /* a second-level table beyond memory or at ports: its entries are not read; a page may lie there */
    LEADS(1, 1, {VA(3, 0), BEYOND}, {VA(3, 1023), BEYOND});
    LEADS(1, 1, {VA(4, 0), BEYOND}, {VA(4, 31), BEYOND}, {VA(4, 32), BEYOND});
    LEADS(1, 1, {VA(5, 0), BEYOND}, {VA(5, 1), BEYOND}, {VA(5, 2), BEYOND});
    LEADS(1, 3, {VA(0, 3), MAPPED(16, EXECUTE)}, {VA(0, 4), MAPPED(0xFFFFF, ALL)});

    /* a first-level table there, or in the last page of memory */
    LEADS(0, 1, {VA(0, 0), ABSENT(2)});
    LEADS(0, 2, {VA(1023, 3), ABSENT(1)});
    static const uint32_t past[5] = {16, 17, 4096, 0xFFFFE, 0xFFFFF};
    for (int k = 0; k < 5; k++) {
        tables[BLOCK + PTO] = past[k] << 12;
        LEADS(0, 0, {VA(0, 0), BEYOND}, {VA(1023, 1023), BEYOND}, {VA(0, 0), BEYOND});
    }
    tables[BLOCK + PTO] = 15 << 12;
    entry(15, 5, 15, WRITE, 1);
    LEADS(0, 2, {VA(5, 5), MAPPED(15, WRITE)}, {VA(5, 1023), MAPPED(7, ALL)});

    /* the low 12 bits of an address */
    LEADS(1, 2, {VA(0, 0) | 0xFFF, MAPPED(4, USER)}, {VA(0, 0), MAPPED(4, USER)}, {VA(0, 0) | 4, MAPPED(4, USER)});
    LEADS(1, 2, {VA(1023, 1023) | 0xFFF, MAPPED(7, ALL)});
    LEADS(1, 3, {VA(0, 0) | 0xFFF, MAPPED(4, USER)}, {VA(0, 1), MAPPED(5, WRITE)});
}

/* neither a held walk nor pending stores nor accessed bits nor the core's state change an answer */
static void test_translate_alone(void) {
    make_tables();
    walk(1, 0, ALL, 12); /* a complete walk of virtual page 0x77, whose entry is absent */
    store(1, 0x21DC);
    LEADS(1, 2, {VA(0, 0x77), ABSENT(1)});
    leads_all(__LINE__, 1);
    for (uint32_t state = 0; state < 4; state++) {
        tables[BLOCK + 256 + RUNNING] = state & 1;
        tables[BLOCK + 256 + MODE] = state >> 1;
        leads_all(__LINE__, 1);
    }
    tables[BLOCK + 256 + ASID] = 0xFFFFFFFF;
    leads_all(__LINE__, 1);
    tables[BLOCK + PTO] = 1 << 12; /* two cores with one table */
    leads_all(__LINE__, 0);
    for (size_t at = 0; at < length; at += 4) memory[at] = 0x80;
    leads_all(__LINE__, 1);
    for (size_t at = 0; at < length; at += 4) memory[at] = 0xFF;
    leads_all(__LINE__, 1);
}

/* 0 and 64 addresses: of one region, of as many regions as addresses, and repeated */
static void test_translate_most(void) {
    static struct led list[MOST];
    make(1, 16);
    tables[BLOCK + PTO] = 8 << 12;
    remember();
    CHECK(translate(0, 0, 0), MIPS86_DONE);
    CHECK(reads, 0);
    CHECK(answers[0], 0xEEEEEEEE);
    CHECK(SAME(), 1);
    for (uint32_t i = 0; i < MOST; i++) {
        entry(8, i, 9 + i % 4, 0, 1);
        for (uint32_t table = 9; table < 13; table++) entry(table, i, 100 * table + i, i % 8, 1);
    }
    for (uint32_t i = 0; i < MOST; i++) list[i] = (struct led){VA(0, i), MAPPED(900 + i, i % 8)};
    leads(__LINE__, 0, 1 + 64, list, MOST);
    leads(__LINE__, 0, 1 + 63, list, MOST - 1);
    for (uint32_t i = 0; i < MOST; i++) list[i] = (struct led){VA(i, i), MAPPED(100 * (9 + i % 4) + i, i % 8)};
    leads(__LINE__, 0, 64 + 64, list, MOST);
    for (uint32_t i = 0; i < MOST; i++) list[i] = (struct led){VA(i, 5), MAPPED(100 * (9 + i % 4) + 5, 5)};
    leads(__LINE__, 0, 64 + 4, list, MOST);
    for (uint32_t i = 0; i < MOST; i++) list[i] = (struct led){VA(3, 6) | i, MAPPED(1206, 6)};
    leads(__LINE__, 0, 2, list, MOST);
    for (uint32_t i = 0; i < MOST; i++) list[i] = (struct led){VA(64 + i, i), ABSENT(2)};
    leads(__LINE__, 0, 64, list, MOST);
}

/* a refusal leaves the answers and says that nothing was read */
static void translate_refuses(int line, uint32_t core, size_t naddresses, size_t nanswers, uint32_t number) {
    remember();
    check_at(line, "translate", translate(core, naddresses, nanswers), MIPS86_REFUSED + number);
    check_at(line, "reads", reads, 0);
    for (size_t i = 0; i < sizeof answers / sizeof *answers; i++) {
        check_at(line, "a word of no answer", answers[i], 0xEEEEEEEE);
    }
    check_at(line, "SAME()", SAME(), 1);
}
#define TRANSLATE_REFUSES(core, naddresses, nanswers, number) \
    translate_refuses(__LINE__, core, naddresses, nanswers, number)

static void test_translate_refusals(void) {
    make_tables();
    memset(addresses, 0, sizeof addresses);
    TRANSLATE_REFUSES(1, 1, 2, 16);
    TRANSLATE_REFUSES(1, 1, 4, 16);
    TRANSLATE_REFUSES(1, 1, 0, 16);
    TRANSLATE_REFUSES(1, 0, 1, 16);
    TRANSLATE_REFUSES(1, 0, 3, 16);
    TRANSLATE_REFUSES(1, 64, 191, 16);
    TRANSLATE_REFUSES(1, 64, 195, 16);
    TRANSLATE_REFUSES(1, 64, 64, 16);
    TRANSLATE_REFUSES(1, 65, 195, 15);
    TRANSLATE_REFUSES(1, 65, 192, 15);
    TRANSLATE_REFUSES(1, 65, 0, 15);
    TRANSLATE_REFUSES(2, 1, 3, 14);
    TRANSLATE_REFUSES(2, 0, 0, 14);
    TRANSLATE_REFUSES(2, 1, 2, 14);
    TRANSLATE_REFUSES(3, 65, 195, 14);
    TRANSLATE_REFUSES(4, 65, 192, 14);
    TRANSLATE_REFUSES(0xFFFFFFFF, 1, 3, 14);
    tables[BLOCK + RUNNING] = 2; /* of the core that is not asked for */
    TRANSLATE_REFUSES(1, 1, 3, 4);
    TRANSLATE_REFUSES(1, 0, 0, 4);
    TRANSLATE_REFUSES(1, 1, 2, 4);
    TRANSLATE_REFUSES(1, 65, 195, 4);
    TRANSLATE_REFUSES(2, 1, 3, 4);
    TRANSLATE_REFUSES(2, 65, 192, 4);
    tables[BLOCK + RUNNING] = 1;
    LEADS(1, 2, {VA(0, 0), MAPPED(4, USER)});
    words--;
    TRANSLATE_REFUSES(1, 1, 3, 4);
    words++;
    length -= MIPS86_PAGE_BYTES;
    TRANSLATE_REFUSES(1, 1, 3, 4);
    length--;
    TRANSLATE_REFUSES(1, 1, 3, 4);
    words = length = 0;
    TRANSLATE_REFUSES(0, 0, 0, 4);
}

/* ---- disassemble */

/* a debugger's buffer for a text, and what lies behind it; the last byte ends any string */
static uint8_t text[MIPS86_TEXT_BYTES + 8];

static void spoil_text(void) {
    memset(text, 0xEE, sizeof text - 1);
}

/* a line of a debugger's pane, with the text as a string; the buffer keeps what the call before left in it */
static void shows(int line, uint32_t word, const char *expected_line) {
    char pane[64];
    uint32_t n = mips86_disassemble(word, text, MIPS86_TEXT_BYTES);
    snprintf(pane, sizeof pane, "%08lx %s", (unsigned long)word, (const char *)text);
    check_at(line, "strcmp(pane, expected_line)", strcmp(pane, expected_line) != 0, 0);
    check_at(line, "the length", n, strlen(expected_line) - 9);
    check_at(line, "strlen(text)", strlen((const char *)text), n);
    for (size_t i = n; i < MIPS86_TEXT_BYTES; i++) check_at(line, "a byte behind the text", text[i], 0);
    for (size_t i = MIPS86_TEXT_BYTES; i < sizeof text - 1; i++) check_at(line, "a byte beyond", text[i], 0xEE);
}
#define SHOWS(word, line) shows(__LINE__, word, line)

/* words one after the other into one buffer, a long text before a short one */
static void test_disassemble(void) {
    spoil_text();
    SHOWS(0x27FF8000, "27ff8000 addiu r31 r31 -32768"); /* as long as any */
    SHOWS(0xFFFFFFFF, "ffffffff ill");
    SHOWS(0x2FFF8000, "2fff8000 sltiu r31 r31 -32768");
    SHOWS(0x08000000, "08000000 j 0");
    SHOWS(0x0FFFFFFF, "0fffffff jal 67108863");
    SHOWS(0x0000000C, "0000000c sysc");
    SHOWS(0x8C22FFFC, "8c22fffc lw r2 r1 -4");
    SHOWS(0xAFE07FFF, "afe07fff sw r0 r31 32767");
    SHOWS(0x00000000, "00000000 sll r0 r0 0");
    SHOWS(0x001FFFC3, "001fffc3 sra r31 r31 31");
    SHOWS(0x00221804, "00221804 sllv r3 r2 r1");
    SHOWS(0x00221820, "00221820 add r3 r1 r2");
    SHOWS(0x00221818, "00221818 mult r1 r2"); /* rd is not named */
    SHOWS(0x03E0F809, "03e0f809 jalr r31 r31");
    SHOWS(0x002217FF, "002217ff cas r2 r1 r2");
    SHOWS(0x002217FE, "002217fe mfence");
    SHOWS(0x0022187C, "0022187c invlpg r3 r1");
    SHOWS(0x70221802, "70221802 mul r3 r1 r2");
    SHOWS(0x3022FFFF, "3022ffff andi r2 r1 65535");
    SHOWS(0x3422FFFF, "3422ffff ori r2 r1 65535");
    SHOWS(0x3822FFFF, "3822ffff xori r2 r1 65535");
    SHOWS(0x3C1FFFFF, "3c1fffff lui r31 65535");
    SHOWS(0x2022FFFF, "2022ffff addi r2 r1 -1");
    SHOWS(0x1022FFFF, "1022ffff beq r1 r2 -1");
    SHOWS(0x04218000, "04218000 bgez r1 -32768");
    SHOWS(0x04228000, "04228000 ill");
    SHOWS(0x40822800, "40822800 movg2s r5 r2");
    SHOWS(0x40022800, "40022800 movs2g r5 r2");
    SHOWS(0x42000018, "42000018 eret");
    SHOWS(0x42000019, "42000019 ill");
}

/* another length is refused, and the text before it stays */
static void test_disassemble_refusals(void) {
    static const size_t lengths[] = {0, 1, 3, 20, 21, 31, 33, 40, 64};
    uint8_t other[64];
    memset(other, 0xEE, sizeof other);
    for (size_t k = 0; k < sizeof lengths / sizeof *lengths; k++) {
        CHECK(mips86_disassemble(0x8C22FFFC, other, lengths[k]), 117);
        CHECK(mips86_disassemble(0xFFFFFFFF, other, lengths[k]), MIPS86_REFUSED + 17);
        for (size_t i = 0; i < sizeof other; i++) CHECK(other[i], 0xEE);
    }
    spoil_text();
    SHOWS(0x8C22FFFC, "8c22fffc lw r2 r1 -4");
    CHECK(mips86_disassemble(0, text, MIPS86_TEXT_BYTES - 1), 117);
    CHECK(mips86_disassemble(0, text, MIPS86_TEXT_BYTES + 1), 117);
    CHECK(mips86_disassemble(0, text, 0), 117);
    CHECK(strcmp((const char *)text, "lw r2 r1 -4") == 0, 1);
    SHOWS(0x0000000C, "0000000c sysc");
}

int main(void) {
    test_make();
    test_example();
    test_lengths();
    test_refusals();
    test_counts_kept();
    test_unsound();
    test_core();
    test_run();
    test_group_refusals();
    test_reach();
    test_apart();
    test_why();
    test_translate();
    test_translate_alone();
    test_translate_most();
    test_translate_refusals();
    test_disassemble();
    test_disassemble_refusals();
    printf("C test: %u checks, %u failed\n", checks, failures);
    return failures != 0;
}
