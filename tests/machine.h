/*
 * A machine from standard input, for the test programs: its table words, low byte first, then its memory; words 0 and 1
 * say how many cores and pages it has.
 */
#include "mips86.h"

#include <stdio.h>

#define MOST_WORDS MIPS86_TABLE_WORDS(MIPS86_MOST_CORES)

static uint8_t bytes[4 * MOST_WORDS + MIPS86_MOST_PAGES * MIPS86_PAGE_BYTES + 1]; /* one more shows what is too long */
static uint32_t tables[MOST_WORDS];
static size_t ntables, nmemory;
static const uint8_t *memory;

static uint32_t word(size_t i) {
    const uint8_t *at = bytes + 4 * i;
    return (uint32_t)at[0] | (uint32_t)at[1] << 8 | (uint32_t)at[2] << 16 | (uint32_t)at[3] << 24;
}

/* NULL, or why the input is no machine */
static const char *read_machine(uint32_t *cores, uint32_t *pages) {
    size_t n = fread(bytes, 1, sizeof bytes, stdin);
    if (ferror(stdin)) return "standard input cannot be read";
    if (n < 8) return "standard input is shorter than words 0 and 1";
    *cores = word(0);
    *pages = word(1);
    if (*cores < 1 || *cores > MIPS86_MOST_CORES) return "word 0 is not 1 to 4 cores";
    if (*pages < 1 || *pages > MIPS86_MOST_PAGES) return "word 1 is not 1 to 4096 pages";
    ntables = MIPS86_TABLE_WORDS(*cores);
    nmemory = (size_t)*pages * MIPS86_PAGE_BYTES;
    memory = bytes + 4 * ntables;
    if (n != 4 * ntables + nmemory) return "standard input is not as long as words 0 and 1 say";
    for (size_t i = 0; i < ntables; i++) tables[i] = word(i);
    return NULL;
}
