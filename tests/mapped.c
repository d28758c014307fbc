/*
 * Says what a machine's page tables are, as the library reads them.
 *
 *     mapped < machine.bin
 *
 * Standard input is a machine: its table words, low byte first, then its memory; words 0 and 1 say how many cores and
 * pages it has. The lines, one for each
 *    CORE VA PAGE RIGHTS   virtual page that leads to a page, by mips86_translate: VA in hexadecimal, RIGHTS a number
 *    CORE VA beyond        virtual page with an entry beyond memory, by mips86_translate
 *    CORE table PAGE       page that the core uses as a table, by mips86_reach
 *    word N                table word that is not as mips86_make gives it for so many cores
 * Status 1, with one line on standard error, where the input is no machine or the output cannot be written.
 */
#include "machine.h"

#include <inttypes.h>

#define VIRTUAL_PAGES 1048576u

static uint32_t made[MOST_WORDS];

static int fail(const char *why) {
    fprintf(stderr, "mapped: %s\n", why);
    return 1;
}

static void print_answer(uint32_t core, uint32_t va, const uint32_t *answer) {
    if (answer[0] == MIPS86_MAPPED)
        printf("%" PRIu32 " %05" PRIx32 " %" PRIu32 " %" PRIu32 "\n", core, va, answer[1], answer[2]);
    else if (answer[0] != MIPS86_ABSENT)
        printf("%" PRIu32 " %05" PRIx32 " beyond\n", core, va);
}

/* every virtual page of a core, 64 to a call; 0, or what the library answered */
static uint32_t print_virtual_pages(uint32_t core) {
    uint32_t addresses[MIPS86_MOST_ADDRESSES], answers[MIPS86_ANSWER_WORDS * MIPS86_MOST_ADDRESSES], reads;
    for (uint32_t va = 0; va < VIRTUAL_PAGES; va += MIPS86_MOST_ADDRESSES) {
        for (uint32_t i = 0; i < MIPS86_MOST_ADDRESSES; i++) addresses[i] = (va + i) * MIPS86_PAGE_BYTES;
        uint32_t answer = mips86_translate(tables, ntables, memory, nmemory, core, addresses, MIPS86_MOST_ADDRESSES,
                                           answers, MIPS86_ANSWER_WORDS * MIPS86_MOST_ADDRESSES, &reads);
        if (answer != MIPS86_DONE) return answer;
        for (uint32_t i = 0; i < MIPS86_MOST_ADDRESSES; i++)
            print_answer(core, va + i, answers + MIPS86_ANSWER_WORDS * i);
    }
    return MIPS86_DONE;
}

static uint32_t print_tables(uint32_t core, size_t pages) {
    static uint8_t map[MIPS86_MOST_PAGES];
    uint32_t beyond;
    uint32_t answer = mips86_reach(tables, ntables, memory, nmemory, 1u << core, map, pages, &beyond);
    for (size_t i = 0; answer == MIPS86_DONE && i < pages; i++)
        if (map[i] & MIPS86_TABLE) printf("%" PRIu32 " table %zu\n", core, i);
    return answer;
}

int main(void) {
    uint32_t cores, pages;
    const char *why = read_machine(&cores, &pages);
    if (why != NULL) return fail(why);
    for (uint32_t core = 0; core < cores; core++)
        if (print_virtual_pages(core) != MIPS86_DONE || print_tables(core, pages) != MIPS86_DONE)
            return fail("the library refuses the machine");
    if (mips86_make(made, ntables, memory, nmemory, cores) != MIPS86_DONE) return fail("no such machine can be made");
    for (size_t i = 0; i < ntables; i++)
        if (tables[i] != made[i]) printf("word %zu\n", i);
    if (fflush(stdout) != 0 || ferror(stdout)) return fail("standard output cannot be written");
    return 0;
}
