/*
 * Says what the library answers about a group of cores.
 *
 *     judged GROUP REST < machine.bin
 *
 * GROUP and REST are numbers whose bit n stands for core n. Standard input is a machine: its table words, low byte first,
 * then its memory; words 0 and 1 say how many cores and pages it has. The lines are
 *    apart N       what mips86_apart answers for GROUP; with a refusal it is the only line
 *    own BYTES     the map of GROUP by mips86_reach, two hexadecimal digits a page
 *    rest BYTES    the map of REST; zeros where REST is 0
 *    why N WORDS   each reason by mips86_why, in their order, with its 18 words in decimal
 * Status 1, with one line on standard error, where the input is no machine or an answer is none of these.
 */
#include "machine.h"

#include <inttypes.h>
#include <stdlib.h>

static int fail(const char *why) {
    fprintf(stderr, "judged: %s\n", why);
    return 1;
}

static int print_map(const char *name, uint32_t group, size_t pages) {
    static uint8_t map[MIPS86_MOST_PAGES];
    uint32_t beyond;
    for (size_t i = 0; i < pages; i++) map[i] = 0;
    if (group != 0 && mips86_reach(tables, ntables, memory, nmemory, group, map, pages, &beyond) != MIPS86_DONE)
        return 0;
    printf("%s ", name);
    for (size_t i = 0; i < pages; i++) printf("%02x", (unsigned)map[i]);
    printf("\n");
    return 1;
}

static int print_reasons(uint32_t group) {
    uint32_t words[MIPS86_WHY_WORDS], n = 0;
    while ((n = mips86_why(tables, ntables, memory, nmemory, group, n, words, MIPS86_WHY_WORDS)) != MIPS86_NO_REASON) {
        if (n >= MIPS86_REFUSED) return 0;
        printf("why %" PRIu32, n);
        for (size_t i = 0; i < MIPS86_WHY_WORDS; i++) printf(" %" PRIu32, words[i]);
        printf("\n");
    }
    return 1;
}

int main(int argc, char **argv) {
    if (argc != 3) return fail("name the group and the rest as numbers");
    uint32_t group = (uint32_t)strtoul(argv[1], NULL, 10), rest = (uint32_t)strtoul(argv[2], NULL, 10);
    uint32_t cores, pages;
    const char *why = read_machine(&cores, &pages);
    if (why != NULL) return fail(why);

    uint32_t answer = mips86_apart(tables, ntables, memory, nmemory, group);
    printf("apart %" PRIu32 "\n", answer);
    if (answer < MIPS86_REFUSED) {
        if (!print_map("own", group, pages) || !print_map("rest", rest, pages)) return fail("reach refuses");
        if (!print_reasons(group)) return fail("why refuses");
    }
    return fflush(stdout) == 0 && !ferror(stdout) ? 0 : fail("standard output cannot be written");
}
