/*
 * Lists a page of memory: for each word its address, the word and the text of it as an instruction.
 *
 *     list [PAGE] < page.bin
 *
 * Standard input is the page, 4,096 bytes, words low byte first. PAGE, decimal, says which page it is (0 if not given).
 * Of three or more equal words in a row the first is listed, and a line `*` stands for the others.
 * Status 1, with one line on standard error and no listing, where the argument or the input is wrong; status 1 too where
 * the listing cannot be written.
 */
#include "mips86.h"

#include <inttypes.h>
#include <stdio.h>

#define WORDS (MIPS86_PAGE_BYTES / 4)
#define PAGES 1048576u /* 2^32 bytes have so many */

static int fail(const char *why) {
    fprintf(stderr, "list: %s\n", why);
    return 1;
}

/* a number below PAGES in decimal digits, or PAGES where it is none */
static uint32_t page_number(const char *digits) {
    uint32_t n = 0;
    if (*digits == '\0') return PAGES;
    for (; *digits != '\0'; digits++) {
        if (*digits < '0' || *digits > '9') return PAGES;
        n = 10 * n + (uint32_t)(*digits - '0');
        if (n >= PAGES) return PAGES;
    }
    return n;
}

static void print_word(uint32_t address, uint32_t word) {
    uint8_t text[MIPS86_TEXT_BYTES];
    mips86_disassemble(word, text, sizeof text); /* 32 bytes are not refused, and the text ends with a zero */
    printf("%08" PRIx32 " %08" PRIx32 " %s\n", address, word, (const char *)text);
}

/* how many words from the first on are equal to it */
static size_t run_length(const uint32_t *words, size_t n) {
    size_t k = 1;
    while (k < n && words[k] == words[0]) k++;
    return k;
}

static void print_page(uint32_t address, const uint32_t *words) {
    for (size_t i = 0; i < WORDS;) {
        size_t run = run_length(words + i, WORDS - i);
        size_t printed = run < 3 ? run : 1;
        for (size_t k = 0; k < printed; k++) print_word(address + 4 * (uint32_t)(i + k), words[i]);
        if (printed < run) puts("*");
        i += run;
    }
}

int main(int argc, char **argv) {
    static uint8_t bytes[MIPS86_PAGE_BYTES + 1]; /* one more shows that the input is too long */
    static uint32_t words[WORDS];

    if (argc > 2) return fail("more than one argument; it is called as 'list [PAGE] < page.bin'");
    uint32_t page = argc == 2 ? page_number(argv[1]) : 0;
    if (page == PAGES) return fail("PAGE is not a decimal number below 1048576");

    size_t n = fread(bytes, 1, sizeof bytes, stdin);
    if (ferror(stdin)) return fail("standard input cannot be read");
    if (n < MIPS86_PAGE_BYTES) return fail("standard input is shorter than a page of 4096 bytes");
    if (n > MIPS86_PAGE_BYTES) return fail("standard input is longer than a page of 4096 bytes");

    for (size_t i = 0; i < WORDS; i++) {
        const uint8_t *at = bytes + 4 * i;
        words[i] = (uint32_t)at[0] | (uint32_t)at[1] << 8 | (uint32_t)at[2] << 16 | (uint32_t)at[3] << 24;
    }
    print_page(page * MIPS86_PAGE_BYTES, words);
    if (fflush(stdout) != 0 || ferror(stdout)) return fail("standard output cannot be written");
    return 0;
}
