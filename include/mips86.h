/*
 * The MIPS-86 machine with one to four cores: make a machine, take one step, run a schedule; which pages a group of
 * cores reaches, whether the group is kept apart from the others, and why it is not; where virtual addresses of a core
 * lead; the text of an instruction word.
 *
 * The caller lends the machine's tables (32-bit words) and its memory (bytes). All of the machine is in them: nothing
 * is kept between calls, nothing is allocated, and a copy of both is a copy of the machine.
 *
 * Link with libmips86.a (x86-64 Linux). The functions are proved in Rattle; crates/mips86_c has what is proved
 * of each.
 */
#ifndef MIPS86_H
#define MIPS86_H

#include <stddef.h>
#include <stdint.h>

#ifdef __cplusplus
extern "C" {
#endif

/*
 * Sizes. Memory is 1 to 4,096 whole pages. A step is six words. A schedule has at most 1,024 steps.
 */
#define MIPS86_MOST_CORES 4
#define MIPS86_MOST_PAGES 4096
#define MIPS86_PAGE_BYTES 4096
#define MIPS86_TABLE_WORDS(cores) (32 + 256 * (size_t)(cores))
#define MIPS86_STEP_WORDS 6
#define MIPS86_MOST_STEPS 1024

/*
 * The tables, in short. Words 0 to 31 are the header: 0 cores, 1 pages, 2 the count of refusals that no core counts,
 * 3 the interrupt lines (bit n is line n), 4 IOREGSEL, 5 IOWIN, 6 to 29 the redirect entries, 30 and 31 zero.
 * The block of core k starts at word 32 + 256 * k. In it: 0 to 31 the general registers, 32 to 63 the special
 * registers, 64 pc, 65 HI, 66 LO, 67 running (0 or 1), 68 to 70 the first pending store, walk and free record, 71 zero,
 * 72 to 103 the 128 bytes of the local APIC's ports, low byte first, 104 to 111 the EOI pending bits, 112 sipirr,
 * 113 sipivect, 114 initrr, 115 the core's count of refusals, 116 to 127 zero, 128 to 255 the 32 records of four words.
 *
 * A step's words: kind, core or line, and four more.
 *    0 core (fetch walk, data walk: two words each)    6 apic-sendEOI
 *    1 tlb-create (va)                                 7 apic-initCore
 *    2 tlb-extend (walk, rights)                       8 apic-startCore
 *    3 tlb-accessed (walk)                             9 ioapic-sample
 *    4 store buffer                                   10 ioapic-deliver
 *    5 apic-sendIPI                                   11 set line (level 0 or 1)
 * Words that a kind does not name are zero.
 */

/*
 * The words of the tables that count refusals. A refused step of six words whose kind is 0 to 8 and whose core is there
 * counts in that core's word, whatever the refusal, also 5 where its other words are wrong. The header's word counts
 * all other refusals: a core that is not there, kinds 9 and above, calls of more or fewer than six words. Refusal 4
 * counts nowhere, nor does 11 of run. Each count stays at 4,294,967,295 once there. Make puts 0. No accepted step
 * changes a count, INIT and the start of a core neither.
 */
#define MIPS86_REFUSALS ((size_t)2)
#define MIPS86_CORE_REFUSALS(core) (32 + 256 * (size_t)(core) + 115)

/*
 * What is asked of every call. Each pointer is not null, is aligned for its type, and points to as many words or bytes
 * as the length after it says (with the length 0 it is still not null). What a call may write (all that is not const:
 * tables, memory, the map, the text, the words at `accepted`, `beyond`, `words`, `answers` and `reads`) overlaps
 * nothing else that the call is given. Until it returns no other thread writes what a call was lent, or reads what it
 * may write. Calls on different machines may run at the same time. There is no other condition: any words and bytes may
 * be handed over.
 */

/*
 * The numbers that the functions answer. A refusal is MIPS86_REFUSED plus:
 *    1 cores not 1 to 4                            (make)
 *    2 memory not 1 to 4,096 whole pages           (make)
 *    3 table length not that of the cores          (make)
 *    4 tables not sound                            (all but make and disassemble)
 *    5 not a step                                  (step, run)
 *    6 the machine has no next state by this step  (step, run)
 *    7 a byte is in neither memory nor a port      (step, run)
 *    8 a ninth pending store                       (step, run)
 *    9 a twenty-fourth walk                        (step, run)
 *   10 no free record                              (step, run)
 *   11 schedule not of whole steps, or over 1,024  (run)
 *   12 the map's length is not the page count      (reach)
 *      or the length of the words is not 18        (why)
 *   13 group empty, or names a core not there      (reach, apart, why)
 *   14 core not there                              (translate)
 *   15 more than 64 addresses                      (translate)
 *   16 answers not three words an address          (translate)
 *   17 the text's length is not 32                 (disassemble)
 * Where several apply, the first of them is given; of run's, 4 and 11 come before those of a step.
 */
#define MIPS86_DONE 0u      /* made; the step is done; the end of the schedule; the map or the answers are filled */
#define MIPS86_LIMIT 1u     /* run: the limit is spent */
#define MIPS86_INTERRUPT 1u /* step: plus the level 0 to 7, so 1 to 8 */
#define MIPS86_NO 0u        /* apart */
#define MIPS86_YES 1u       /* apart */
#define MIPS86_REFUSED 100u

/*
 * Makes a machine of so many cores as it is after reset: fills the tables and leaves the memory as it is.
 * Answers 0, or a refusal (1, 2, 3), which writes nothing.
 */
uint32_t mips86_make(uint32_t *tables, size_t ntables, const uint8_t *memory, size_t nmemory, uint32_t cores);

/*
 * Takes one step. A step whose length is not six is not a step (5).
 * Answers 0 where it is done, 1 to 8 where a core took an interrupt of level 0 to 7, or a refusal (4 to 10).
 * Refusal 4 writes nothing; 5 to 10 write one count of refusals alone, that of the step's core or the header's.
 */
uint32_t mips86_step(uint32_t *tables, size_t ntables, uint8_t *memory, size_t nmemory, const uint32_t *step,
                     size_t nstep);

/*
 * Takes the steps of a schedule one after the other: to its end, until `limit` steps are accepted, or up to and
 * with the first that is refused. The end is looked at before the limit.
 * Answers 0 at the end, 1 where the limit is spent, or a refusal: 4 and 11 before any step, and then nothing of the
 * machine is written, or 5 to 10 of a step, which is counted as a single step is. Writes to *accepted how many steps
 * were accepted (0 with 4 and 11).
 * The tables are checked once, so a run costs less than its steps by themselves.
 */
uint32_t mips86_run(uint32_t *tables, size_t ntables, uint8_t *memory, size_t nmemory, const uint32_t *schedule,
                    size_t nschedule, uint32_t limit, uint32_t *accepted);

/*
 * A byte of the map is the sum of what the page of that number is for the group; 0 where the group does not reach it.
 * A writable page is a data page too.
 */
#define MIPS86_DATA 1u     /* named by a present entry of a second-level table, a complete walk or a pending store */
#define MIPS86_TABLE 2u    /* named by pto, a present entry of a first-level table or a walk that is not complete */
#define MIPS86_WRITABLE 4u /* a data page by an entry or walk that grants write, or by a pending store */

/*
 * Fills the map, one byte a page, for a group of cores. Bit n of `group` stands for core n. Every core of the group
 * counts, in any mode, whether or not it runs.
 * Answers 0, or a refusal (4, 12, 13), which leaves the map. Writes to *beyond 1 where a page beyond memory is reached,
 * as a port's is, and else 0 (0 with a refusal). With the answer 0 the map is filled, whatever *beyond says. Uses some
 * 25 KB of stack.
 */
uint32_t mips86_reach(const uint32_t *tables, size_t ntables, const uint8_t *memory, size_t nmemory, uint32_t group,
                      uint8_t *map, size_t nmap, uint32_t *beyond);

/*
 * Is the group kept apart from the rest, the other running cores? Yes exactly if every core of both is running in user
 * mode, neither reaches a page beyond memory, no page is both writable and table for one of them, and no page that the
 * group reaches is writable or table for the rest. The rest may read what the group writes.
 * Answers 0 no, 1 yes, or a refusal (4, 13). A refusal is not 0 either, so compare with MIPS86_YES and nothing else.
 * Writes nothing. Uses some 33 KB of stack.
 *
 * What a yes promises. Take any other machine with a yes for that group, in which the group's blocks and the pages that
 * it reaches are the same. On each of the two carry out any list of single steps, of kinds 0 to 4, of cores that run at
 * the start, each up to its first interrupt, the group's steps the same in both and in the same order; nobody else
 * writes the machines meanwhile. Then, whatever the others hold and do, the group gets the same answers, and after each
 * of its steps all words of its blocks, its cores' counts of refusals among them, and all bytes of its pages are the
 * same in both. In each machine a page that is neither writable nor table for either side keeps its bytes, and a table
 * page keeps them but for accessed bits.
 */
uint32_t mips86_apart(const uint32_t *tables, size_t ntables, const uint8_t *memory, size_t nmemory, uint32_t group);

/*
 * Why is the group not apart? The conditions of apart come in their order, as reasons 1 to 6. Asks for the first reason
 * that holds and has a number above `after`: with 0 for the first of all, with an answer for the one after it.
 * Answers 0 where there is none, the reason's number, or a refusal (4, 12, 13). With `after` 0 the answer is 0 exactly
 * where apart answers yes. Reasons 4 to 6 are about pages in memory. Writes the 18 words, which a refusal leaves.
 * Uses some 42 KB of stack.
 *
 * A reason names the lowest page at fault and one way to it: it begins at the core's pto, at a walk or at a pending
 * store, and goes on through up to two present entries. Reason 6 names two: how the rest writes the page or uses it as
 * a table, in words 0 to 8, and how the group reaches it, in words 9 to 17; either may be the fault. It is proved that
 * each way is real, followed entry by entry to the page, and that the way in words 0 to 8 has the right that spoils the
 * verdict. Words that a reason does not have are zero.
 */
#define MIPS86_WHY_WORDS 18

#define MIPS86_NO_REASON 0u
#define MIPS86_NOT_USER 1u     /* a core of the group, or another running core, is not running in user mode */
#define MIPS86_GROUP_BEYOND 2u /* the group reaches a page beyond memory */
#define MIPS86_REST_BEYOND 3u  /* the rest does */
#define MIPS86_GROUP_TABLE 4u  /* the group can write a page that it uses as a table */
#define MIPS86_REST_TABLE 5u   /* the rest can */
#define MIPS86_TOUCHES 6u      /* the rest can write, or uses as a table, a page that the group reaches */

#define MIPS86_WHY_CORE 0    /* the core that is not in user mode, or that the way begins at */
#define MIPS86_WHY_PAGE 1    /* the page at fault */
#define MIPS86_WHY_LEVEL 2   /* what it is at the end of the way: 2 first-level table, 1 second-level table, 0 data */
#define MIPS86_WHY_WRITE 3   /* 1 where the way grants write */
#define MIPS86_WHY_ROOT 4    /* where the way begins: 0 the page in pto, 1 a walk, 2 a pending store */
#define MIPS86_WHY_RECORD 5  /* the record of that walk or store, 1 to 31 */
#define MIPS86_WHY_ENTRIES 6 /* how many entries the way goes through, 0 to 2 */
#define MIPS86_WHY_FIRST 7   /* their addresses; entry i of a table is at i * 4 in its page, so that a way from pto */
#define MIPS86_WHY_SECOND 8  /* through both is that of virtual page (first / 4 % 1024) * 1024 + second / 4 % 1024 */
#define MIPS86_WHY_OWN 9     /* of reason 6: where the words of the group's own way start, in the same order */

uint32_t mips86_why(const uint32_t *tables, size_t ntables, const uint8_t *memory, size_t nmemory, uint32_t group,
                    uint32_t after, uint32_t *words, size_t nwords);

/*
 * Where do up to 64 virtual addresses of a core lead? Each is followed by a walk of its own through the page tables in
 * memory, from the page in the core's pto. The low 12 bits of an address say nothing. Neither the walks that the core
 * holds nor accessed bits are looked at, nor whether it runs, nor its mode. An address gets three words in `answers`:
 *    MIPS86_MAPPED, the page, the rights of the last entry: bit 0 write, bit 1 user, bit 2 execute. The page may lie
 *       anywhere, beyond memory too;
 *    MIPS86_ABSENT, the level of the table whose entry is not present (2 first, 1 second), 0;
 *    MIPS86_BEYOND, 0, 0: an entry is beyond memory, as one at a port is.
 * Answers 0, or a refusal (4, 14, 15, 16), which leaves the answers. Writes to *reads how many different table entries,
 * by address, all of the addresses need, those beyond memory left out (0 with a refusal); each of them is read once.
 * Nothing of the machine is written. Uses some 2 KB of stack.
 */
#define MIPS86_MOST_ADDRESSES 64
#define MIPS86_ANSWER_WORDS 3

#define MIPS86_MAPPED 0u
#define MIPS86_ABSENT 1u
#define MIPS86_BEYOND 2u

uint32_t mips86_translate(const uint32_t *tables, size_t ntables, const uint8_t *memory, size_t nmemory, uint32_t core,
                          const uint32_t *addresses, size_t naddresses, uint32_t *answers, size_t nanswers,
                          uint32_t *reads);

/*
 * The text of one instruction word, as in tables 1 to 4 of the report: the mnemonic in lower case, then the operands in
 * the order of the assembler syntax, one blank before each. Registers are r0 to r31, a special one too (rd of movg2s
 * and movs2g). imm is in signed decimal, but unsigned for andi, ori, xori and lui; sa and iindex are unsigned. imm of a
 * branch and iindex of a jump are the fields themselves, not times four. Fields that the syntax does not name are not
 * shown. An illegal word is `ill`.
 *    00000000 sll r0 r0 0        1022ffff beq r1 r2 -1       0000000c sysc
 *    8c22fffc lw r2 r1 -4        0fffffff jal 67108863       ffffffff ill
 * Answers the length of the text, at most 20, or a refusal (17), which writes nothing. The text is ASCII, and all bytes
 * behind it are zero, so that it is a string of C too. Nothing of a machine is read.
 */
#define MIPS86_TEXT_BYTES 32

uint32_t mips86_disassemble(uint32_t word, uint8_t *text, size_t ntext);

#ifdef __cplusplus
}
#endif

#endif
