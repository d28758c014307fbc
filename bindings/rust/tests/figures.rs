//! The figures at the edges: those that 01 does not star and its example of the run program, the edges of step and of
//! run, and those of 02 on whose refusals (request 5), on overflow (request 2) and on translate (request 1). The
//! machines, the steps and questions and the numbers that must come out stand here, written by hand from the papers,
//! and all are run.
//!
//! Refusal 10 has no figure, since it cannot occur on sound tables: each core has 31 records, at most 8 of them stores
//! and 23 walks, so one is free wherever 8 and 9 do not apply.

mod machine;

use machine::{Machine, BLOCK, CORE_REFUSALS, ECA, INITRR, LINES, MODE, PC, PTO, REFUSALS, REST, SR};
use mips86::Answer::{Done, Interrupt, Refused};
use mips86::{translate_into, Ran, Stop};

/// A machine of one core and one page, as it is made.
fn fresh() -> Machine {
    Machine::new(1, 1)
}

/// The same with a word that is not zero where sound tables have zero.
fn unsound() -> Machine {
    let mut machine = fresh();
    machine.tables[REST] = 1;
    machine
}

// ---- single steps; the second word is the core or the line

fn core_step(fetch_walk: u32) -> [u32; 6] {
    [0, 0, fetch_walk, 0, 0, 0]
}

fn tlb_create(page: u32) -> [u32; 6] {
    [1, 0, page, 0, 0, 0]
}

const STORE_BUFFER: [u32; 6] = [4, 0, 0, 0, 0, 0];
const RAISE_LINE_3: [u32; 6] = [11, 3, 1, 0, 0, 0];
const NO_KIND: [u32; 6] = [15, 0, 0, 0, 0, 0];

/// 01: with eight stores pending a ninth is refused 8, and accepted after one store buffer step. The core runs through
/// a page full of stores; in system mode the words of its fetch walk may be any.
#[test]
fn eight_stores() {
    let mut machine = fresh();
    for address in (0..4096).step_by(4) {
        machine.put(address, 0xAC00_0100); // sw r0 r0 256
    }
    for store in 0..8 {
        assert_eq!(machine.step(&core_step(store)), Done, "store {store}");
    }
    assert_eq!(machine.step(&core_step(8)), Refused(8));
    assert_eq!(machine.step(&STORE_BUFFER), Done);
    assert_eq!(machine.step(&core_step(0)), Done);
    assert_eq!(counts(&machine), [0, 1]);
}

/// 01: with 23 walks held a new one is refused 9, and one already held is not. Walks are made in user mode.
#[test]
fn twenty_three_walks() {
    let mut machine = fresh();
    machine.tables[BLOCK + MODE] = 1;
    for page in 0..23 {
        assert_eq!(machine.step(&tlb_create(page)), Done, "walk {page}");
    }
    assert_eq!(machine.step(&tlb_create(23)), Refused(9));
    assert_eq!(machine.step(&tlb_create(5)), Done);
    assert_eq!(machine.step(&tlb_create(23)), Refused(9));
    assert_eq!(counts(&machine), [0, 2]);
}

/// 01, the run program's example: a line rises, no store is pending, there is no kind 15. Both refusals are counted,
/// the first by the core whose buffer is empty, the second in the header.
#[test]
fn example_of_the_run_program() {
    let mut machine = fresh();
    assert_eq!(machine.step(&RAISE_LINE_3), Done);
    assert_eq!(machine.step(&STORE_BUFFER), Refused(6));
    assert_eq!(machine.step(&NO_KIND), Refused(5));
    assert_eq!(counts(&machine), [1, 1]);
}

/// 01: a step is six words, no fewer and no more; what is not a step is counted too.
#[test]
fn five_words_and_seven() {
    let mut machine = fresh();
    assert_eq!(machine.step(&STORE_BUFFER[..5]), Refused(5));
    assert_eq!(machine.step(&[11, 3, 1, 0, 0, 0, 0]), Refused(5));
    assert_eq!(counts(&machine), [2, 0]);
}

// ---- whose refusals

/// The count in the header, then those of the cores.
fn counts(machine: &Machine) -> Vec<u32> {
    let own = (0..machine.cores()).map(|core| machine.block(core)[CORE_REFUSALS]);
    std::iter::once(machine.tables[REFUSALS]).chain(own).collect()
}

/// 02, request 5: a refused step of kinds 0 to 8 counts by its core, whatever the refusal; the rest in the header.
/// There are two cores and one page; core 0 runs in system mode, and nothing is pending.
#[test]
fn whose_refusals() {
    #[rustfmt::skip]
    let rows: [(&[u32], u32, [u32; 3]); 35] = [
        // step, refusal, header, core 0, core 1
        (&[0, 1, 0, 0, 0, 0],           6, [0, 0, 1]),
        (&[1, 0, 0, 0, 0, 0],           6, [0, 1, 0]),
        (&[1, 1, 0, 0, 0, 0],           6, [0, 0, 1]),
        (&[2, 0, 0, 0, 0, 0],           6, [0, 1, 0]),
        (&[3, 1, 0, 0, 0, 0],           6, [0, 0, 1]),
        (&[4, 1, 0, 0, 0, 0],           6, [0, 0, 1]),
        (&[5, 1, 0, 0, 0, 0],           6, [0, 0, 1]),
        (&[6, 0, 0, 0, 0, 0],           6, [0, 1, 0]),
        (&[7, 1, 0, 0, 0, 0],           6, [0, 0, 1]),
        (&[8, 1, 0, 0, 0, 0],           6, [0, 0, 1]),
        // the pc of core 0 is beyond memory
        (&[0, 0, 0, 0, 0, 0],           7, [0, 1, 0]),
        // not a step: va, rights, stray words
        (&[1, 1, 0x10_0000, 0, 0, 0],   5, [0, 0, 1]),
        (&[1, 0, 0, 1, 0, 0],           5, [0, 1, 0]),
        (&[2, 1, 0, 0, 8, 0],           5, [0, 0, 1]),
        (&[2, 1, 0, 0, 0, 1],           5, [0, 0, 1]),
        (&[3, 0, 0, 0, 0, 1],           5, [0, 1, 0]),
        (&[4, 1, 0, 0, 0, 1],           5, [0, 0, 1]),
        (&[7, 0, 1, 0, 0, 0],           5, [0, 1, 0]),
        (&[8, 1, u32::MAX, 0, 0, 0],    5, [0, 0, 1]),
        // a core that is not there
        (&[0, 2, 0, 0, 0, 0],           5, [1, 0, 0]),
        (&[4, u32::MAX, 0, 0, 0, 0],    5, [1, 0, 0]),
        (&[8, 4, 0, 0, 0, 0],           5, [1, 0, 0]),
        // kinds 9 and above, also with the number of a core for the line
        (&[9, 0, 0, 0, 0, 1],           5, [1, 0, 0]),
        (&[9, 1, 0, 0, 0, 0],           6, [1, 0, 0]),
        (&[10, 0, 0, 0, 0, 0],          6, [1, 0, 0]),
        (&[11, 1, 2, 0, 0, 0],          5, [1, 0, 0]),
        (&[11, 24, 1, 0, 0, 0],         5, [1, 0, 0]),
        (&[12, 0, 0, 0, 0, 0],          5, [1, 0, 0]),
        (&[256, 1, 0, 0, 0, 0],         5, [1, 0, 0]),
        (&[u32::MAX, 1, 0, 0, 0, 0],    5, [1, 0, 0]),
        // more or fewer than six words
        (&[],                           5, [1, 0, 0]),
        (&[4],                          5, [1, 0, 0]),
        (&[4, 1],                       5, [1, 0, 0]),
        (&[4, 1, 0, 0, 0],              5, [1, 0, 0]),
        (&[4, 1, 0, 0, 0, 0, 0],        5, [1, 0, 0]),
    ];
    for (step, refusal, expected) in rows {
        let mut machine = Machine::new(2, 1);
        machine.block_mut(0)[PC] = 0x1000;
        let before = machine.clone();
        assert_eq!((machine.step(step), counts(&machine)), (Refused(refusal), expected.to_vec()), "{step:?}");
        machine.tables[REFUSALS] = 0;
        (0..2).for_each(|core| machine.block_mut(core)[CORE_REFUSALS] = 0);
        assert_eq!(machine, before, "{step:?}");
    }
}

/// 01 and 02, request 5: each count stays at 4,294,967,295 once there, by itself.
#[test]
fn the_largest_counts() {
    let mut machine = fresh();
    machine.tables[REFUSALS] = 4_294_967_294;
    machine.tables[BLOCK + CORE_REFUSALS] = 4_294_967_293;
    for expected in [[4_294_967_295, 4_294_967_294], [4_294_967_295, 4_294_967_295], [4_294_967_295, 4_294_967_295]] {
        assert_eq!((machine.step(&NO_KIND), machine.step(&STORE_BUFFER)), (Refused(5), Refused(6)));
        assert_eq!(counts(&machine), expected);
    }
}

/// 02, request 5: a core's reset and its start keep its count, and sound tables let it be any number, but not the words
/// after it. INIT is asked of core 1, then a start.
#[test]
fn reset_keeps_the_count() {
    let mut machine = Machine::new(2, 1);
    machine.tables[REFUSALS] = 5;
    machine.block_mut(0)[CORE_REFUSALS] = 6;
    machine.block_mut(1)[CORE_REFUSALS] = 4_294_967_295;
    machine.block_mut(1)[INITRR] = 1;
    assert_eq!(machine.step(&[7, 1, 0, 0, 0, 0]), Done);
    machine.block_mut(1)[INITRR - 2] = 1; // sipirr
    assert_eq!(machine.step(&[8, 1, 0, 0, 0, 0]), Done);
    assert_eq!(counts(&machine), [5, 6, 4_294_967_295]);
    for word in CORE_REFUSALS + 1..128 {
        let mut machine = machine.clone();
        machine.block_mut(1)[word] = 1;
        let before = machine.clone();
        assert_eq!(machine.step(&[4, 1, 0, 0, 0, 0]), Refused(4), "word {word}");
        assert_eq!(machine, before, "word {word}");
    }
}

/// 01: on tables that are not sound every step is refused 4, whatever else is wrong with it, and not counted.
#[test]
fn steps_on_unsound_tables() {
    let mut machine = unsound();
    assert_eq!(machine.step(&RAISE_LINE_3), Refused(4));
    assert_eq!(machine.step(&NO_KIND), Refused(4));
    assert_eq!(machine.step(&STORE_BUFFER), Refused(4));
    assert_eq!(counts(&machine), [0, 0]);
}

// ---- overflow: registers 1 and 2, or register 1 and an immediate, give register 3

const ADD: u32 = 0x0022_1820;
const ADDU: u32 = 0x0022_1821;
const SUB: u32 = 0x0022_1822;
const SUBU: u32 = 0x0022_1823;
// with the immediates 1 and FFFF, which is -1
const ADDI_1: u32 = 0x2023_0001;
const ADDI_FFFF: u32 = 0x2023_FFFF;
const ADDIU_1: u32 = 0x2423_0001;
const ADDIU_FFFF: u32 = 0x2423_FFFF;

/// 02, request 2: add, addi and sub overflow where the signed result is not a number of 32 bits; addu, addiu and subu
/// never do. Overflow interrupts at level 7, which is bit 7 of the causes, and the result is there all the same.
/// Without bit 7 of sr it does not interrupt.
#[test]
fn overflow() {
    #[rustfmt::skip]
    let rows = [
        // register 1, register 2, sr, instruction, answer, register 3, causes
        (0x7FFF_FFFF, 0x0000_0001, 0x80, ADD,        Interrupt(7), 0x8000_0000, 0x80),
        (0x7FFF_FFFF, 0x0000_0001, 0x80, ADDU,       Done,         0x8000_0000, 0x00),
        (0x7FFF_FFFF, 0x0000_0001, 0x00, ADD,        Done,         0x8000_0000, 0x00),
        (0x7FFF_FFFF, 0x0000_0001, 0x00, ADDU,       Done,         0x8000_0000, 0x00),
        (0x8000_0000, 0xFFFF_FFFF, 0x80, ADD,        Interrupt(7), 0x7FFF_FFFF, 0x80),
        (0x8000_0000, 0xFFFF_FFFF, 0x80, ADDU,       Done,         0x7FFF_FFFF, 0x00),
        (0xFFFF_FFFF, 0x0000_0001, 0x80, ADD,        Done,         0x0000_0000, 0x00),
        (0xFFFF_FFFF, 0x0000_0001, 0x80, ADDU,       Done,         0x0000_0000, 0x00),
        (0x7FFF_FFFF, 0x0000_0000, 0x80, ADDI_1,     Interrupt(7), 0x8000_0000, 0x80),
        (0x7FFF_FFFF, 0x0000_0000, 0x80, ADDIU_1,    Done,         0x8000_0000, 0x00),
        (0x8000_0000, 0x0000_0000, 0x80, ADDI_FFFF,  Interrupt(7), 0x7FFF_FFFF, 0x80),
        (0x8000_0000, 0x0000_0000, 0x80, ADDIU_FFFF, Done,         0x7FFF_FFFF, 0x00),
        (0x7FFF_FFFF, 0x0000_0000, 0x80, ADDI_FFFF,  Done,         0x7FFF_FFFE, 0x00),
        (0x7FFF_FFFF, 0x0000_0000, 0x80, ADDIU_FFFF, Done,         0x7FFF_FFFE, 0x00),
        (0x8000_0000, 0x0000_0001, 0x80, SUB,        Interrupt(7), 0x7FFF_FFFF, 0x80),
        (0x8000_0000, 0x0000_0001, 0x80, SUBU,       Done,         0x7FFF_FFFF, 0x00),
        (0x0000_0000, 0x8000_0000, 0x80, SUB,        Interrupt(7), 0x8000_0000, 0x80),
        (0x0000_0000, 0x8000_0000, 0x80, SUBU,       Done,         0x8000_0000, 0x00),
        (0x0000_0000, 0x0000_0001, 0x80, SUB,        Done,         0xFFFF_FFFF, 0x00),
        (0x0000_0000, 0x0000_0001, 0x80, SUBU,       Done,         0xFFFF_FFFF, 0x00),
    ];
    for (left, right, sr, instruction, answer, result, causes) in rows {
        let mut machine = fresh();
        machine.put(0, instruction);
        machine.tables[BLOCK + 1] = left;
        machine.tables[BLOCK + 2] = right;
        machine.tables[BLOCK + SR] = sr;
        let found = (machine.step(&core_step(0)), machine.tables[BLOCK + 3], machine.tables[BLOCK + ECA]);
        assert_eq!(found, (answer, result, causes), "{instruction:08x} of {left:08x} and {right:08x}, sr {sr:x}");
    }
}

// ---- runs

/// 01: the end of the schedule is looked at before the limit. A schedule has 0 to 1,024 whole steps, and its length is
/// judged before the limit too.
#[test]
fn runs() {
    #[rustfmt::skip]
    let rows = [
        // words, limit, accepted, stop
        (0,    0,             0,    Stop::End),
        (6,    0,             0,    Stop::Limit),
        (12,   1,             1,    Stop::Limit),
        (12,   2,             2,    Stop::End),
        (12,   3,             2,    Stop::End),
        (6144, 4_294_967_295, 1024, Stop::End),
        (6150, 0,             0,    Stop::Refused(11)),
        (7,    0,             0,    Stop::Refused(11)),
        (5,    1,             0,    Stop::Refused(11)),
    ];
    let schedule = RAISE_LINE_3.repeat(1025);
    for (words, limit, accepted, stop) in rows {
        let ran = fresh().run(&schedule[..words], limit);
        assert_eq!(ran, Ran { accepted, stop }, "{words} words, limit {limit}");
    }
}

/// 01: a run stops at a refused step, which is counted, and the steps before it stay: line 3 is raised, line 4 is not.
#[test]
fn a_run_up_to_a_refused_step() {
    let mut machine = fresh();
    let schedule = [RAISE_LINE_3, STORE_BUFFER, [11, 4, 1, 0, 0, 0]].concat();
    assert_eq!(machine.run(&schedule, 3), Ran { accepted: 1, stop: Stop::Refused(6) });
    assert_eq!((machine.tables[LINES], counts(&machine)), (0b1000, vec![0, 1]));
}

/// 02, request 5: the refused step of a run is counted where its single step is; 11 is not counted.
#[test]
fn the_counts_of_a_run() {
    let mut machine = Machine::new(2, 1);
    let refused = |accepted, number| Ran { accepted, stop: Stop::Refused(number) };
    assert_eq!(machine.run(&[RAISE_LINE_3, [4, 1, 0, 0, 0, 1]].concat(), 9), refused(1, 5));
    assert_eq!(counts(&machine), [0, 0, 1]);
    assert_eq!(machine.run(&[RAISE_LINE_3, [4, 2, 0, 0, 0, 0]].concat(), 9), refused(1, 5));
    assert_eq!(counts(&machine), [1, 0, 1]);
    assert_eq!(machine.run(&[4, 1, 0, 0, 0], 9), refused(0, 11));
    assert_eq!(counts(&machine), [1, 0, 1]);
}

/// 01: on tables that are not sound 4 comes before 11, which the seven words would give, and nothing is written.
#[test]
fn a_run_on_unsound_tables() {
    let mut machine = unsound();
    assert_eq!(machine.run(&[11, 3, 1, 0, 0, 0, 0], 3), Ran { accepted: 0, stop: Stop::Refused(4) });
    assert_eq!((machine.tables[LINES], machine.tables[REFUSALS]), (0, 0));
}

// ---- translate

/// One core, four pages of memory. Page 1 is the first-level table and page 2 a second-level one. No entry has its
/// accessed bit set.
fn mapped() -> Machine {
    let mut machine = Machine::new(1, 4);
    machine.tables[BLOCK + PTO] = 0x1000;
    machine.put(0x1000, 0x0000_2F00); // entry 0: page 2, rights 7
    machine.put(0x1004, 0x0000_1800); // entry 1: page 1 itself, rights 0
    machine.put(0x100C, 0x0000_4800); // entry 3: page 4, which is beyond memory; entry 2 is absent
    machine.put(0x1010, 0xFFFF_F800); // entry 4: the last page of all
    machine.put(0x2000, 0x0000_3B00); // entry 0: page 3, rights 3
    machine.put(0x2004, 0x1234_5A00); // entry 1: page 12345, rights 2; the others are absent
    machine
}

/// Asks where addresses of a core lead, with room for so many answer words, each 9 before: the answer, and the words.
fn translated(machine: &Machine, core: u32, addresses: &[u32], words: usize) -> (Result<u32, u32>, Vec<u32>) {
    let mut answers = vec![9; words];
    let reads = translate_into(&machine.tables, &machine.memory, core, addresses, &mut answers);
    (reads, answers)
}

/// 02, request 1: where addresses lead, and how many different entries are read for them. The low 12 bits do not
/// matter; an entry that two addresses share, or that one meets at both levels, is read once; one beyond memory is not
/// read.
#[test]
fn ways_of_addresses() {
    #[rustfmt::skip]
    let rows: [(&str, &[u32], u32, &[u32]); 11] = [
        // name, addresses, entries read, answers
        ("address 0",                             &[0x0000_0000],              2, &[0, 3, 3]),
        ("its last byte",                         &[0x0000_0FFF],              2, &[0, 3, 3]),
        ("two of one region",                     &[0x0000_0000, 0x0000_1000], 3, &[0, 3, 3, 0, 0x12345, 2]),
        ("one page twice",                        &[0x0000_1FFF, 0x0000_1000], 2, &[0, 0x12345, 2, 0, 0x12345, 2]),
        ("absent at level 1",                     &[0x0000_2000],              2, &[1, 1, 0]),
        ("absent at level 2",                     &[0x0080_0000],              1, &[1, 2, 0]),
        ("one entry at both levels",              &[0x0040_1000],              1, &[0, 1, 0]),
        ("first by one address, then by another", &[0x0000_0000, 0x0040_0000], 3, &[0, 3, 3, 0, 2, 7]),
        ("table in page 4",                       &[0x00C0_0000],              1, &[2, 0, 0]),
        ("table in the last page",                &[0x0100_0000],              1, &[2, 0, 0]),
        ("an answer after another",               &[0x0000_0000, 0x00C0_0000], 3, &[0, 3, 3, 2, 0, 0]),
    ];
    for (name, addresses, reads, answers) in rows {
        let found = translated(&mapped(), 0, addresses, answers.len());
        assert_eq!(found, (Ok(reads), answers.to_vec()), "{name}");
    }
}

/// 02, request 1: the walk starts at the page in pto. Where that is beyond memory no entry is read; its low bits do not
/// matter.
#[test]
fn origins_of_walks() {
    #[rustfmt::skip]
    let rows = [
        // pto, address, entries read, answer
        (0x0000_4000, 0x0000_0000, 0, [2, 0, 0]),
        (0xFFFF_F000, 0xFFFF_FFFF, 0, [2, 0, 0]),
        (0x0000_1FFF, 0x0000_0000, 2, [0, 3, 3]),
    ];
    for (pto, address, reads, answer) in rows {
        let mut machine = mapped();
        machine.tables[BLOCK + PTO] = pto;
        assert_eq!(translated(&machine, 0, &[address], 3), (Ok(reads), answer.to_vec()), "pto {pto:x}");
    }
}

/// 02, request 1: so many addresses, from 0 on and so far apart, and the first nine words of a room of 9s. 64 addresses
/// are the most; with 65, as with none, no word is written.
#[test]
fn numbers_of_addresses() {
    #[rustfmt::skip]
    let rows = [
        // addresses, apart, entries read or refusal, first words
        (0,  0x0000_0000, Ok(0),   [9, 9, 9, 9, 9, 9, 9, 9, 9]),
        (64, 0x0000_1000, Ok(65),  [0, 3, 3, 0, 0x12345, 2, 1, 1, 0]), // of one region
        (64, 0x0040_0000, Ok(65),  [0, 3, 3, 0, 2, 7, 1, 2, 0]), // of different regions
        (64, 0x0000_0000, Ok(2),   [0, 3, 3, 0, 3, 3, 0, 3, 3]), // 64 times the same
        (65, 0x0000_1000, Err(15), [9, 9, 9, 9, 9, 9, 9, 9, 9]),
    ];
    let machine = mapped();
    for (number, apart, reads, first) in rows {
        let addresses: Vec<u32> = (0..number as u32).map(|place| place * apart).collect();
        let mut room = [9; 195];
        let found = translate_into(&machine.tables, &machine.memory, 0, &addresses, &mut room[..3 * number]);
        assert_eq!((found, &room[..9]), (reads, &first[..]), "{number} addresses, {apart:x} apart");
    }
}

/// 02, request 1: the order of the refusals, the last first, so that each row has the grounds of those before it too.
/// None writes a word.
#[test]
fn refusals_of_translate() {
    let mut machine = mapped();
    assert_eq!(translated(&machine, 0, &[0; 1], 2), (Err(16), vec![9, 9]), "two words for one address");
    assert_eq!(translated(&machine, 0, &[0; 65], 2), (Err(15), vec![9, 9]), "and 65 addresses");
    assert_eq!(translated(&machine, 1, &[0; 65], 2), (Err(14), vec![9, 9]), "and core 1, which is not there");
    machine.tables[REST] = 1;
    assert_eq!(translated(&machine, 1, &[0; 65], 2), (Err(4), vec![9, 9]), "and unsound tables");
}
