//! Calls make, step and run and checks each answer and every word and byte that may be written.

mod machine;

use machine::{Machine, BLOCK, CORES, CORE_REFUSALS, FREE, LINES, PAGES, PC, PORTS, RECORDS, REFUSALS, RUNNING, SPR};
use mips86::{core_refusals, make, run, step, table_words, Answer, Ran, Stop, PAGE_BYTES};

const LINE_3: [u32; 6] = [11, 3, 1, 0, 0, 0];
const DRAIN: [u32; 6] = [4, 0, 0, 0, 0, 0];
const NOTHING: [u32; 6] = [15, 0, 0, 0, 0, 0];
const CORE_0: [u32; 6] = [0, 0, 0, 0, 0, 0];

#[test]
fn make_fills_the_tables() {
    for cores in 1..=4 {
        let mut tables = vec![0xEEEE_EEEE; table_words(cores)];
        let memory = vec![0xDD; 2 * PAGE_BYTES];
        assert_eq!(make(&mut tables, &memory, cores as u32), Ok(()));
        let mut expected = vec![0; table_words(cores)];
        expected[CORES] = cores as u32;
        expected[PAGES] = 2;
        for k in 0..cores {
            let block = &mut expected[BLOCK + 256 * k..][..256];
            block[RUNNING] = (k == 0) as u32;
            block[FREE] = 1;
            block[PORTS] = (k as u32) << 24;
            for r in 1..31 {
                block[RECORDS + 4 * r] = r as u32 + 1;
            }
        }
        assert_eq!(tables, expected);
        assert_eq!(memory, vec![0xDD; 2 * PAGE_BYTES]);
    }
}

#[test]
fn make_refuses() {
    for (words, bytes, cores, why) in [
        (288, 4096, 0, 1),
        (32 + 256 * 5, 4096, 5, 1),
        (1, 1, 0, 1),
        (288, 0, 1, 2),
        (288, 4095, 1, 2),
        (287, 4097, 1, 2),
        (288, 4097 * 4096, 1, 2),
        (287, 4096, 1, 3),
        (289, 4096, 1, 3),
        (288, 4096, 2, 3),
        (0, 4096, 1, 3),
    ] {
        let mut tables = vec![0xEEEE_EEEE; words];
        let memory = vec![0; bytes];
        assert_eq!(make(&mut tables, &memory, cores), Err(why), "{words} words, {bytes} bytes, {cores} cores");
        assert_eq!(tables, vec![0xEEEE_EEEE; words]);
    }
}

#[test]
fn example_of_the_run_program() {
    let mut m = Machine::new(1, 1);
    let mut expected = m.clone();
    assert_eq!(m.step(&LINE_3), Answer::Done);
    expected.tables[LINES] = 8;
    assert_eq!(m, expected);
    assert_eq!(m.step(&DRAIN), Answer::Refused(6));
    expected.tables[BLOCK + CORE_REFUSALS] = 1;
    assert_eq!(m, expected);
    assert_eq!(m.step(&NOTHING), Answer::Refused(5));
    expected.tables[REFUSALS] = 1;
    assert_eq!(m, expected);
}

#[test]
fn six_words_are_a_step() {
    let mut m = Machine::new(1, 1);
    let mut expected = m.clone();
    assert_eq!(m.step(&DRAIN[..5]), Answer::Refused(5));
    assert_eq!(m.step(&[4, 0, 0, 0, 0, 0, 0]), Answer::Refused(5));
    assert_eq!(m.step(&[]), Answer::Refused(5));
    expected.tables[REFUSALS] = 3;
    assert_eq!(m, expected);
    m.tables[REFUSALS] = u32::MAX;
    expected.tables[REFUSALS] = u32::MAX;
    assert_eq!(m.step(&LINE_3[..5]), Answer::Refused(5));
    assert_eq!(m, expected);
}

/// The counts as the machine that owns its tables reads them. One that has other tables, or none, has no such word.
#[test]
fn counts_of_refusals() {
    let mut m = mips86::Machine::make(2, 1).expect("a machine");
    for (step, times) in [([4, 0, 0, 0, 0, 0], 2), ([4, 1, 0, 0, 0, 1], 3), ([4, 2, 0, 0, 0, 0], 4)] {
        (0..times).for_each(|_| assert!(matches!(m.step(step), Answer::Refused(_))));
    }
    assert_eq!((m.core_refusals(0), m.core_refusals(1), m.refusals()), (Some(2), Some(3), 4));
    assert_eq!([2, 3, 4, usize::MAX].map(|core| m.core_refusals(core)), [None; 4]);
    assert_eq!((core_refusals(0), core_refusals(1)), (BLOCK + CORE_REFUSALS, BLOCK + 256 + CORE_REFUSALS));
    assert_eq!(mips86::REFUSALS, REFUSALS);
    m.tables.clear();
    assert_eq!((m.core_refusals(0), m.refusals()), (None, 0));
}

#[test]
fn tables_that_are_not_sound() {
    let refused = Ran { accepted: 0, stop: Stop::Refused(4) };
    let mut m = Machine::new(1, 1);
    m.tables[BLOCK + RUNNING] = 2;
    let expected = m.clone();
    assert_eq!(m.step(&LINE_3), Answer::Refused(4));
    assert_eq!(m.step(&LINE_3[..5]), Answer::Refused(4));
    assert_eq!(m.run(&LINE_3, 1), refused);
    assert_eq!(m.run(&LINE_3[..5], 1), refused);
    assert_eq!(m, expected);
    assert_eq!(step(&mut [], &mut [], &LINE_3), Answer::Refused(4));
    assert_eq!(run(&mut [], &mut [], &[], 0), refused);
}

#[test]
fn core_steps_and_interrupts() {
    let mut m = Machine::new(2, 2);
    // addi 1 0 5, then a word that is no instruction
    m.memory[..8].copy_from_slice(&[0x05, 0x00, 0x01, 0x20, 0xFF, 0xFF, 0xFF, 0xFF]);
    let mut expected = m.clone();
    assert_eq!(m.step(&CORE_0), Answer::Done);
    expected.tables[BLOCK + 1] = 5;
    expected.tables[BLOCK + PC] = 4;
    assert_eq!(m, expected);
    assert_eq!(m.step(&CORE_0), Answer::Interrupt(2));
    assert_eq!(m.tables[BLOCK + PC], 0);
    assert_eq!(m.tables[BLOCK + SPR + 2..][..2], [4, 4]);
    m.tables[BLOCK + PC] = 6;
    assert_eq!(m.step(&CORE_0), Answer::Interrupt(3));
    assert_eq!(m.tables[BLOCK + SPR + 3], 6);
    assert_eq!((m.tables[REFUSALS], m.tables[BLOCK + CORE_REFUSALS]), (0, 0));
}

#[test]
fn runs() {
    let ran = |accepted, stop| Ran { accepted, stop };
    let schedule = [LINE_3, [11, 5, 1, 0, 0, 0], DRAIN, [11, 7, 1, 0, 0, 0]].concat();
    let longest = [11, 3, 0, 0, 0, 0].repeat(1025);
    let mut m = Machine::new(1, 1);
    let mut expected = m.clone();
    assert_eq!(m.run(&schedule, 0), ran(0, Stop::Limit));
    assert_eq!(m.run(&[], 0), ran(0, Stop::End));
    assert_eq!(m.run(&schedule[..23], 9), ran(0, Stop::Refused(11)));
    assert_eq!(m.run(&longest, 9), ran(0, Stop::Refused(11)));
    assert_eq!(m, expected);
    assert_eq!(m.run(&longest[..6144], 2000), ran(1024, Stop::End));
    assert_eq!(m, expected);
    assert_eq!(m.run(&schedule, 1), ran(1, Stop::Limit));
    expected.tables[LINES] = 1 << 3;
    assert_eq!(m, expected);
    assert_eq!(m.run(&schedule[..12], 2), ran(2, Stop::End));
    expected.tables[LINES] = 1 << 3 | 1 << 5;
    assert_eq!(m, expected);
    assert_eq!(m.run(&schedule, u32::MAX), ran(2, Stop::Refused(6)));
    expected.tables[BLOCK + CORE_REFUSALS] = 1;
    assert_eq!(m, expected);
}
