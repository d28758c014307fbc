//! Translate: figures at the edges, worked out by hand, and the operation
//! against separate walks and against the machine's own TLB steps.

use oracle::generate::{group_machine, sound_machine, Rng};
use oracle::machine::{held, Walk};
use oracle::sides::Board;
use oracle::soundness::*;
use oracle::translate::{trail, translate_plainly};
use oracle::vectors::{self, Machine};
use oracle::{sound, step, translate, translations, Answer};

const FILL: u32 = 0xEEEE_EEEE;
const B: usize = 32; // block of core 0

/// Four pages, one core, pto at page 1. Address 12345678 has the indices 48
/// and 345 and the low bits 678, all hexadecimal: its entries lie at
/// 1000 + 4 * 48 = 1120 and, with the second-level table in page 2, at
/// 2000 + 4 * 345 = 2D14.
const ADDRESS: u32 = 0x1234_5678;
/// Page 2, present, rights 1.
const FIRST: u32 = 0x0000_2900;
/// Page 3, present, rights 5.
const LAST: u32 = 0x0000_3D00;

fn board() -> Board {
    let mut board = Board::new(1, 4);
    board.t[B + PTO] = 0x1000;
    board.put(0x1120, FIRST);
    board.put(0x2D14, LAST);
    board
}

/// Reads and the answers, three words an address.
fn ask(board: &Board, core: u32, addresses: &[u32]) -> (u32, Vec<[u32; 3]>) {
    assert_eq!(sound(&board.t, &board.m), Ok(()));
    let mut answers = vec![FILL; 3 * addresses.len()];
    let reads = translate(&board.t, &board.m, core, addresses, &mut answers).expect("answered");
    (reads, answers.chunks(3).map(|c| [c[0], c[1], c[2]]).collect())
}

/// The same for one address of core 0.
fn one(board: &Board, address: u32) -> (u32, [u32; 3]) {
    let (reads, answers) = ask(board, 0, &[address]);
    (reads, answers[0])
}

/// The refusal, with nothing written.
fn refused(board: &Board, core: u32, n: usize, words: usize) -> u32 {
    let mut answers = vec![FILL; words];
    let number = translate(&board.t, &board.m, core, &vec![ADDRESS; n], &mut answers).expect_err("refused");
    assert!(answers.iter().all(|&word| word == FILL));
    number
}

#[test]
fn found_absent_beyond() {
    let mut b = board();
    assert_eq!(one(&b, ADDRESS), (2, [0, 3, 5]));
    // Absent at level 1: both are read. Nothing of an absent entry is told.
    b.put(0x2D14, LAST & !0x800);
    assert_eq!(one(&b, ADDRESS), (2, [1, 1, 0]));
    b.put(0x2D14, 0);
    assert_eq!(one(&b, ADDRESS), (2, [1, 1, 0]));
    // Absent at level 2: one is read, wherever it would lead.
    b.put(0x2D14, LAST);
    b.put(0x1120, FIRST & !0x800);
    assert_eq!(one(&b, ADDRESS), (1, [1, 2, 0]));
    b.put(0x1120, 0);
    assert_eq!(one(&b, ADDRESS), (1, [1, 2, 0]));
    b.put(0x1120, 0x0000_4100);
    assert_eq!(one(&b, ADDRESS), (1, [1, 2, 0]));
    // A second-level table just past memory, far away, at the ports.
    for page in [4, 5, 0xFFF, 0x1000, 0x80000, 0xFFFFD, 0xFFFFE, 0xFFFFF] {
        b.put(0x1120, page << 12 | 0xF00);
        assert_eq!(one(&b, ADDRESS), (1, [2, 0, 0]));
    }
    // pto so.
    for page in [4, 5, 0xFFF, 0x1000, 0x80000, 0xFFFFD, 0xFFFFE, 0xFFFFF] {
        b.t[B + PTO] = page << 12;
        assert_eq!(one(&b, ADDRESS), (0, [2, 0, 0]));
        assert_eq!(ask(&b, 0, &[0, 0xFFFF_FFFF, 0]), (0, vec![[2, 0, 0]; 3]));
    }
}

/// The entries' addresses FFFFF000 and FFFFE000 are ports themselves.
#[test]
fn entries_at_ports_are_beyond_memory() {
    let mut b = board();
    for page in [0xFFFFE, 0xFFFFF] {
        b.t[B + PTO] = page << 12;
        assert_eq!(one(&b, 0), (0, [2, 0, 0]));
        b.t[B + PTO] = 0x1000;
        b.put(0x1000, page << 12 | 0xF80);
        assert_eq!(one(&b, 0), (1, [2, 0, 0]));
    }
}

#[test]
fn the_page_found_may_lie_anywhere() {
    let mut b = board();
    for page in [0, 1, 2, 3, 4, 5, 0xFFF, 0x1000, 0x80000, 0xABCDE, 0xFFFFD, 0xFFFFE, 0xFFFFF] {
        b.put(0x2D14, page << 12 | 0xD00);
        assert_eq!(one(&b, ADDRESS), (2, [0, page, 5]));
    }
}

#[test]
fn rights_are_the_last_entrys_and_accessed_bits_do_not_matter() {
    let mut b = board();
    for first in 0..8 {
        for last in 0..8 {
            for accessed in 0..4 {
                b.put(0x1120, 0x2800 | first << 8 | (accessed & 1) << 7);
                b.put(0x2D14, 0x3800 | last << 8 | (accessed >> 1) << 7);
                assert_eq!(one(&b, ADDRESS), (2, [0, 3, last]));
                b.put(0x1120, 0x287F | first << 8 | (accessed & 1) << 7);
                b.put(0x2D14, 0x387F | last << 8 | (accessed >> 1) << 7);
                assert_eq!(one(&b, ADDRESS), (2, [0, 3, last]));
            }
        }
    }
    // Page 0 without rights is found.
    b.put(0x2D14, 0x0000_0800);
    assert_eq!(one(&b, ADDRESS), (2, [0, 0, 0]));
}

#[test]
fn low_bits_do_not_matter() {
    let mut b = board();
    for low in [0, 1, 4, 0x678, 0x800, 0xFFC, 0xFFF] {
        assert_eq!(one(&b, 0x1234_5000 | low), (2, [0, 3, 5]));
        b.t[B + PTO] = 0x1000 | low;
        assert_eq!(one(&b, ADDRESS), (2, [0, 3, 5]));
    }
    let all: Vec<u32> = (0..64).map(|low| 0x1234_5000 | (65 * low)).collect();
    assert_eq!(ask(&b, 0, &all), (2, vec![[0, 3, 5]; 64]));
}

#[test]
fn the_first_and_the_last_entries() {
    let mut b = Board::new(1, 1);
    // Page 0 is its own second-level table: entry 0 is the word at 0.
    b.put(0, 0x0000_0F00);
    assert_eq!(one(&b, 0), (1, [0, 0, 7]));
    // Entry 1023 is the last word of memory, at FFC.
    b.put(0xFFC, 0x0000_0A80);
    assert_eq!(one(&b, 0xFFFF_FFFF), (1, [0, 0, 2]));
    // 0 and 1023, in both orders.
    assert_eq!(one(&b, 0x003F_F000), (2, [0, 0, 2]));
    assert_eq!(one(&b, 0xFFC0_0000), (2, [0, 0, 7]));
    assert_eq!(ask(&b, 0, &[0, 0xFFFF_FFFF, 0x003F_F000, 0xFFC0_0000]).0, 2);
    // Pages 4095 and 4096 in the largest memory.
    let mut b = Board::new(1, 4096);
    b.t[B + PTO] = 0x00FF_F000;
    b.put(0x00FF_FFFC, 0x00FF_FC00);
    assert_eq!(one(&b, 0xFFFF_F000), (1, [0, 0xFFF, 4]));
    b.put(0x00FF_FFFC, 0x0100_0C00);
    assert_eq!(one(&b, 0xFFFF_F000), (1, [2, 0, 0]));
    b.t[B + PTO] = 0x0100_0000;
    assert_eq!(one(&b, 0), (0, [2, 0, 0]));
}

/// The first-level table in page 1 is a second-level table too.
#[test]
fn an_entry_at_both_levels_counts_once() {
    let mut b = Board::new(1, 2);
    b.t[B + PTO] = 0x1000;
    // Entry 48 names page 1, entry 49 page 7 beyond memory.
    b.put(0x1120, 0x0000_1E00);
    b.put(0x1124, 0x0000_7900);
    // One address: 48, then 48 again.
    assert_eq!(one(&b, 0x1204_8000), (1, [0, 1, 6]));
    // 48 then 49: the page that 49 names is found. 49 at the first level
    // leads beyond memory, and only 49 itself is read there.
    let (a, c) = (0x1204_9000, 0x1240_0000);
    assert_eq!(one(&b, a), (2, [0, 7, 1]));
    assert_eq!(one(&b, c), (1, [2, 0, 0]));
    assert_eq!(ask(&b, 0, &[a, c]), (2, vec![[0, 7, 1], [2, 0, 0]]));
    assert_eq!(ask(&b, 0, &[c, a]), (2, vec![[2, 0, 0], [0, 7, 1]]));
    assert_eq!(ask(&b, 0, &[c, 0x1204_8000]), (2, vec![[2, 0, 0], [0, 1, 6]]));
}

#[test]
fn reads_are_of_different_entries() {
    let mut b = board();
    assert_eq!(ask(&b, 0, &[]), (0, vec![]));
    assert_eq!(ask(&b, 0, &[ADDRESS; 64]), (2, vec![[0, 3, 5]; 64]));
    // 64 pages of one region, of which 345 is one: 1 + 64.
    let region: Vec<u32> = (0..64).map(|i| 0x1230_0000 + 0x1000 * (0x10 + i)).collect();
    let (reads, answers) = ask(&b, 0, &region);
    assert_eq!((reads, answers.iter().filter(|a| **a == [0, 3, 5]).count()), (65, 1));
    assert_eq!((answers[0x35], answers[0x34]), ([0, 3, 5], [1, 1, 0]));
    // 64 regions without entries.
    let regions: Vec<u32> = (0..64).map(|i| i << 22).collect();
    assert_eq!(ask(&b, 0, &regions), (64, vec![[1, 2, 0]; 64]));
    // All named to page 2, each with another index there: 64 + 64.
    for i in 0..64 {
        b.put(0x1000 + 4 * i, FIRST);
    }
    let regions: Vec<u32> = (0..64).map(|i| i << 22 | (100 + i) << 12).collect();
    assert_eq!(ask(&b, 0, &regions), (128, vec![[1, 1, 0]; 64]));
    // The same index there: 64 + 1.
    let regions: Vec<u32> = (0..64).map(|i| i << 22 | 0x345 << 12).collect();
    assert_eq!(ask(&b, 0, &regions), (65, vec![[0, 3, 5]; 64]));
    // Beyond memory: the first-level entries alone.
    for i in 0..64 {
        b.put(0x1000 + 4 * i, 0x0000_4F00);
    }
    assert_eq!(ask(&b, 0, &regions), (64, vec![[2, 0, 0]; 64]));
    // Half of them, and the entry in page 2 that those share.
    for i in 0..32 {
        b.put(0x1000 + 8 * i, FIRST);
    }
    let (reads, answers) = ask(&b, 0, &regions);
    assert_eq!(reads, 65);
    assert!((0..64).all(|i| answers[i] == if i % 2 == 0 { [0, 3, 5] } else { [2, 0, 0] }));
}

#[test]
fn no_word_is_left_over() {
    let mut b = board();
    b.put(0x1124, 0x0000_4F00); // 49: second-level table beyond memory
    let (found, absent2, absent1, beyond) = (ADDRESS, 0, 0x1234_6000, 0x1240_0000);
    let answer = [(found, [0, 3, 5]), (absent2, [1, 2, 0]), (absent1, [1, 1, 0]), (beyond, [2, 0, 0])];
    for (a, x) in answer {
        for (c, y) in answer {
            assert_eq!(ask(&b, 0, &[a, c]).1, [x, y]);
            assert_eq!(ask(&b, 0, &[a, c, a]).1, [x, y, x]);
        }
    }
    // Entries 1120, 1000, 1124, 2D14, 2D18; the entry in page 4 is not read.
    assert_eq!(ask(&b, 0, &[found, absent2, absent1, beyond]).0, 5);
}

#[test]
fn refusals_in_order() {
    let mut b = board();
    assert_eq!(ask(&b, 0, &[ADDRESS; 64]).0, 2);
    // One at a time.
    assert_eq!(refused(&b, 1, 1, 3), 14);
    assert_eq!(refused(&b, 1 << 31, 1, 3), 14);
    assert_eq!(refused(&b, 0xFFFF_FFFF, 1, 3), 14);
    assert_eq!(refused(&b, 1, 0, 0), 14);
    assert_eq!(refused(&b, 0, 65, 195), 15);
    assert_eq!(refused(&b, 0, 66, 198), 15);
    for (n, words) in [(1, 0), (1, 1), (1, 2), (1, 4), (1, 6), (64, 191), (64, 193), (64, 128), (64, 0), (0, 1), (0, 3)]
    {
        assert_eq!(refused(&b, 0, n, words), 16);
    }
    // Several.
    assert_eq!(refused(&b, 1, 65, 195), 14);
    assert_eq!(refused(&b, 1, 1, 2), 14);
    assert_eq!(refused(&b, 1, 65, 0), 14);
    assert_eq!(refused(&b, 0, 65, 192), 15);
    assert_eq!(refused(&b, 0, 65, 0), 15);
    // Tables that are not sound come before all.
    for (word, value) in [(CORES, 0), (CORES, 5), (CORES, 2), (PAGES, 5), (30, 1), (B, 1), (B + RUNNING, 2)] {
        let kept = std::mem::replace(&mut b.t[word], value);
        for (core, n, words) in [(0, 1, 3), (1, 1, 3), (0, 65, 195), (0, 1, 2), (9, 65, 1), (0, 0, 0)] {
            assert_eq!(refused(&b, core, n, words), 4);
        }
        b.t[word] = kept;
    }
    // Lengths that disagree, and nothing at all.
    b.m.truncate(3 * PAGE);
    assert_eq!(refused(&b, 0, 1, 3), 4);
    let mut answers = [FILL; 3];
    assert_eq!(translate(&[], &[], 0, &[0], &mut answers), Err(4));
    assert_eq!(answers, [FILL; 3]);
}

/// Each core has its own pto; running and mode are not looked at.
#[test]
fn any_core_that_is_there() {
    let mut b = Board::new(4, 4);
    // Page k is the first-level table of core k, and entry 0 names that page
    // with rights k.
    for k in 0..4u32 {
        b.t[block(k as usize) + PTO] = k << 12;
        b.put(k << 12, k << 12 | 0x800 | k << 8);
    }
    for (running, mode) in [(0, 0), (0, 1), (1, 0), (1, 1), (1, 2), (0, 0xFFFF_FFFF)] {
        for k in 0..4u32 {
            b.t[block(k as usize) + RUNNING] = running;
            b.t[block(k as usize) + MODE] = mode;
            assert_eq!(ask(&b, k, &[0, 0xFFF, 0x1000]), (2, vec![[0, k, k], [0, k, k], [1, 1, 0]]));
        }
    }
    for core in [4, 5, 1 << 31, 0xFFFF_FFFF] {
        assert_eq!(refused(&b, core, 3, 9), 14);
    }
}

#[test]
fn neither_walks_nor_pending_stores_are_looked_at() {
    let mut b = board();
    for asid in [0, 9] {
        b.t[B + ASID] = asid;
        b.hold(0, Walk::new(0x12345, asid, 0, 7, 1));
        b.hold(0, Walk::new(0x12345, asid, 1, 7, 3));
        b.hold(0, Walk::new(0x12345, asid, 2, 7, 3));
        b.hold(0, Walk::new(0, asid, 0, 7, 1));
        assert_eq!(ask(&b, 0, &[ADDRESS, 0]), (3, vec![[0, 3, 5], [1, 2, 0]]));
    }
    // Stores that would clear, set or change entries.
    b.pend(0, 0x1120, 0, 4);
    b.pend(0, 0x1000, FIRST, 4);
    b.pend(0, 0x2D15, 0, 1);
    b.pend(0, 0x2D14, 0x0F00, 2);
    assert_eq!(ask(&b, 0, &[ADDRESS, 0]), (3, vec![[0, 3, 5], [1, 2, 0]]));
}

// ---------------------------------------------------------------- at random

fn same(machine: &Machine, core: u32, addresses: &[u32], words: usize) {
    let (t, m) = (&machine.tables, &machine.memory);
    let (mut mine, mut plain) = (vec![FILL; words], vec![FILL; words]);
    let reads = translate(t, m, core, addresses, &mut mine);
    assert_eq!(reads, translate_plainly(t, m, core, addresses, &mut plain));
    assert_eq!(mine, plain);
    if reads.is_err() {
        assert!(mine.iter().all(|&word| word == FILL));
    }
}

#[test]
fn as_separate_walks() {
    let mut rng = Rng::new(1);
    for _ in 0..4000 {
        let (machine, asked) = translations::sample(&mut rng);
        asked.iter().for_each(|a| same(&machine, a.core, &a.addresses, a.words as usize));
    }
    // Machines of other makes.
    let none = oracle::counts::Counts::default();
    for n in 0..600 {
        let machine = if n % 2 == 0 { sound_machine(&mut rng, &none) } else { group_machine(&mut rng) };
        for core in 0..5 {
            let near = [0, 0x1000, 0xFFFF_F000, 0xFFFF_E000, 0x0040_0000, 0x003F_F000];
            let addresses: Vec<u32> = (0..rng.below(66))
                .map(|_| if rng.chance(60) { rng.pick(&near) ^ rng.below(8) << 10 } else { rng.word() })
                .collect();
            same(&machine, core, &addresses, 3 * addresses.len());
        }
    }
    // The committed questions, damaged tables too.
    for g in vectors::read_translations(include_bytes!("../vectors/translations.bin")).unwrap().0 {
        g.questions.iter().for_each(|q| same(&g.machine, q.asked.core, &q.asked.addresses, q.asked.words as usize));
    }
}

/// A walk made by the machine's own steps ends where translate says, and is
/// refused 6 or 7 where translate says absent or beyond.
#[test]
fn as_the_tlb_steps_go() {
    let mut rng = Rng::new(2);
    let mut ends = [0; 4];
    for _ in 0..1500 {
        let (machine, asked) = translations::sample(&mut rng);
        for a in asked.iter().filter(|a| a.core < machine.cores as u32).take(2) {
            for &address in a.addresses.iter().take(6) {
                let answer = trail(&machine.tables, &machine.memory, a.core, address).answer;
                let mut words = [FILL; 3];
                translate(&machine.tables, &machine.memory, a.core, &[address], &mut words).unwrap();
                assert_eq!(answer, words);
                // The same machine, running in user mode without walks.
                let (mut t, mut m) = (machine.tables.clone(), machine.memory.clone());
                let b = block(a.core as usize);
                (t[b + RUNNING], t[b + MODE]) = (1, 1);
                while t[b + WALKS] != 0 {
                    let n = t[b + WALKS];
                    let r = record(b, n);
                    t[b + WALKS] = t[r];
                    let next = t[b + FREE];
                    t[r..r + 4].copy_from_slice(&[next, 0, 0, 0]);
                    t[b + FREE] = n;
                }
                let mut w = Walk::new(address >> 12, t[b + ASID] & 63, 2, 7, t[b + PTO] >> 12);
                let go = |t: &mut [u32], m: &mut [u8], s: [u32; 6]| step(true, t, m, &s);
                assert_eq!(go(&mut t, &mut m, [1, a.core, address >> 12, 0, 0, 0]), Answer::Done);
                let mut stop = None;
                while w.level() > 0 && stop.is_none() {
                    match go(&mut t, &mut m, [3, a.core, w.first, w.base, 0, 0]) {
                        Answer::Done => {
                            assert_eq!(go(&mut t, &mut m, [2, a.core, w.first, w.base, 0, 0]), Answer::Done);
                            let r = record(b, t[b + WALKS]);
                            w = Walk { first: t[r + 1], base: t[r + 2] };
                        }
                        Answer::Refused(why) => stop = Some(why.number()),
                        other => panic!("{other}"),
                    }
                }
                match stop {
                    None => {
                        assert!(held(&t, b, w) && w.va() == address >> 12);
                        assert_eq!(answer, [0, w.base, w.rights()]);
                        ends[0] += 1;
                    }
                    Some(6) => {
                        assert_eq!(answer, [1, w.level(), 0]);
                        ends[w.level() as usize] += 1;
                    }
                    Some(number) => {
                        assert_eq!((number, answer), (7, [2, 0, 0]));
                        ends[3] += 1;
                    }
                }
            }
        }
    }
    assert!(ends.iter().all(|&times| times >= 200), "{ends:?}");
}
