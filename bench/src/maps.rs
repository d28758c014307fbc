//! The machines on which reach and apart are timed: four cores and 4,096 pages.

use crate::schedules::{machine, put, BLOCK, FREE, MODE, PTO, RECORDS, RIGHTS, SPR, WALKS};
use mips86::PAGE_BYTES;

const CORES: usize = 4;
const PAGES: usize = 4096;
/// Pages of each core's own.
const SHARE: usize = PAGES / CORES;
const ENTRIES: usize = PAGE_BYTES / 4;

const RUNNING: usize = BLOCK + 67;
const WRITE: u32 = 1;
const MOST_WALKS: usize = 23;

/// All cores; and two of them, whose rest are the other two.
pub const ALL: u32 = 0b1111;
pub const HALF: u32 = 0b0011;

/// A machine, the group that is asked for, and how often each way answers.
pub struct Case {
    pub name: &'static str,
    pub tables: Vec<u32>,
    pub memory: Vec<u8>,
    pub group: u32,
    pub repeats: usize,
}

fn entry(page: usize, rights: u32) -> u32 {
    (page as u32) << 12 | 1 << 11 | rights << 8
}

/// Four cores that run in user mode, each with its first-level table in the first page of its share.
fn cores() -> (Vec<u32>, Vec<u8>) {
    let (mut tables, memory) = machine(CORES, PAGES);
    for core in 0..CORES {
        let at = 256 * core;
        tables[at + RUNNING] = 1;
        tables[at + SPR + MODE] = 1;
        tables[at + SPR + PTO] = ((SHARE * core) as u32) << 12;
    }
    (tables, memory)
}

/// Each core has nine table pages, one first-level and eight second-level, which name each other page of its share
/// once, with the write right for every second.
pub fn sparse(group: u32) -> Case {
    const SECONDS: usize = 8;
    let (tables, mut memory) = cores();
    for first in (0..PAGES).step_by(SHARE) {
        let table = |k: usize| (first + 1 + k) * PAGE_BYTES;
        for k in 0..SECONDS {
            put(&mut memory, first * PAGE_BYTES + 4 * k, entry(first + 1 + k, RIGHTS));
        }
        for (n, page) in (first + 1 + SECONDS..first + SHARE).enumerate() {
            let rights = if n % 2 == 0 { RIGHTS } else { RIGHTS & !WRITE };
            put(&mut memory, table(n % SECONDS) + 4 * (n / SECONDS), entry(page, rights));
        }
    }
    Case { name: "sparse map: nine table pages for each core", tables, memory, group, repeats: 2000 }
}

/// Every page is a second-level table, and as many are first-level ones too as four cores can name: pto and 23 walks
/// each. All entries are present and name pages of the part of memory, all or half, in which they lie.
fn dense(name: &'static str, group: u32, part: usize, rights: u32) -> Case {
    let (mut tables, mut memory) = cores();
    for core in 0..CORES {
        let at = 256 * core;
        for n in 1..=MOST_WALKS {
            let base = SHARE * core + SHARE / (MOST_WALKS + 1) * n;
            let next = if n < MOST_WALKS { n as u32 + 1 } else { 0 };
            let record = [next, (n as u32) << 12 | 2 << 3 | RIGHTS, base as u32, 0];
            tables[at + RECORDS + 4 * n..][..4].copy_from_slice(&record);
        }
        tables[at + WALKS] = 1;
        tables[at + FREE] = MOST_WALKS as u32 + 1;
    }
    let mut random = 1u64;
    for word in 0..PAGES * ENTRIES {
        random = random.wrapping_mul(6364136223846793005).wrapping_add(1442695040888963407);
        let page = word / ENTRIES / part * part + (random >> 40) as usize % part;
        put(&mut memory, 4 * word, entry(page, (random >> 33) as u32 & rights));
    }
    Case { name, tables, memory, group, repeats: 60 }
}

/// Every page is a table, and data and writable besides.
pub fn dense_reach() -> Case {
    dense("dense map: every page a table, rights mixed", ALL, PAGES, RIGHTS)
}

/// Two cores and half of the pages on each side. Every page is a table and no entry grants write, so the answer is yes,
/// for which no table can be left unread.
pub fn dense_apart() -> Case {
    dense("dense map: every page a table, half of them each side's", HALF, PAGES / 2, RIGHTS & !WRITE)
}

/// The table pages that are read for a group: the first-level ones, then the second-level ones, each once a level.
pub fn table_pages(case: &Case, group: u32) -> Vec<usize> {
    let mut first = vec![false; PAGES];
    for core in (0..CORES).filter(|k| group >> k & 1 == 1) {
        let at = 256 * core;
        first[(case.tables[at + SPR + PTO] >> 12) as usize] = true;
        let mut n = case.tables[at + WALKS] as usize;
        while n != 0 {
            let record = &case.tables[at + RECORDS + 4 * n..][..4];
            assert_eq!(record[1] >> 3 & 3, 2, "walks are of level 2");
            first[record[2] as usize] = true;
            n = record[0] as usize;
        }
    }
    let mut second = vec![false; PAGES];
    let list = |set: &[bool]| (0..PAGES).filter(|&p| set[p]).collect::<Vec<_>>();
    for page in list(&first) {
        words(&case.memory, page).filter(|e| e >> 11 & 1 == 1).for_each(|e| second[(e >> 12) as usize] = true);
    }
    [list(&first), list(&second)].concat()
}

/// The words of a page.
pub fn words(memory: &[u8], page: usize) -> impl Iterator<Item = u32> + '_ {
    let bytes = memory[page * PAGE_BYTES..][..PAGE_BYTES].chunks_exact(4);
    bytes.map(|b| u32::from_le_bytes(b.try_into().expect("four bytes")))
}
