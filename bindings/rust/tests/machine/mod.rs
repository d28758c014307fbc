//! A machine for the tests, and what they put into it: registers, entries, walks, pending stores.

#![allow(dead_code)] // no file of tests uses all of it

use mips86::{apart, make, reach, run, step, table_words, Answer, Ran, PAGE_BYTES};

// places of the tables
pub const CORES: usize = 0;
pub const PAGES: usize = 1;
pub const REFUSALS: usize = 2;
pub const LINES: usize = 3;
pub const REST: usize = 30; // zero in sound tables
pub const BLOCK: usize = 32;

// places of a block
pub const SPR: usize = 32;
pub const SR: usize = SPR;
pub const ECA: usize = SPR + 2;
pub const PTO: usize = SPR + 5;
pub const ASID: usize = SPR + 6;
pub const MODE: usize = SPR + 7;
pub const PC: usize = 64;
pub const RUNNING: usize = 67;
pub const STORES: usize = 68;
pub const WALKS: usize = 69;
pub const FREE: usize = 70;
pub const PORTS: usize = 72;
pub const INITRR: usize = 114;
pub const CORE_REFUSALS: usize = 115;
pub const RECORDS: usize = 128;

// rights
pub const WRITE: u32 = 1;
pub const USER: u32 = 2;
pub const EXECUTE: u32 = 4;
pub const ALL: u32 = 7;

// bits of an entry
pub const ACCESSED: u32 = 1 << 7;
pub const PRESENT: u32 = 1 << 11;

/// A walk's pair of words.
pub type Walk = [u32; 2];

pub fn walk(va: u32, asid: u32, level: u32, rights: u32, base: u32) -> Walk {
    [va << 12 | asid << 6 | level << 3 | rights, base]
}

/// A present entry.
pub fn entry(page: u32, rights: u32) -> u32 {
    page << 12 | PRESENT | rights << 8
}

#[derive(Clone, Debug, PartialEq, Eq)]
pub struct Machine {
    pub tables: Vec<u32>,
    pub memory: Vec<u8>,
}

impl Machine {
    pub fn new(cores: usize, pages: usize) -> Machine {
        let mut m = Machine { tables: vec![0xEE; table_words(cores)], memory: vec![0; pages * PAGE_BYTES] };
        assert_eq!(make(&mut m.tables, &m.memory, cores as u32), Ok(()));
        m
    }

    pub fn step(&mut self, s: &[u32]) -> Answer {
        step(&mut self.tables, &mut self.memory, s)
    }

    pub fn run(&mut self, s: &[u32], limit: u32) -> Ran {
        run(&mut self.tables, &mut self.memory, s, limit)
    }

    /// The map of a group, and whether it reaches beyond memory.
    pub fn reach(&self, group: u32) -> (Vec<u8>, bool) {
        let mut map = vec![0xEE; self.memory.len() / PAGE_BYTES];
        let beyond = reach(&self.tables, &self.memory, group, &mut map);
        (map, beyond.expect("a map is filled"))
    }

    pub fn apart(&self, group: u32) -> Result<bool, u32> {
        apart(&self.tables, &self.memory, group)
    }

    pub fn cores(&self) -> usize {
        self.tables[CORES] as usize
    }

    pub fn block(&self, core: usize) -> &[u32] {
        &self.tables[BLOCK + 256 * core..][..256]
    }

    pub fn block_mut(&mut self, core: usize) -> &mut [u32] {
        &mut self.tables[BLOCK + 256 * core..][..256]
    }

    pub fn page(&self, page: usize) -> &[u8] {
        &self.memory[page * PAGE_BYTES..][..PAGE_BYTES]
    }

    pub fn word(&self, address: u32) -> u32 {
        let bytes = &self.memory[address as usize..][..4];
        u32::from_le_bytes(bytes.try_into().expect("four bytes"))
    }

    pub fn put(&mut self, address: u32, word: u32) {
        self.memory[address as usize..][..4].copy_from_slice(&word.to_le_bytes());
    }

    /// Puts an entry into the table in a page.
    pub fn enter(&mut self, table: u32, index: u32, entry: u32) {
        self.put(table << 12 | index << 2, entry);
    }

    /// The core is running in user mode, with its first-level table in this page. The low bits of pto say nothing.
    pub fn user(&mut self, core: usize, table: u32) {
        let block = self.block_mut(core);
        block[RUNNING] = 1;
        block[MODE] = 1;
        block[PTO] = table << 12 | 0xABC;
    }

    /// Puts a free record to the front of a chain.
    fn hold(&mut self, core: usize, chain: usize, words: [u32; 3]) {
        let block = self.block_mut(core);
        let number = block[FREE];
        let at = RECORDS + 4 * number as usize;
        block[FREE] = block[at];
        block[at] = block[chain];
        block[chain] = number;
        block[at + 1..at + 4].copy_from_slice(&words);
    }

    pub fn hold_walk(&mut self, core: usize, w: Walk) {
        self.hold(core, WALKS, [w[0], w[1], 0]);
    }

    /// A pending store: the oldest of the core's.
    pub fn hold_store(&mut self, core: usize, address: u32, value: u32, width: u32) {
        self.hold(core, STORES, [address, value, width]);
    }

    /// The walks that a core holds.
    pub fn walks(&self, core: usize) -> Vec<Walk> {
        let block = self.block(core);
        let mut walks = Vec::new();
        let mut at = block[WALKS] as usize;
        while at != 0 {
            let record = &block[RECORDS + 4 * at..][..4];
            walks.push([record[1], record[2]]);
            at = record[0] as usize;
        }
        walks
    }
}
