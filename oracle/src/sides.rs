//! Machines with two sides: the pages of a group and of the rest are laid
//! apart, and one condition at a time can be broken. The groups file and the
//! trial of demand 3 are made from these.

use crate::generate::Rng;
use crate::isa::{self, Op};
use crate::machine::*;
use crate::soundness::*;
use crate::ways::{Condition, Way};

const PRESENT: u32 = 1 << 11;
const ACCESSED: u32 = 1 << 7;

/// Tables and memory being laid out.
#[derive(Clone)]
pub struct Board {
    pub t: Vec<u32>,
    pub m: Vec<u8>,
}

impl Board {
    pub fn new(cores: usize, pages: u32) -> Board {
        let (mut t, m) = (vec![0; table_words(cores)], vec![0; pages as usize * PAGE]);
        make(cores as u32, &mut t, &m).expect("in range");
        Board { t, m }
    }

    pub fn cores(&self) -> usize {
        self.t[CORES] as usize
    }

    pub fn pages(&self) -> u32 {
        self.t[PAGES]
    }

    pub fn page(&self, page: u32) -> &[u8] {
        &self.m[page as usize * PAGE..][..PAGE]
    }

    pub fn page_mut(&mut self, page: u32) -> &mut [u8] {
        &mut self.m[page as usize * PAGE..][..PAGE]
    }

    pub fn put(&mut self, a: u32, w: u32) {
        self.m[a as usize..a as usize + 4].copy_from_slice(&w.to_le_bytes());
    }

    /// A table entry; bits of `low` beside page, present and rights are free.
    fn entry(&mut self, table: u32, index: u32, page: u32, rights: u32, low: u32) {
        self.put(table << 12 | index << 2, page << 12 | PRESENT | rights << 8 | low);
    }

    /// Adds a walk as the machine does, if it is not held and there is room.
    pub fn hold(&mut self, k: usize, w: Walk) {
        let b = block(k);
        if held(&self.t, b, w) || chain_length(&self.t, b, WALKS) == MAX_WALKS || self.t[b + FREE] == 0 {
            return;
        }
        let n = self.t[b + FREE];
        let r = record(b, n);
        self.t[b + FREE] = self.t[r];
        self.t[r] = self.t[b + WALKS];
        self.t[r + 1] = w.first;
        self.t[r + 2] = w.base;
        self.t[b + WALKS] = n;
    }

    /// Adds a pending store as the machine does, if there is room.
    pub fn pend(&mut self, k: usize, a: u32, value: u32, width: u32) {
        let b = block(k);
        if chain_length(&self.t, b, STORES) == MAX_STORES || self.t[b + FREE] == 0 {
            return;
        }
        let mut link = b + STORES;
        while self.t[link] != 0 {
            link = record(b, self.t[link]);
        }
        let n = self.t[b + FREE];
        let r = record(b, n);
        self.t[b + FREE] = self.t[r];
        self.t[link] = n;
        self.t[r] = 0;
        self.t[r + 1] = a;
        self.t[r + 2] = if width == 4 { value } else { value & ((1 << (8 * width)) - 1) };
        self.t[r + 3] = width;
    }
}

pub fn shuffle<T>(rng: &mut Rng, all: &mut [T]) {
    for i in (1..all.len()).rev() {
        all.swap(i, rng.below(i as u32 + 1) as usize);
    }
}

/// One of them, if there is one.
pub fn any<T: Copy>(rng: &mut Rng, from: &[T]) -> Option<T> {
    (!from.is_empty()).then(|| rng.pick(from))
}

/// A page that is in no memory used here: just behind it, far away, or ports.
pub fn beyond(rng: &mut Rng, pages: u32) -> u32 {
    match rng.below(6) {
        0 | 1 => pages,
        2 => pages + 1 + rng.below(3),
        _ => rng.pick(&[0xFFFFF, 0xFFFFE, 0x80000, 0x1000, 0xFFF, 0xFFFFD]),
    }
}

/// How full a machine is.
#[derive(Clone, Copy, PartialEq, Eq)]
pub enum Style {
    /// A few words only, for the groups file.
    Sparse,
    /// Every byte and register filled, programs in place.
    Dense,
}

/// The cores of a side and what its pages are to it.
#[derive(Clone, Debug)]
pub struct Side {
    pub cores: Vec<usize>,
    /// First- and second-level tables; a page can be both.
    pub first: Vec<u32>,
    pub second: Vec<u32>,
    /// Data pages that may be written, and those that may not.
    pub writable: Vec<u32>,
    pub fixed: Vec<u32>,
    /// Pages of others that may be read.
    pub reads: Vec<u32>,
}

impl Side {
    /// Gives each of the side's own pages a part.
    pub fn plan(rng: &mut Rng, cores: Vec<usize>, own: &[u32], reads: &[u32]) -> Side {
        let mut own = own.to_vec();
        shuffle(rng, &mut own);
        let tables = match own.len() {
            1 => 1,
            2 => 1 + rng.chance(20) as usize,
            3 => 1 + rng.chance(65) as usize,
            n => (1 + rng.chance(75) as usize + rng.chance(30) as usize).min(n - 1),
        };
        let (mut first, mut second) = (vec![own[0]], Vec::new());
        if tables == 1 && rng.chance(40) {
            second.push(own[0]);
        }
        if tables > 1 {
            second.push(own[1]);
        }
        if tables > 2 {
            match rng.below(3) {
                0 => first.push(own[2]),
                1 => second.push(own[2]),
                _ => {
                    first.push(own[2]);
                    second.push(own[2]);
                }
            }
        }
        let (mut writable, mut fixed) = (Vec::new(), Vec::new());
        for &page in &own[tables..] {
            if rng.chance(60) {
                writable.push(page);
            } else {
                fixed.push(page);
            }
        }
        Side { cores, first, second, writable, fixed, reads: reads.to_vec() }
    }

    /// Table pages, each once.
    pub fn tables(&self) -> Vec<u32> {
        let mut all = [&self.first[..], &self.second[..]].concat();
        all.sort();
        all.dedup();
        all
    }

    /// Own data pages.
    pub fn data(&self) -> Vec<u32> {
        [&self.writable[..], &self.fixed[..]].concat()
    }

    fn may_write(&self, page: u32) -> bool {
        self.writable.contains(&page)
    }

    /// Rights for a data page: write only where it is writable.
    fn rights(&self, rng: &mut Rng, page: u32, style: Style) -> u32 {
        let plain = style == Style::Dense && rng.chance(85);
        let rights = if plain { 7 } else { rng.below(8) };
        if self.may_write(page) {
            rights
        } else {
            rights & !WRITE
        }
    }

    /// Lays out tables, data and cores. The cores run in user mode.
    pub fn lay(&self, rng: &mut Rng, board: &mut Board, style: Style) {
        let dense = style == Style::Dense;
        if dense {
            for page in self.writable.clone() {
                for index in 0..1024 {
                    let w = rng.word();
                    board.put(page << 12 | index << 2, w);
                }
            }
            // Entries that are not there, so that any page can be a table.
            for page in [self.tables(), self.fixed.clone()].concat() {
                for index in 0..1024 {
                    let w = rng.word() & !PRESENT;
                    board.put(page << 12 | index << 2, w);
                }
            }
            for page in self.fixed.clone() {
                for index in [rng.below(16), 1023, rng.below(1024)] {
                    board.entry(page, index, page, rng.pick(&[2, 6]), 0);
                }
            }
        }
        self.lay_tables(rng, board, style);
        let code = if dense { self.lay_programs(rng, board) } else { Vec::new() };
        for (n, &k) in self.cores.iter().enumerate() {
            self.lay_core(rng, board, style, k);
            if let Some(&pc) = code.get(n) {
                board.t[block(k) + PC] = pc;
                // Mostly the program can be run at once.
                let (page, own) = (pc >> 12, self.data().contains(&(pc >> 12)) || self.reads.contains(&(pc >> 12)));
                if own && rng.chance(90) {
                    let space = board.t[block(k) + ASID] & 63;
                    board.hold(k, Walk::new(page, space, 0, USER | EXECUTE, page));
                }
            }
        }
    }

    fn lay_tables(&self, rng: &mut Rng, board: &mut Board, style: Style) {
        let dense = style == Style::Dense;
        let count = |rng: &mut Rng, many: u32| if dense { many } else { rng.below(3) };
        let low = |rng: &mut Rng| match rng.below(4) {
            0 => 0,
            1 => rng.below(256),
            _ => rng.below(2) * ACCESSED,
        };
        for &table in &self.tables() {
            let (first, second) = (self.first.contains(&table), self.second.contains(&table));
            if first && !self.second.is_empty() {
                // Index 0 leads to the low virtual pages.
                let more: Vec<u32> = (0..count(rng, 3)).map(|_| rng.pick(&[1023, 0x200, 1, 0])).collect();
                for index in [&[0][..], &more[..]].concat() {
                    let page = rng.pick(&self.second);
                    let rights = rng.below(8) & if second { !WRITE } else { 7 };
                    if dense || rng.chance(75) {
                        let low = low(rng);
                        board.entry(table, index, page, rights, low);
                    }
                }
            }
            if second && !first {
                let mut pages = [self.data(), self.reads.clone()].concat();
                if !dense {
                    shuffle(rng, &mut pages);
                    pages.truncate(rng.below(4) as usize);
                }
                for page in pages {
                    if dense && rng.chance(10) {
                        continue;
                    }
                    let rights = self.rights(rng, page, style);
                    let index = if dense || rng.chance(50) { page } else { rng.pick(&[0, 1023, 0x200, 1]) };
                    let low = low(rng);
                    board.entry(table, index, page, rights, low);
                }
                for _ in 0..count(rng, 2) {
                    // A high virtual page, also one that is a table, to read.
                    let from = [self.data(), self.reads.clone(), self.tables()].concat();
                    let page = rng.pick(&from);
                    let rights = self.rights(rng, page, style);
                    let index = rng.pick(&[1023, 0x200, 0x3F0]);
                    let low = low(rng);
                    board.entry(table, index, page, rights, low);
                }
            }
            // An absent entry may name any page.
            if !dense && rng.chance(40) {
                let page = if rng.chance(50) { beyond(rng, board.pages()) } else { rng.below(board.pages()) };
                let index = 2 + rng.below(1021);
                if crate::ways::entry(&board.m, table, index) == Some(0) {
                    board.put(table << 12 | index << 2, page << 12 | rng.below(8) << 8 | rng.below(256));
                }
            }
        }
    }

    fn lay_core(&self, rng: &mut Rng, board: &mut Board, style: Style, k: usize) {
        let dense = style == Style::Dense;
        let b = block(k);
        if dense {
            for x in (1..32).chain(SPR..SPR + 32) {
                board.t[b + x] = rng.value();
            }
            for x in 5..8 {
                // Worth writing to a table, where that is possible.
                board.t[b + x] = rng.below(board.pages()) << 12 | 0xF << 8 | ACCESSED;
            }
            board.t[b + HI] = rng.value();
            board.t[b + LO] = rng.value();
            board.t[b + SR] = rng.pick(&[0, 0, 0, 2, 0x82, 0x80]);
            for word in [ICR_LOW, ICR_HIGH, EOI] {
                board.t[b + word] = rng.word();
            }
            if rng.chance(5) {
                board.t[b + IRR + rng.below(8) as usize] = 1 << rng.below(32);
            }
            if rng.chance(20) {
                board.t[b + ISR + rng.below(8) as usize] = 1 << rng.below(32);
            }
            board.t[b + SIPIVECT] = rng.below(256);
            board.t[b + SIPIRR] = rng.below(2);
            board.t[b + INITRR] = rng.below(2);
            // Pointers: 8 to 11 to write by, 12 to 15 to read by.
            let all: Vec<u32> = (0..board.pages()).collect();
            let read = [self.data(), self.reads.clone()].concat();
            for x in 8..16 {
                let from = match rng.below(40) {
                    0 => &all,
                    _ if x < 12 && !self.writable.is_empty() => &self.writable,
                    _ if !read.is_empty() => &read,
                    _ => &all,
                };
                board.t[b + x] = rng.pick(from) << 12 | rng.pick(&[0, 0x10, 0x20, 0x7F8, 0xFF0, 0x100]);
            }
        }
        board.t[b + RUNNING] = 1;
        board.t[b + MODE] = if rng.chance(80) { 1 } else { rng.word() | 1 };
        board.t[b + PTO] = rng.pick(&self.first) << 12 | if rng.chance(30) { rng.below(4096) } else { 0 };
        let asid = rng.below(64);
        if dense || rng.chance(20) {
            board.t[b + ASID] = asid | if rng.chance(20) { rng.word() & !63 } else { 0 };
        }

        // Walks.
        let space = board.t[b + ASID] & 63;
        let data = [self.data(), self.reads.clone()].concat();
        if dense {
            for &page in &data {
                if rng.chance(if self.data().contains(&page) { 85 } else { 50 }) {
                    let rights = self.rights(rng, page, style);
                    board.hold(k, Walk::new(page, space, 0, rights, page));
                }
            }
        }
        let many = if dense { rng.pick(&[1, 2, 3, 4, 5, 16]) } else { rng.below(5) };
        for _ in 0..many {
            let level = rng.below(3);
            let from = match level {
                2 => self.first.clone(),
                1 => self.second.clone(),
                _ => [&data[..], &self.tables()[..]].concat(),
            };
            let Some(base) = any(rng, &from) else { continue };
            let rights = if level == 0 { self.rights(rng, base, style) } else { rng.below(8) };
            let va = match rng.below(3) {
                0 => rng.below(board.pages()),
                1 => rng.pick(&[0x3FF, 0x200, 0xFFFFF, 0x3F0, 0x80200]),
                _ => rng.below(1 << 20),
            };
            let asid = if rng.chance(80) { space } else { rng.below(64) };
            board.hold(k, Walk::new(va, asid, level, rights, base));
        }

        // Pending stores.
        for _ in 0..rng.pick(&[0, 0, 0, 1, 1, 2, 3]) {
            if let Some(page) = any(rng, &self.writable) {
                self.pend(rng, board, k, page);
            }
        }
    }

    /// A core that does not run, in any mode, which may hold anything.
    pub fn lay_idle(rng: &mut Rng, board: &mut Board, k: usize, style: Style) {
        let b = block(k);
        let all: Vec<u32> = (0..board.pages()).collect();
        let (first, second, writable) = (all.clone(), all.clone(), all);
        let side = Side { cores: vec![k], first, second, writable, fixed: Vec::new(), reads: Vec::new() };
        side.lay_core(rng, board, style, k);
        board.t[b + RUNNING] = 0;
        board.t[b + MODE] = rng.word();
        if rng.chance(30) {
            board.t[b + PTO] = rng.word();
        }
        let w = Walk::new(rng.below(1 << 20), rng.below(64), rng.below(3), rng.below(8), beyond(rng, board.pages()));
        if style == Style::Dense || rng.chance(40) {
            board.hold(k, w);
        }
        board.t[b + PC] = rng.word();
    }

    fn pend(&self, rng: &mut Rng, board: &mut Board, k: usize, page: u32) {
        let width = rng.pick(&[1, 2, 4, 4]);
        let offset = rng.pick(&[0, 0x10, 0x11, 0x12, 0x20, 0x7F8, 0xFFC, 0xFFE, 0xFFF, 0x100]) & !(width - 1);
        let value = rng.value();
        board.pend(k, page << 12 | offset, value, width);
    }

    /// A program for each core in the side's own data pages; answers the pcs,
    /// in virtual pages of the same number.
    fn lay_programs(&self, rng: &mut Rng, board: &mut Board) -> Vec<u32> {
        let mut pcs = Vec::new();
        for n in 0..self.cores.len() as u32 {
            // Mostly in a page that nobody writes.
            let from = if self.fixed.is_empty() || rng.chance(15) { &self.writable } else { &self.fixed };
            let Some(page) = any(rng, from) else {
                pcs.push(rng.below(board.pages()) << 12);
                continue;
            };
            let at = page << 12 | (0x400 + 0x100 * n);
            let mut words = Vec::new();
            while words.len() < 24 {
                let i = instruction(rng, at, !self.writable.is_empty());
                words.push(i);
                if isa::decode(i) == Some(Op::Lw) && isa::imm(i) == 0 && isa::rs(i) < 12 && rng.chance(70) {
                    // A cas that finds what was just read, if nobody came between.
                    let rt = 1 + rng.below(7);
                    words.push(assemble(Op::Mfence, 0, 0, 0, 0));
                    words.push(assemble(Op::Cas, isa::rs(i) as u32, rt, isa::rt(i) as u32, 0));
                }
            }
            words.truncate(8 + rng.below(20) as usize);
            let length = words.len() as u32;
            for (i, w) in (0..).zip(words) {
                board.put(at + 4 * i, w);
            }
            board.put(at + 4 * length, 0x1000_0000 | length.wrapping_neg() & 0xFFFF); // beq r0 r0, back
            pcs.push(at);
        }
        // A core may run where others read: their programs then are its own.
        if let Some(page) = any(rng, &self.reads).filter(|_| rng.chance(10)) {
            pcs[0] = page << 12 | 0x400;
        }
        pcs
    }

    // ------------------------------------------------------------ breaking

    /// Leads core k to a page by a way. `rights` count where a walk or entry
    /// has some. False if this side has no table to put the entry in.
    pub fn lead(&self, rng: &mut Rng, board: &mut Board, k: usize, page: u32, way: Way, rights: u32) -> bool {
        let b = block(k);
        let space = board.t[b + ASID] & 63;
        let va = if rng.chance(50) { page } else { rng.pick(&[0x3FF, 0xFFFFF, 0x201]) };
        let low = rng.pick(&[0, ACCESSED]);
        match way {
            Way::Pto => board.t[b + PTO] = page << 12,
            Way::Walk2 => board.hold(k, Walk::new(va, space, 2, rights, page)),
            Way::Walk1 => board.hold(k, Walk::new(va, space, 1, rights, page)),
            Way::Complete => board.hold(k, Walk::new(va, space, 0, rights, page)),
            Way::Store if page < board.pages() => self.pend(rng, board, k, page),
            Way::Store => {
                let a = page << 12 | if page == 0xFFFFE { rng.pick(&[0, 4]) } else { 4 * rng.below(32) };
                if !in_ports(a) {
                    return false;
                }
                let value = rng.pick(&[0, 1, 5, 23, 24, 0x1234_5678]);
                board.pend(k, a, value, 4);
            }
            Way::FirstEntry => {
                let table = board.t[b + PTO] >> 12;
                if table >= board.pages() {
                    return false;
                }
                board.entry(table, rng.pick(&[0, 1023, 7]), page, rights, low);
            }
            Way::SecondEntry => {
                let Some(table) = any(rng, &self.second).filter(|&table| table < board.pages()) else {
                    return false;
                };
                let index = if rng.chance(50) { page & 1023 } else { rng.pick(&[0, 1023, 7]) };
                board.entry(table, index, page, rights, low);
            }
        }
        true
    }
}

const WRITING: [Way; 3] = [Way::SecondEntry, Way::Complete, Way::Store];
const TABLING: [Way; 4] = [Way::Pto, Way::Walk2, Way::FirstEntry, Way::Walk1];

/// Tries to break one condition; who asks looks whether it alone fails now.
/// `way`, if given, is the way to break it by. `far` is the page beyond
/// memory, where one is needed.
pub fn spoil(
    rng: &mut Rng,
    board: &mut Board,
    group: &Side,
    rest: &Side,
    condition: Condition,
    way: Option<Way>,
    far: u32,
) -> bool {
    use Condition::*;
    let side = match condition {
        GroupStopped | GroupSystem | GroupBeyond | GroupMixed => group,
        _ => rest,
    };
    let Some(k) = any(rng, &side.cores) else { return false };
    let b = block(k);
    let writing = way.filter(|w| WRITING.contains(w)).unwrap_or_else(|| rng.pick(&WRITING));
    let tabling = way.filter(|w| TABLING.contains(w)).unwrap_or_else(|| rng.pick(&TABLING));
    let grants = rng.pick(&[1, 3, 7, 5]);
    let group_pages = [group.tables(), group.data()].concat();
    match condition {
        GroupStopped => board.t[b + RUNNING] = 0,
        GroupSystem | RestSystem => board.t[b + MODE] = if rng.chance(60) { 0 } else { rng.word() & !1 },
        GroupBeyond | RestBeyond => {
            let way = way.unwrap_or_else(|| rng.pick(&[Way::Complete, Way::Complete, Way::SecondEntry, Way::Store]));
            let far = if way == Way::Store { rng.pick(&[0xFFFFF, 0xFFFFE]) } else { far };
            let rights = rng.pick(&[7, 7, 2, 3, 0]);
            if !side.lead(rng, board, k, far, way, rights) {
                return false;
            }
            if far == 0xFFFFE {
                // Something to use the ports with.
                for x in 8..10 {
                    board.t[b + x] = 0xFFFF_E000 | rng.pick(&[0, 4]);
                }
            }
        }
        GroupMixed | RestMixed => {
            // A table page becomes writable, or a writable page a table.
            let tables = side.tables();
            let from_table = rng.chance(70) || side.writable.is_empty();
            let page = rng.pick(if from_table { &tables } else { &side.writable });
            // Pointers to entries of low virtual pages.
            for x in 9..11 {
                board.t[b + x] = page << 12 | (4 * rng.below(board.pages()));
            }
            let tabled = from_table && way.is_none_or(|way| way == writing);
            return (tabled || side.lead(rng, board, k, page, tabling, 7))
                && side.lead(rng, board, k, page, writing, grants);
        }
        RestWrites => {
            let page = rng.pick(&group_pages);
            return rest.lead(rng, board, k, page, writing, grants);
        }
        RestTables => {
            let page = rng.pick(&group_pages);
            let rights = rng.pick(&[0, 2, 7]);
            return rest.lead(rng, board, k, page, tabling, rights);
        }
    }
    true
}

// ---------------------------------------------------------------- programs

/// An instruction for user mode: values in registers 1 to 7, pointers in 8
/// to 15, those to write by first. `start` is where the program starts.
fn instruction(rng: &mut Rng, start: u32, writes: bool) -> u32 {
    let pointer = 8 + rng.below(8);
    let writer = 8 + rng.below(4);
    let mut scratch = || 1 + rng.below(7);
    let (rs, rt, rd) = (scratch(), scratch(), scratch());
    match rng.below(100) {
        0..=21 => {
            let op = rng.pick(&[Op::Lw, Op::Lw, Op::Lw, Op::Lh, Op::Lhu, Op::Lb, Op::Lbu]);
            let from = if rng.chance(50) { pointer } else { writer };
            let imm = if op == Op::Lw && rng.chance(50) { 0 } else { displacement(rng, op) };
            assemble(op, from, rt, 0, imm)
        }
        22..=45 if writes || rng.chance(5) => {
            let op = rng.pick(&[Op::Sw, Op::Sw, Op::Sw, Op::Sh, Op::Sb]);
            assemble(op, writer, rt, 0, displacement(rng, op))
        }
        46..=49 if writes => assemble(Op::Cas, writer, rt, rd, 0),
        52..=53 => assemble(Op::Mfence, 0, 0, 0, 0),
        22..=75 => {
            const OPS: [Op; 12] = [
                Op::Addi,
                Op::Addiu,
                Op::Slti,
                Op::Sltiu,
                Op::Andi,
                Op::Ori,
                Op::Xori,
                Op::Lui,
                Op::Add,
                Op::Subu,
                Op::Nor,
                Op::Sltu,
            ];
            assemble(rng.pick(&OPS), rs, rt, rd, rng.below(0x1_0000))
        }
        76..=85 => {
            const OPS: [Op; 10] =
                [Op::Sll, Op::Sra, Op::Srlv, Op::Mfhi, Op::Mflo, Op::Mthi, Op::Mult, Op::Maddu, Op::Msub, Op::Mul];
            assemble(rng.pick(&OPS), rs, rt, rd, 0)
        }
        86..=92 => {
            let op = rng.pick(&[Op::Beq, Op::Bne, Op::Bltz, Op::Bgez, Op::Blez, Op::Bgtz]);
            assemble(op, rs, rt, 0, rng.pick(&[1, 2, 3]))
        }
        93..=96 if rng.chance(95) => assemble(Op::Addi, pointer, pointer, 0, rng.pick(&[4, 0xFFFC])),
        93..=96 => assemble(Op::Addi, pointer, pointer, 0, rng.pick(&[0x1000, 0xF000])),
        97 => isa::row(Op::J).opcode << 26 | start >> 2 & 0x03FF_FFFF,
        98 if rng.chance(10) => assemble(Op::Jalr, writer, 0, 31, 0), // to data, if that can be run
        98 => assemble(Op::Sltu, rs, rt, rd, 0),
        _ if rng.chance(60) => assemble(Op::Addi, rs, rt, 0, 1),
        _ => rng.pick(&[0x0000_000C, 0x4200_0018, 0xFFFF_FFFF, 0x0000_0001]), // sysc, eret, illegal
    }
}

/// Mostly a multiple of the width.
fn displacement(rng: &mut Rng, op: Op) -> u32 {
    let d = rng.pick(&[0, 0, 4, 8, 0xC, 1, 2, 3, 5, 6]);
    if rng.chance(99) {
        d & !(isa::width(op) - 1)
    } else {
        d
    }
}

fn assemble(op: Op, rs: u32, rt: u32, rd: u32, imm: u32) -> u32 {
    let row = isa::row(op);
    let upper = row.opcode << 26 | row.rs.unwrap_or(rs) << 21 | row.rt.unwrap_or(rt) << 16;
    match row.fun {
        Some(fun) => upper | rd << 11 | fun,
        None => upper | imm & 0xFFFF,
    }
}
