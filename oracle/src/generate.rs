//! Vectors from a seed: machines that look for edges, schedules biased
//! towards accepted steps with garbage between, and damaged tables.
//!
//! The counts of what has occurred so far steer which instructions are laid
//! out next, so that the rare ones catch up. All is fixed by the seed.

use crate::counts::{Counts, SUMS};
use crate::isa::{self, Op, Row, ROWS};
use crate::machine::*;
use crate::refusals::{draw_counts, refusals};
use crate::soundness::*;
use crate::vectors::{answer_steps, Machine, Vector};

const LONG_VECTORS: usize = 1650;
const CROSSED_VECTORS: usize = 2800;
const DAMAGED_EACH: usize = 24;
/// Each row on sums and differences occurs so often at least.
const SUMS_EACH: u64 = 24;
/// And each row on refusal counts.
const REFUSALS_EACH: u64 = 24;

// ---------------------------------------------------------------- numbers

/// splitmix64.
pub struct Rng(u64);

impl Rng {
    pub fn new(seed: u64) -> Rng {
        Rng(seed)
    }
    fn draw(&mut self) -> u64 {
        self.0 = self.0.wrapping_add(0x9E37_79B9_7F4A_7C15);
        let mut z = self.0;
        z = (z ^ z >> 30).wrapping_mul(0xBF58_476D_1CE4_E5B9);
        z = (z ^ z >> 27).wrapping_mul(0x94D0_49BB_1331_11EB);
        z ^ z >> 31
    }
    pub fn word(&mut self) -> u32 {
        (self.draw() >> 32) as u32
    }
    /// 0 to n - 1.
    pub fn below(&mut self, n: u32) -> u32 {
        ((self.word() as u64 * n as u64) >> 32) as u32
    }
    /// True in `percent` of 100 cases.
    pub fn chance(&mut self, percent: u32) -> bool {
        self.below(100) < percent
    }
    pub fn pick<T: Copy>(&mut self, from: &[T]) -> T {
        from[self.below(from.len() as u32) as usize]
    }
    /// An index, by weight.
    pub fn weighted(&mut self, weights: &[u32]) -> usize {
        let mut x = self.below(weights.iter().sum());
        for (i, &w) in weights.iter().enumerate() {
            if x < w {
                return i;
            }
            x -= w;
        }
        unreachable!()
    }
    /// A register value near an edge, or any.
    pub fn value(&mut self) -> u32 {
        const EDGES: [u32; 20] = [
            0,
            1,
            2,
            3,
            4,
            5,
            31,
            32,
            0x7FFF,
            0x8000,
            0xFFFF,
            0x1_0000,
            0x7FFF_FFFE,
            0x7FFF_FFFF,
            0x8000_0000,
            0x8000_0001,
            0xFFFF_8000,
            0xFFFF_FFFD,
            0xFFFF_FFFE,
            0xFFFF_FFFF,
        ];
        match self.below(10) {
            0..=5 => self.pick(&EDGES),
            6 => self.below(256),
            _ => self.word(),
        }
    }
    /// A refusal count near an edge, or any.
    pub fn count(&mut self) -> u32 {
        match self.below(10) {
            0..=2 => 0,
            3 => 1,
            4 | 5 => 0xFFFF_FFFF,
            6 => 0xFFFF_FFFE,
            7 => self.pick(&[0xFF, 0xFFFF, 0x00FF_FFFF, 0x7FFF_FFFF, 0xFFFE_FFFF, 0xFFFF_FFFD]),
            8 => self.below(100),
            _ => self.word(),
        }
    }
}

// ---------------------------------------------------------------- machines

/// A machine being built, and what the builder knows about it.
struct Builder<'a> {
    rng: &'a mut Rng,
    counts: &'a Counts,
    cores: usize,
    pages: u32,
    t: Vec<u32>,
    m: Vec<u8>,
    /// Virtual pages in use, with the pages they mostly lead to.
    map: Vec<(u32, u32)>,
    /// Page of the first-level table.
    first: u32,
    /// Where programs start, in memory.
    code: Vec<u32>,
    /// Offset in a page around which data accesses crowd, and the page.
    hot: u32,
    hot_page: u32,
    /// Most machines are set up to run on for a while; wild ones are not.
    wild: bool,
    /// Vectors that this machine uses mostly.
    vectors: [u32; 3],
    /// Programs often add, addi and sub what does not fit. Those of the groups
    /// file, which nobody runs, do not.
    overflows: bool,
}

// Registers by use: values in 1 to 7, addresses in 8 to 15.
const POINTERS: u32 = 8;
const REGISTERS: u32 = 16;

impl<'a> Builder<'a> {
    fn new(rng: &'a mut Rng, counts: &'a Counts, cores: usize, pages: u32) -> Builder<'a> {
        let (mut t, m) = (vec![0; table_words(cores)], vec![0; pages as usize * PAGE]);
        make(cores as u32, &mut t, &m).expect("in range");
        let hot = rng.pick(&[0x100, 0x180, 0xFF0, 0x7F8, 0x140]);
        let hot_page = rng.below(pages);
        let wild = rng.chance(22);
        let vectors = [0, 1, 2].map(|_| rng.pick(&[0, 1, 5, 9, 31, 32, 33, 64, 200, 254, 255]));
        Builder {
            rng,
            counts,
            cores,
            pages,
            t,
            m,
            map: Vec::new(),
            first: 0,
            code: Vec::new(),
            hot,
            hot_page,
            wild,
            vectors,
            overflows: false,
        }
    }

    fn machine(self) -> Machine {
        debug_assert_eq!(sound(&self.t, &self.m), Ok(()));
        Machine { cores: self.cores as u8, pages: self.pages as u8, damage: 0, tables: self.t, memory: self.m }
    }

    /// Adds a walk as the machine does, unless it is held.
    fn hold(&mut self, b: usize, w: Walk) {
        if held(&self.t, b, w) {
            return;
        }
        let n = self.t[b + FREE];
        let r = record(b, n);
        self.t[b + FREE] = self.t[r];
        self.t[r] = self.t[b + WALKS];
        self.t[r + 1] = w.first;
        self.t[r + 2] = w.base;
        self.t[b + WALKS] = n;
    }

    /// Adds a pending store as the machine does.
    fn pend(&mut self, b: usize, a: u32, value: u32, width: u32) {
        let mut link = b + STORES;
        while self.t[link] != 0 {
            link = record(b, self.t[link]);
        }
        let n = self.t[b + FREE];
        let r = record(b, n);
        self.t[b + FREE] = self.t[r];
        self.t[link] = n;
        self.t[r] = 0;
        self.t[r + 1] = a;
        self.t[r + 2] = if width == 4 { value } else { value & ((1 << (8 * width)) - 1) };
        self.t[r + 3] = width;
    }

    /// A page in memory, now and then one beyond or at the ports.
    fn page(&mut self) -> u32 {
        match self.rng.below(if self.wild { 12 } else { 50 }) {
            0 => self.pages,
            1 => self.rng.pick(&[0xFFFFF, 0xFFFFE, 0x80000, 0x1000, 0xFFF]),
            _ => self.rng.below(self.pages),
        }
    }

    fn entry(&mut self, page: u32) -> u32 {
        let present = self.rng.chance(if self.wild { 75 } else { 90 }) as u32;
        let accessed = self.rng.chance(55) as u32;
        let plain = !self.wild && self.rng.chance(70);
        let rights = if plain { 7 } else { self.rng.pick(&[7, 7, 7, 6, 6, 3, 3, 2, 5, 4, 1, 0]) };
        let low = if self.rng.chance(12) { self.rng.below(128) } else { 0 };
        page << 12 | present << 11 | rights << 8 | accessed << 7 | low
    }

    fn put(&mut self, a: u32, w: u32) {
        let a = a as usize;
        if a + 4 <= self.m.len() {
            self.m[a..a + 4].copy_from_slice(&w.to_le_bytes());
        }
    }

    /// Page tables for a few virtual pages. Often page n is virtual page n:
    /// then a core that returns from an interrupt into user mode goes on.
    /// With one page, word 0 can serve both levels and as an instruction.
    fn page_tables(&mut self) {
        let identity = self.rng.chance(if self.wild { 20 } else { 75 });
        let low = (self.pages > 1 && !self.wild) as u32; // keep page 0 for the handler
        let table_page = |b: &mut Self| {
            if b.rng.chance(95) {
                low + b.rng.below(b.pages - low)
            } else {
                b.page()
            }
        };
        self.first = table_page(self);
        let second = table_page(self);
        if identity {
            for va in 0..self.pages.min(5) {
                self.map.push((va, va));
            }
        }
        let upper = self.rng.pick(&[0x3FF, 0x200, 0x2A5, 0x1, 0x3F0]);
        for n in 0..self.rng.below(3) + 2 * !identity as u32 {
            let (i2, i1) = if self.rng.chance(80) {
                (upper, self.rng.pick(&[0x3FF, 0x200, 0x3FE, 0x280, 0x300]) - n % 2)
            } else {
                (self.rng.below(1024), self.rng.below(1024))
            };
            let (va, page) = (i2 << 10 | i1, self.page());
            if self.map.iter().all(|(v, _)| *v != va) {
                self.map.push((va, page));
            }
        }
        // Port pages lie at their own addresses, where mapped.
        for page in [0xFFFFE, 0xFFFFF] {
            if self.rng.chance(25) {
                self.map.push((page, page));
            }
        }
        // The page of the first program is mapped, most of the time.
        if !identity && self.rng.chance(85) {
            self.map[0].1 = self.code[0] >> 12;
        }
        let mut tops = Vec::new();
        for (va, page) in self.map.clone() {
            if !tops.contains(&(va >> 10)) {
                tops.push(va >> 10);
                let table = if self.rng.chance(90) { second } else { self.page() };
                let mut entry = self.entry(table);
                if !self.wild && self.rng.chance(80) {
                    entry |= 0xF << 8; // present, all rights
                }
                self.put(self.first << 12 | va >> 10 << 2, entry);
            }
            let top = word(&self.m, self.first << 12 | va >> 10 << 2);
            if let Some(table) = top.map(pte_base).filter(|&t| t < self.pages) {
                let entry = self.entry(page);
                self.put(table << 12 | (va & 1023) << 2, entry);
            }
        }
    }

    /// A virtual page, mostly one in use.
    fn va(&mut self) -> u32 {
        match self.rng.below(if self.wild { 10 } else { 40 }) {
            0 => self.rng.below(1 << 20),
            1 => self.rng.pick(&[0, 1, 0xFFFFF, 0x3FF, 0x400]),
            _ => self.rng.pick(&self.map.clone()).0,
        }
    }

    /// An offset in a page for a data access.
    fn offset(&mut self) -> u32 {
        match self.rng.below(10) {
            0..=5 => ((self.hot & !7) + self.rng.pick(&[0, 0, 1, 2, 3, 4, 4, 5, 6, 7, 8, 12])) & 0xFFF,
            6 => self.rng.pick(&[0xFFC, 0xFFE, 0xFFF, 0xFFD, 0xFF8]),
            7 => self.rng.pick(&[0x10, 0x11, 0x12, 0x13, 0x14]),
            _ => self.rng.below(0x1000),
        }
    }

    /// An address for data: virtual or physical.
    fn address(&mut self, user: bool) -> u32 {
        match self.rng.below(20) {
            0 | 1 => self.port(),
            2 => (self.pages << 12).wrapping_add(self.rng.pick(&[0, 4, 0xFFFF_FFFC, 0xFFFF_FFFE, 0xFFFF_FFFF])),
            3 if self.rng.chance(40) => self.rng.pick(&[0xFFFF_FFFC, 0x8000_0000, 0x0100_0000, 0xFFFF_D000]),
            _ => {
                let hot = self.rng.chance(60);
                let there = self.map.iter().find(|(_, page)| *page == self.hot_page).map(|(va, _)| *va);
                let page = match (user, hot, there) {
                    (true, true, Some(va)) => va,
                    (true, _, _) => self.va(),
                    (false, true, _) => self.hot_page,
                    (false, false, _) => self.rng.below(self.pages),
                };
                page << 12 | self.offset()
            }
        }
    }

    fn port(&mut self) -> u32 {
        match self.rng.below(12) {
            0..=4 => 0xFFFF_F000 + self.rng.pick(&[0, 4, 4, 8, 12, 12, 12, 12, 12, 16, 20, 48, 52, 76, 120, 124]),
            5 => 0xFFFF_F000 + self.rng.pick(&[1, 2, 3, 6, 125, 126, 127, 128, 132, 0xFFC]),
            6..=9 => 0xFFFF_E000 + self.rng.pick(&[0, 4]),
            10 => 0xFFFF_E000 + self.rng.pick(&[1, 2, 3, 5, 6, 7, 8, 12, 0xFFC]),
            _ => 0xFFFF_F000 + 4 * self.rng.below(32),
        }
    }

    /// A word that is worth writing to a port: an ICR, a selector, an entry.
    fn port_value(&mut self) -> u32 {
        match self.rng.below(4) {
            0 => self.icr(),
            1 => self.rng.below(26),
            2 => self.redirect(),
            _ => self.rng.value(),
        }
    }

    fn icr(&mut self) -> u32 {
        let dm = if self.rng.chance(92) { self.rng.pick(&[0b000, 0b101, 0b110]) } else { self.rng.below(8) };
        let destmode = self.rng.chance(90) as u32;
        let ds = self.rng.chance(92) as u32;
        let shorthand = if self.rng.chance(40) { 0 } else { self.rng.below(4) };
        let noise = if self.rng.chance(15) { self.rng.word() & 0xFFF0_E000 } else { 0 };
        // A core that starts at 0 finds the handler.
        let vector = if dm == 0b110 && self.rng.chance(60) { 0 } else { self.vector() };
        noise | shorthand << 18 | ds << 12 | destmode << 11 | dm << 8 | vector
    }

    fn vector(&mut self) -> u32 {
        if self.rng.chance(80) {
            self.rng.pick(&self.vectors.clone())
        } else {
            self.rng.below(256)
        }
    }

    fn apic_id(&mut self) -> u32 {
        if self.rng.chance(85) {
            self.rng.below(self.cores as u32)
        } else {
            self.rng.below(256)
        }
    }

    fn redirect(&mut self) -> u32 {
        let mask = self.rng.chance(12) as u32;
        let rirr = self.rng.chance(30) as u32;
        let ds = self.rng.chance(45) as u32;
        let noise = if self.rng.chance(15) { self.rng.word() & 0x00FE_AF00 } else { 0 };
        noise | self.apic_id() << 24 | mask << 16 | rirr << 14 | ds << 12 | self.vector()
    }

    // ------------------------------------------------------------ programs

    /// The instruction to lay out next: half at random, half the one that
    /// has occurred least.
    fn op(&mut self) -> Option<Op> {
        match self.rng.below(20) {
            0..=6 => Some(ROWS[self.rng.below(61) as usize].op),
            7..=10 => Some(self.rarest("effect")),
            11..=13 => Some(self.rng.pick(&[Op::Lw, Op::Lw, Op::Lw, Op::Lh, Op::Lbu, Op::Lb, Op::Lhu])),
            14..=16 => Some(self.rng.pick(&[Op::Sw, Op::Sh, Op::Sb, Op::Sw, Op::Sw])),
            17 if self.overflows => Some(self.rng.pick(&SUMS)),
            17 => Some(self.rng.pick(&[Op::Addu, Op::Subu, Op::Addiu])),
            18 => Some(self.rng.pick(&[Op::Cas, Op::Cas, Op::Mfence, Op::Eret, Op::Movg2s, Op::Sysc])),
            _ if self.rng.chance(60) => None,
            _ => Some(self.rng.pick(&[Op::Movg2s, Op::Movs2g, Op::Flush])),
        }
    }

    /// The instruction that took effect, or was interrupted, least often.
    fn rarest(&mut self, section: &'static str) -> Op {
        let turn = self.rng.below(61) as usize;
        let rows = (0..61).map(|i| &ROWS[(i + turn) % 61]);
        rows.min_by_key(|r| self.counts.get(section, r.name)).expect("61 rows").op
    }

    fn scratch(&mut self) -> u32 {
        match self.rng.below(20) {
            0 => 0,
            1 => self.rng.below(32),
            _ => 1 + self.rng.below(7),
        }
    }

    fn pointer(&mut self) -> u32 {
        POINTERS + self.rng.below(REGISTERS - POINTERS)
    }

    /// An instruction word, with operands that suit it.
    fn instruction(&mut self, b: usize, user: bool) -> u32 {
        match self.op() {
            Some(op) => self.instruction_of(op, b, user),
            None => self.illegal(),
        }
    }

    fn instruction_of(&mut self, op: Op, b: usize, user: bool) -> u32 {
        let row = isa::row(op);
        let (mut rs, mut rt, mut rd) = (self.scratch(), self.scratch(), self.scratch());
        let mut imm = if self.rng.chance(50) {
            self.rng.pick(&[0, 1, 2, 4, 0x7FFF, 0x8000, 0xFFFF])
        } else {
            self.rng.word() & 0xFFFF
        };
        let mut low = self.rng.below(32) << 6;
        match op {
            _ if isa::load(op) || isa::store(op) => {
                // Aim at an address that the pointer reaches, mostly aligned.
                rs = self.pointer();
                let port = isa::width(op) == 4 && self.rng.chance(28);
                let mut target = if port { self.port() } else { self.address(user) };
                if !self.rng.chance(if self.wild { 12 } else { 3 }) {
                    target &= !(isa::width(op) - 1);
                }
                let reached = target.wrapping_add(0x8000) < 0x1_0000;
                if reached && (port || !user && self.rng.chance(70)) {
                    rs = 0; // register 0 reaches low memory and the ports
                }
                if port && self.rng.chance(70) {
                    rt = 4; // what may be worth writing to a port
                }
                let base = self.t[b + rs as usize];
                imm = target.wrapping_sub(base);
                if imm.wrapping_add(0x8000) > 0xFFFF {
                    imm = self.rng.pick(&[0, 0, 4, 0xFFFC, 8]);
                }
                imm &= 0xFFFF;
                if isa::store(op) && self.rng.chance(30) {
                    rt = self.pointer();
                }
            }
            Op::Bltz | Op::Bgez | Op::Beq | Op::Bne | Op::Blez | Op::Bgtz => {
                imm = self.rng.pick(&[1, 2, 3, 4, 0xFFFF, 0xFFFE, 0xFFFD, 2]);
            }
            Op::J | Op::Jal => {
                // The four upper bits come from pc; the rest leads to code.
                let to = self.code_address(user);
                return row.opcode << 26 | to >> 2 & 0x03FF_FFFF;
            }
            Op::Jr | Op::Jalr => {
                rs = self.rng.pick(&[14, 15, 14, 15, 14, 3]);
                if self.rng.chance(35) {
                    rd = rs;
                }
            }
            _ if SUMS[if self.overflows { 0 } else { 3 }..].contains(&op) && self.rng.chance(70) => {
                // Registers 5 to 7 mostly hold what does not fit together.
                rs = 5 + self.rng.below(2);
                rt = if isa::compi(op) { rt } else { 5 + self.rng.below(3) };
                imm = self.rng.pick(&[1, 0xFFFF, 0x7FFF, 0x8000]);
            }
            Op::Cas => {
                rs = if self.rng.chance(12) { 12 } else { self.pointer() };
                match self.rng.below(4) {
                    0 => rd = rt,
                    1 => rd = (0..8).find(|&x| x > 0 && self.t[b + x as usize] == 0).unwrap_or(0),
                    _ => {}
                }
            }
            Op::Invlpg => rd = self.pointer(),
            Op::Movg2s => {
                rd = self.rng.pick(&[0, 1, 3, 3, 4, 5, 6, 7, 7, 7, 7, 7, 9, 31]);
                if rd == 3 && self.rng.chance(70) {
                    rt = self.rng.pick(&[14, 15]);
                }
                if rd == 7 && self.rng.chance(80) {
                    rt = 1 + self.rng.below(7);
                    if let Some(odd) = (1..8).map(|x| (x + rt) % 8).find(|&x| self.t[b + x as usize] & 1 == 1) {
                        rt = odd;
                    }
                }
            }
            Op::Movs2g => rd = self.rng.pick(&[0, 1, 2, 3, 4, 5, 6, 7, 8, 31]),
            _ => {}
        }
        if row.fun.is_some() && row.opcode == 0 && !matches!(op, Op::Sll | Op::Srl | Op::Sra) && self.rng.chance(80) {
            low = 0; // the shift amount is a free field here
        }
        self.assemble(row, rs, rt, rd, imm, low)
    }

    fn assemble(&mut self, row: &Row, rs: u32, rt: u32, rd: u32, imm: u32, low: u32) -> u32 {
        let rs = row.rs.unwrap_or(rs);
        let rt = row.rt.unwrap_or(rt);
        let upper = row.opcode << 26 | rs << 21 | rt << 16;
        match row.fun {
            Some(fun) => upper | rd << 11 | low | fun,
            None if matches!(row.op, Op::Movg2s | Op::Movs2g) => {
                let free = if self.rng.chance(50) { 0 } else { self.rng.below(0x800) };
                upper | rd << 11 | free
            }
            None => upper | imm,
        }
    }

    /// A word that matches no row, near one or any.
    fn illegal(&mut self) -> u32 {
        loop {
            let i = match self.rng.below(4) {
                0 => self.rng.word(),
                1 => self.rng.below(1 << 26) | self.rng.pick(&[1, 6, 7]) << 26,
                2 => 0b010000 << 26 | self.rng.pick(&[0b10000, 0b00001, 0b10100, 0b00101]) << 21 | self.rng.below(64),
                _ => self.rng.pick(&[0, 0b011100]) << 26 | self.rng.below(1 << 26),
            };
            if isa::decode(i).is_none() {
                return i;
            }
        }
    }

    /// Where code lies, as a virtual or physical address.
    fn code_address(&mut self, user: bool) -> u32 {
        let at = self.rng.pick(&self.code.clone());
        let at = at + 4 * self.rng.below(6);
        if user {
            let there: Vec<u32> = self.map.iter().filter(|(_, page)| *page == at >> 12).map(|(va, _)| *va).collect();
            if !there.is_empty() {
                return self.rng.pick(&there) << 12 | at & 0xFFF;
            }
            return self.va() << 12 | at & 0xFFF;
        }
        at
    }

    /// The interrupt handler at 0. Half of them return behind the interrupted
    /// instruction, the others to the program or to the instruction itself.
    fn handler(&mut self) {
        let b = block(self.rng.below(self.cores as u32) as usize);
        let mut words = Vec::new();
        if word(&self.m, 0) != Some(0) && !self.wild {
            words.push(word(&self.m, 0).unwrap_or(0)); // a table entry lies there
        }
        let quiet =
            [Op::Addi, Op::Ori, Op::Mfhi, Op::Sra, Op::Slt, Op::Lui, Op::Mtlo, Op::Movs2g, Op::Flush, Op::Invlpg];
        let style = self.rng.below(10);
        if style < 5 {
            words.push(0b010000 << 26 | 1 << 16 | 3 << 11); // movs2g r1 epc
            words.push(0x2021_0004); // addi r1 r1 4
            words.push(0b010000 << 26 | 0b00100 << 21 | 1 << 16 | 3 << 11); // movg2s epc r1
        } else if style < 8 {
            words.push(0b010000 << 26 | 0b00100 << 21 | 15 << 16 | 3 << 11); // movg2s epc r15
        } else if style == 8 {
            words.push(0b010000 << 26 | 0b00100 << 21 | 7 << 16 | 7 << 11); // movg2s mode r7
        }
        let more = if !(3..=7).contains(&style) { self.rng.below(4) } else { 0 };
        for _ in 0..more {
            let i = if self.wild {
                self.instruction(b, false)
            } else {
                let op = self.rng.pick(&quiet);
                self.instruction_of(op, b, false)
            };
            words.push(i);
        }
        words.push(0x4200_0018); // eret
        for (n, i) in words.into_iter().enumerate() {
            self.put(4 * n as u32, i);
        }
    }

    /// A program for core k, and its pc.
    fn program(&mut self, k: usize) {
        let b = block(k);
        let user = self.t[b + MODE] & 1 == 1;
        let length = 5 + self.rng.below(11);
        let shares = k > 0 && self.rng.chance(25);
        let at = if shares { self.code[0] } else { self.code[k] };
        let mut words = Vec::new();
        if self.t[b + SR] & 2 != 0 && external_event(&self.t, b).is_some() {
            // It will be interrupted: take what was interrupted least.
            let op = self.rarest("interrupted");
            words.push(self.instruction_of(op, b, user));
        }
        while words.len() < length as usize {
            let i = self.instruction(b, user);
            words.push(i);
            if isa::decode(i).is_some_and(isa::store) && self.rng.chance(60) {
                // Load what was just stored, or part of it, or around it.
                let op = self.rng.pick(&[Op::Lw, Op::Lw, Op::Lh, Op::Lhu, Op::Lb, Op::Lbu]);
                let near = isa::imm(i).wrapping_add(self.rng.pick(&[0, 0, 0, 0, 1, 2, 3, 0xFFFF]));
                let base = self.t[b + isa::rs(i)];
                let off = base.wrapping_add(near) & (isa::width(op) - 1);
                let rt = self.scratch();
                words.push(
                    isa::row(op).opcode << 26 | (isa::rs(i) as u32) << 21 | rt << 16 | near.wrapping_sub(off) & 0xFFFF,
                );
            }
        }
        if !self.wild || self.rng.chance(50) {
            // Back to the start: beq r0 r0.
            words.push(0x1000_0000 | (words.len() as u32).wrapping_neg() & 0xFFFF);
        }
        if !shares {
            for (n, &i) in words.iter().enumerate() {
                self.put(at + 4 * n as u32, i);
            }
        }
        let mut pc = at;
        if user {
            let there: Vec<u32> = self.map.iter().filter(|(_, page)| *page == at >> 12).map(|(va, _)| *va).collect();
            let va = if there.is_empty() { self.va() } else { self.rng.pick(&there) };
            pc = va << 12 | at & 0xFFF;
        }
        self.t[b + PC] = match self.rng.below(if self.wild { 20 } else { 80 }) {
            0 => pc + self.rng.pick(&[1, 2, 3]),
            1 => self.rng.pick(&[0xFFFF_F000, 0xFFFF_E000, 0xFFFF_E004, 0xFFFF_F07C, 0xFFFF_F080, 0xFFFF_FFFC]),
            2 => self.pages << 12,
            3 => (self.pages << 12) - 4,
            _ => pc,
        };
    }

    // ------------------------------------------------------------ a core's state

    fn core(&mut self, k: usize) {
        let b = block(k);
        let user = self.rng.chance(62);
        self.t[b + RUNNING] = self.rng.chance(90) as u32;
        self.t[b + MODE] = match (user, self.rng.below(12)) {
            (true, 0) => self.rng.word() | 1,
            (false, 0) => self.rng.word() & !1,
            (true, _) => 1,
            (false, _) => 0,
        };
        self.t[b + PTO] = self.first << 12 | if self.rng.chance(20) { self.rng.below(4096) } else { 0 };
        self.t[b + ASID] = match self.rng.below(8) {
            0 => self.rng.word(),
            1 => 63,
            2 => 64 + self.rng.below(3),
            _ => self.rng.below(3),
        };
        self.t[b + SR] = self.rng.pick(&[0, 0x82, 0x82, 0x82, 0x82, 0x02, 0xFFFF_FFFF, 0x80]);
        self.t[b + ESR] = self.rng.pick(&[0, 0x82, 0x82, 0x82, 0x02, 0x80]);
        self.t[b + HI] = self.rng.value();
        self.t[b + LO] = self.rng.value();
        for x in 1..POINTERS as usize {
            self.t[b + x] = self.rng.value();
        }
        if self.rng.chance(75) {
            self.t[b + 5] = self.rng.pick(&[0x7FFF_FFFF, 0x7FFF_8000, 0x7FFF_FFFE, 0x8000_0000]);
            self.t[b + 6] = self.rng.pick(&[0x8000_0000, 0x8000_0001, 0x8000_7FFF]);
            self.t[b + 7] = self.rng.pick(&[1, 0xFFFF_FFFF, 2, 0x8000_0000]);
        }
        if self.rng.chance(60) {
            self.t[b + 4] = self.port_value();
        }
        for x in POINTERS..REGISTERS {
            self.t[b + x as usize] = self.address(user) & if self.wild { u32::MAX } else { !3 };
        }
        if self.rng.chance(35) {
            self.t[b + 12] = self.port() & !3;
        }
        self.t[b + 14] = self.code_address(user);
        self.t[b + 15] = self.code_address(true);
        self.t[b + EPC] = self.code_address(true);
        if self.rng.chance(10) {
            for x in [17, 20, 31, SPR + 9, SPR + 31, EDATA, ECA] {
                self.t[b + x] = self.rng.value();
            }
        }
        self.stores(k);
        self.walks(k, user);
        self.apic(k);
    }

    /// Pending stores, put in as the machine does.
    fn stores(&mut self, k: usize) {
        let b = block(k);
        let full = self.rng.below(3);
        let count = self.rng.pick(&[0, 0, 0, 0, 1, 1, 2, 3, 5, 8 - full]);
        for _ in 0..count {
            let width = self.rng.pick(&[1, 2, 4, 4]);
            let mut a =
                if self.rng.chance(75) { self.rng.below(self.pages) << 12 | self.offset() } else { self.port() };
            a &= !(width - 1);
            if in_ports(a) && width < 4 && self.rng.chance(75) {
                a = self.rng.below(self.pages) << 12 | self.offset() & !(width - 1);
            }
            if !in_memory(self.m.len(), a, width) && !in_ports(a) {
                continue;
            }
            let value = match a {
                0xFFFF_E000 if self.rng.chance(60) => self.rng.below(26),
                _ if in_ports(a) => self.port_value(),
                _ => self.rng.value(),
            };
            self.pend(b, a, value, width);
        }
    }

    /// Walks at all levels, most in line with the tables.
    fn walks(&mut self, k: usize, user: bool) {
        let b = block(k);
        let mapped = self.map.len() as u32; // one complete walk each, for some
        let translated = if user && !self.wild { mapped } else { 0 };
        let few = if user { 2 + self.rng.below(4) } else { self.rng.below(3) };
        let count = if self.rng.chance(7) { 23 } else { translated + few };
        let space = self.t[b + ASID] & 63;
        let code_page = self.code[k] >> 12;
        for n in 0..count {
            let (mut va, mut page) = self.rng.pick(&self.map.clone());
            let mut level = self.rng.pick(&[0, 0, 1, 1, 1, 2]);
            if n < translated {
                (va, page) = self.map[n as usize];
                level = 0;
                // The page of code more often than the others.
                if !self.rng.chance(if page == code_page { 80 } else { 50 }) {
                    continue;
                }
            }
            if n > translated + 6 {
                va = self.rng.below(1 << 20);
            }
            let top = Walk::new(va, space, 2, 7, self.first).pte(&self.m);
            let base = match level {
                2 if self.rng.chance(92) => self.first,
                1 if self.rng.chance(85) => top.map_or(0, pte_base),
                0 if self.rng.chance(85) => page,
                _ => self.page(),
            };
            let rights = if self.rng.chance(if self.wild { 50 } else { 80 }) { 7 } else { self.rng.below(8) };
            let asid = if self.rng.chance(90) { space } else { self.rng.below(64) };
            self.hold(b, Walk::new(va, asid, level, rights, base));
        }
        if self.rng.chance(8) {
            self.shuffle_free(b);
        }
    }

    /// The free records in another order.
    fn shuffle_free(&mut self, b: usize) {
        let mut free = Vec::new();
        let mut n = self.t[b + FREE];
        while n != 0 {
            free.push(n);
            n = self.t[record(b, n)];
        }
        for i in (1..free.len()).rev() {
            free.swap(i, self.rng.below(i as u32 + 1) as usize);
        }
        self.t[b + FREE] = free.first().copied().unwrap_or(0);
        for (i, &n) in free.iter().enumerate() {
            self.t[record(b, n)] = free.get(i + 1).copied().unwrap_or(0);
        }
    }

    fn apic(&mut self, k: usize) {
        let b = block(k);
        if self.rng.chance(18) {
            self.t[b + APIC_ID] = self.rng.word() & 0xF0FF_FFFF | self.rng.below(4) << 24;
        }
        if self.rng.chance(55) {
            self.t[b + ICR_LOW] = self.icr();
            self.t[b + ICR_HIGH] = self.apic_id() << 24 | if self.rng.chance(10) { self.rng.word() >> 8 } else { 0 };
        }
        let bits = |percent: u32, at: usize, b: &mut Self| {
            while b.rng.chance(percent) {
                let v = b.vector() as usize;
                b.t[at + v / 32] |= 1 << (v % 32);
            }
        };
        bits(66, b + IRR, self);
        bits(24, b + ISR, self);
        bits(25, b + EOIPENDING, self);
        self.t[b + SIPIRR] = self.rng.chance(22) as u32;
        if self.rng.chance(30) {
            self.t[b + SIPIVECT] = if self.rng.chance(60) { 0 } else { self.rng.below(256) };
        }
        self.t[b + INITRR] = self.rng.chance(18) as u32;
    }

    fn header(&mut self) {
        self.t[LINES] = if self.rng.chance(50) { self.rng.word() >> 8 } else { 0 };
        self.t[IOREGSEL] = match self.rng.below(5) {
            0 | 1 => self.rng.pick(&[24, 25, 0xFFFF_FFFF, 0x8000_0000]),
            2 | 3 => self.rng.below(24),
            _ => 0,
        };
        if self.rng.chance(40) {
            self.t[IOWIN] = self.redirect();
        }
        for _ in 0..self.rng.below(7) {
            let line = self.rng.pick(&[0, 1, 2, 3, 22, 23]);
            self.t[REDIRECT + line] = self.redirect();
        }
        if self.rng.chance(4) {
            self.t[REFUSALS] = 0xFFFF_FFFF - self.rng.below(3);
        } else if self.rng.chance(10) {
            self.t[REFUSALS] = self.rng.below(100);
        }
    }

    fn sound(mut self) -> Machine {
        self.header();
        for k in 0..self.cores as u32 {
            let page = self.rng.below(self.pages) << 12;
            let at = match self.rng.below(if self.wild { 6 } else { 30 }) {
                0 => 0xFF8 - 4 * self.rng.below(4),
                _ => 0x200 + 0x80 * k,
            };
            self.code.push(page | at);
        }
        self.page_tables();
        for k in 0..self.cores {
            self.core(k);
        }
        self.handler();
        for k in 0..self.cores {
            self.program(k);
        }
        for _ in 0..self.rng.below(6) {
            let a = self.rng.below(self.pages) << 12 | self.offset() & !3;
            let w = self.rng.value();
            self.put(a, w);
        }
        self.machine()
    }
}

fn any_builder<'a>(rng: &'a mut Rng, counts: &'a Counts) -> Builder<'a> {
    let cores = 1 + rng.weighted(&[30, 35, 20, 15]);
    let pages = 1 + rng.weighted(&[34, 30, 20, 6, 3, 2, 2, 3]) as u32;
    Builder::new(rng, counts, cores, pages)
}

pub fn sound_machine(rng: &mut Rng, counts: &Counts) -> Machine {
    any_builder(rng, counts).sound()
}

// ---------------------------------------------------------------- schedules

/// A walk for a step: held, nearly held, or any.
fn some_walk(rng: &mut Rng, held: &[Walk]) -> Walk {
    if held.is_empty() || rng.chance(5) {
        return Walk { first: rng.word(), base: rng.below(1 << 20) };
    }
    let mut w = rng.pick(held);
    if rng.chance(8) {
        if rng.chance(50) {
            w.first ^= 1 << rng.below(32);
        } else {
            w.base ^= 1 << rng.below(32);
        }
    }
    w
}

/// One that matches a page and rights; complete ones are preferred.
fn matching(rng: &mut Rng, t: &[u32], b: usize, va: u32, rights: u32) -> Option<Walk> {
    let hits: Vec<Walk> = walks_of(t, b).into_iter().filter(|w| w.hit(va, t[b + ASID] & 63, rights)).collect();
    let complete: Vec<Walk> = hits.iter().copied().filter(|w| w.complete()).collect();
    if !complete.is_empty() && rng.chance(80) {
        Some(rng.pick(&complete))
    } else if !hits.is_empty() {
        Some(rng.pick(&hits))
    } else {
        None
    }
}

/// The tlb step that brings a translation of va forward.
fn forward(rng: &mut Rng, t: &[u32], m: &[u8], k: usize, va: u32) -> [u32; 6] {
    let b = block(k);
    let open: Vec<Walk> =
        walks_of(t, b).into_iter().filter(|w| w.va() == va && w.asid() == t[b + ASID] & 63 && !w.complete()).collect();
    let Some(w) = open.iter().copied().min_by_key(|w| w.level()) else {
        return [1, k as u32, va, 0, 0, 0];
    };
    let w = if rng.chance(25) { rng.pick(&open) } else { w };
    match w.pte(m) {
        Some(pte) if pte_present(pte) && !pte_accessed(pte) => [3, k as u32, w.first, w.base, 0, 0],
        _ => [2, k as u32, w.first, w.base, if rng.chance(60) { 0 } else { rng.below(8) }, 0],
    }
}

fn core_proposal(rng: &mut Rng, t: &[u32], m: &[u8], k: usize) -> [u32; 6] {
    let b = block(k);
    let held = walks_of(t, b);
    let user = t[b + MODE] & 1 == 1;
    let junk = if rng.chance(7) { Walk { first: rng.word(), base: rng.word() } } else { Walk { first: 0, base: 0 } };
    let pc = t[b + PC];
    let (mut wi, mut wr) = (junk, junk);
    if user && pc & 3 == 0 {
        match matching(rng, t, b, pc >> 12, USER | EXECUTE) {
            Some(w) => wi = w,
            None if rng.chance(75) => return forward(rng, t, m, k, pc >> 12),
            None => wi = some_walk(rng, &held),
        }
    }
    if user {
        if let Ok(Some(i)) = fetch(t, m, b, wi) {
            if let Some(op) = isa::decode(i) {
                let write = isa::store(op) || op == Op::Cas;
                if isa::load(op) || write {
                    let ea = effective_address(t, b, op, i);
                    let rights = if write { USER | WRITE } else { USER };
                    match matching(rng, t, b, ea >> 12, rights) {
                        Some(w) => wr = w,
                        None if rng.chance(75) => return forward(rng, t, m, k, ea >> 12),
                        None => wr = some_walk(rng, &held),
                    }
                }
            }
        }
        if rng.chance(3) {
            wi = some_walk(rng, &held);
        }
        if rng.chance(3) {
            wr = some_walk(rng, &held);
        }
    }
    [0, k as u32, wi.first, wi.base, wr.first, wr.base]
}

/// A step that makes some sense for the machine at hand.
fn proposal(rng: &mut Rng, t: &[u32], m: &[u8], vas: &[u32]) -> [u32; 6] {
    let mut k = rng.below(t[CORES]) as usize;
    if t[block(k) + RUNNING] == 0 && rng.chance(70) {
        k = rng.below(t[CORES]) as usize;
    }
    let core = k as u32;
    let b = block(k);
    let line = if rng.chance(75) { rng.pick(&[0, 1, 2, 3, 22, 23]) } else { rng.below(24) };
    match rng.weighted(&[62, 3, 4, 3, 8, 3, 3, 1, 2, 4, 4, 3]) as u32 {
        0 => core_proposal(rng, t, m, k),
        1 => {
            // Now and then one that is already held.
            let new = |w: &Walk| *w == Walk::new(w.va(), t[b + ASID] & 63, 2, 7, t[b + PTO] >> 12);
            let walks = walks_of(t, b);
            let again: Vec<Walk> = walks.iter().copied().filter(new).collect();
            let often = if walks.len() == 23 { 80 } else { 30 };
            let va = if !again.is_empty() && rng.chance(often) { rng.pick(&again).va() } else { rng.pick(vas) };
            [1, core, va, 0, 0, 0]
        }
        kind @ (2 | 3) => {
            let held = walks_of(t, b);
            let open: Vec<Walk> = held.iter().copied().filter(|w| !w.complete()).collect();
            let any = open.is_empty() || rng.chance(10);
            let w = some_walk(rng, if any { &held } else { &open });
            let rights = if kind == 2 && rng.chance(50) { rng.below(8) } else { 0 };
            [kind, core, w.first, w.base, rights, 0]
        }
        kind @ 4..=8 => [kind, core, 0, 0, 0, 0],
        kind @ (9 | 10) => [kind, line, 0, 0, 0, 0],
        _ => [11, line, rng.below(2), 0, 0, 0],
    }
}

/// Not a step, or hardly one.
fn garbage(rng: &mut Rng, t: &[u32], m: &[u8], vas: &[u32]) -> [u32; 6] {
    let mut s = proposal(rng, t, m, vas);
    match rng.below(8) {
        0 => s[0] = rng.pick(&[12, 13, 15, 256, 0xFFFF_FFFF, 0x8000_0000]),
        1 => {
            s[0] = rng.below(9);
            s[1] = rng.pick(&[t[CORES], 4, 255, 0xFFFF_FFFF]);
        }
        2 => {
            s[0] = 9 + rng.below(3);
            s[1] = rng.pick(&[24, 25, 255, 0xFFFF_FFFF]);
        }
        3 => s = [11, rng.below(24), rng.pick(&[2, 3, 0xFFFF_FFFF]), 0, 0, 0],
        4 => s = [1, rng.below(t[CORES]), rng.pick(&[0x10_0000, 0x1F_FFFF, 0xFFFF_FFFF]), 0, 0, 0],
        5 => {
            let w = some_walk(rng, &walks_of(t, block(0)));
            s = [2, rng.below(t[CORES]), w.first, w.base, rng.pick(&[8, 9, 0xFFFF_FFFF]), 0];
        }
        6 => s[2 + rng.below(4) as usize] = rng.pick(&[1, 2, 0x8000_0000]),
        _ => {
            for word in &mut s {
                if rng.chance(40) {
                    *word = rng.value();
                }
            }
        }
    }
    s
}

/// A schedule for the machine, found by trying. `clean` leaves refused steps
/// out, so that run has something to run through.
fn schedule(rng: &mut Rng, counts: &mut Counts, machine: &Machine, length: usize, clean: bool) -> Vec<[u32; 6]> {
    let (mut t, mut m) = (machine.tables.clone(), machine.memory.clone());
    let mut vas: Vec<u32> = (0..machine.cores as usize)
        .flat_map(|k| {
            let b = block(k);
            let walks = walks_of(&t, b).into_iter().map(|w| w.va()).collect::<Vec<_>>();
            [vec![t[b + PC] >> 12], walks].concat()
        })
        .collect();
    vas.extend([0, 0xFFFFF, 0x80000]);
    let mut steps = Vec::new();
    let mut refused: Vec<(u32, Why)> = Vec::new(); // kinds and grounds kept
    let mut still = 0; // proposals since a core or the buffer last moved on
    let mut loops = 0; // interrupts at a place that was interrupted before
    let mut places = Vec::new();
    while steps.len() < length && still < 40 && loops < 8 {
        let s = if rng.chance(4) { garbage(rng, &t, &m, &vas) } else { proposal(rng, &t, &m, &vas) };
        let (t0, m0) = (t.clone(), m.clone());
        let answer = step(true, &mut t, &mut m, &s);
        still += 1;
        match answer {
            Answer::Refused(why) => {
                // Refused steps are kept now and then, the rarer the ground
                // the more often, and seldom the same again.
                let rare = counts.get("why", why.text()) < 100;
                let seen = refused.iter().filter(|r| **r == (s[0], why)).count();
                let keep = !clean && (rare && rng.chance(80) || seen < 2 && rng.chance(35) || rng.chance(2));
                if !keep {
                    (t, m) = (t0, m0);
                    continue;
                }
                refused.push((s[0], why));
            }
            Answer::Interrupt(level) => {
                let place = (s[1], t0[block(s[1] as usize) + PC], level);
                loops += places.contains(&place) as u32;
                places.push(place);
                still = 0;
            }
            _ if s[0] <= 4 => still = 0,
            _ => {}
        }
        counts.step(&t0, &m0, &s, answer, &t, &m);
        steps.push(s);
    }
    steps
}

/// The steps file: sound machines with schedules, small machines where
/// conditions cross, small ones that add and subtract, damaged tables, then
/// small machines whose steps are refused.
pub fn steps(seed: u32) -> Vec<Vector> {
    let mut rng = Rng::new(seed as u64);
    let mut counts = Counts::default();
    let mut vectors = Vec::new();
    for n in 0..LONG_VECTORS {
        let mut builder = any_builder(&mut rng, &counts);
        builder.overflows = true;
        let machine = builder.sound();
        let clean = n % 5 == 4;
        let length = rng.pick(&[24, 40, 56, 72, 88]);
        let schedule = schedule(&mut rng, &mut counts, &machine, length, clean);
        let all = 6 * schedule.len() as u16;
        let mut words = all;
        if n % 29 == 7 && all > 0 {
            words -= rng.pick(&[1, 2, 3, 4, 5, 6]);
        }
        let limit = match rng.below(4) {
            0 => rng.below(schedule.len() as u32 + 1),
            1 if clean => schedule.len() as u32 / 2,
            2 => schedule.len() as u32,
            _ => rng.pick(&[1024, 0xFFFF_FFFF, 100]),
        };
        vectors.push(answer_steps(machine, &schedule, words, limit));
    }
    for _ in 0..CROSSED_VECTORS {
        let (machine, schedule) = crossed(&mut rng, &counts);
        let words = 6 * schedule.len() as u16;
        vectors.push(answer_steps(machine, &schedule, words, rng.below(4)));
    }
    for (op, cell) in Counts::expected_sums() {
        while counts.get("sum", &cell) < SUMS_EACH {
            let vector = sums_with(&mut rng, op, &cell);
            counts.vector(&vector);
            vectors.push(vector);
        }
    }
    for (clause, _) in CLAUSES {
        let mut made = 0;
        while made < DAMAGED_EACH {
            if let Some(machine) = damaged(&mut rng, clause) {
                vectors.push(damaged_vector(&mut rng, machine));
                made += 1;
            }
        }
    }
    // Refusal counts of every sort, which no answer depends on.
    let mut rng = Rng::new(seed as u64 ^ 0x5245_4655);
    for v in &mut vectors {
        draw_counts(&mut rng, &mut v.machine.tables);
        let schedule: Vec<[u32; 6]> = v.steps.iter().map(|s| s.words).collect();
        *v = answer_steps(v.machine.clone(), &schedule, v.run.words, v.run.limit);
    }
    let mut counts = Counts::default();
    vectors.iter().for_each(|v| counts.vector(v));
    for (section, name) in Counts::expected_refusals() {
        while counts.get(section, &name) < REFUSALS_EACH {
            let vector = refusals_with(&mut rng, section, &name);
            counts.vector(&vector);
            vectors.push(vector);
        }
    }
    vectors
}

/// A vector of refusals in which one occurs.
fn refusals_with(rng: &mut Rng, section: &'static str, name: &str) -> Vector {
    for _ in 0..100_000 {
        let (machine, schedule) = refusals(rng);
        let words = 6 * schedule.len() as u16;
        let vector = answer_steps(machine, &schedule, words, rng.pick(&[1, 1024, 0xFFFF_FFFF]));
        let mut tried = Counts::default();
        tried.vector(&vector);
        if tried.get(section, name) > 0 {
            return vector;
        }
    }
    panic!("{section}: {name} does not occur");
}

// ---------------------------------------------------------------- crossings

/// What can be out of the ordinary in a core step.
#[derive(Clone, Copy, PartialEq)]
#[rustfmt::skip]
enum Odd {
    Event, EventMasked, EventHidden, MisalignedPc,
    Misaligned, ApicPort, IoapicPort, PortEnd, MemoryEnd, Beyond,
    DataRights, DataAbsent, DataEntryRights, DataOpen, DataEntryOutside, DataNotHeld,
    FetchRights, FetchAbsent, FetchOpen, FetchEntryOutside, FetchNotHeld, FetchPort,
    StoreThere, StoreAround, StoreElsewhere, BufferFull,
    LastWord,
}
use Odd::*;
#[rustfmt::skip]
const ODDS: [Odd; 27] = [
    Event, EventMasked, EventHidden, MisalignedPc,
    Misaligned, ApicPort, IoapicPort, PortEnd, MemoryEnd, Beyond,
    DataRights, DataAbsent, DataEntryRights, DataOpen, DataEntryOutside, DataNotHeld,
    FetchRights, FetchAbsent, FetchOpen, FetchEntryOutside, FetchNotHeld, FetchPort,
    StoreThere, StoreAround, StoreElsewhere, BufferFull,
    LastWord,
];

const LOADS: &[Op] = &[Op::Lw, Op::Lw, Op::Lh, Op::Lhu];
const PENDING: &[Op] = &[Op::Sw, Op::Sh, Op::Sb];
const NARROW: &[Op] = &[Op::Lh, Op::Lhu, Op::Sh, Op::Lb, Op::Sb, Op::Lbu];
const WORDS: &[Op] = &[Op::Lw, Op::Sw];
const WAITING: &[Op] = &[Op::Cas, Op::Cas, Op::Mfence];

/// Meetings where two rules pull apart, and who shows it.
const MEETINGS: [(&[Odd], &[Op]); 30] = [
    (&[LastWord], &[Op::J, Op::Jal]),
    (&[LastWord], &[Op::J, Op::Jal, Op::Jalr, Op::Beq, Op::Bgez, Op::Add, Op::Addu, Op::Sysc]),
    (&[Misaligned, ApicPort], &[Op::Lh, Op::Lhu, Op::Sh, Op::Cas]),
    (&[Misaligned, IoapicPort], &[Op::Lh, Op::Lhu, Op::Sh, Op::Cas]),
    (&[Misaligned, ApicPort], WORDS),
    (&[Misaligned, PortEnd], &[Op::Lh, Op::Sh, Op::Cas, Op::Lw, Op::Sw]),
    (&[Misaligned, StoreAround], LOADS),
    (&[Misaligned, StoreThere], LOADS),
    (&[Misaligned, Beyond], &[Op::Lw, Op::Sw, Op::Lh, Op::Sh, Op::Cas]),
    (&[Misaligned, BufferFull], &[Op::Sw, Op::Sh]),
    (&[Misaligned, DataAbsent], &[Op::Lw, Op::Sw, Op::Lh, Op::Sh, Op::Cas]),
    (&[Misaligned, DataEntryOutside], &[Op::Lw, Op::Sw, Op::Cas]),
    (&[Misaligned, DataNotHeld], &[Op::Lw, Op::Sw, Op::Cas]),
    (&[Event, BufferFull], PENDING),
    (&[Event, Beyond], &[Op::Lw, Op::Sw, Op::Cas]),
    (&[Event, StoreAround], LOADS),
    (&[Event, StoreElsewhere], WAITING),
    (&[Event, ApicPort], NARROW),
    (&[Event, ApicPort], &[Op::Cas]),
    (&[Event, DataAbsent], &[Op::Lw, Op::Sw, Op::Cas]),
    (&[Event, DataEntryOutside], &[Op::Lw, Op::Sw, Op::Cas]),
    (&[Event, FetchAbsent], &[Op::Lw, Op::Add]),
    (&[BufferFull, DataAbsent], PENDING),
    (&[BufferFull, Beyond], PENDING),
    (&[DataEntryOutside, StoreElsewhere], &[Op::Cas]),
    (&[DataAbsent, StoreElsewhere], WAITING),
    (&[DataAbsent, ApicPort], NARROW),
    (&[DataEntryRights, ApicPort], &[Op::Sh, Op::Sb, Op::Cas]),
    (&[StoreThere, ApicPort], &[Op::Lw]),
    (&[StoreThere, IoapicPort], &[Op::Lw]),
];

/// A small machine of one core about to take a core step in which one to
/// three things are out of the ordinary, so that they meet in all pairs.
fn crossed(rng: &mut Rng, counts: &Counts) -> (Machine, Vec<[u32; 6]>) {
    const T: usize = 32; // block of core 0
    let pages = 1 + rng.below(2);
    let mut odds = vec![rng.pick(&ODDS)];
    let mut ops: &[Op] =
        &[Op::Lw, Op::Lw, Op::Lh, Op::Lhu, Op::Lb, Op::Lbu, Op::Sw, Op::Sw, Op::Sh, Op::Sb, Op::Cas, Op::Cas, Op::Cas];
    if rng.chance(45) {
        let (met, by) = rng.pick(&MEETINGS);
        (odds, ops) = (met.to_vec(), by);
    } else if rng.chance(18) {
        ops = &[
            Op::Mfence,
            Op::Mfence,
            Op::Eret,
            Op::Flush,
            Op::Invlpg,
            Op::Movg2s,
            Op::Movs2g,
            Op::Sysc,
            Op::Add,
            Op::Addu,
            Op::Sub,
            Op::Subu,
        ];
        odds.push(rng.pick(&ODDS));
    } else {
        for _ in 0..rng.pick(&[0, 1, 1, 1, 2]) {
            odds.push(rng.pick(&ODDS));
        }
    }
    let is = |odd: Odd| odds.contains(&odd);
    let user = rng.chance(
        if odds.iter().any(|o| (DataRights as u8..=FetchNotHeld as u8).contains(&(*o as u8))) || is(LastWord) {
            97
        } else {
            50
        },
    );
    let mut b = Builder::new(rng, counts, 1, pages);
    b.t[T + MODE] = user as u32;
    b.t[T + SR] = if is(Event) || is(EventHidden) { 0x82 } else { b.rng.pick(&[0, 0x80, 0x80]) };
    if is(Event) || is(EventMasked) || is(EventHidden) {
        b.t[T + IRR] = 1 << 9;
        b.t[T + ISR] = if is(EventHidden) { b.rng.pick(&[1 << 9, 1 << 8]) } else { b.rng.pick(&[0, 1 << 10]) };
    }
    let space = b.rng.pick(&[0, 0, 5]);
    b.t[T + ASID] = space;

    // The access: where it goes and what lies there.
    let op = b.rng.pick(ops);
    let width = isa::width(op);
    let end = pages << 12;
    let mut target = if is(ApicPort) {
        0xFFFF_F000 + b.rng.pick(&[0, 4, 8, 12, 12, 16, 48, 0x78])
    } else if is(IoapicPort) {
        0xFFFF_E000 + b.rng.pick(&[0, 4])
    } else if is(PortEnd) {
        b.rng.pick(&[
            0xFFFF_F07C,
            0xFFFF_F07E,
            0xFFFF_F080,
            0xFFFF_E004,
            0xFFFF_E006,
            0xFFFF_E008,
            0xFFFF_DFFC,
            0xFFFF_EFFC,
            0xFFFF_FFFC,
        ])
    } else if is(Beyond) {
        end + b.rng.pick(&[0, 0, 4, 0x1000])
    } else if is(MemoryEnd) {
        end - b.rng.pick(&[width, 4, 8])
    } else {
        b.rng.below(pages) << 12 | (0x100 + b.rng.below(8))
    };
    target &= !(width - 1);
    if is(Misaligned) {
        target += if width == 2 { 1 } else { b.rng.pick(&[1, 2, 3]) };
    }
    let content = b.rng.value();
    b.put(target & !3, content);

    // The data walk, for virtual page 1; its tables lie in page 0. The fetch
    // walk, for virtual page 3; or for the last word before pc + 4 carries.
    let (code_va, code) = if is(LastWord) { (b.rng.pick(&[0x0FFFF, 0x7FFFF, 0xFFFFF]), 0xFFC) } else { (3, 0x200) };
    let page = target >> 12;
    let ea = if user { 0x1000 | target & 0xFFF } else { target };
    let rights = if is(DataRights) { b.rng.pick(&[6, 5, 4, 3, 2, 1]) } else { 7 };
    let level = 1 + b.rng.below(2);
    let mut data = if is(DataAbsent) || is(DataEntryRights) || is(DataOpen) {
        Walk::new(1, space, level, rights, 0)
    } else if is(DataEntryOutside) {
        Walk::new(1, space, level, rights, b.rng.pick(&[pages, 0xFFFFF, 0xFFFFE]))
    } else {
        Walk::new(1, space, 0, rights, page)
    };
    let entry_rights = if is(DataEntryRights) { b.rng.pick(&[6, 5, 4, 1, 0]) } else { 7 };
    let accessed = b.rng.below(2) << 7;
    b.put(data.ptea(), page << 12 | (!is(DataAbsent) as u32) << 11 | entry_rights << 8 | accessed);
    let level = 1 + b.rng.below(2);
    let fetch_rights = if is(FetchRights) { b.rng.pick(&[6, 5, 3, 2, 1]) } else { 7 };
    let mut fetch = if is(FetchAbsent) || is(FetchOpen) {
        Walk::new(code_va, space, level, fetch_rights, 0)
    } else if is(FetchEntryOutside) {
        Walk::new(code_va, space, level, fetch_rights, b.rng.pick(&[pages, 0xFFFFF, 0xFFFFE]))
    } else if is(FetchPort) {
        Walk::new(code_va, space, 0, fetch_rights, b.rng.pick(&[0xFFFFF, 0xFFFFE, pages]))
    } else {
        Walk::new(code_va, space, 0, fetch_rights, 0)
    };
    if !fetch.complete() && fetch.ptea() != data.ptea() {
        let absent = is(FetchAbsent) && b.rng.chance(60);
        let entry_rights = if is(FetchAbsent) { b.rng.pick(&[1, 2, 3, 4, 5]) } else { 7 };
        b.put(fetch.ptea(), (!absent as u32) << 11 | entry_rights << 8 | accessed);
    }
    let others = [Walk::new(1, space, 2, 7, 0), Walk::new(1, space ^ 1, 0, 7, 0)];
    for w in [fetch, data, others[0], others[1]] {
        let absent = w == fetch && is(FetchNotHeld) || w == data && is(DataNotHeld);
        let wanted = w == fetch || w == data || b.rng.chance(40);
        if user && wanted && !absent {
            b.hold(T, w);
        }
    }

    // Pending stores.
    let mut stores = Vec::new();
    if is(StoreThere) {
        stores.push((target & !3, 4));
    }
    if is(StoreAround) {
        for _ in 0..1 + b.rng.below(2) {
            let width = b.rng.pick(&[1, 1, 2, 4]);
            stores.push((target.wrapping_add(b.rng.below(4)) & !(width - 1), width));
        }
    }
    if is(StoreElsewhere) {
        stores.push((0x40, 2));
    }
    while is(BufferFull) && stores.len() < 8 {
        stores.push((b.rng.pick(&[target & !3, 0x44, 0xFFFF_F000]), 4));
    }
    for (mut a, width) in stores {
        if !in_memory(b.m.len(), a, width) && !in_ports(a) {
            a = 0x80;
        }
        let value = b.rng.value();
        b.pend(T, a, value, width);
    }

    // The instruction: register 8 holds the address or nearly so.
    let imm = if op == Op::Cas { 0 } else { b.rng.pick(&[0, 0, 4, 0xFFFC, 0x7FFF, 0x8000]) };
    b.t[T + 8] = ea.wrapping_sub(isa::simm(imm));
    b.t[T + 2] = b.rng.pick(&[0x7FFF_FFFF, 0x8000_0000, 1, 0xFFFF_FFFF]);
    b.t[T + 3] = if b.rng.chance(60) { content } else { b.rng.value() };
    b.t[T + 4] = 0x8000_0000;
    let rs = if isa::alu(op) { 4 } else { 8 };
    let rd = b.rng.pick(&[3, 3, 3, 8, 2]);
    let instruction = b.assemble(isa::row(op), rs, 2, rd, imm, 0);
    let instruction = if b.rng.chance(2) { b.illegal() } else { instruction };
    b.put(code, instruction);
    b.t[T + PC] = if user { code_va << 12 | code } else { code };
    if is(FetchPort) && !user {
        b.t[T + PC] = b.rng.pick(&[0xFFFF_F000, 0xFFFF_E004, 0xFFFF_F07C, 0xFFFF_F080, end]);
    }
    if is(MisalignedPc) {
        b.t[T + PC] += 1 + b.rng.below(3);
    }

    if is(DataNotHeld) && b.rng.chance(50) {
        data.first ^= 1 << b.rng.below(32);
    }
    if is(FetchNotHeld) && b.rng.chance(50) {
        fetch.first ^= 1 << b.rng.below(32);
    }
    let go = [0, 0, fetch.first, fetch.base, data.first, data.base];
    let mut schedule = vec![go];
    if b.rng.chance(40) {
        schedule.push(b.rng.pick(&[
            [4, 0, 0, 0, 0, 0],
            go,
            [2, 0, data.first, data.base, 0, 0],
            [3, 0, data.first, data.base, 0, 0],
        ]));
    }
    (b.machine(), schedule)
}

// ---------------------------------------------------------------- sums

/// A vector of sums and differences in which one occurs.
fn sums_with(rng: &mut Rng, op: Op, cell: &str) -> Vector {
    for _ in 0..100_000 {
        let (machine, schedule) = sums(rng, op);
        let (words, length) = (6 * schedule.len() as u16, schedule.len() as u32);
        let limit = rng.pick(&[length, 1024, length / 2]);
        let vector = answer_steps(machine, &schedule, words, limit);
        let mut tried = Counts::default();
        tried.vector(&vector);
        if tried.get("sum", cell) > 0 {
            return vector;
        }
    }
    panic!("{cell} does not occur");
}

/// A small machine of one core that adds and subtracts near the edges of 32
/// bits, `first` first, then runs through its program. Events are there from
/// the start or come by the lines; the handler just returns.
fn sums(rng: &mut Rng, first: Op) -> (Machine, Vec<[u32; 6]>) {
    const T: usize = 32; // block of core 0
    #[rustfmt::skip]
    const OTHERS: [Op; 18] = [
        Op::Slt, Op::Slti, Op::Sltu, Op::Sltiu, Op::And, Op::Andi, Op::Or, Op::Ori, Op::Xor, Op::Xori, Op::Nor, Op::Lui,
        Op::Sll, Op::Srl, Op::Sra, Op::Sllv, Op::Srlv, Op::Srav,
    ];
    let none = Counts::default();
    let mut b = Builder::new(rng, &none, 1, 1);
    b.t[T + MODE] = b.rng.below(2);
    b.t[T + SR] = b.rng.pick(&[0x80, 0x82, 0x82, 0xFFFF_FFFF, 0, 0x02, 0xFFFF_FF7F]);
    let walk = Walk::new(0, 0, 0, 7, 0); // page 0 is virtual page 0
    b.hold(T, walk);
    for _ in 0..b.rng.pick(&[0, 0, 1, 2]) {
        let vector = b.vector();
        b.t[T + IRR + vector as usize / 32] |= 1 << (vector % 32);
    }
    let lines = b.rng.below(4); // entries 0 to lines - 1 have something to deliver
    for line in 0..lines {
        let vector = b.vector();
        b.t[REDIRECT + line as usize] = 1 << 12 | vector;
    }

    // Sum n takes registers 2n + 1 and 2n + 2.
    b.put(0, 0x4200_0018); // eret
    let start = 0x200;
    let length = 3 + b.rng.below(6);
    for n in 0..length {
        let op = match n {
            0 => first,
            _ if b.rng.chance(80) => b.rng.pick(&SUMS),
            _ => b.rng.pick(&OTHERS),
        };
        let mut imm = b.rng.pick(&[1, 2, 0x7FFF, 0x8000, 0xFFFF, 0xFFFE]);
        if b.rng.chance(25) {
            imm = b.rng.below(0x1_0000);
        }
        let right = if isa::compi(op) { isa::simm(imm) } else { b.rng.value() };
        // The left operand makes the result one at an edge.
        let result = b.rng.pick(&[0x7FFF_FFFE, 0x7FFF_FFFF, 0x8000_0000, 0x8000_0001, 0xFFFF_FFFF, 0, 1]);
        let left = match op {
            _ if b.rng.chance(25) => b.rng.value(),
            Op::Sub | Op::Subu | Op::Slt | Op::Slti | Op::Sltu | Op::Sltiu => right.wrapping_add(result),
            _ => u32::wrapping_sub(result, right),
        };
        let (rs, rt) = (2 * n + 1, 2 * n + 2);
        b.t[T + rs as usize] = left;
        b.t[T + rt as usize] = right;
        let to = b.rng.pick(&[20 + n, 20 + n, 20 + n, 0, rs, rt]);
        let rt = if isa::compi(op) { to } else { rt };
        let i = b.assemble(isa::row(op), rs, rt, to, imm, 0);
        b.put(start + 4 * n, i);
    }
    b.t[T + PC] = start;

    // Through the program, and the lines one by one.
    let machine = b.machine();
    let (mut t, mut m) = (machine.tables.clone(), machine.memory.clone());
    let mut schedule = Vec::new();
    let mut line = 0;
    while t[T + PC] != start + 4 * length {
        let mut s = [0, 0, walk.first, walk.base, 0, 0];
        if line < lines && rng.chance(40) {
            s = [10, line, 0, 0, 0, 0];
            line += 1;
        }
        assert!(step(true, &mut t, &mut m, &s).accepted());
        schedule.push(s);
    }
    (machine, schedule)
}

// ---------------------------------------------------------------- damage

/// A few steps against damaged tables; all are refused 4.
fn damaged_vector(rng: &mut Rng, machine: Machine) -> Vector {
    let mut schedule = Vec::new();
    for _ in 0..1 + rng.below(2) {
        schedule.push(match rng.below(6) {
            0 => [0, 0, 0, 0, 0, 0],
            1 => [4, rng.below(4), 0, 0, 0, 0],
            2 => [11, rng.below(24), 1, 0, 0, 0],
            3 => [1, 0, 5, 0, 0, 0],
            4 => [99, 0, 0, 0, 0, 0],
            _ => [rng.below(12), 0, 0, 0, 0, 0],
        });
    }
    let words = 6 * schedule.len() as u16 - rng.chance(15) as u16;
    answer_steps(machine, &schedule, words, 8)
}

/// A small sound machine with stores and walks, to be damaged.
fn small(rng: &mut Rng, stores: u32, walks: u32) -> Machine {
    let cores = 1 + rng.weighted(&[50, 30, 10, 10]);
    let pages = 1 + rng.below(2);
    let counts = Counts::default();
    let mut builder = Builder::new(rng, &counts, cores, pages);
    let k = builder.rng.below(cores as u32) as usize;
    let b = block(k);
    for i in 0..stores {
        let width = builder.rng.pick(&[1, 2, 4]);
        let a = match builder.rng.below(4) {
            0 => 0xFFFF_F000 + 4 * builder.rng.below(32),
            1 => (pages << 12) - width,
            _ => 0x100 + 4 * i,
        };
        let value = builder.rng.below(256);
        builder.pend(b, a, value, width);
    }
    for i in 0..walks {
        let (asid, level, rights) = (builder.rng.below(64), builder.rng.below(3), builder.rng.below(8));
        let base = builder.rng.pick(&[0, 1, 0xFFFFF, 0x1000]);
        builder.hold(b, Walk::new(i, asid, level, rights, base));
    }
    builder.machine()
}

/// Block words 116 to 127, the first and the last more often than the others.
const ZERO_WORDS: [usize; 16] = [117, 116, 118, 116, 119, 116, 120, 121, 122, 123, 124, 127, 125, 127, 126, 127];

/// A machine whose first broken clause is the one asked for, or None if the
/// attempt broke something else.
pub fn damaged(rng: &mut Rng, clause: Clause) -> Option<Machine> {
    use Clause::*;
    let (stores, walks) = match clause {
        NineStores => (8, rng.below(3)),
        TooManyWalks => (rng.below(3), 23),
        _ => (1 + rng.below(4), 1 + rng.below(5)),
    };
    let mut machine = small(rng, stores, walks);
    let t = &mut machine.tables;
    let cores = t[CORES];
    // The core with the records.
    let b = (0..cores as usize).map(block).find(|&b| t[b + WALKS] != 0 || t[b + STORES] != 0).unwrap();
    let any_b = block(rng.below(cores) as usize);
    let chain = |t: &[u32], head: usize| {
        let mut all = Vec::new();
        let mut n = t[b + head];
        while n != 0 {
            all.push(n);
            n = t[record(b, n)];
        }
        all
    };
    let store = record(b, chain(t, STORES).first().copied().unwrap_or(1));
    let walk_numbers = chain(t, WALKS);
    let walk = record(b, walk_numbers.get(rng.below(8) as usize % walk_numbers.len().max(1)).copied().unwrap_or(1));
    let free = chain(t, FREE);
    let large = |rng: &mut Rng, from: u32| if rng.chance(60) { from } else { from.max(rng.word()) };
    match clause {
        Cores => t[CORES] = rng.pick(&[0, 5, 6, 0xFFFF_FFFF, 0x8000_0001]),
        Pages => t[PAGES] = rng.pick(&[0, 4097, 0xFFFF_FFFF, 0x1_0000]),
        TableLength => {
            if rng.chance(50) {
                t[CORES] = cores % 4 + 1;
            } else {
                let length = rng.pick(&[t.len() - 1, t.len() - 256, 32, 33, 31, 0, 1]);
                t.truncate(length);
            }
        }
        MemoryLength => {
            if rng.chance(40) {
                t[PAGES] = rng.pick(&[t[PAGES] + 1, 8, 4096]);
            } else {
                let length = machine.memory.len();
                machine.memory.resize(rng.pick(&[length - 4, length + 4, length + PAGE, 0]), 0);
            }
        }
        HeaderZeros => t[rng.pick(&[30, 31])] = large(rng, 1),
        Lines => t[LINES] = 1 << (24 + rng.below(8)) | rng.below(1 << 24),
        BlockWord71 => t[any_b + 71] = large(rng, 1),
        BlockWords116 => t[any_b + rng.pick(&ZERO_WORDS)] = large(rng, 1),
        RecordZero => t[any_b + RECORDS + rng.below(4) as usize] = large(rng, 1),
        Register0 => t[any_b] = large(rng, 1),
        Running => t[any_b + RUNNING] = large(rng, 2),
        Sipirr => t[any_b + SIPIRR] = large(rng, 2),
        Initrr => t[any_b + INITRR] = large(rng, 2),
        Sipivect => t[any_b + SIPIVECT] = large(rng, 256),
        Head => t[b + rng.pick(&[STORES, WALKS, FREE])] = large(rng, 32),
        Next => t[record(b, 1 + rng.below(31))] = large(rng, 32),
        RecordTwice => {
            // A ring, a chain that runs into another, or a shared head.
            match rng.below(3) {
                0 => {
                    let n = 1 + rng.below(31);
                    t[record(b, n)] = n;
                }
                1 => t[record(b, 1 + rng.below(31))] = 1 + rng.below(31),
                _ => t[b + WALKS] = rng.pick(&[t[b + STORES], t[b + FREE]]),
            }
        }
        RecordLost => {
            // The free chain ends early or starts late.
            if rng.chance(50) {
                t[record(b, free[free.len() - 2])] = 0;
            } else {
                t[b + FREE] = t[record(b, free[0])];
            }
        }
        NineStores => {
            // The first free record becomes the last store.
            let last = record(b, *chain(t, STORES).last().unwrap());
            let r = record(b, free[0]);
            t[b + FREE] = t[r];
            t[last] = free[0];
            t[r] = 0;
            t[r + 1] = 0x20;
            t[r + 3] = 4;
        }
        TooManyWalks => {
            let r = record(b, free[0]);
            t[b + FREE] = t[r];
            t[r] = t[b + WALKS];
            t[r + 1] = Walk::new(0x777, 0, 1, 7, 0).first;
            t[b + WALKS] = free[0];
        }
        StoreWidth => t[store + 3] = rng.pick(&[0, 3, 5, 8, 0xFFFF_FFFF, 256]),
        StoreAligned => t[store + 1] |= rng.pick(&[1, 2, 3]),
        StoreHighBits => {
            if t[store + 3] < 4 {
                t[store + 2] |= 1 << (8 * t[store + 3] + rng.below(32 - 8 * t[store + 3]));
            }
        }
        StorePlace => {
            let width = t[store + 3];
            let end = t[PAGES] << 12;
            t[store + 1] = rng.pick(&[
                end,
                end + width,
                0xFFFF_F080,
                0xFFFF_E008,
                0xFFFF_DFFC,
                0xFFFF_EFFC,
                0xFFFF_FFFC,
                0x0100_0000,
            ]);
        }
        WalkLevel => t[walk + 1] |= 3 << 3,
        WalkBit5 => t[walk + 1] |= 1 << 5,
        WalkBase => t[walk + 2] |= 1 << (20 + rng.below(12)),
        WalkLastWord => t[walk + 3] = large(rng, 1),
        WalksEqual => {
            let other = record(b, *walk_numbers.last().unwrap());
            (t[walk + 1], t[walk + 2]) = (t[other + 1], t[other + 2]);
        }
        FreeRecord => {
            let n = rng.pick(&[free[0], free[free.len() - 1], free[free.len() / 2]]);
            t[record(b, n) + rng.pick(&[1, 2, 3])] = large(rng, 1);
        }
    }
    machine.damage = clause as u8;
    match sound(&machine.tables, &machine.memory) {
        Err(found) if found == clause => Some(machine),
        _ => None,
    }
}

// ---------------------------------------------------------------- groups

/// Each core has a few pages of its own for tables and data; now and then one
/// reaches over to another's, writes where it shouldn't, or leaves memory.
pub fn group_machine(rng: &mut Rng) -> Machine {
    let cores = 1 + rng.weighted(&[15, 40, 25, 20]);
    let pages = (2 * cores as u32 + rng.below(4)).min(8);
    let counts = Counts::default();
    let mut b = Builder::new(rng, &counts, cores, pages);
    let own = pages / cores as u32;
    let mischief = b.rng.chance(45);
    for k in 0..cores {
        let block = block(k);
        let low = own * k as u32;
        // Pages: tables first, then data.
        let tables = if own >= 3 { 2 } else { 1 };
        let table = |b: &mut Builder| low + b.rng.below(tables);
        let origin = table(&mut b);
        let data = |b: &mut Builder| {
            if mischief && b.rng.chance(18) {
                b.page()
            } else {
                low + tables + b.rng.below(own - tables)
            }
        };
        b.t[block + RUNNING] = b.rng.chance(92) as u32;
        b.t[block + MODE] = if b.rng.chance(95) { b.rng.pick(&[1, 1, 3]) } else { b.rng.pick(&[0, 2]) };
        b.t[block + PTO] =
            if mischief && b.rng.chance(8) { b.page() } else { origin } << 12 | b.rng.pick(&[0, 0, 0xFFF]);
        for _ in 0..b.rng.below(4) {
            // A first-level entry. With one table page both levels share it,
            // so its entries must name itself or data read as entries.
            let second = if tables == 2 { low + 1 } else { low };
            let present = b.rng.chance(85) as u32;
            let at = origin << 12 | b.rng.pick(&[0, 4, 0x800, 0xFFC]);
            let entry = second << 12 | present << 11 | b.rng.below(16) << 7 & !(1 << 8);
            b.put(at, entry);
        }
        if tables == 2 {
            for _ in 0..b.rng.below(4) {
                let page = data(&mut b);
                let present = b.rng.chance(85) as u32;
                let at = (low + 1) << 12 | b.rng.pick(&[0, 8, 0x7FC, 0xFFC]);
                let entry = page << 12 | present << 11 | b.rng.below(8) << 8 | b.rng.below(256);
                b.put(at, entry);
            }
        }
        // Walks and stores.
        for i in 0..b.rng.below(5) {
            let level = b.rng.below(3);
            let base = match level {
                2 if !(mischief && b.rng.chance(10)) => origin,
                1 if !(mischief && b.rng.chance(10)) => low + tables - 1,
                _ => data(&mut b),
            };
            let w = Walk::new(b.rng.below(1 << 20), i, level, b.rng.below(8), base);
            b.hold(block, w);
        }
        if b.rng.chance(40) {
            let page = data(&mut b);
            let a = page << 12 | b.rng.pick(&[0, 0xFFC, 0x100]);
            if in_memory(b.m.len(), a, 4) || in_ports(a) {
                let value = b.rng.value();
                b.pend(block, a, value, 4);
            }
        }
    }
    b.machine()
}
