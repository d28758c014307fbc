//! How often each thing occurs in the vectors: the tables of README.md.

use crate::isa::{self, Op};
use crate::machine::*;
use crate::soundness::*;
use crate::vectors::Vector;
use std::collections::BTreeMap;
use std::fmt::Write;

pub const KINDS: [&str; 12] = [
    "0 core",
    "1 tlb-create",
    "2 tlb-extend",
    "3 tlb-accessed",
    "4 store buffer",
    "5 apic-sendIPI",
    "6 apic-sendEOI",
    "7 apic-initCore",
    "8 apic-startCore",
    "9 ioapic-sample",
    "10 ioapic-deliver",
    "11 set line",
];

/// Events beside kinds, instructions and refusals.
pub const EVENTS: [&str; 103] = [
    "fetch in system mode",
    "fetch through a walk",
    "misaligned pc",
    "load from memory, width 1",
    "load from memory, width 2",
    "load from memory, width 4",
    "load from the buffer, width 1",
    "load from the buffer, width 2",
    "load from the buffer, width 4",
    "load from the buffer, narrower than its store",
    "load from a port's pending store",
    "load from a local APIC port",
    "load from an I/O APIC port",
    "data access through a walk",
    "store to memory enters the buffer",
    "store to a local APIC port enters the buffer",
    "store to an I/O APIC port enters the buffer",
    "store enters as the eighth",
    "store in the last bytes of memory",
    "cas succeeds",
    "cas fails",
    "cas with rd and rt the same register",
    "buffer to memory, width 1",
    "buffer to memory, width 2",
    "buffer to memory, width 4",
    "buffer to a plain APIC port",
    "buffer to EOI, vector in service",
    "buffer to EOI, none in service",
    "buffer to IOREGSEL",
    "buffer to IOWIN and its entry",
    "buffer to IOWIN, no such entry",
    "tlb-create, new walk",
    "tlb-create, walk held",
    "tlb-create, walk held, 23 walks",
    "tlb-extend from level 2",
    "tlb-extend from level 1",
    "tlb-extend, walk held",
    "tlb-extend in system mode",
    "tlb-accessed sets the bit, level 2",
    "tlb-accessed sets the bit, level 1",
    "tlb-accessed, bit already set",
    "tlb-accessed, core not running",
    "fetch fault at level 2, entry absent",
    "fetch fault at level 2, rights",
    "fetch fault at level 1, entry absent",
    "fetch fault at level 1, rights",
    "data fault at level 2, entry absent",
    "data fault at level 2, rights",
    "data fault at level 1, entry absent",
    "data fault at level 1, rights",
    "fault drops two walks or more",
    "fault taken at a lower level",
    "flush drops two walks or more",
    "invlpg drops some and keeps some",
    "interrupt in user mode",
    "interrupt in system mode",
    "interrupt with several causes",
    "interrupt at level 1 moves its vector",
    "interrupt at another level moves a vector",
    "external event hidden by a vector in service",
    "external event masked by sr",
    "eret clears a vector in service",
    "eret to user mode",
    "movg2s to user mode",
    "write to general register 0",
    "branch taken",
    "branch not taken",
    "core wraps past pc FFFFFFFC or jumps beyond memory",
    "IPI Fixed, no shorthand",
    "IPI Fixed, self",
    "IPI Fixed, all",
    "IPI Fixed, all but self",
    "IPI INIT, no shorthand",
    "IPI INIT, self",
    "IPI INIT, all",
    "IPI INIT, all but self",
    "IPI SIPI, no shorthand",
    "IPI SIPI, self",
    "IPI SIPI, all",
    "IPI SIPI, all but self",
    "IPI without a target",
    "SIPI discarded by a target",
    "EOI clears a remote IRR",
    "EOI clears none",
    "INIT of a running core",
    "sample, already to deliver",
    "deliver to no APIC",
    "deliver to one APIC",
    "deliver to several APICs",
    "line raised",
    "line lowered",
    "guard refuses though an external event is due",
    "byte, half or cas at a port, misaligned, refused 6",
    "hazard, misaligned, refused 6",
    "cas with stores pending and its entry outside memory, refused 6",
    "word access at a port, misaligned",
    "interrupt spares a refusal 7",
    "interrupt spares a refusal 8",
    "j or jal whose pc + 4 carries into the upper four bits",
    "jalr with rd and rs the same register",
    "slt, slti, sltu or sltiu done, sr bit 7 set, the difference does not fit",
    "another ALU instruction done, sr bit 7 set, the sum does not fit",
    "shift done, sr bit 7 set, the sum of rs and rt does not fit",
];

/// What adds and subtracts. The first three overflow.
pub const SUMS: [Op; 6] = [Op::Add, Op::Addi, Op::Sub, Op::Addu, Op::Addiu, Op::Subu];

/// What a sum or difference meets, what add, addi and sub then answer, and
/// what addu, addiu and subu do. Where sr is not spoken of its bit 7 is set,
/// and an event is external, due and not masked. Result, carry and borrow are
/// those of 32 bits.
pub const SUM_ROWS: [(&str, &str, &str); 15] = [
    ("too large (add: no carry; sub: borrow)", "interrupt 7", "done"),
    ("too small (add: carry; sub: no borrow)", "interrupt 7", "done"),
    ("does not fit, user mode", "interrupt 7", "done"),
    ("does not fit, system mode", "interrupt 7", "done"),
    ("does not fit, into register 0", "interrupt 7", "done"),
    ("does not fit, would with zeros before the immediate", "interrupt 7", "done"),
    ("does not fit, event masked by sr", "interrupt 7", "done"),
    ("does not fit, event", "interrupt 1, eca 82", "interrupt 1, eca 2"),
    ("does not fit, event, overflow masked by sr", "interrupt 1, eca 2", "interrupt 1, eca 2"),
    ("does not fit, overflow masked by sr", "done", "done"),
    ("fits, carry or borrow", "done", "done"),
    ("fits, neither carry nor borrow", "done", "done"),
    ("fits, result 7FFFFFFF", "done", "done"),
    ("fits, result 80000000", "done", "done"),
    ("fits, would not with zeros before the immediate", "done", "done"),
];

/// The name a cell of that table is counted by; None where it cannot be.
pub fn sum_cell(row: usize, op: Op) -> Option<String> {
    let (text, overflowing, never) = SUM_ROWS[row];
    let answer = if matches!(op, Op::Add | Op::Addi | Op::Sub) { overflowing } else { never };
    let immediate = matches!(op, Op::Addi | Op::Addiu);
    (immediate || !text.ends_with("immediate")).then(|| format!("{text}: {} {answer}", isa::row(op).name))
}

pub const RUNS: [&str; 5] = ["end", "limit spent", "a step's refusal", "refused 4", "refused 11"];

#[derive(Default)]
pub struct Counts {
    map: BTreeMap<(&'static str, String), u64>,
    pub vectors: u64,
    pub steps: u64,
    pub addresses: u64,
}

impl Counts {
    pub(crate) fn add(&mut self, section: &'static str, name: &str) {
        *self.map.entry((section, name.to_string())).or_default() += 1;
    }

    pub fn get(&self, section: &'static str, name: &str) -> u64 {
        self.map.get(&(section, name.to_string())).copied().unwrap_or(0)
    }

    /// Adds what another has counted.
    pub(crate) fn merge(&mut self, other: &Counts) {
        for ((section, name), times) in &other.map {
            *self.map.entry((section, name.clone())).or_default() += times;
        }
        self.vectors += other.vectors;
        self.steps += other.steps;
        self.addresses += other.addresses;
    }

    /// The rows that have occurred.
    pub(crate) fn rows(&self) -> impl Iterator<Item = &(&'static str, String)> {
        self.map.keys()
    }

    /// How many rows of another have not yet occurred `enough` times here.
    pub(crate) fn rare(&self, other: &Counts, enough: u64) -> usize {
        other.map.keys().filter(|row| self.map.get(row).is_none_or(|&times| times < enough)).count()
    }

    fn event(&mut self, name: &'static str) {
        debug_assert!(EVENTS.contains(&name), "{name}");
        self.add("event", name);
    }

    /// Replays a vector and counts what happens in it.
    pub fn vector(&mut self, v: &Vector) {
        self.vectors += 1;
        let (mut t, mut m) = (v.machine.tables.clone(), v.machine.memory.clone());
        if let Err(clause) = sound(&t, &m) {
            self.add("damage", CLAUSES[clause as usize - 1].1);
        }
        for s in &v.steps {
            let (t0, m0) = (t.clone(), m.clone());
            let answer = step(true, &mut t, &mut m, &s.words);
            self.step(&t0, &m0, &s.words, answer, &t, &m);
        }
        let name = match (v.run.refusal, v.run.stop) {
            (4, _) => RUNS[3],
            (11, _) => RUNS[4],
            (_, 0) => RUNS[0],
            (_, 1) => RUNS[1],
            _ => RUNS[2],
        };
        self.add("run", name);
        self.refusals_of(v);
    }

    /// Counts one step, given the machine before and after it.
    pub fn step(&mut self, t0: &[u32], m0: &[u8], s: &[u32; 6], answer: Answer, t: &[u32], m: &[u8]) {
        self.steps += 1;
        match answer {
            Answer::Done => self.add("answer", "done"),
            Answer::Interrupt(level) => self.add("answer", &format!("interrupt {level}")),
            Answer::Refused(why) => {
                self.add("answer", &format!("refused {}", why.number()));
                self.add("why", why.text());
            }
        }
        self.refusal(t0, s, answer);
        if let Some(kind) = KINDS.get(s[0] as usize) {
            self.add(if answer.accepted() { "kind" } else { "kind refused" }, kind);
        }
        if let Answer::Refused(why) = answer {
            if s[0] == 0 && why.number() == 6 {
                self.core_refused(t0, m0, s, why);
            }
            return;
        }
        if s[0] == 0 {
            self.core(t0, m0, s, answer, t, m);
        } else {
            self.other(t0, m0, s, t, m);
        }
    }

    /// A core step that a guard refuses.
    fn core_refused(&mut self, t0: &[u32], m0: &[u8], s: &[u32; 6], why: Why) {
        let b = block(s[1] as usize);
        if t0[b + SR] & 2 != 0 && external_event(t0, b).is_some() {
            self.event("guard refuses though an external event is due");
        }
        let Ok(Some(i)) = fetch(t0, m0, b, Walk { first: s[2], base: s[3] }) else {
            return;
        };
        let Some(op) = isa::decode(i) else {
            return;
        };
        let misaligned = effective_address(t0, b, op, i) % isa::width(op) != 0;
        let data = Walk { first: s[4], base: s[5] };
        match why {
            Why::NarrowAtPort | Why::CasAtPort if misaligned => {
                self.event("byte, half or cas at a port, misaligned, refused 6")
            }
            Why::Hazard if misaligned => self.event("hazard, misaligned, refused 6"),
            Why::BufferNotEmpty
                if op == Op::Cas
                    && t0[b + MODE] & 1 == 1
                    && held(t0, b, data)
                    && !data.complete()
                    && data.pte(m0).is_none() =>
            {
                self.event("cas with stores pending and its entry outside memory, refused 6")
            }
            _ => {}
        }
    }

    fn core(&mut self, t0: &[u32], m0: &[u8], s: &[u32; 6], answer: Answer, t: &[u32], m: &[u8]) {
        let b = block(s[1] as usize);
        let user = t0[b + MODE] & 1 == 1;
        let pc = t0[b + PC];
        let w = Walk { first: s[2], base: s[3] };
        let instruction = fetch(t0, m0, b, w).expect("the step was accepted");
        let gone = chain_length(t0, b, WALKS) - chain_length(t, b, WALKS);
        let lowest_of = |t: &[u32], at: usize| lowest(&t[b + at..b + at + 8]);

        if let Answer::Interrupt(level) = answer {
            self.event(if user { "interrupt in user mode" } else { "interrupt in system mode" });
            if t[b + ECA].count_ones() > 1 {
                self.event("interrupt with several causes");
            }
            if lowest_of(t0, IRR).is_some() {
                self.event(if level == 1 {
                    "interrupt at level 1 moves its vector"
                } else {
                    "interrupt at another level moves a vector"
                });
            }
            if t[b + ECA] & 0x30 != 0 {
                if gone > 1 {
                    self.event("fault drops two walks or more");
                }
                if level < 4 {
                    self.event("fault taken at a lower level");
                }
            }
        }
        if lowest_of(t0, IRR).is_some() && t0[b + SR] & 2 != 0 && external_event(t0, b).is_none() {
            self.event("external event hidden by a vector in service");
        }
        if external_event(t0, b).is_some() && t0[b + SR] & 2 == 0 {
            self.event("external event masked by sr");
        }

        let Some(i) = instruction else {
            if pc & 3 != 0 {
                self.event("misaligned pc");
            } else {
                self.fault(m0, w, true);
            }
            return;
        };
        self.event(if user { "fetch through a walk" } else { "fetch in system mode" });
        let effect = matches!(answer, Answer::Done | Answer::Interrupt(6 | 7));
        let Some(op) = isa::decode(i) else {
            self.add("interrupted", "ill");
            return;
        };
        self.add(if effect { "effect" } else { "interrupted" }, isa::row(op).name);
        if SUMS.contains(&op) {
            self.sum(t0, b, op, i, answer, t);
        }

        let accesses = isa::load(op) || isa::store(op) || op == Op::Cas;
        let data = Walk { first: s[4], base: s[5] };
        if answer != Answer::Done {
            if t[b + ECA] >> 5 & 1 == 1 {
                self.fault(m0, data, false);
            } else if accesses {
                let ea = effective_address(t0, b, op, i);
                let pma = if user { data.base << 12 | ea & 0xFFF } else { ea };
                if !in_memory(m0.len(), pma, isa::width(op)) && !in_ports(pma) {
                    self.event("interrupt spares a refusal 7");
                } else if isa::store(op) && chain_length(t0, b, STORES) == 8 {
                    self.event("interrupt spares a refusal 8");
                }
                if in_ports(pma) && pma % 4 != 0 {
                    self.event("word access at a port, misaligned");
                }
            }
            return;
        }

        let mut pma = 0;
        if accesses {
            let ea = effective_address(t0, b, op, i);
            pma = if user { data.base << 12 | ea & 0xFFF } else { ea };
            if user {
                self.event("data access through a walk");
            }
        }
        if isa::load(op) {
            self.load(t0, b, pma, isa::width(op));
        }
        if isa::store(op) {
            self.event(if in_apic(pma) {
                "store to a local APIC port enters the buffer"
            } else if in_ioapic(pma) {
                "store to an I/O APIC port enters the buffer"
            } else {
                "store to memory enters the buffer"
            });
            if chain_length(t, b, STORES) == 8 {
                self.event("store enters as the eighth");
            }
            if pma as usize + isa::width(op) as usize == m.len() {
                self.event("store in the last bytes of memory");
            }
        }
        let (rs, rt, rd) = (t0[b + isa::rs(i)], t0[b + isa::rt(i)], t0[b + isa::rd(i)]);
        match op {
            Op::Cas => {
                let equal = word(m0, pma) == Some(rd);
                self.event(if equal { "cas succeeds" } else { "cas fails" });
                if isa::rd(i) == isa::rt(i) {
                    self.event("cas with rd and rt the same register");
                }
            }
            Op::Flush if gone > 1 => self.event("flush drops two walks or more"),
            Op::Invlpg if gone > 0 && t[b + WALKS] != 0 => self.event("invlpg drops some and keeps some"),
            Op::Eret => {
                self.event("eret to user mode");
                if lowest_of(t0, ISR).is_some() {
                    self.event("eret clears a vector in service");
                }
            }
            Op::Movg2s if t[b + MODE] & 1 == 1 => self.event("movg2s to user mode"),
            Op::Bltz | Op::Bgez | Op::Beq | Op::Bne | Op::Blez | Op::Bgtz => {
                self.event(if isa::taken(op, rs, rt) { "branch taken" } else { "branch not taken" });
            }
            Op::J | Op::Jal if pc & 0x0FFF_FFFC == 0x0FFF_FFFC => {
                self.event("j or jal whose pc + 4 carries into the upper four bits")
            }
            Op::Jalr if isa::rd(i) == isa::rs(i) && isa::rd(i) != 0 => {
                self.event("jalr with rd and rs the same register")
            }
            _ => {}
        }
        let destination = match op {
            _ if isa::load(op) || isa::compi(op) || op == Op::Movs2g => isa::rt(i),
            _ if isa::compr(op) => isa::rd(i),
            Op::Sll | Op::Srl | Op::Sra | Op::Sllv | Op::Srlv | Op::Srav | Op::Mfhi | Op::Mflo | Op::Mul => isa::rd(i),
            Op::Jalr | Op::Cas => isa::rd(i),
            _ => 31,
        };
        if destination == 0 {
            self.event("write to general register 0");
        }
        if t0[b + SR] >> 7 & 1 == 1 && !SUMS.contains(&op) {
            let right = if isa::compi(op) { isa::rop_immediate(i) } else { rt };
            let (x, y) = (rs as i32, right as i32);
            match op {
                Op::Slt | Op::Slti | Op::Sltu | Op::Sltiu if x.checked_sub(y).is_some() => {}
                Op::Slt | Op::Slti | Op::Sltu | Op::Sltiu => {
                    self.event("slt, slti, sltu or sltiu done, sr bit 7 set, the difference does not fit")
                }
                _ if x.checked_add(y).is_some() => {}
                Op::Sll | Op::Srl | Op::Sra | Op::Sllv | Op::Srlv | Op::Srav => {
                    self.event("shift done, sr bit 7 set, the sum of rs and rt does not fit")
                }
                _ if isa::alu(op) => self.event("another ALU instruction done, sr bit 7 set, the sum does not fit"),
                _ => {}
            }
        }
        if !user && t[b + MODE] & 1 == 0 && t[b + PC] as usize >= m.len() {
            self.event("core wraps past pc FFFFFFFC or jumps beyond memory");
        }
    }

    /// One of the six that add and subtract.
    fn sum(&mut self, t0: &[u32], b: usize, op: Op, i: u32, answer: Answer, t: &[u32]) {
        let left = t0[b + isa::rs(i)];
        let right = if isa::compr(op) { t0[b + isa::rt(i)] } else { isa::rop_immediate(i) };
        let (x, y) = (left as i32 as i64, right as i32 as i64);
        let difference = matches!(op, Op::Sub | Op::Subu);
        let (exact, result, carry) = if difference {
            (x - y, left.wrapping_sub(right), left < right)
        } else {
            (x + y, left.wrapping_add(right), left.checked_add(right).is_none())
        };
        let fits = |exact: i64| i32::try_from(exact).is_ok();
        let with_zeros = fits(x + isa::imm(i) as i64); // of an immediate
        let due = external_event(t0, b).is_some();
        let event = due && t0[b + SR] >> 1 & 1 == 1;
        let masked = t0[b + SR] >> 7 & 1 == 0;
        let destination = if isa::compr(op) { isa::rd(i) } else { isa::rt(i) };
        let shown = match answer {
            Answer::Interrupt(1) => format!("interrupt 1, eca {:X}", t[b + ECA]),
            _ => answer.to_string(),
        };
        let plain = !event && !masked;
        for (text, _, _) in SUM_ROWS {
            let occurs = match text {
                "too large (add: no carry; sub: borrow)" => plain && exact > i32::MAX as i64 && carry == difference,
                "too small (add: carry; sub: no borrow)" => plain && exact < i32::MIN as i64 && carry != difference,
                "does not fit, user mode" => plain && !fits(exact) && t0[b + MODE] & 1 == 1,
                "does not fit, system mode" => plain && !fits(exact) && t0[b + MODE] & 1 == 0,
                "does not fit, into register 0" => plain && !fits(exact) && destination == 0,
                "does not fit, would with zeros before the immediate" => plain && !fits(exact) && with_zeros,
                "does not fit, event masked by sr" => plain && !fits(exact) && due,
                "does not fit, event" => event && !masked && !fits(exact),
                "does not fit, event, overflow masked by sr" => event && masked && !fits(exact),
                "does not fit, overflow masked by sr" => !event && masked && !fits(exact),
                "fits, carry or borrow" => plain && fits(exact) && carry,
                "fits, neither carry nor borrow" => plain && fits(exact) && !carry,
                "fits, result 7FFFFFFF" => plain && fits(exact) && result == 0x7FFF_FFFF,
                "fits, result 80000000" => plain && fits(exact) && result == 0x8000_0000,
                "fits, would not with zeros before the immediate" => plain && fits(exact) && !with_zeros,
                _ => unreachable!("{text}"),
            };
            if occurs {
                self.add("sum", &format!("{text}: {} {shown}", isa::row(op).name));
            }
        }
    }

    fn fault(&mut self, m0: &[u8], w: Walk, fetch: bool) {
        let present = w.pte(m0).is_some_and(pte_present);
        self.event(match (fetch, w.level(), present) {
            (true, 2, false) => "fetch fault at level 2, entry absent",
            (true, 2, true) => "fetch fault at level 2, rights",
            (true, _, false) => "fetch fault at level 1, entry absent",
            (true, _, true) => "fetch fault at level 1, rights",
            (false, 2, false) => "data fault at level 2, entry absent",
            (false, 2, true) => "data fault at level 2, rights",
            (false, _, false) => "data fault at level 1, entry absent",
            (false, _, true) => "data fault at level 1, rights",
        });
    }

    fn load(&mut self, t0: &[u32], b: usize, a: u32, width: u32) {
        let mut stores = Vec::new();
        let mut n = t0[b + STORES];
        while n != 0 {
            let r = record(b, n);
            stores.push((t0[r + 1], t0[r + 3]));
            n = t0[r];
        }
        match stores.iter().rev().find(|(address, w)| a.wrapping_sub(*address) < *w) {
            Some((_, store_width)) => {
                self.event(match width {
                    1 => "load from the buffer, width 1",
                    2 => "load from the buffer, width 2",
                    _ => "load from the buffer, width 4",
                });
                if *store_width > width {
                    self.event("load from the buffer, narrower than its store");
                }
                if in_ports(a) {
                    self.event("load from a port's pending store");
                }
            }
            None if in_apic(a) => self.event("load from a local APIC port"),
            None if in_ioapic(a) => self.event("load from an I/O APIC port"),
            None => self.event(match width {
                1 => "load from memory, width 1",
                2 => "load from memory, width 2",
                _ => "load from memory, width 4",
            }),
        }
    }

    fn other(&mut self, t0: &[u32], m0: &[u8], s: &[u32; 6], t: &[u32], m: &[u8]) {
        let who = s[1] as usize;
        let b = block(if s[0] <= 8 { who } else { 0 });
        let w = Walk { first: s[2], base: s[3] };
        match s[0] {
            1 => {
                if t0 == t {
                    self.event("tlb-create, walk held");
                    if chain_length(t, b, WALKS) == 23 {
                        self.event("tlb-create, walk held, 23 walks");
                    }
                } else {
                    self.event("tlb-create, new walk");
                }
            }
            2 => {
                if t0 == t {
                    self.event("tlb-extend, walk held");
                }
                self.event(if w.level() == 2 { "tlb-extend from level 2" } else { "tlb-extend from level 1" });
                if t0[b + MODE] & 1 == 0 {
                    self.event("tlb-extend in system mode");
                }
            }
            3 => {
                if m0 == m {
                    self.event("tlb-accessed, bit already set");
                } else if w.level() == 2 {
                    self.event("tlb-accessed sets the bit, level 2");
                } else {
                    self.event("tlb-accessed sets the bit, level 1");
                }
                if t0[b + RUNNING] == 0 {
                    self.event("tlb-accessed, core not running");
                }
            }
            4 => {
                let r = record(b, t0[b + STORES]);
                let serving = lowest(&t0[b + ISR..b + ISR + 8]).is_some();
                self.event(match (t0[r + 1], t0[r + 3]) {
                    (0xFFFF_F00C, _) if serving => "buffer to EOI, vector in service",
                    (0xFFFF_F00C, _) => "buffer to EOI, none in service",
                    (0xFFFF_E000, _) => "buffer to IOREGSEL",
                    (0xFFFF_E004, _) if t0[IOREGSEL] < 24 => "buffer to IOWIN and its entry",
                    (0xFFFF_E004, _) => "buffer to IOWIN, no such entry",
                    (a, _) if in_apic(a) => "buffer to a plain APIC port",
                    (_, 1) => "buffer to memory, width 1",
                    (_, 2) => "buffer to memory, width 2",
                    _ => "buffer to memory, width 4",
                });
            }
            5 => {
                let icr = t0[b + ICR_LOW];
                let (dm, shorthand) = (icr >> 8 & 7, icr >> 18 & 3);
                let first = EVENTS.iter().position(|e| e.starts_with("IPI Fixed")).unwrap();
                let kind = match dm {
                    0b000 => 0,
                    0b101 => 1,
                    _ => 2,
                };
                self.event(EVENTS[first + 4 * kind + shorthand as usize]);
                let targets: Vec<usize> = (0..t0[CORES] as usize)
                    .filter(|&j| match shorthand {
                        0 => t0[block(j) + APIC_ID] >> 24 & 15 == t0[b + ICR_HIGH] >> 24,
                        1 => j == who,
                        2 => true,
                        _ => j != who,
                    })
                    .collect();
                if targets.is_empty() {
                    self.event("IPI without a target");
                }
                if dm == 0b110 && targets.iter().any(|&j| t0[block(j) + SIPIRR] == 1) {
                    self.event("SIPI discarded by a target");
                }
            }
            6 => {
                let cleared = t0[REDIRECT..REDIRECT + 24] != t[REDIRECT..REDIRECT + 24];
                self.event(if cleared { "EOI clears a remote IRR" } else { "EOI clears none" });
            }
            7 if t0[b + RUNNING] == 1 => self.event("INIT of a running core"),
            9 if t0 == t => self.event("sample, already to deliver"),
            10 => {
                let dest = t0[REDIRECT + who] >> 24;
                let count = (0..t0[CORES] as usize).filter(|&j| t0[block(j) + APIC_ID] >> 24 & 15 == dest).count();
                self.event(match count {
                    0 => "deliver to no APIC",
                    1 => "deliver to one APIC",
                    _ => "deliver to several APICs",
                });
            }
            11 if t0[LINES] < t[LINES] => self.event("line raised"),
            11 if t0[LINES] > t[LINES] => self.event("line lowered"),
            _ => {}
        }
    }

    // ------------------------------------------------------------ printing

    /// Every sum or difference that must occur, and of which instruction.
    pub fn expected_sums() -> Vec<(Op, String)> {
        let cells = (0..SUM_ROWS.len()).flat_map(|row| SUMS.map(|op| (op, sum_cell(row, op))));
        cells.filter_map(|(op, cell)| Some((op, cell?))).collect()
    }

    /// Every (section, name) that must occur.
    pub fn expected() -> Vec<(&'static str, String)> {
        let mut all = Vec::new();
        for kind in KINDS {
            all.push(("kind", kind.to_string()));
            all.push(("kind refused", kind.to_string()));
        }
        all.push(("answer", "done".to_string()));
        all.extend((1..=7).map(|level| ("answer", format!("interrupt {level}"))));
        all.extend((4..=9).map(|number| ("answer", format!("refused {number}"))));
        for row in &isa::ROWS {
            all.push(("effect", row.name.to_string()));
            all.push(("interrupted", row.name.to_string()));
        }
        all.push(("interrupted", "ill".to_string()));
        let never = [Why::Length, Why::NoFreeRecord];
        all.extend(WHYS.iter().filter(|(why, _)| !never.contains(why)).map(|w| ("why", w.1.to_string())));
        all.extend(EVENTS.iter().map(|e| ("event", e.to_string())));
        all.extend(Counts::expected_sums().into_iter().map(|(_, cell)| ("sum", cell)));
        all.extend(CLAUSES.iter().map(|c| ("damage", c.1.to_string())));
        all.extend(RUNS.iter().map(|r| ("run", r.to_string())));
        all.extend(Counts::expected_refusals());
        all
    }

    /// The tables of README.md.
    pub fn print(&self) -> String {
        let mut out = String::new();
        let o = &mut out;
        writeln!(o, "{} vectors, {} steps.\n", self.vectors, self.steps).unwrap();
        writeln!(o, "| answer | times |\n|---|---|").unwrap();
        writeln!(o, "| done | {} |", self.get("answer", "done")).unwrap();
        for level in 0..8 {
            let name = format!("interrupt {level}");
            writeln!(o, "| {name} | {} |", self.get("answer", &name)).unwrap();
        }
        for number in 4..=10 {
            let name = format!("refused {number}");
            writeln!(o, "| {name} | {} |", self.get("answer", &name)).unwrap();
        }
        writeln!(o, "\n| step kind | accepted | refused |\n|---|---|---|").unwrap();
        for kind in KINDS {
            writeln!(o, "| {kind} | {} | {} |", self.get("kind", kind), self.get("kind refused", kind)).unwrap();
        }
        writeln!(o, "\n| instruction | took effect | interrupted |\n|---|---|---|").unwrap();
        for row in &isa::ROWS {
            let n = row.name;
            writeln!(o, "| {n} | {} | {} |", self.get("effect", n), self.get("interrupted", n)).unwrap();
        }
        writeln!(o, "| (illegal word) | | {} |", self.get("interrupted", "ill")).unwrap();
        writeln!(o, "\n| refusal | ground | times |\n|---|---|---|").unwrap();
        for (why, text) in WHYS.into_iter().filter(|(why, _)| *why != Why::Length) {
            writeln!(o, "| {} | {text} | {} |", why.number(), self.get("why", text)).unwrap();
        }
        writeln!(o, "\n| event | times |\n|---|---|").unwrap();
        for event in EVENTS {
            writeln!(o, "| {event} | {} |", self.get("event", event)).unwrap();
        }
        let names = SUMS.map(|op| isa::row(op).name);
        let (overflowing, never) = (names[..3].join(" | "), names[3..].join(" | "));
        writeln!(o, "\n| a sum or difference | answer | {overflowing} | answer | {never} |").unwrap();
        writeln!(o, "|---|---|---|---|---|---|---|---|---|").unwrap();
        for (row, (text, first, second)) in SUM_ROWS.iter().enumerate() {
            let n = SUMS.map(|op| sum_cell(row, op).map_or("".into(), |cell| format!("{} ", self.get("sum", &cell))));
            let (n, u) = n.split_at(3);
            writeln!(o, "| {text} | {first} | {}| {second} | {}|", n.join("| "), u.join("| ")).unwrap();
        }
        writeln!(o, "\n| damaged tables, broken clause | machines |\n|---|---|").unwrap();
        for (_, text) in CLAUSES {
            writeln!(o, "| {text} | {} |", self.get("damage", text)).unwrap();
        }
        writeln!(o, "\n| run stops by | times |\n|---|---|").unwrap();
        for name in RUNS {
            writeln!(o, "| {name} | {} |", self.get("run", name)).unwrap();
        }
        out + &self.print_refusals()
    }
}
