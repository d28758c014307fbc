//! The figures at the edges of the scope paper, starred or not, and the
//! operations' own edges.

use oracle::isa::{self, alures, mures, Op, ROWS};
use oracle::machine::{hazard, word, Walk};
use oracle::soundness::*;
use oracle::{make, run, sound, step, Answer, Clause, Run, Stop, Why};

struct M {
    t: Vec<u32>,
    m: Vec<u8>,
}

const B: usize = 32; // block of core 0

impl M {
    fn new(cores: u32, pages: usize) -> M {
        let (mut t, m) = (vec![0; table_words(cores as usize)], vec![0; pages * PAGE]);
        make(cores, &mut t, &m).unwrap();
        M { t, m }
    }
    fn step(&mut self, s: [u32; 6]) -> Answer {
        self.call(&s)
    }
    /// A call of step with any number of words.
    fn call(&mut self, s: &[u32]) -> Answer {
        sound(&self.t, &self.m).expect("sound before");
        let answer = step(true, &mut self.t, &mut self.m, s);
        sound(&self.t, &self.m).expect("sound after");
        answer
    }
    /// The refusal counts: header word 2, then word 115 of each core.
    fn refusals(&self) -> Vec<u32> {
        let words = (0..self.t[CORES] as usize).map(|k| self.t[block(k) + 115]);
        [self.t[2]].into_iter().chain(words).collect()
    }
    fn set_refusals(&mut self, counts: &[u32]) {
        self.t[2] = counts[0];
        counts[1..].iter().enumerate().for_each(|(k, &n)| self.t[block(k) + 115] = n);
    }
    /// A call that is refused with this number, and the counts after it; nothing
    /// else has changed.
    fn refused(&mut self, s: &[u32], number: u32) -> Vec<u32> {
        let (mut t, m) = (self.t.clone(), self.m.clone());
        match self.call(s) {
            Answer::Refused(why) => assert_eq!(why.number(), number, "{s:?}"),
            answer => panic!("{s:?}: {answer}"),
        }
        t[2] = self.t[2];
        (0..t[CORES] as usize).for_each(|k| t[block(k) + 115] = self.t[block(k) + 115]);
        assert_eq!((&self.t, &self.m), (&t, &m), "{s:?}");
        self.refusals()
    }
    /// Lays an instruction at the (system mode) pc and takes a core step.
    fn exec(&mut self, i: u32) -> Answer {
        let pc = self.t[B + PC] as usize;
        self.m[pc..pc + 4].copy_from_slice(&i.to_le_bytes());
        self.step([0, 0, 0, 0, 0, 0])
    }
    fn gpr(&mut self, x: usize) -> &mut u32 {
        &mut self.t[B + x]
    }
    /// A user mode core with a complete walk for page 1 to page 0, all rights.
    fn user(&mut self) -> Walk {
        self.t[B + MODE] = 1;
        self.t[B + PC] = 0x1000;
        let w = Walk::new(1, 0, 0, 7, 0);
        self.hold(w);
        w
    }
    /// Adds a walk as the machine would.
    fn hold(&mut self, w: Walk) {
        let n = self.t[B + FREE];
        let r = record(B, n);
        self.t[B + FREE] = self.t[r];
        self.t[r] = self.t[B + WALKS];
        self.t[r + 1] = w.first;
        self.t[r + 2] = w.base;
        self.t[B + WALKS] = n;
    }
}

fn itype(op: Op, rs: u32, rt: u32, imm: u32) -> u32 {
    let row = isa::row(op);
    row.opcode << 26 | rs << 21 | row.rt.unwrap_or(rt) << 16 | imm & 0xFFFF
}
fn rtype(op: Op, rs: u32, rt: u32, rd: u32) -> u32 {
    let row = isa::row(op);
    row.opcode << 26 | row.rs.unwrap_or(rs) << 21 | rt << 16 | rd << 11 | row.fun.unwrap_or(0)
}

#[test]
fn rows_and_decode_agree() {
    for (n, row) in ROWS.iter().enumerate() {
        assert_eq!(row.op as usize, n);
    }
    let matches = |i: u32| -> Vec<Op> {
        ROWS.iter()
            .filter(|r| {
                r.opcode == isa::opc(i)
                    && r.fun.is_none_or(|f| f == isa::fun(i))
                    && r.rs.is_none_or(|s| s as usize == isa::rs(i))
                    && r.rt.is_none_or(|t| t as usize == isa::rt(i))
            })
            .map(|r| r.op)
            .collect()
    };
    for opcode in 0..64u32 {
        for fun in 0..64 {
            for reg in 0..1024u32 {
                let i = opcode << 26 | reg << 16 | 0x5 << 11 | fun;
                let found = matches(i);
                assert!(found.len() <= 1);
                assert_eq!(isa::decode(i), found.first().copied(), "{i:08X}");
            }
        }
    }
}

/// The form with u of add, addi or sub.
fn unsigned(op: Op) -> Op {
    match op {
        Op::Add => Op::Addu,
        Op::Addi => Op::Addiu,
        _ => Op::Subu,
    }
}

/// An ALU instruction with these operands, result in register 3, about to be
/// taken with this sr. An immediate is the low half of `right`.
fn about_to(op: Op, left: u32, right: u32, sr: u32) -> (M, u32) {
    let mut m = M::new(1, 1);
    m.t[B + SR] = sr;
    *m.gpr(1) = left;
    *m.gpr(2) = if isa::compr(op) { right } else { 0x5555_5555 };
    *m.gpr(3) = 0x7FFF_FFFF;
    (m, if isa::compr(op) { rtype(op, 1, 2, 3) } else { itype(op, 1, 3, right) })
}

/// One sum or difference through whole steps: by add, addi or sub, and by the
/// form with u; unmasked, masked, and with an external event.
fn figure(op: Op, left: u32, right: u32, result: u32, overflows: bool) {
    if !isa::compr(op) {
        assert_eq!(isa::simm(right), right, "an immediate");
    }
    for (op, overflows) in [(op, overflows), (unsigned(op), false)] {
        let what = format!("{op:?} {left:08X} {right:08X}");
        for sr in [0, 1 << 7, 1 << 1, 1 << 7 | 1 << 1, !(1 << 7), u32::MAX] {
            let raises = overflows && sr >> 7 & 1 == 1;
            let (mut m, i) = about_to(op, left, right, sr);
            m.t[B + ECA] = 0x1234;
            assert_eq!(m.exec(i), if raises { Answer::Interrupt(7) } else { Answer::Done }, "{what} sr {sr:X}");
            assert_eq!(*m.gpr(3), result, "{what}: continue, so the result is there");
            let after = if raises { (0, 0, sr, 1 << 7, 4) } else { (4, sr, 0, 0x1234, 0) };
            assert_eq!((m.t[B + PC], m.t[B + SR], m.t[B + ESR], m.t[B + ECA], m.t[B + EPC]), after, "{what}");
            assert_eq!(m.t[B + EDATA], 0);

            // An external event wins where sr lets it; both are told.
            let (mut m, i) = about_to(op, left, right, sr);
            m.t[B + IRR] = 1 << 9;
            let event = sr >> 1 & 1 == 1;
            let (answer, eca) = match (event, raises) {
                (true, true) => (Answer::Interrupt(1), 0x82),
                (true, false) => (Answer::Interrupt(1), 0x02),
                (false, true) => (Answer::Interrupt(7), 0x80),
                (false, false) => (Answer::Done, 0),
            };
            assert_eq!((m.exec(i), m.t[B + ECA]), (answer, eca), "{what} sr {sr:X}, event");
            assert_eq!(*m.gpr(3), if event { 0x7FFF_FFFF } else { result });
            assert_eq!(m.t[B + EPC], if !event && raises { 4 } else { 0 });
        }
    }
}

#[test]
fn sums_and_overflow() {
    // The starred figures.
    figure(Op::Add, 0x7FFF_FFFF, 1, 0x8000_0000, true);
    figure(Op::Add, 0xFFFF_FFFF, 1, 0, false); // it carries, and fits

    // Upward and downward, and just not.
    figure(Op::Add, 1, 0x7FFF_FFFF, 0x8000_0000, true);
    figure(Op::Add, 0x7FFF_FFFF, 0x7FFF_FFFF, 0xFFFF_FFFE, true);
    figure(Op::Add, 0x4000_0000, 0x4000_0000, 0x8000_0000, true);
    figure(Op::Add, 0x8000_0000, 0xFFFF_FFFF, 0x7FFF_FFFF, true);
    figure(Op::Add, 0x8000_0000, 0x8000_0000, 0, true);
    figure(Op::Add, 0xBFFF_FFFF, 0xC000_0000, 0x7FFF_FFFF, true);
    figure(Op::Add, 0x7FFF_FFFE, 1, 0x7FFF_FFFF, false);
    figure(Op::Add, 0x4000_0000, 0x3FFF_FFFF, 0x7FFF_FFFF, false);
    figure(Op::Add, 0x8000_0001, 0xFFFF_FFFF, 0x8000_0000, false);
    figure(Op::Add, 0xC000_0000, 0xC000_0000, 0x8000_0000, false);
    figure(Op::Add, 0x7FFF_FFFF, 0x8000_0000, 0xFFFF_FFFF, false);
    figure(Op::Add, 0x7FFF_FFFF, 0xFFFF_FFFF, 0x7FFF_FFFE, false); // it carries
    figure(Op::Add, 0x8000_0000, 0x7FFF_FFFF, 0xFFFF_FFFF, false);
    figure(Op::Add, 0x8000_0000, 1, 0x8000_0001, false);
    figure(Op::Add, 0, 0, 0, false);
    figure(Op::Sub, 0x7FFF_FFFF, 0xFFFF_FFFF, 0x8000_0000, true); // it borrows
    figure(Op::Sub, 0, 0x8000_0000, 0x8000_0000, true); // it borrows
    figure(Op::Sub, 0x7FFF_FFFF, 0x8000_0000, 0xFFFF_FFFF, true);
    figure(Op::Sub, 0x8000_0000, 1, 0x7FFF_FFFF, true); // no borrow
    figure(Op::Sub, 0x8000_0000, 0x7FFF_FFFF, 1, true); // no borrow
    figure(Op::Sub, 0xFFFF_FFFE, 0x7FFF_FFFF, 0x7FFF_FFFF, true);
    figure(Op::Sub, 0, 1, 0xFFFF_FFFF, false); // it borrows, and fits
    figure(Op::Sub, 0x7FFF_FFFE, 0xFFFF_FFFF, 0x7FFF_FFFF, false);
    figure(Op::Sub, 0x8000_0001, 1, 0x8000_0000, false);
    figure(Op::Sub, 0xFFFF_FFFF, 0x7FFF_FFFF, 0x8000_0000, false);
    figure(Op::Sub, 0xFFFF_FFFF, 0x8000_0000, 0x7FFF_FFFF, false);
    figure(Op::Sub, 0x8000_0000, 0x8000_0000, 0, false);
    figure(Op::Sub, 0x8000_0000, 0xFFFF_FFFF, 0x8000_0001, false); // it borrows
    figure(Op::Sub, 0, 0x7FFF_FFFF, 0x8000_0001, false); // it borrows
    figure(Op::Sub, 0x7FFF_FFFF, 1, 0x7FFF_FFFE, false);
}

/// The right operand is the immediate, extended by its sign.
#[test]
fn sums_with_an_immediate() {
    let (most, least, minus_one) = (0x7FFF, 0xFFFF_8000, 0xFFFF_FFFF);
    figure(Op::Addi, 0x7FFF_FFFF, 1, 0x8000_0000, true);
    figure(Op::Addi, 0x7FFF_FFFE, 1, 0x7FFF_FFFF, false);
    figure(Op::Addi, 0x7FFF_8000, most, 0x7FFF_FFFF, false);
    figure(Op::Addi, 0x7FFF_8001, most, 0x8000_0000, true);
    figure(Op::Addi, 0x7FFF_FFFF, most, 0x8000_7FFE, true);
    figure(Op::Addi, 0x8000_0000, most, 0x8000_7FFF, false);
    figure(Op::Addi, 0xFFFF_8001, most, 0, false); // it carries
    figure(Op::Addi, 0x8000_8000, least, 0x8000_0000, false); // it carries
    figure(Op::Addi, 0x8000_7FFF, least, 0x7FFF_FFFF, true);
    figure(Op::Addi, 0x8000_0000, least, 0x7FFF_8000, true);
    figure(Op::Addi, 0x7FFF_FFFF, least, 0x7FFF_7FFF, false); // by zeros it would not fit
    figure(Op::Addi, 0, least, 0xFFFF_8000, false);
    figure(Op::Addi, 0x8000_0001, minus_one, 0x8000_0000, false);
    figure(Op::Addi, 0x8000_0000, minus_one, 0x7FFF_FFFF, true); // by zeros it would fit
    figure(Op::Addi, 0x7FFF_FFFF, minus_one, 0x7FFF_FFFE, false);
    figure(Op::Addi, 0xFFFF_FFFF, minus_one, 0xFFFF_FFFE, false);
    figure(Op::Addi, 0, minus_one, 0xFFFF_FFFF, false);
    figure(Op::Addi, 0x7FFF_FFFF, 0, 0x7FFF_FFFF, false);
    figure(Op::Addi, 0x8000_0000, 0, 0x8000_0000, false);
}

/// All pairs of some numbers: add, addi and sub overflow where 64 bits hold
/// another result than 32 do, and no other instruction raises cause 7.
#[test]
fn only_add_addi_and_sub_overflow() {
    let numbers = [
        0u32,
        1,
        0x7FFF,
        0x8000,
        0xFFFF,
        0x3FFF_FFFF,
        0x4000_0000,
        0x7FFF_7FFF,
        0x7FFF_8000,
        0x7FFF_FFFE,
        0x7FFF_FFFF,
        0x8000_0000,
        0x8000_0001,
        0x8000_7FFF,
        0x8000_8000,
        0xBFFF_FFFF,
        0xC000_0000,
        0xFFFF_7FFF,
        0xFFFF_8000,
        0xFFFF_FFFE,
        0xFFFF_FFFF,
    ];
    let mut raised = [0; 61];
    for row in &ROWS {
        // Those that access memory have other causes, and sysc its own.
        if isa::load(row.op) || isa::store(row.op) || matches!(row.op, Op::Cas | Op::Sysc) {
            continue;
        }
        for (left, right) in numbers.iter().flat_map(|&left| numbers.map(|right| (left, right))) {
            let (mut m, mut i) = about_to(row.op, left, right, 1 << 7);
            if !isa::alu(row.op) {
                *m.gpr(2) = right;
                let fields = row.fun.or(row.rs).is_some();
                i = if fields { rtype(row.op, 1, 2, 3) } else { itype(row.op, 1, 2, right) };
            }
            let (x, y) = (left as i32 as i64, right as i32 as i64);
            let exact = match row.op {
                Op::Add => x + y,
                Op::Addi => x + right as u16 as i16 as i64,
                Op::Sub => x - y,
                _ => 0,
            };
            let overflows = exact != exact as i32 as i64;
            raised[row.op as usize] += overflows as u32;
            let answer = m.exec(i);
            assert_eq!(
                answer,
                if overflows { Answer::Interrupt(7) } else { Answer::Done },
                "{i:08X} {left:X} {right:X}"
            );
        }
    }
    let who: Vec<Op> = ROWS.iter().map(|r| r.op).filter(|&op| raised[op as usize] > 20).collect();
    assert_eq!(who, [Op::Addi, Op::Add, Op::Sub]);
    assert_eq!(raised.iter().filter(|&&n| n > 0).count(), 3);
}

/// Overflow in user mode goes to the handler in system mode; register 0 stays
/// zero and the interrupt comes all the same. An address sum never overflows.
#[test]
fn overflow_in_user_mode_and_into_register_0() {
    let mut m = M::new(1, 1);
    let w = m.user();
    m.t[B + SR] = 1 << 7;
    *m.gpr(1) = 0x8000_0000;
    for (n, i) in [rtype(Op::Subu, 1, 1, 4), rtype(Op::Add, 1, 1, 0)].iter().enumerate() {
        m.m[4 * n..4 * n + 4].copy_from_slice(&i.to_le_bytes());
    }
    let go = [0, 0, w.first, w.base, 0, 0];
    assert_eq!((m.step(go), m.step(go)), (Answer::Done, Answer::Interrupt(7)));
    assert_eq!((*m.gpr(0), m.t[B + EPC], m.t[B + ECA], m.t[B + MODE]), (0, 0x1008, 1 << 7, 0));

    let mut m = M::new(1, 1);
    let w = m.user();
    let data = Walk::new(0x80000, 0, 0, 7, 0);
    m.hold(data);
    m.t[B + SR] = 1 << 7;
    *m.gpr(1) = 0x7FFF_FFFC;
    for (n, i) in [itype(Op::Lw, 1, 2, 4), itype(Op::Sw, 1, 2, 4)].iter().enumerate() {
        m.m[4 * n..4 * n + 4].copy_from_slice(&i.to_le_bytes());
    }
    let go = [0, 0, w.first, w.base, data.first, data.base];
    assert_eq!((m.step(go), m.step(go)), (Answer::Done, Answer::Done));
    assert_eq!(*m.gpr(2), itype(Op::Lw, 1, 2, 4));
}

/// The results are those of the printed table, by the control bits.
#[test]
fn results_by_control_bits() {
    for control in [0b0000, 0b0001] {
        assert_eq!(alures(0x7FFF_FFFF, 1, control, false), 0x8000_0000);
        assert_eq!(alures(0xFFFF_FFFF, 1, control, false), 0);
    }
    for control in [0b0010, 0b0011] {
        assert_eq!(alures(0x8000_0000, 1, control, false), 0x7FFF_FFFF);
        assert_eq!(alures(0, 1, control, false), 0xFFFF_FFFF);
    }
}

#[test]
fn set_on_less() {
    let mut m = M::new(1, 1);
    m.exec(itype(Op::Sltiu, 0, 1, 0xFFFF));
    m.exec(itype(Op::Slti, 0, 2, 0xFFFF));
    assert_eq!((*m.gpr(1), *m.gpr(2)), (1, 0));
}

#[test]
fn products() {
    let ones = 0xFFFF_FFFF;
    assert_eq!(mures(ones, ones, 0, 0, 0b000), 1);
    assert_eq!(mures(ones, ones, 0, 0, 0b001), 0xFFFF_FFFE_0000_0001);
    let mut m = M::new(1, 1);
    *m.gpr(1) = ones;
    m.exec(rtype(Op::Mult, 1, 1, 0));
    assert_eq!((m.t[B + HI], m.t[B + LO]), (0, 1));
    m.exec(rtype(Op::Multu, 1, 1, 0));
    assert_eq!((m.t[B + HI], m.t[B + LO]), (0xFFFF_FFFE, 1));
    // mul keeps HI and LO.
    m.exec(rtype(Op::Mul, 1, 1, 2));
    assert_eq!((m.t[B + HI], m.t[B + LO], *m.gpr(2)), (0xFFFF_FFFE, 1, 1));
    (m.t[B + HI], m.t[B + LO]) = (0, 0);
    *m.gpr(1) = 1;
    m.exec(rtype(Op::Msub, 1, 1, 0));
    assert_eq!((m.t[B + HI], m.t[B + LO]), (ones, ones));
    m.exec(rtype(Op::Maddu, 1, 1, 0));
    assert_eq!((m.t[B + HI], m.t[B + LO]), (0, 0));
}

#[test]
fn store_buffer_figures() {
    let mut m = M::new(1, 1);
    *m.gpr(1) = 0x1122_3344;
    *m.gpr(2) = 0xAA;
    assert_eq!(m.exec(itype(Op::Sw, 0, 1, 0x100)), Answer::Done);
    assert_eq!(m.exec(itype(Op::Sb, 0, 2, 0x101)), Answer::Done);
    assert_eq!(m.exec(itype(Op::Lbu, 0, 3, 0x101)), Answer::Done);
    assert_eq!(m.exec(itype(Op::Lbu, 0, 4, 0x100)), Answer::Done);
    assert_eq!((*m.gpr(3), *m.gpr(4)), (0xAA, 0x44));
    assert!(hazard(&m.t, B, 0x100, 2));
    assert!(!hazard(&m.t, B, 0x104, 4));
    assert_eq!(m.exec(itype(Op::Lhu, 0, 5, 0x100)), Answer::Refused(Why::Hazard));
    assert_eq!(m.exec(itype(Op::Lw, 0, 5, 0x104)), Answer::Done);
    assert_eq!(m.refusals(), [0, 1]);
    // Both leave in order.
    m.step([4, 0, 0, 0, 0, 0]);
    assert_eq!(word(&m.m, 0x100), Some(0x1122_3344));
    m.step([4, 0, 0, 0, 0, 0]);
    assert_eq!(word(&m.m, 0x100), Some(0x1122_AA44));
}

#[test]
fn ninth_store() {
    let mut m = M::new(1, 1);
    for n in 0..8 {
        assert_eq!(m.exec(itype(Op::Sw, 0, 0, 0x100 + 4 * n)), Answer::Done);
    }
    assert_eq!(m.exec(itype(Op::Sw, 0, 0, 0x200)), Answer::Refused(Why::NinthStore));
    assert_eq!(Why::NinthStore.number(), 8);
    assert_eq!(m.step([4, 0, 0, 0, 0, 0]), Answer::Done);
    assert_eq!(m.exec(itype(Op::Sw, 0, 0, 0x200)), Answer::Done);
    // The freed record 1 was the one taken.
    assert_eq!(m.t[record(B, 1) + 1], 0x200);
    assert_eq!(m.t[record(B, 8)], 1);
}

#[test]
fn twenty_fourth_walk() {
    let mut m = M::new(1, 1);
    m.t[B + MODE] = 1;
    for va in 0..23 {
        assert_eq!(m.step([1, 0, va, 0, 0, 0]), Answer::Done);
    }
    assert_eq!(m.step([1, 0, 23, 0, 0, 0]), Answer::Refused(Why::TwentyFourthWalk));
    assert_eq!(Why::TwentyFourthWalk.number(), 9);
    let before = m.t.clone();
    assert_eq!(m.step([1, 0, 7, 0, 0, 0]), Answer::Done);
    assert_eq!(m.t, before);
}

#[test]
fn jumps_and_branches() {
    let j = isa::row(Op::J).opcode << 26 | 1;
    assert_eq!(isa::jump_target(0x0FFF_FFFC, j), 0x1000_0004);
    let mut m = M::new(1, 1);
    m.t[B + PC] = 0x100;
    assert_eq!(m.exec(itype(Op::Beq, 0, 0, 0xFFFF)), Answer::Done);
    assert_eq!(m.t[B + PC], 0xFC);
    // The jump itself: the last word of virtual page 0FFFF, held at page 0.
    let mut m = M::new(1, 1);
    m.t[B + MODE] = 1;
    m.t[B + PC] = 0x0FFF_FFFC;
    let w = Walk::new(0x0FFFF, 0, 0, 7, 0);
    m.hold(w);
    m.m[0xFFC..0x1000].copy_from_slice(&j.to_le_bytes());
    assert_eq!(m.step([0, 0, w.first, w.base, 0, 0]), Answer::Done);
    assert_eq!(m.t[B + PC], 0x1000_0004);
}

#[test]
fn packed_walk() {
    assert_eq!(Walk::new(0x12345, 3, 1, 5, 0).first, 0x1234_50CD);
}

#[test]
fn eoi_clears_the_lowest() {
    let mut m = M::new(1, 1);
    m.t[B + ISR] = 1 << 5 | 1 << 9;
    *m.gpr(1) = 0xFFFF_F000;
    *m.gpr(2) = 77;
    m.exec(itype(Op::Sw, 1, 2, 12));
    assert_eq!(m.step([4, 0, 0, 0, 0, 0]), Answer::Done);
    assert_eq!((m.t[B + ISR], m.t[B + EOIPENDING], m.t[B + EOI]), (1 << 9, 1 << 5, 77));
    m.t[REDIRECT + 3] = 5 | 1 << 14;
    m.t[REDIRECT + 4] = 6 | 1 << 14;
    assert_eq!(m.step([6, 0, 0, 0, 0, 0]), Answer::Done);
    assert_eq!((m.t[REDIRECT + 3], m.t[REDIRECT + 4], m.t[B + EOIPENDING]), (5, 6 | 1 << 14, 0));
}

#[test]
fn made_machine() {
    let m = M::new(4, 2);
    assert_eq!(sound(&m.t, &m.m), Ok(()));
    assert_eq!((m.t[CORES], m.t[PAGES]), (4, 2));
    for k in 0..4 {
        let b = block(k);
        assert_eq!(m.t[b + RUNNING], (k == 0) as u32);
        assert_eq!(m.t[b + APIC_ID], (k as u32) << 24);
        assert_eq!((m.t[b + FREE], m.t[record(b, 1)], m.t[record(b, 30)], m.t[record(b, 31)]), (1, 2, 31, 0));
    }
    let mut t = vec![7; 288];
    assert_eq!(make(0, &mut t, &[]), Err(1));
    assert_eq!(make(5, &mut t, &[]), Err(1));
    assert_eq!(make(1, &mut t, &[]), Err(2));
    assert_eq!(make(1, &mut t, &[0; 4095]), Err(2));
    assert_eq!(make(2, &mut t, &[0; 4097]), Err(2));
    assert_eq!(make(1, &mut t, &vec![0; 4097 * PAGE]), Err(2));
    assert_eq!(make(2, &mut t, &[0; 4096]), Err(3));
    assert!(t.iter().all(|&w| w == 7));
}

#[test]
fn run_counts_as_single_steps() {
    let line = [11, 3, 1, 0, 0, 0];
    let empty = [4, 0, 0, 0, 0, 0];
    let schedule: Vec<u32> = [line, line, empty, line].concat();
    let go = |schedule: &[u32], limit| {
        let mut m = M::new(1, 1);
        (run(true, &mut m.t, &mut m.m, schedule, limit), m.t[B + 115])
    };
    let refused = Stop::Refused(Why::BufferEmpty);
    assert_eq!(go(&schedule, 9), (Ok(Run { accepted: 2, stop: refused }), 1));
    assert_eq!(go(&schedule, 2), (Ok(Run { accepted: 2, stop: Stop::Limit }), 0));
    assert_eq!(go(&schedule[..12], 2), (Ok(Run { accepted: 2, stop: Stop::End }), 0));
    assert_eq!(go(&[], 0), (Ok(Run { accepted: 0, stop: Stop::End }), 0));
    assert_eq!(go(&schedule, 0), (Ok(Run { accepted: 0, stop: Stop::Limit }), 0));
    assert_eq!(go(&schedule[..7], 9).0, Err(11));
    assert_eq!(go(&[0; 6150], 9).0, Err(11));
    let full = line.repeat(1024);
    assert_eq!(go(&full, 2000), (Ok(Run { accepted: 1024, stop: Stop::End }), 0));
    let mut m = M::new(1, 1);
    m.t[30] = 1;
    assert_eq!(run(true, &mut m.t, &mut m.m, &schedule[..7], 9), Err(4));
}

/// Request 5 of 02: kinds 0 to 8 with a core that is there count in its word
/// 115, whatever the refusal is.
#[test]
fn a_core_counts_its_refusals() {
    // Stray words, a va and rights too wide. A core step has no such words.
    let mut m = M::new(3, 1);
    assert_eq!(m.refused(&[1, 0, 0x10_0000, 0, 0, 0], 5), [0, 1, 0, 0]);
    assert_eq!(m.refused(&[1, 2, 0xFFFF_FFFF, 0, 0, 0], 5), [0, 1, 0, 1]);
    assert_eq!(m.refused(&[2, 1, 0, 0, 8, 0], 5), [0, 1, 1, 1]);
    assert_eq!(m.refused(&[2, 1, 0, 0, 0xFFFF_FFFF, 0], 5), [0, 1, 2, 1]);
    m.set_refusals(&[0, 0, 0, 0]);
    for kind in 1..9 {
        let words = [kind, kind % 3, 0, 0, 0, 1];
        let before = m.t[block(kind as usize % 3) + 115];
        m.refused(&words, 5);
        assert_eq!(m.t[block(kind as usize % 3) + 115], before + 1);
    }
    assert_eq!(m.refusals(), [0, 2, 3, 3]);

    // 6 by every kind, of a core that does not run and has nothing pending.
    let mut m = M::new(4, 1);
    for kind in 0..9 {
        assert_eq!(m.refused(&[kind, 3, 0, 0, 0, 0], 6), [0, 0, 0, 0, kind + 1]);
    }
    assert_eq!(m.refused(&[4, 0, 0, 0, 0, 0], 6), [0, 1, 0, 0, 9]);

    // 7: a fetch, and the entry of a walk.
    let mut m = M::new(1, 1);
    m.t[B + PC] = 0x1000;
    assert_eq!(m.refused(&[0, 0, 0, 0, 0, 0], 7), [0, 1]);
    m.t[B + MODE] = 1;
    let w = Walk::new(0, 0, 2, 7, 1);
    m.hold(w);
    assert_eq!(m.refused(&[2, 0, w.first, w.base, 0, 0], 7), [0, 2]);
    assert_eq!(m.refused(&[3, 0, w.first, w.base, 0, 0], 7), [0, 3]);

    // 8: a ninth store.
    let mut m = M::new(1, 1);
    for n in 0..8 {
        assert_eq!(m.exec(itype(Op::Sw, 0, 0, 0x100 + 4 * n)), Answer::Done);
    }
    m.m[0x20..0x24].copy_from_slice(&itype(Op::Sw, 0, 0, 0x200).to_le_bytes());
    assert_eq!(m.refused(&[0, 0, 0, 0, 0, 0], 8), [0, 1]);

    // 9: a twenty-fourth walk, new and extended. Entry 0 of page 0 is page 0.
    let mut m = M::new(1, 1);
    m.t[B + MODE] = 1;
    m.m[..4].copy_from_slice(&0x0000_0F80u32.to_le_bytes());
    for va in 0..23 {
        assert_eq!(m.step([1, 0, va, 0, 0, 0]), Answer::Done);
    }
    let w = Walk::new(0, 0, 2, 7, 0);
    assert_eq!(m.refused(&[1, 0, 23, 0, 0, 0], 9), [0, 1]);
    assert_eq!(m.refused(&[2, 0, w.first, w.base, 0, 0], 9), [0, 2]);

    // 10, which sound tables do not give: all free records are lost.
    let mut m = M::new(1, 1);
    m.t[B + MODE] = 1;
    m.t[B + FREE] = 0;
    assert_eq!(step(false, &mut m.t, &mut m.m, &[1, 0, 0, 0, 0, 0]), Answer::Refused(Why::NoFreeRecord));
    assert_eq!((Why::NoFreeRecord.number(), m.refusals()), (10, vec![0, 1]));
}

/// A core not there, kinds from 9 on and calls of other than six words count
/// in header word 2.
#[test]
fn the_header_counts_the_rest() {
    for cores in 1..5 {
        let mut m = M::new(cores, 1);
        let mut count = 0;
        let mut counted = |m: &mut M, s: &[u32], number| {
            count += 1;
            let mut expected = vec![0; cores as usize + 1];
            expected[0] = count;
            assert_eq!(m.refused(s, number), expected, "{s:?}");
        };
        for kind in 0..9 {
            for core in [cores, cores + 1, 4, 255, 256, 0x8000_0000, 0xFFFF_FFFF] {
                counted(&mut m, &[kind, core, 0, 0, 0, 0], 5);
                counted(&mut m, &[kind, core, 0xFFFF_FFFF, 0, 0xFFFF_FFFF, 1], 5);
            }
        }
        // Lines that are numbers of cores too.
        for line in 0..4 {
            counted(&mut m, &[9, line, 0, 0, 0, 0], 6);
            counted(&mut m, &[10, line, 0, 0, 0, 0], 6);
            counted(&mut m, &[9, line, 1, 0, 0, 0], 5);
            counted(&mut m, &[10, line, 0, 0, 0, 1], 5);
            counted(&mut m, &[11, line, 0, 1, 0, 0], 5);
            counted(&mut m, &[11, line, 2, 0, 0, 0], 5);
        }
        for kind in 9..12 {
            counted(&mut m, &[kind, 24, 0, 0, 0, 0], 5);
            counted(&mut m, &[kind, 0xFFFF_FFFF, 0, 0, 0, 0], 5);
        }
        for kind in [12, 13, 15, 16, 256, 0x8000_0000, 0xFFFF_FFFF] {
            counted(&mut m, &[kind, 0, 0, 0, 0, 0], 5);
            counted(&mut m, &[kind, cores - 1, 0, 0, 0, 0], 5);
            counted(&mut m, &[kind, cores, 0, 0, 0, 0], 5);
        }
        // Their first two words would be a good step's.
        for s in [[4, 0, 0, 0, 0, 0, 0], [0, 0, 0, 0, 0, 0, 0], [1, 0, 0, 0, 0, 0, 0], [11, 3, 1, 0, 0, 0, 0]] {
            for length in [0, 1, 2, 3, 4, 5, 7] {
                counted(&mut m, &s[..length], 5);
            }
            counted(&mut m, &[s, s].concat(), 5);
        }
        assert_eq!(m.call(&[4, 0, 0, 0, 0]), Answer::Refused(Why::Length));
    }
}

/// Each count stays at its largest by itself.
#[test]
fn refusal_counts_stay_at_the_top() {
    const TOP: u32 = 0xFFFF_FFFF;
    let (of_core, of_none) = ([4, 1, 0, 0, 0, 0], [15, 1, 0, 0, 0, 0]);
    let mut m = M::new(2, 1);
    m.set_refusals(&[TOP - 1, TOP, TOP - 1]);
    assert_eq!(m.refused(&of_core, 6), [TOP - 1, TOP, TOP]);
    assert_eq!(m.refused(&of_core, 6), [TOP - 1, TOP, TOP]);
    assert_eq!(m.refused(&of_none, 5), [TOP, TOP, TOP]);
    assert_eq!(m.refused(&of_none, 5), [TOP, TOP, TOP]);
    assert_eq!(m.refused(&[], 5), [TOP, TOP, TOP]);
    m.set_refusals(&[TOP, 0, TOP - 2]);
    assert_eq!(m.refused(&of_core, 6), [TOP, 0, TOP - 1]);
    assert_eq!(m.refused(&of_core, 6), [TOP, 0, TOP]);
    assert_eq!(m.refused(&of_none, 5), [TOP, 0, TOP]);
    m.set_refusals(&[7, TOP, TOP]);
    assert_eq!(m.refused(&of_none, 5), [8, TOP, TOP]);
    assert_eq!(m.refused(&of_core, 6), [8, TOP, TOP]);
    m.set_refusals(&[0x7FFF_FFFF, TOP, 0x7FFF_FFFF]);
    assert_eq!(m.refused(&of_none, 5), [0x8000_0000, TOP, 0x7FFF_FFFF]);
    assert_eq!(m.refused(&of_core, 6), [0x8000_0000, TOP, 0x8000_0000]);
}

/// Make clears the counts; INIT, start of a core and other steps keep them.
#[test]
fn a_reset_keeps_the_refusal_counts() {
    let mut t = vec![0xFFFF_FFFF; table_words(4)];
    make(4, &mut t, &[0; PAGE]).unwrap();
    assert_eq!(M { t, m: vec![0; PAGE] }.refusals(), [0; 5]);

    let counts = [5, 1, 0xFFFF_FFFF, 3, 0x8000_0000];
    let mut m = M::new(4, 1);
    m.set_refusals(&counts);
    for k in 0..4 {
        let b = block(k as usize);
        m.t[b + INITRR] = 1;
        m.t[b + SIPIRR] = 1;
        assert_eq!(m.step([7, k, 0, 0, 0, 0]), Answer::Done);
        assert_eq!(m.refusals(), counts);
        assert_eq!(m.step([8, k, 0, 0, 0, 0]), Answer::Done);
        assert_eq!(m.refusals(), counts);
    }
    // A core step done and one that is interrupted, a line.
    assert_eq!(m.exec(itype(Op::Sw, 0, 0, 0x100)), Answer::Done);
    assert_eq!(m.step([4, 0, 0, 0, 0, 0]), Answer::Done);
    assert_eq!(m.exec(rtype(Op::Sysc, 0, 0, 0)), Answer::Interrupt(6));
    assert_eq!(m.step([11, 2, 1, 0, 0, 0]), Answer::Done);
    assert_eq!(m.refusals(), counts);
}

/// Word 115 is free; its neighbours are not. Refusal 4 counts nowhere.
#[test]
fn soundness_leaves_the_refusal_counts_free() {
    for k in 0..2 {
        for count in [0, 1, 0x7FFF_FFFF, 0x8000_0000, 0xFFFF_FFFE, 0xFFFF_FFFF] {
            let mut m = M::new(2, 1);
            m.t[block(k) + 115] = count;
            m.t[2] = count;
            assert_eq!(sound(&m.t, &m.m), Ok(()));
        }
        for (word, clause) in [
            (71, Clause::BlockWord71),
            (114, Clause::Initrr),
            (116, Clause::BlockWords116),
            (127, Clause::BlockWords116),
        ] {
            let mut m = M::new(2, 1);
            m.set_refusals(&[6, 7, 8]);
            m.t[block(k) + word] = if word == 114 { 2 } else { 1 };
            assert_eq!(sound(&m.t, &m.m), Err(clause));
            let before = m.t.clone();
            for s in [&[4, 0, 0, 0, 0, 0][..], &[15, 0, 0, 0, 0, 0], &[11, 3, 1, 0, 0, 0], &[0, 5, 0, 0, 0, 0], &[]] {
                assert_eq!(step(true, &mut m.t, &mut m.m, s), Answer::Refused(Why::NotSound));
                assert_eq!(run(true, &mut m.t, &mut m.m, s, 9), Err(4));
                assert_eq!(m.t, before);
            }
        }
    }
}

/// The refused step that stops a run counts where its single step would; 11
/// counts nowhere.
#[test]
fn a_run_counts_where_single_steps_do() {
    let line = [11, 3, 1, 0, 0, 0];
    let go = |schedule: &[u32]| {
        let mut m = M::new(2, 1);
        m.set_refusals(&[6, 0xFFFF_FFFE, 8]);
        (run(true, &mut m.t, &mut m.m, schedule, 9).map(|r| r.stop), m.refusals())
    };
    let stopped = |why| Ok(Stop::Refused(why));
    const TOP: u32 = 0xFFFF_FFFF;
    let after = |s: [u32; 6]| go(&[line, s, s, s].concat());
    assert_eq!(after([4, 0, 0, 0, 0, 0]), (stopped(Why::BufferEmpty), vec![6, TOP, 8]));
    assert_eq!(after([8, 1, 0, 0, 0, 0]), (stopped(Why::NoSipiPending), vec![6, TOP - 1, 9]));
    assert_eq!(after([1, 1, 0, 1, 0, 0]), (stopped(Why::StrayWord), vec![6, TOP - 1, 9]));
    assert_eq!(after([4, 2, 0, 0, 0, 0]), (stopped(Why::Core), vec![7, TOP - 1, 8]));
    assert_eq!(after([9, 1, 0, 0, 0, 0]), (stopped(Why::LineDown), vec![7, TOP - 1, 8]));
    assert_eq!(after([12, 1, 0, 0, 0, 0]), (stopped(Why::Kind), vec![7, TOP - 1, 8]));
    assert_eq!(after(line), (Ok(Stop::End), vec![6, TOP - 1, 8]));
    for words in [1, 5, 7, 11] {
        assert_eq!(go(&[4; 12][..words]), (Err(11), vec![6, TOP - 1, 8]));
    }
    assert_eq!(go(&[4; 6150]), (Err(11), vec![6, TOP - 1, 8]));
}

#[test]
fn wrong_turns() {
    // Walks stay when a table entry changes in memory.
    let mut m = M::new(1, 2);
    let code = m.user();
    m.t[B + PTO] = 0x1000;
    m.m[0x1000..0x1004].copy_from_slice(&0x0000_1F00u32.to_le_bytes()); // first entry: page 1, present, all rights
    assert_eq!(m.step([1, 0, 0, 0, 0, 0]), Answer::Done);
    let walk = Walk::new(0, 0, 2, 7, 1);
    assert_eq!(m.step([2, 0, walk.first, walk.base, 0, 0]), Answer::Refused(Why::NotAccessed));
    assert_eq!(m.step([3, 0, walk.first, walk.base, 0, 0]), Answer::Done);
    assert_eq!(word(&m.m, 0x1000), Some(0x1F80));
    assert_eq!(m.step([2, 0, walk.first, walk.base, 7, 0]), Answer::Done);
    m.m[0x1000..0x1004].fill(0);
    assert!([code, walk, Walk::new(0, 0, 1, 7, 1)].iter().all(|w| oracle::machine::held(&m.t, B, *w)));

    // A cas waits for an empty buffer; a failed one changes only its register.
    let mut m = M::new(1, 1);
    m.exec(itype(Op::Sw, 0, 0, 0x100));
    assert_eq!(m.exec(rtype(Op::Cas, 1, 2, 3)), Answer::Refused(Why::BufferNotEmpty));
    m.step([4, 0, 0, 0, 0, 0]);
    *m.gpr(1) = 0x100;
    *m.gpr(2) = 9;
    *m.gpr(3) = 5;
    assert_eq!(m.exec(rtype(Op::Cas, 1, 2, 3)), Answer::Done);
    assert_eq!((*m.gpr(3), word(&m.m, 0x100), m.t[B + STORES]), (0, Some(0), 0));
    assert_eq!(m.exec(rtype(Op::Cas, 1, 2, 3)), Answer::Done);
    assert_eq!((*m.gpr(3), word(&m.m, 0x100)), (0, Some(9)));
}

#[test]
fn misaligned_pc_and_faults() {
    // A misaligned pc consults no walk, in user mode too.
    let mut m = M::new(1, 1);
    m.t[B + MODE] = 1;
    m.t[B + PC] = 0xFFFF_F002;
    assert_eq!(m.step([0, 0, 9, 9, 9, 9]), Answer::Interrupt(3));
    assert_eq!((m.t[B + EPC], m.t[B + ECA], m.t[B + MODE]), (0xFFFF_F002, 8, 0));

    // A store without the write right: the complete walk is no hit; the
    // incomplete one faults and its page's walks go, last dropped first free.
    let mut m = M::new(1, 1);
    let code = m.user();
    let read_only = Walk::new(2, 0, 0, 6, 0);
    let incomplete = Walk::new(2, 0, 1, 7, 0); // its entry is word 2 of page 0: absent
    m.hold(read_only);
    m.hold(incomplete);
    *m.gpr(1) = 0x2100;
    m.m[0..4].copy_from_slice(&itype(Op::Sw, 1, 1, 0).to_le_bytes());
    let data = |w: Walk| [0, 0, code.first, code.base, w.first, w.base];
    assert_eq!(m.step(data(read_only)), Answer::Refused(Why::DataNoHit));
    assert_eq!(m.step(data(incomplete)), Answer::Interrupt(5));
    assert_eq!((m.t[B + EDATA], m.t[B + EPC], m.t[B + ECA]), (0x2100, 0x1000, 1 << 5));
    assert_eq!((m.t[B + WALKS], m.t[B + FREE], m.t[record(B, 2)], m.t[record(B, 3)]), (1, 2, 3, 4));
}

#[test]
fn reach_and_apart() {
    use oracle::{apart, reach};
    // Two user cores. Core 0: origin page 1, second level page 2, data page 3
    // (write); core 1: origin page 4, nothing present.
    let mut m = M::new(2, 6);
    for (k, pto) in [(0, 1u32), (1, 4)] {
        let b = block(k);
        m.t[b + RUNNING] = 1;
        m.t[b + MODE] = 1;
        m.t[b + PTO] = pto << 12;
    }
    m.m[0x1FFC..0x2000].copy_from_slice(&0x0000_2800u32.to_le_bytes());
    m.m[0x2004..0x2008].copy_from_slice(&0x0000_3900u32.to_le_bytes());
    let mut map = vec![9; 6];
    assert_eq!(reach(&m.t, &m.m, 1, &mut map), Ok(false));
    assert_eq!(map, [0, 2, 2, 5, 0, 0]);
    assert_eq!(reach(&m.t, &m.m, 2, &mut map), Ok(false));
    assert_eq!(map, [0, 0, 0, 0, 2, 0]);
    assert_eq!((apart(&m.t, &m.m, 1), apart(&m.t, &m.m, 2), apart(&m.t, &m.m, 3)), (Ok(true), Ok(true), Ok(true)));
    assert_eq!((apart(&m.t, &m.m, 0), apart(&m.t, &m.m, 4)), (Err(13), Err(13)));
    assert_eq!(reach(&m.t, &m.m, 0, &mut map[..5]), Err(12));
    assert_eq!(reach(&m.t, &m.m, 0, &mut map), Err(13));

    // The rest may read what the group writes, not the other way round.
    let b1 = block(1);
    let n = m.t[b1 + FREE];
    m.t[b1 + FREE] = m.t[record(b1, n)];
    m.t[b1 + WALKS] = n;
    m.t[record(b1, n)] = 0;
    m.t[record(b1, n) + 1] = Walk::new(0, 0, 0, 6, 3).first;
    m.t[record(b1, n) + 2] = 3;
    assert_eq!((apart(&m.t, &m.m, 1), apart(&m.t, &m.m, 2)), (Ok(true), Ok(false)));

    // A core that doesn't run is in no rest, and in no group that is apart.
    m.t[block(0) + RUNNING] = 0;
    assert_eq!((apart(&m.t, &m.m, 1), apart(&m.t, &m.m, 2)), (Ok(false), Ok(true)));

    // Table page beyond memory.
    m.t[b1 + PTO] = 6 << 12;
    assert_eq!(reach(&m.t, &m.m, 2, &mut map), Ok(true));
    assert_eq!((map[3], apart(&m.t, &m.m, 2)), (1, Ok(false)));
}

#[test]
fn run_program() {
    use oracle::program::simulate;
    let mut input = vec![1, 1];
    input.resize(2 + 4096, 0);
    let steps: [[u32; 6]; 3] = [[11, 3, 1, 0, 0, 0], [4, 0, 0, 0, 0, 0], [15, 0, 0, 0, 0, 0]];
    for word in steps.iter().flatten() {
        input.extend(word.to_le_bytes());
    }
    let example = "step answer\n0 done\n1 refused 6\n2 refused 5\nend 1 2\n";
    assert_eq!(simulate(&input), example);
    input.push(0);
    assert_eq!(simulate(&input), example.replace("end", "cut\nend"));
    assert_eq!(simulate(&input[..4098]), "step answer\nend 0 0\n");
    // A misaligned pc by jr, then the interrupt.
    let mut jump = vec![1, 1];
    jump.extend(itype(Op::Addi, 0, 1, 6).to_le_bytes());
    jump.extend(rtype(Op::Jr, 1, 0, 0).to_le_bytes());
    jump.resize(2 + 4096, 0);
    jump.extend([0; 72]);
    assert_eq!(simulate(&jump), "step answer\n0 done\n1 done\n2 interrupt 3\nend 3 0\n");
    // It counts every refused step, whoever's it is.
    let mut counted = vec![2, 1];
    counted.resize(2 + 4096, 0);
    for word in [[4, 0, 0, 0, 0, 0], [4, 1, 0, 0, 0, 0], [4, 2, 0, 0, 0, 0], [9, 1, 0, 0, 0, 0]].concat() {
        counted.extend(u32::to_le_bytes(word));
    }
    let answers = "step answer\n0 refused 6\n1 refused 6\n2 refused 5\n3 refused 6\nend 0 4\n";
    assert_eq!(simulate(&counted), answers);
    for bad in [&[][..], &[1], &[0, 1], &[5, 1], &[1, 0], &[1, 9], &input[..4097]] {
        assert_eq!(simulate(bad), "bad\n");
    }
}
