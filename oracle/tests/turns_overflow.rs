//! The steps file tells the rule on overflow from rules that go wrong in one
//! place. Each wrong turn below is refuted by some of its steps.
//!
//! A machine with a wrong rule goes as the file says up to the first step
//! where that rule gives other causes. So a step with another answer is looked
//! for, with all else as in the file.

use oracle::isa::{self, Op};
use oracle::machine::{external_event, fetch, step, Walk};
use oracle::soundness::*;
use oracle::vectors::read_steps;
use oracle::Answer;

const STEPS: &[u8] = include_bytes!("../vectors/steps.bin");

/// An accepted core step that has fetched an instruction.
struct Seen {
    vector: usize,
    op: Op,
    i: u32,
    left: u32,
    right: u32,
    /// The register rt, whether or not it is the right operand.
    rt: u32,
    sr: u32,
    event: bool,
    /// The masked causes, of which the lowest is the level.
    mca: u32,
}

fn seen() -> Vec<Seen> {
    let mut all = Vec::new();
    for (vector, v) in read_steps(STEPS).unwrap().0.into_iter().enumerate().filter(|(_, v)| v.machine.damage == 0) {
        let (mut t, mut m) = (v.machine.tables, v.machine.memory);
        for s in &v.steps {
            let b = block(s.words[1] as usize % t[CORES] as usize);
            let walk = Walk { first: s.words[2], base: s.words[3] };
            let fetched = fetch(&t, &m, b, walk).ok().flatten().filter(|_| s.words[0] == 0);
            let (gpr, sr, event) = (t[b..b + 32].to_vec(), t[b + SR], external_event(&t, b).is_some());
            let answer = step(true, &mut t, &mut m, &s.words);
            assert_eq!(answer.code(), s.answer);
            let mca = match answer {
                Answer::Done => 0,
                Answer::Interrupt(_) => t[b + ECA],
                Answer::Refused(_) => continue,
            };
            if let Some((i, op)) = fetched.and_then(|i| Some((i, isa::decode(i)?))) {
                let (left, rt) = (gpr[isa::rs(i)], gpr[isa::rt(i)]);
                let right = if isa::row(op).fun.is_some() { rt } else { isa::rop_immediate(i) };
                all.push(Seen { vector, op, i, left, right, rt, sr, event: event && sr & 2 != 0, mca });
            }
        }
    }
    all
}

impl Seen {
    fn sum(&self) -> i64 {
        self.left as i32 as i64 + self.right as i32 as i64
    }
    fn difference(&self) -> i64 {
        self.left as i32 as i64 - self.right as i32 as i64
    }
    /// The exact result of what adds or subtracts.
    fn exact(&self) -> i64 {
        if matches!(self.op, Op::Sub | Op::Subu) {
            self.difference()
        } else {
            self.sum()
        }
    }
    fn carries(&self) -> bool {
        self.left.checked_add(self.right).is_none()
    }
    fn is(&self, op: Op) -> bool {
        self.op == op
    }
    /// add, addi or sub.
    fn overflowing(&self) -> bool {
        matches!(self.op, Op::Add | Op::Addi | Op::Sub)
    }
    /// The answer that masked causes give, as the file has it.
    fn answer(mca: u32) -> u32 {
        if mca == 0 {
            0
        } else {
            1 + mca.trailing_zeros()
        }
    }
}

fn over(exact: i64) -> bool {
    i32::try_from(exact).is_err()
}

/// Does the instruction overflow?
type Rule = fn(&Seen) -> bool;

const RIGHT: Rule = |s| s.overflowing() && over(s.exact());

#[rustfmt::skip]
const TURNS: [(&str, Rule); 32] = [
    ("the printed table", |s| matches!(s.op, Op::Addu | Op::Addiu | Op::Subu) && over(s.exact())),
    ("nothing overflows", |_| false),
    ("addu overflows too", |s| RIGHT(s) || s.is(Op::Addu) && over(s.sum())),
    ("addiu overflows too", |s| RIGHT(s) || s.is(Op::Addiu) && over(s.sum())),
    ("subu overflows too", |s| RIGHT(s) || s.is(Op::Subu) && over(s.difference())),
    ("add does not", |s| RIGHT(s) && !s.is(Op::Add)),
    ("addi does not", |s| RIGHT(s) && !s.is(Op::Addi)),
    ("sub does not", |s| RIGHT(s) && !s.is(Op::Sub)),
    ("add by the carry", |s| if s.is(Op::Add) { s.carries() } else { RIGHT(s) }),
    ("addi by the carry", |s| if s.is(Op::Addi) { s.carries() } else { RIGHT(s) }),
    ("sub by the borrow", |s| if s.is(Op::Sub) { s.left < s.right } else { RIGHT(s) }),
    ("sub where nothing is borrowed", |s| if s.is(Op::Sub) { s.left >= s.right } else { RIGHT(s) }),
    ("add, by the carry too", |s| RIGHT(s) || s.is(Op::Add) && s.carries()),
    ("sub, by the borrow too", |s| RIGHT(s) || s.is(Op::Sub) && s.left < s.right),
    ("addi with zeros before its immediate", |s| {
        if s.is(Op::Addi) { over(s.left as i32 as i64 + isa::imm(s.i) as i64) } else { RIGHT(s) }
    }),
    ("addi by the register rt", |s| {
        if s.is(Op::Addi) { over(s.left as i32 as i64 + s.rt as i32 as i64) } else { RIGHT(s) }
    }),
    ("sub by its sum", |s| if s.is(Op::Sub) { over(s.sum()) } else { RIGHT(s) }),
    ("sub with its operands turned round", |s| if s.is(Op::Sub) { over(-s.difference()) } else { RIGHT(s) }),
    ("add that is too large is not seen", |s| RIGHT(s) && !(s.is(Op::Add) && s.exact() > 0)),
    ("add that is too small is not seen", |s| RIGHT(s) && !(s.is(Op::Add) && s.exact() < 0)),
    ("addi that is too large is not seen", |s| RIGHT(s) && !(s.is(Op::Addi) && s.exact() > 0)),
    ("addi that is too small is not seen", |s| RIGHT(s) && !(s.is(Op::Addi) && s.exact() < 0)),
    ("sub that is too large is not seen", |s| RIGHT(s) && !(s.is(Op::Sub) && s.exact() > 0)),
    ("sub that is too small is not seen", |s| RIGHT(s) && !(s.is(Op::Sub) && s.exact() < 0)),
    ("80000000 is too small", |s| s.overflowing() && (over(s.exact()) || s.exact() == i32::MIN as i64)),
    ("7FFFFFFF is too large", |s| s.overflowing() && (over(s.exact()) || s.exact() == i32::MAX as i64)),
    ("the sign is another than the left operand's", |s| {
        s.overflowing() && (s.exact() as i32) < 0 && s.left >> 31 == 0 || s.overflowing() && (s.exact() as i32) >= 0 && s.left >> 31 == 1
    }),
    ("into register 0 nothing overflows", |s| {
        RIGHT(s) && if isa::compr(s.op) { isa::rd(s.i) != 0 } else { isa::rt(s.i) != 0 }
    }),
    ("comparisons overflow too", |s| {
        RIGHT(s) || matches!(s.op, Op::Slt | Op::Sltu | Op::Slti | Op::Sltiu) && over(s.difference())
    }),
    ("logic overflows too", |s| {
        RIGHT(s) || matches!(s.op, Op::And | Op::Or | Op::Xor | Op::Nor | Op::Andi | Op::Ori | Op::Xori | Op::Lui) && over(s.sum())
    }),
    ("shifts overflow too", |s| {
        RIGHT(s) || matches!(s.op, Op::Sll | Op::Srl | Op::Sra | Op::Sllv | Op::Srlv | Op::Srav) && over(s.sum())
    }),
    ("by control bits 0000 and 0010, ALU instruction or not", |s| {
        match isa::alucon(s.i, isa::row(s.op).fun.is_some()) {
            0b0000 => over(s.sum()),
            0b0010 => over(s.difference()),
            _ => false,
        }
    }),
];

/// Does cause 7 stand among the masked causes?
const MASKS: [(&str, Rule); 4] = [
    ("sr does not mask it", |s| RIGHT(s)),
    ("sr masks it by bit 6", |s| RIGHT(s) && s.sr >> 6 & 1 == 1),
    ("sr masks it by bit 1 too", |s| RIGHT(s) && s.sr >> 7 & 1 == 1 && s.sr >> 1 & 1 == 1),
    ("an event hides it", |s| RIGHT(s) && s.sr >> 7 & 1 == 1 && !s.event),
];

/// The number of vectors with a step whose answer, or whose causes, are
/// others with the turn taken.
fn refuted(all: &[Seen], cause: impl Fn(&Seen) -> bool, by_causes: bool) -> usize {
    let differs = |s: &Seen| {
        let mca = s.mca & !(1 << 7) | (cause(s) as u32) << 7;
        Seen::answer(mca) != Seen::answer(s.mca) || by_causes && mca != s.mca
    };
    let mut vectors: Vec<usize> = all.iter().filter(|s| differs(s)).map(|s| s.vector).collect();
    vectors.dedup();
    vectors.len()
}

#[test]
fn no_wrong_turn_goes_unseen() {
    let all = seen();
    assert!(all.len() > 30_000);
    let unmasked = |s: &Seen| s.sr >> 7 & 1 == 1;
    assert_eq!(refuted(&all, |s| unmasked(s) && RIGHT(s), true), 0, "the rule itself");
    for (name, rule) in TURNS {
        let vectors = refuted(&all, |s| unmasked(s) && rule(s), false);
        println!("{vectors:5} {name}");
        assert!(vectors >= 10, "{name}: seen in {vectors} vectors");
    }
    for (name, cause) in MASKS {
        let vectors = refuted(&all, cause, true);
        println!("{vectors:5} {name}");
        assert!(vectors >= 10, "{name}: seen in {vectors} vectors");
    }
}
