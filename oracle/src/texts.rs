//! The texts file from a seed: words and buffers for disassemble.
//!
//! First every row of tables 1 to 4 at the edges of its fields, its free
//! fields, its codes with a bit turned, every illegal code and every length
//! of the buffer; then what the counts of README.md still lack.

use crate::counts::Counts;
use crate::disassemble::{text, unsigned, LENGTH, SYNTAX};
use crate::generate::Rng;
use crate::isa::{self, Op, ROWS};
use crate::vectors::{answer_text, Text, TEXT_MOST};
use std::collections::BTreeSet;

// ---------------------------------------------------------------- forms

/// A field that the syntax column can name.
#[derive(Clone, Copy, PartialEq, Eq, Debug)]
pub struct Field {
    pub name: &'static str,
    pub shift: u32,
    pub bits: u32,
}

pub const FIELDS: [Field; 6] = [
    Field { name: "rs", shift: 21, bits: 5 },
    Field { name: "rt", shift: 16, bits: 5 },
    Field { name: "rd", shift: 11, bits: 5 },
    Field { name: "sa", shift: 6, bits: 5 },
    Field { name: "imm", shift: 0, bits: 16 },
    Field { name: "iindex", shift: 0, bits: 26 },
];

impl Field {
    pub fn largest(&self) -> u32 {
        (1 << self.bits) - 1
    }
    pub fn mask(&self) -> u32 {
        self.largest() << self.shift
    }
    pub fn of(&self, word: u32) -> u32 {
        word >> self.shift & self.largest()
    }
    pub fn put(&self, word: u32, value: u32) -> u32 {
        word & !self.mask() | value << self.shift
    }
    pub fn register(&self) -> bool {
        self.name.starts_with('r')
    }
    pub fn edges(&self) -> &'static [u32] {
        match self.name {
            "sa" => &SA_EDGES,
            "imm" => &IMM_EDGES,
            "iindex" => &IINDEX_EDGES,
            _ => &REGISTER_EDGES,
        }
    }
}

pub const REGISTER_EDGES: [u32; 8] = [0, 1, 9, 10, 19, 20, 30, 31];
pub const SA_EDGES: [u32; 10] = [0, 1, 9, 10, 15, 16, 19, 20, 30, 31];
/// Also where the number of digits changes below zero.
#[rustfmt::skip]
pub const IMM_EDGES: [u32; 24] = [
    0, 1, 9, 10, 99, 100, 999, 1000, 9999, 10000, 0x7FFE, 0x7FFF, 0x8000, 0x8001,
    0xD8F0, 0xD8F1, 0xFC18, 0xFC19, 0xFF9C, 0xFF9D, 0xFFF6, 0xFFF7, 0xFFFE, 0xFFFF,
];
#[rustfmt::skip]
pub const IINDEX_EDGES: [u32; 20] = [
    0, 1, 9, 10, 99, 100, 999, 1000, 9999, 10_000, 99_999, 100_000, 999_999, 1_000_000, 9_999_999, 10_000_000,
    0x1FF_FFFF, 0x200_0000, 0x3FF_FFFE, 0x3FF_FFFF,
];

/// A row as bits: its codes, the fields its syntax names, and what is left.
pub struct Form {
    pub op: Op,
    pub name: &'static str,
    /// The bits that are codes, and what they have to be.
    pub codes: u32,
    pub value: u32,
    pub named: Vec<Field>,
    pub free: u32,
}

impl Form {
    pub fn matches(&self, word: u32) -> bool {
        word & self.codes == self.value
    }
    /// An immediate below zero can occur.
    pub fn signed(&self) -> bool {
        !unsigned(self.op)
    }
}

/// In the order of the tables.
pub fn forms() -> Vec<Form> {
    let form = |i: usize| {
        let row = &ROWS[i];
        let [rs, rt, ..] = FIELDS;
        let parts = [
            (63 << 26, Some(row.opcode << 26)),
            (rs.mask(), row.rs.map(|code| code << rs.shift)),
            (rt.mask(), row.rt.map(|code| code << rt.shift)),
            (63, row.fun),
        ];
        let given = || parts.iter().filter_map(|(mask, code)| code.map(|code| (*mask, code)));
        let codes = given().fold(0, |all, (mask, _)| all | mask);
        let value = given().fold(0, |all, (_, code)| all | code);
        let named: Vec<Field> = SYNTAX[i]
            .split(' ')
            .skip(1)
            .map(|part| *FIELDS.iter().find(|field| field.name == part).expect("a field"))
            .collect();
        let free = !named.iter().fold(codes, |all, field| all | field.mask());
        Form { op: row.op, name: row.name, codes, value, named, free }
    };
    (0..ROWS.len()).map(form).collect()
}

// ---------------------------------------------------------------- illegal words

/// Where a word that matches no row goes wrong.
pub const CAUSES: [&str; 8] = [
    "opcode",
    "function code, opcode 000000",
    "function code, opcode 011100",
    "rs, opcode 010000",
    "function code, opcode 010000, rs 10000",
    "rt, opcode 000001",
    "rt, opcode 000110",
    "rt, opcode 000111",
];

/// Which of these, and the code that no row has there.
pub fn cause(word: u32) -> Option<(usize, u32)> {
    if isa::decode(word).is_some() {
        return None;
    }
    let rt = isa::rt(word) as u32;
    Some(match (isa::opc(word), isa::rs(word)) {
        (0b000000, _) => (1, isa::fun(word)),
        (0b011100, _) => (2, isa::fun(word)),
        (0b010000, 0b10000) => (4, isa::fun(word)),
        (0b010000, rs) => (3, rs as u32),
        (0b000001, _) => (5, rt),
        (0b000110, _) => (6, rt),
        (0b000111, _) => (7, rt),
        (opcode, _) => (0, opcode),
    })
}

/// A word with a code at the place of a cause.
fn coded(cause: usize, code: u32, rest: u32) -> u32 {
    let put = |mask: u32, value: u32| rest & !mask | value;
    match cause {
        0 => put(63 << 26, code << 26),
        1 => put(63 << 26 | 63, code),
        2 => put(63 << 26 | 63, 0b011100 << 26 | code),
        3 => put(2047 << 21, 0b010000 << 26 | code << 21),
        4 => put(2047 << 21 | 63, 0b010000 << 26 | 0b10000 << 21 | code),
        5 => put(63 << 26 | 31 << 16, 0b000001 << 26 | code << 16),
        6 => put(63 << 26 | 31 << 16, 0b000110 << 26 | code << 16),
        _ => put(63 << 26 | 31 << 16, 0b000111 << 26 | code << 16),
    }
}

/// Every code that is illegal for a cause.
pub fn illegal_codes(which: usize) -> Vec<u32> {
    (0..64).filter(|&code| cause(coded(which, code, 0)) == Some((which, code))).collect()
}

// ---------------------------------------------------------------- drawing

/// The fields of five bits that are no codes and no part of imm or iindex.
fn small(form: &Form) -> impl Iterator<Item = &'static Field> + '_ {
    let wide = form.named.iter().filter(|field| field.bits > 5).fold(0, |all, field| all | field.mask());
    FIELDS.iter().filter(move |field| field.bits == 5 && field.mask() & (form.codes | wide) == 0)
}

/// Any word of a row whose fields of five bits all differ, so that one taken
/// for another shows; one field is given.
fn draw(rng: &mut Rng, form: &Form, given: Option<(Field, u32)>) -> u32 {
    loop {
        let word = rng.word() & !form.codes | form.value;
        let word = given.map_or(word, |(field, value)| field.put(word, value));
        let values: Vec<u32> = small(form).map(|field| field.of(word)).collect();
        if values.iter().collect::<BTreeSet<_>>().len() == values.len() {
            return word;
        }
    }
}

/// Below a power of ten that the field can reach, so that each number of
/// digits is as likely.
fn by_digits(rng: &mut Rng, field: &Field) -> u32 {
    let digits = 1 + rng.below(field.largest().ilog10() + 1);
    let value = rng.below(10u32.pow(digits).min(field.largest() + 1));
    match field.name == "imm" && rng.chance(40) {
        true => value.wrapping_neg() & 0xFFFF,
        false => value,
    }
}

/// A word and a buffer of any kind.
fn any(rng: &mut Rng, forms: &[Form]) -> (u32, usize) {
    let word = if rng.chance(85) {
        let form = &forms[rng.below(forms.len() as u32) as usize];
        let mut word = draw(rng, form, None);
        for field in &form.named {
            if rng.chance(50) {
                word = field.put(word, by_digits(rng, field));
            }
        }
        match rng.below(3) {
            0 => word & !form.free,
            1 => word | form.free,
            _ => word,
        }
    } else {
        let which = rng.below(CAUSES.len() as u32) as usize;
        coded(which, rng.pick(&illegal_codes(which)), rng.word())
    };
    let length = text(word).len();
    let other = rng.below(TEXT_MOST as u32 + 1) as usize;
    let buffer = match rng.weighted(&[70, 10, 10, 10]) {
        0 => LENGTH,
        1 => length,
        2 => length - 1,
        _ => other,
    };
    (word, buffer)
}

// ---------------------------------------------------------------- the file

#[derive(Default)]
struct File {
    all: Vec<Text>,
    seen: BTreeSet<(u32, usize)>,
    counts: Counts,
}

impl File {
    /// Each word with each length once.
    fn put(&mut self, word: u32, length: usize) {
        if self.seen.insert((word, length)) {
            let text = answer_text(word, length);
            self.counts.text(&text);
            self.all.push(text);
        }
    }
    fn word(&mut self, word: u32) {
        self.put(word, LENGTH);
    }
}

pub fn texts(seed: u32) -> Vec<Text> {
    let mut rng = Rng::new(seed as u64 ^ 0x0D15_A55E);
    let mut file = File::default();
    let forms = forms();
    for form in &forms {
        edges(&mut rng, &mut file, form);
        free(&mut rng, &mut file, form);
    }
    // Codes with one bit turned: another row, or none.
    for form in &forms {
        for bit in (0..32).filter(|bit| form.codes >> bit & 1 == 1) {
            for _ in 0..2 {
                file.word(draw(&mut rng, form, None) ^ 1 << bit);
            }
        }
    }
    // Every illegal code.
    for which in 0..CAUSES.len() {
        for code in illegal_codes(which) {
            for rest in [0, 0xFFFF_FFFF, rng.word()] {
                file.word(coded(which, code, rest));
            }
        }
    }
    for bit in 0..32 {
        file.word(1 << bit);
        file.word(!(1 << bit));
    }
    file.word(0);
    file.word(0xFFFF_FFFF);
    for _ in 0..300 {
        file.word(rng.word());
        let form = &forms[rng.below(forms.len() as u32) as usize];
        file.word(rng.word() & 0x03FF_FFFF | form.value & 63 << 26);
    }
    // Every other length of the buffer, every row and every cause.
    let mut turn = 0;
    for length in (0..=TEXT_MOST).filter(|&length| length != LENGTH) {
        for _ in 0..refusals(length) {
            turn += 1;
            file.put(draw(&mut rng, &forms[turn % forms.len()], None), length);
            let which = turn % CAUSES.len();
            file.put(coded(which, rng.pick(&illegal_codes(which)), rng.word()), length);
        }
    }
    // Whatever is rare.
    let expected = Counts::expected_texts();
    let lacking = |counts: &Counts| -> BTreeSet<(&'static str, String)> {
        let lacks = expected.iter().filter(|(section, name, least)| counts.get(section, name) < *least);
        lacks.map(|(section, name, _)| (*section, name.clone())).collect()
    };
    let mut wanted = lacking(&file.counts);
    let mut idle = 0;
    while !wanted.is_empty() {
        let (word, length) = any(&mut rng, &forms);
        let mut shown = Counts::default();
        shown.text(&answer_text(word, length));
        idle += 1;
        if !file.seen.contains(&(word, length)) && shown.rows().any(|row| wanted.contains(row)) {
            file.put(word, length);
            wanted = lacking(&file.counts);
            idle = 0;
        }
        assert!(idle < 1_000_000, "{wanted:?} do not occur");
    }
    file.all
}

/// How many legal and how many illegal words meet a buffer that is refused.
pub fn refusals(length: usize) -> u64 {
    match length {
        0 | 1 | 31 | 33 | 40 => 24,
        _ => 12,
    }
}

/// Each named field at its edges, and all at once.
fn edges(rng: &mut Rng, file: &mut File, form: &Form) {
    for field in &form.named {
        for &value in field.edges() {
            file.word(draw(rng, form, Some((*field, value))));
        }
    }
    let named = form.named.iter().fold(0, |all, field| all | field.mask());
    for free in [0, form.free] {
        file.word(form.value | free);
        file.word(form.value | free | named);
        if let Some(imm) = form.named.iter().find(|field| field.name == "imm") {
            for value in [0x7FFF, 0x8000] {
                file.word(imm.put(form.value | free | named, value));
                file.word(imm.put(form.value | free, value));
            }
        }
    }
}

/// Free bits: each alone, all, none, and any.
fn free(rng: &mut Rng, file: &mut File, form: &Form) {
    for bit in (0..32).filter(|bit| form.free >> bit & 1 == 1) {
        file.word(draw(rng, form, None) & !form.free | 1 << bit);
    }
    for field in small(form).filter(|field| form.free & field.mask() != 0) {
        file.word(draw(rng, form, None) & !form.free | field.mask());
    }
    for _ in 0..6 {
        file.word(draw(rng, form, None) & !form.free);
        file.word(draw(rng, form, None) | form.free);
        file.word(draw(rng, form, None));
    }
}
