//! How often each thing occurs in a texts file: the fourth part of the tables
//! of README.md.

use crate::counts::Counts;
use crate::disassemble::{text, LENGTH};
use crate::isa;
use crate::texts::*;
use crate::vectors::{Text, TEXT_MOST};
use std::fmt::Write;

/// What is not told otherwise occurs so often at least.
pub const ENOUGH: u64 = 24;

const ANSWERS: [&str; 4] = ["text of a legal word", "`ill`", "refused 17, legal word", "refused 17, illegal word"];

/// Of each row.
const TOLD: [&str; 5] = ["texts", "no free bit set", "some set", "all set", "refused 17"];
const TOLD_LEAST: [u64; 5] = [ENOUGH, 6, 6, 6, 8];

/// Numbers by their digits.
const NUMBERS: [&str; 5] = ["imm, signed, not below zero", "imm, signed, below zero", "imm, unsigned", "sa", "iindex"];
const DIGITS: [u32; 5] = [5, 5, 5, 2, 8];

const FACTS: [&str; 10] = [
    "two registers named, different",
    "two registers named, the same",
    "three registers named, all different",
    "three registers named, all the same",
    "illegal, one bit away from a row",
    "illegal, more than one bit away from every row",
    "refused 17, the buffer is longer than the text",
    "refused 17, the buffer has the text's length",
    "refused 17, the buffer is one byte shorter than the text",
    "refused 17, the buffer is shorter than that",
];

const KINDS: [&str; 2] = ["legal word", "illegal word"];

/// The shortest and the longest text of a legal word.
const LENGTHS: std::ops::RangeInclusive<usize> = 3..=20;

impl Counts {
    /// Counts one vector.
    pub fn text(&mut self, v: &Text) {
        thread_local!(static FORMS: Vec<Form> = forms());
        FORMS.with(|forms| self.text_of(forms, v));
    }

    fn text_of(&mut self, forms: &[Form], v: &Text) {
        self.vectors += 1;
        let (word, length) = (v.word, v.buffer.len());
        let refused = v.answer == 117;
        let op = isa::decode(word);
        self.add("d answer", ANSWERS[2 * refused as usize + op.is_none() as usize]);
        if let Some((which, code)) = cause(word) {
            self.add("d cause", &format!("{}/{}", CAUSES[which], if refused { "refused 17" } else { "`ill`" }));
            if !refused {
                self.add("d code", &format!("{}/{code}", CAUSES[which]));
            }
        }
        if refused {
            self.add("d buffer", &format!("{length}/{}", KINDS[op.is_none() as usize]));
            if let Some(op) = op {
                self.add("d row", &format!("{}/{}", forms[op as usize].name, TOLD[4]));
            }
            self.add(
                "d fact",
                match text(word).len() {
                    n if length > n => FACTS[6],
                    n if length == n => FACTS[7],
                    n if length + 1 == n => FACTS[8],
                    _ => FACTS[9],
                },
            );
            return;
        }
        // Bits that, turned, lead to a row.
        let mut near = false;
        for bit in 0..32 {
            let other = word ^ 1 << bit;
            if let Some(there) = isa::decode(other).filter(|&there| Some(there) != op) {
                near = true;
                self.add("d turned", &format!("{}/{bit}", forms[there as usize].name));
            }
        }
        match op {
            Some(op) => self.legal(&forms[op as usize], word, v.answer),
            None => self.add("d fact", if near { FACTS[4] } else { FACTS[5] }),
        }
    }

    fn legal(&mut self, form: &Form, word: u32, length: u8) {
        let name = form.name;
        self.add("d row", &format!("{name}/{}", TOLD[0]));
        if form.free != 0 {
            let told = match word & form.free {
                0 => 1,
                free if free == form.free => 3,
                _ => 2,
            };
            self.add("d row", &format!("{name}/{}", TOLD[told]));
        }
        self.add("d length", &length.to_string());
        for field in &form.named {
            let value = field.of(word);
            if field.edges().contains(&value) {
                self.add("d edge", &format!("{name}/{}/{value}", field.name));
            }
            let (column, size) = match field.name {
                "imm" if !form.signed() => (2, value),
                "imm" if value < 0x8000 => (0, value),
                "imm" => (1, 0x1_0000 - value),
                "sa" => (3, value),
                "iindex" => (4, value),
                _ => continue,
            };
            let digits = size.checked_ilog10().map_or(1, |n| n + 1);
            self.add("d digits", &format!("{digits}/{}", NUMBERS[column]));
        }
        let registers: Vec<u32> =
            form.named.iter().filter(|field| field.register()).map(|field| field.of(word)).collect();
        match registers[..] {
            [a, b] => self.add("d fact", FACTS[(a == b) as usize]),
            [a, b, c] if a != b && b != c && a != c => self.add("d fact", FACTS[2]),
            [a, b, c] if a == b && b == c => self.add("d fact", FACTS[3]),
            _ => {}
        }
    }

    /// Every (section, name) that must occur in a texts file, and how often.
    pub fn expected_texts() -> Vec<(&'static str, String, u64)> {
        let mut all: Vec<(&'static str, String, u64)> = Vec::new();
        all.extend(ANSWERS.map(|name| ("d answer", name.to_string(), ENOUGH)));
        all.extend(FACTS.map(|name| ("d fact", name.to_string(), ENOUGH)));
        for form in forms() {
            let name = form.name;
            // Where nothing is named, one word has no free bit set and one has all.
            let once = |told: &str| form.named.is_empty() && [TOLD[1], TOLD[3]].contains(&told);
            for (told, least) in TOLD.iter().zip(TOLD_LEAST) {
                if form.free != 0 || [TOLD[0], TOLD[4]].contains(told) {
                    all.push(("d row", format!("{name}/{told}"), if once(told) { 1 } else { least }));
                }
            }
            for field in &form.named {
                all.extend(field.edges().iter().map(|e| ("d edge", format!("{name}/{}/{e}", field.name), 1)));
            }
            for bit in (0..32).filter(|bit| form.codes >> bit & 1 == 1) {
                all.push(("d turned", format!("{name}/{bit}"), 2));
            }
        }
        // Of length 3 there are `j 0` to `j 9` alone, and of one digit these and jal's.
        for (column, most) in NUMBERS.iter().zip(DIGITS) {
            let least = |digits: u32| if (digits, *column) == (1, "iindex") { 20 } else { ENOUGH };
            all.extend((1..=most).map(|digits| ("d digits", format!("{digits}/{column}"), least(digits))));
        }
        all.extend(LENGTHS.map(|n| ("d length", n.to_string(), if n == 3 { 10 } else { ENOUGH })));
        for (which, name) in CAUSES.iter().enumerate() {
            all.push(("d cause", format!("{name}/`ill`"), ENOUGH));
            all.push(("d cause", format!("{name}/refused 17"), ENOUGH));
            all.extend(illegal_codes(which).into_iter().map(|code| ("d code", format!("{name}/{code}"), 3)));
        }
        for length in (0..=TEXT_MOST).filter(|&length| length != LENGTH) {
            for kind in KINDS {
                all.push(("d buffer", format!("{length}/{kind}"), refusals(length)));
            }
        }
        all
    }

    /// The tables for a texts file.
    pub fn print_texts(&self) -> String {
        let forms = forms();
        let mut out = format!("{} vectors.\n", self.vectors);
        let head = |out: &mut String, title: &str, columns: &[&str]| {
            writeln!(out, "\n| {title} | {} |\n|---|{}", columns.join(" | "), "---|".repeat(columns.len())).unwrap();
        };
        let line = |out: &mut String, name: &str, cells: &[Option<u64>]| {
            write!(out, "| {name} |").unwrap();
            for cell in cells {
                write!(out, "{} |", cell.map_or(String::new(), |times| format!(" {times}"))).unwrap();
            }
            out.push('\n');
        };
        let fewest = |section: &'static str, names: &[String]| names.iter().map(|name| self.get(section, name)).min();

        head(&mut out, "answer", &["times"]);
        for name in ANSWERS {
            line(&mut out, name, &[Some(self.get("d answer", name))]);
        }
        head(&mut out, "row", &TOLD);
        for form in &forms {
            let told = |i: usize| form.free != 0 || i == 0 || i == 4;
            let times = |i: usize| told(i).then(|| self.get("d row", &format!("{}/{}", form.name, TOLD[i])));
            line(&mut out, form.name, &[0, 1, 2, 3, 4].map(times));
        }
        head(&mut out, "field at its edges", &["rows that name it", "edges", "fewest times, one row and edge"]);
        for field in FIELDS {
            let kinds: &[(&str, &[bool])] = if field.name == "imm" {
                &[("imm, signed", &[true]), ("imm, unsigned", &[false])]
            } else {
                &[(field.name, &[true, false])]
            };
            for (name, signed) in kinds {
                let rows: Vec<&Form> = forms
                    .iter()
                    .filter(|form| form.named.contains(&field) && signed.contains(&form.signed()))
                    .collect();
                let cells = |form: &&Form| {
                    let name = form.name;
                    field.edges().iter().map(move |edge| format!("{name}/{}/{edge}", field.name))
                };
                let cells: Vec<String> = rows.iter().flat_map(cells).collect();
                let edges = field.edges().len() as u64;
                line(&mut out, name, &[Some(rows.len() as u64), Some(edges), fewest("d edge", &cells)]);
            }
        }
        head(&mut out, "digits", &NUMBERS);
        for digits in 1..=8 {
            let may = |i: usize| digits <= DIGITS[i];
            let times = |i: usize| may(i).then(|| self.get("d digits", &format!("{digits}/{}", NUMBERS[i])));
            line(&mut out, &digits.to_string(), &[0, 1, 2, 3, 4].map(times));
        }
        head(&mut out, "length of the text, legal words", &["times"]);
        for length in LENGTHS.map(|length| length.to_string()) {
            line(&mut out, &length, &[Some(self.get("d length", &length))]);
        }
        head(&mut out, "illegal by its", &["codes", "fewest times, one code", "`ill`", "refused 17"]);
        for (which, name) in CAUSES.iter().enumerate() {
            let codes: Vec<String> = illegal_codes(which).iter().map(|code| format!("{name}/{code}")).collect();
            let times = |what: &str| Some(self.get("d cause", &format!("{name}/{what}")));
            let cells = [Some(codes.len() as u64), fewest("d code", &codes), times("`ill`"), times("refused 17")];
            line(&mut out, name, &cells);
        }
        head(&mut out, "length of the buffer, refused 17", &KINDS);
        let times = |length: usize, kind: &str| self.get("d buffer", &format!("{length}/{kind}"));
        let (edges, others): (Vec<usize>, Vec<usize>) =
            (0..=TEXT_MOST).filter(|&length| length != LENGTH).partition(|&length| refusals(length) == ENOUGH);
        for length in edges {
            line(&mut out, &length.to_string(), &KINDS.map(|kind| Some(times(length, kind))));
        }
        let name = format!("each of {} others up to {TEXT_MOST}, fewest", others.len());
        line(&mut out, &name, &KINDS.map(|kind| others.iter().map(|&length| times(length, kind)).min()));

        head(&mut out, "fact", &["times"]);
        for name in FACTS {
            line(&mut out, name, &[Some(self.get("d fact", name))]);
        }
        let bits = |form: &Form| {
            let (name, codes) = (form.name, form.codes);
            (0..32).filter(move |bit| codes >> bit & 1 == 1).map(move |bit| format!("{name}/{bit}"))
        };
        let all: Vec<String> = forms.iter().flat_map(bits).collect();
        let name = format!("no word of a row, but with one bit of its codes turned: each of {}, fewest", all.len());
        line(&mut out, &name, &[fewest("d turned", &all)]);
        out
    }
}
