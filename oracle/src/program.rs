//! The run program of 01: standard input to printed answers.

use crate::machine::{make, step};
use crate::soundness::{table_words, PAGE};
use std::fmt::Write;

pub fn simulate(input: &[u8]) -> String {
    const BAD: &str = "bad\n";
    let (cores, pages) = match input {
        [cores @ 1..=4, pages @ 1..=8, ..] => (*cores, *pages as usize),
        _ => return BAD.into(),
    };
    let rest = &input[2..];
    if rest.len() < pages * PAGE {
        return BAD.into();
    }
    let mut memory = rest[..pages * PAGE].to_vec();
    let mut tables = vec![0; table_words(cores as usize)];
    make(cores as u32, &mut tables, &memory).expect("numbers are in range");

    let mut out = String::from("step answer\n");
    let (mut accepted, mut refused) = (0u64, 0u64);
    let steps = rest[pages * PAGE..].chunks_exact(24);
    let cut = !steps.remainder().is_empty();
    for (place, bytes) in steps.enumerate() {
        let mut s = [0u32; 6];
        for (word, four) in s.iter_mut().zip(bytes.chunks_exact(4)) {
            *word = u32::from_le_bytes([four[0], four[1], four[2], four[3]]);
        }
        let answer = step(false, &mut tables, &mut memory, &s);
        if answer.accepted() {
            accepted += 1;
        } else {
            refused += 1;
        }
        writeln!(out, "{place} {answer}").unwrap();
    }
    if cut {
        out.push_str("cut\n");
    }
    writeln!(out, "end {accepted} {refused}").unwrap();
    out
}
