//! Translate (02, request 1): where up to 64 virtual addresses of one core
//! lead, by its page tables alone, and how many table entries that needs.
//!
//! `translate` is the operation. `translate_plainly` is the same once more,
//! as plain and slow as can be, from separate walks; a test holds the two
//! against each other, and the counts look at its trails.

use crate::machine::{pte_base, pte_present, pte_rights, word, Walk};
use crate::soundness::*;
use std::collections::BTreeSet;

/// The most addresses in one go.
pub const MOST: usize = 64;

// The first word of an answer.
pub const FOUND: u32 = 0;
pub const ABSENT: u32 = 1;
pub const BEYOND: u32 = 2;

/// Fills three words an address; Ok is the number of different table entries
/// read. Err is 4, 14, 15 or 16, and then nothing is written. Nothing is
/// allocated.
pub fn translate(t: &[u32], m: &[u8], core: u32, addresses: &[u32], answers: &mut [u32]) -> Result<u32, u32> {
    if sound(t, m).is_err() {
        return Err(4);
    }
    if core >= t[CORES] {
        return Err(14);
    }
    if addresses.len() > MOST {
        return Err(15);
    }
    if answers.len() != 3 * addresses.len() {
        return Err(16);
    }
    let origin = t[block(core as usize) + PTO] >> 12;
    let mut entries = Entries { m, places: [NO_PLACE; SLOTS], ptes: [0; SLOTS], count: 0 };
    for (&address, answer) in addresses.iter().zip(answers.chunks_exact_mut(3)) {
        answer.copy_from_slice(&entries.walk(origin, address));
    }
    Ok(entries.count)
}

/// No entry lies there: it is not divisible by four.
const NO_PLACE: u32 = 1;

/// Twice as many as 64 addresses can need, so there are always free ones.
const SLOTS: usize = 256;

/// The entries read so far: each in the first slot that was free from the one
/// where its place says to start.
struct Entries<'a> {
    m: &'a [u8],
    places: [u32; SLOTS],
    ptes: [u32; SLOTS],
    count: u32,
}

impl Entries<'_> {
    /// The answer for one address.
    fn walk(&mut self, origin: u32, address: u32) -> [u32; 3] {
        // Definition 7: the upper ten bits, then the next ten.
        let Some(first) = self.entry(origin, address >> 22) else {
            return [BEYOND, 0, 0];
        };
        if !pte_present(first) {
            return [ABSENT, 2, 0];
        }
        let Some(last) = self.entry(pte_base(first), address >> 12 & 1023) else {
            return [BEYOND, 0, 0];
        };
        if !pte_present(last) {
            return [ABSENT, 1, 0];
        }
        [FOUND, pte_base(last), pte_rights(last)]
    }

    /// Entry i of the table in page ba (definitions 10 and 11), from memory
    /// if it is not yet here. None if it is not in memory; no port is.
    fn entry(&mut self, ba: u32, i: u32) -> Option<u32> {
        let place = (ba << 12).wrapping_add(i << 2);
        if !in_memory(self.m.len(), place, 4) {
            return None;
        }
        let mut slot = (place.wrapping_mul(0x9E37_79B1) >> 24) as usize;
        while self.places[slot] != place {
            if self.places[slot] == NO_PLACE {
                self.places[slot] = place;
                self.ptes[slot] = word(self.m, place)?;
                self.count += 1;
                break;
            }
            slot = (slot + 1) % SLOTS;
        }
        Some(self.ptes[slot])
    }
}

// ---------------------------------------------------------------- plainly

/// What a separate walk for one address meets.
#[derive(Clone, PartialEq, Debug)]
pub struct Trail {
    /// The entries it needs, first level first: address, and the entry unless
    /// it is not in memory.
    pub entries: Vec<(u32, Option<u32>)>,
    pub answer: [u32; 3],
}

/// A separate walk for one address from a page at a level (2 for the page in
/// pto), extended by definition 14 until it is complete.
pub fn trail_from(m: &[u8], level: u32, page: u32, address: u32) -> Trail {
    let mut w = Walk::new(address >> 12, 0, level, 7, page);
    let mut entries = Vec::new();
    let answer = loop {
        if w.complete() {
            break [FOUND, w.base, w.rights()];
        }
        let pte = w.pte(m);
        entries.push((w.ptea(), pte));
        match pte {
            None => break [BEYOND, 0, 0],
            Some(pte) if !pte_present(pte) => break [ABSENT, w.level(), 0],
            Some(pte) => w = Walk::new(w.va(), w.asid(), w.level() - 1, pte_rights(pte), pte_base(pte)),
        }
    };
    Trail { entries, answer }
}

/// A separate walk for one address of a core that is there.
pub fn trail(t: &[u32], m: &[u8], core: u32, address: u32) -> Trail {
    trail_from(m, 2, t[block(core as usize) + PTO] >> 12, address)
}

/// Translate by separate walks.
pub fn translate_plainly(t: &[u32], m: &[u8], core: u32, addresses: &[u32], answers: &mut [u32]) -> Result<u32, u32> {
    let refusals = [
        (4, sound(t, m).is_err()),
        (14, t.first().is_none_or(|&cores| core >= cores)),
        (15, addresses.len() > MOST),
        (16, answers.len() != 3 * addresses.len()),
    ];
    if let Some((number, _)) = refusals.into_iter().find(|(_, applies)| *applies) {
        return Err(number);
    }
    let mut read = BTreeSet::new();
    for (i, &address) in addresses.iter().enumerate() {
        let trail = trail(t, m, core, address);
        read.extend(trail.entries.iter().filter(|(_, pte)| pte.is_some()).map(|(place, _)| *place));
        for j in 0..3 {
            answers[3 * i + j] = trail.answer[j];
        }
    }
    Ok(read.len() as u32)
}
