//! Reach and apart (01, "Operations").

use crate::machine::{pte_base, pte_present, pte_rights, WRITE};
use crate::soundness::*;

pub const DATA: u8 = 1;
pub const TABLE: u8 = 2;
pub const WRITABLE: u8 = 4;

// Which level a table page was met at, while the map is being filled.
const FIRST: u8 = 8;
const SECOND: u8 = 16;

/// Marks pages in the map, and says whether one lies beyond it.
struct Marks<'a> {
    map: &'a mut [u8],
    beyond: bool,
}

impl Marks<'_> {
    fn mark(&mut self, page: u32, what: u8) {
        match self.map.get_mut(page as usize) {
            Some(byte) => *byte |= what,
            None => self.beyond = true,
        }
    }
}

/// Fills one byte a page for the group; Ok says whether a page beyond memory
/// is reached. Err is 4, 12 or 13.
pub fn reach(t: &[u32], m: &[u8], group: u32, map: &mut [u8]) -> Result<bool, u32> {
    if sound(t, m).is_err() {
        return Err(4);
    }
    if map.len() != t[PAGES] as usize {
        return Err(12);
    }
    if !is_group(t, group) {
        return Err(13);
    }
    Ok(fill(t, m, group, map))
}

/// Not empty, and no core that isn't there.
fn is_group(t: &[u32], group: u32) -> bool {
    group != 0 && group >> t[CORES] == 0
}

/// Reach for sound tables and cores that are there; an empty group reaches
/// nothing. First what the cores name themselves, then the entries of the
/// first-level tables, then those of the second-level ones: each table page
/// is read once a level, however often it is named.
fn fill(t: &[u32], m: &[u8], group: u32, map: &mut [u8]) -> bool {
    map.fill(0);
    let mut marks = Marks { map, beyond: false };
    for k in 0..t[CORES] as usize {
        if group >> k & 1 == 0 {
            continue;
        }
        let b = block(k);
        marks.mark(t[b + PTO] >> 12, TABLE | FIRST);
        let mut n = t[b + WALKS];
        while n != 0 {
            let r = record(b, n);
            let (first, base) = (t[r + 1], t[r + 2]);
            match first >> 3 & 3 {
                2 => marks.mark(base, TABLE | FIRST),
                1 => marks.mark(base, TABLE | SECOND),
                _ => marks.mark(base, data(first & 7)),
            }
            n = t[r];
        }
        let mut n = t[b + STORES];
        while n != 0 {
            let r = record(b, n);
            marks.mark(t[r + 1] >> 12, DATA | WRITABLE);
            n = t[r];
        }
    }
    for page in 0..marks.map.len() {
        if marks.map[page] & FIRST != 0 {
            present(m, page).for_each(|pte| marks.mark(pte_base(pte), TABLE | SECOND));
        }
    }
    for page in 0..marks.map.len() {
        if marks.map[page] & SECOND != 0 {
            present(m, page).for_each(|pte| marks.mark(pte_base(pte), data(pte_rights(pte))));
        }
    }
    marks.map.iter_mut().for_each(|byte| *byte &= DATA | TABLE | WRITABLE);
    marks.beyond
}

/// A data page, writable if the rights grant write.
fn data(rights: u32) -> u8 {
    if rights & WRITE != 0 {
        DATA | WRITABLE
    } else {
        DATA
    }
}

/// The present entries of a table page in memory.
fn present(m: &[u8], page: usize) -> impl Iterator<Item = u32> + '_ {
    let words = m[page * PAGE..][..PAGE].chunks_exact(4);
    words.map(|c| u32::from_le_bytes([c[0], c[1], c[2], c[3]])).filter(|&pte| pte_present(pte))
}

/// Is the group apart from the other running cores? Err is 4 or 13.
pub fn apart(t: &[u32], m: &[u8], group: u32) -> Result<bool, u32> {
    if sound(t, m).is_err() {
        return Err(4);
    }
    if !is_group(t, group) {
        return Err(13);
    }
    let mut rest = 0;
    for k in 0..t[CORES] as usize {
        let b = block(k);
        let (running, user) = (t[b + RUNNING] == 1, t[b + MODE] & 1 == 1);
        if group >> k & 1 == 1 {
            if !running || !user {
                return Ok(false);
            }
        } else if running {
            if !user {
                return Ok(false);
            }
            rest |= 1 << k;
        }
    }
    let pages = t[PAGES] as usize;
    let (mut mine, mut theirs) = (vec![0; pages], vec![0; pages]);
    if fill(t, m, group, &mut mine) || fill(t, m, rest, &mut theirs) {
        return Ok(false);
    }
    let both = |byte: u8| byte & WRITABLE != 0 && byte & TABLE != 0;
    for (&g, &r) in mine.iter().zip(&theirs) {
        if both(g) || both(r) || g != 0 && r & (WRITABLE | TABLE) != 0 {
            return Ok(false);
        }
    }
    Ok(true)
}
