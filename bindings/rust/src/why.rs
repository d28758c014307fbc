//! Why a group is not apart.

use crate::{c, REFUSED};

/// The group, or the other running cores.
#[derive(Clone, Copy, Debug, PartialEq, Eq)]
pub enum Side {
    Group,
    Rest,
}

/// Where a way begins.
#[derive(Clone, Copy, Debug, PartialEq, Eq)]
pub enum Root {
    /// The page in pto.
    Origin,
    /// The walk in this record.
    Walk(u32),
    /// The pending store in this record.
    Store(u32),
}

/// A way of a core to a page. That it is real is proved: followed from where it begins, through present entries, it comes
/// to the page with that level and right.
#[derive(Clone, Debug, PartialEq, Eq)]
pub struct Way {
    pub core: u32,
    pub root: Root,
    /// The addresses of the entries that it goes through, at most two.
    pub entries: Vec<u32>,
    pub page: u32,
    /// What the page is there: 2 a first-level table, 1 a second-level table, 0 a data page.
    pub level: u32,
    /// Whether the last entry, the walk or the store grants write.
    pub write: bool,
}

impl Way {
    /// The virtual page that leads there, of a way from pto through both tables.
    pub fn virtual_page(&self) -> Option<u32> {
        match (self.root, self.entries.as_slice()) {
            (Root::Origin, [first, second]) => Some(first / 4 % 1024 * 1024 + second / 4 % 1024),
            _ => None,
        }
    }
}

/// Why a group is not apart, with the lowest page at fault and one way of a side to it.
#[derive(Clone, Debug, PartialEq, Eq)]
pub enum Reason {
    /// This core, of the group or another running one, is not running in user mode.
    NotUser(u32),
    /// A side reaches a page beyond memory.
    BeyondMemory(Side, Way),
    /// A side can write a page of memory that it uses as a table.
    OwnTable(Side, Way),
    /// The rest can write, or uses as a table, a page of memory that the group reaches: the way of either to it.
    Touches { rest: Way, group: Way },
}

/// Words of a way.
const WAY_WORDS: usize = 9;

/// The number of a reason, and its words: those of a way and, of the last reason, of a second one.
fn ask(tables: &[u32], memory: &[u8], group: u32, after: u32) -> (u32, [u32; 2 * WAY_WORDS]) {
    let mut words = [0; 2 * WAY_WORDS];
    // SAFETY: as in `make`; only `words`, a local, is written.
    let n = unsafe {
        c::mips86_why(
            tables.as_ptr(),
            tables.len(),
            memory.as_ptr(),
            memory.len(),
            group,
            after,
            words.as_mut_ptr(),
            words.len(),
        )
    };
    (n, words)
}

fn way(words: &[u32]) -> Way {
    let &[core, page, level, write, root, record, entries, first, second] = words else {
        unreachable!("a way has {WAY_WORDS} words")
    };
    Way {
        core,
        root: match root {
            0 => Root::Origin,
            1 => Root::Walk(record),
            _ => Root::Store(record),
        },
        entries: [first, second][..entries as usize].to_vec(),
        page,
        level,
        write: write == 1,
    }
}

fn after(tables: &[u32], memory: &[u8], group: u32, number: u32) -> Result<Option<(u32, Reason)>, u32> {
    let (n, words) = ask(tables, memory, group, number);
    let (first, second) = words.split_at(WAY_WORDS);
    let reason = match n {
        0 => return Ok(None),
        1 => Reason::NotUser(first[0]),
        2 => Reason::BeyondMemory(Side::Group, way(first)),
        3 => Reason::BeyondMemory(Side::Rest, way(first)),
        4 => Reason::OwnTable(Side::Group, way(first)),
        5 => Reason::OwnTable(Side::Rest, way(first)),
        6 => Reason::Touches { rest: way(first), group: way(second) },
        n => return Err(n - REFUSED),
    };
    Ok(Some((n, reason)))
}

/// Why the group is not apart: the first reason in the order of the conditions, none exactly where
/// [`apart`](crate::apart()) says yes. The error is the number of the refusal, 4 or 13. It uses some 42 KB of stack.
pub fn why(tables: &[u32], memory: &[u8], group: u32) -> Result<Option<Reason>, u32> {
    Ok(after(tables, memory, group, 0)?.map(|(_, reason)| reason))
}

/// All reasons, at most one for each condition and side, in their order.
pub fn reasons(tables: &[u32], memory: &[u8], group: u32) -> Result<Vec<Reason>, u32> {
    let mut all = Vec::new();
    let mut last = 0;
    while let Some((n, reason)) = after(tables, memory, group, last)? {
        all.push(reason);
        last = n;
    }
    Ok(all)
}
