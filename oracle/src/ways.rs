//! Reach and apart again, plain and slow: every way in which a side reaches a
//! page, and every condition of apart that fails. The counts and the trial of
//! demand 3 need the grounds and not only the verdict, and a test holds
//! `reach` and `apart` against this.

use crate::machine::{pte_base, pte_present, pte_rights, word, WRITE};
use crate::soundness::*;
use std::collections::BTreeSet;

/// How a page is reached (01, "Reach").
#[derive(Clone, Copy, PartialEq, Eq, PartialOrd, Ord, Debug)]
pub enum Way {
    Pto,
    Walk2,
    FirstEntry,
    Walk1,
    SecondEntry,
    Complete,
    Store,
}

pub const WAYS: [(Way, &str); 7] = [
    (Way::Pto, "pto"),
    (Way::Walk2, "level 2 walk"),
    (Way::FirstEntry, "first-level entry"),
    (Way::Walk1, "level 1 walk"),
    (Way::SecondEntry, "second-level entry"),
    (Way::Complete, "complete walk"),
    (Way::Store, "pending store"),
];

impl Way {
    pub fn table(self) -> bool {
        self <= Way::Walk1
    }
    pub fn first(self) -> bool {
        self <= Way::Walk2
    }
    pub fn second(self) -> bool {
        self == Way::FirstEntry || self == Way::Walk1
    }
    pub fn text(self) -> &'static str {
        WAYS[self as usize].1
    }
}

/// A page and one way to it. `index` is the entry's number in its table.
#[derive(Clone, Copy, PartialEq, Eq, PartialOrd, Ord, Debug)]
pub struct Reached {
    pub page: u32,
    pub way: Way,
    pub rights: u32,
    pub index: u32,
}

impl Reached {
    pub fn writable(&self) -> bool {
        !self.way.table() && self.rights & WRITE != 0
    }
}

pub type Ways = BTreeSet<Reached>;

/// The entry at a place of a table page; None beyond memory.
pub fn entry(m: &[u8], page: u32, index: u32) -> Option<u32> {
    word(m, page << 12 | index << 2)
}

/// All ways of a group in a sound machine.
pub fn ways(t: &[u32], m: &[u8], group: u32) -> Ways {
    let mut all = Ways::new();
    for k in (0..t[CORES] as usize).filter(|k| group >> k & 1 == 1) {
        let b = block(k);
        first_level(m, t[b + PTO] >> 12, Way::Pto, 0, &mut all);
        let mut n = t[b + WALKS];
        while n != 0 {
            let (first, base) = (t[record(b, n) + 1], t[record(b, n) + 2]);
            let rights = first % 8;
            match first / 8 % 4 {
                2 => first_level(m, base, Way::Walk2, rights, &mut all),
                1 => second_level(m, base, Way::Walk1, rights, 0, &mut all),
                _ => {
                    all.insert(Reached { page: base, way: Way::Complete, rights, index: 0 });
                }
            }
            n = t[record(b, n)];
        }
        let mut n = t[b + STORES];
        while n != 0 {
            let page = t[record(b, n) + 1] / 4096;
            all.insert(Reached { page, way: Way::Store, rights: WRITE, index: 0 });
            n = t[record(b, n)];
        }
    }
    all
}

fn first_level(m: &[u8], page: u32, way: Way, rights: u32, all: &mut Ways) {
    if !all.insert(Reached { page, way, rights, index: 0 }) {
        return; // been here
    }
    for index in 0..1024 {
        if let Some(pte) = entry(m, page, index).filter(|&pte| pte_present(pte)) {
            second_level(m, pte_base(pte), Way::FirstEntry, pte_rights(pte), index, all);
        }
    }
}

fn second_level(m: &[u8], page: u32, way: Way, rights: u32, index: u32, all: &mut Ways) {
    if !all.insert(Reached { page, way, rights, index }) {
        return;
    }
    for index in 0..1024 {
        if let Some(pte) = entry(m, page, index).filter(|&pte| pte_present(pte)) {
            all.insert(Reached { page: pte_base(pte), way: Way::SecondEntry, rights: pte_rights(pte), index });
        }
    }
}

/// The map byte of a page, by its ways.
pub fn map_byte(ways: &Ways, page: u32) -> u8 {
    let mut byte = 0;
    for r in of_page(ways, page) {
        byte |= match r {
            _ if r.way.table() => 2,
            _ if r.writable() => 5,
            _ => 1,
        };
    }
    byte
}

pub fn of_page(ways: &Ways, page: u32) -> impl Iterator<Item = &Reached> {
    ways.iter().filter(move |r| r.page == page)
}

/// The conditions of apart, each of which can fail (01, "Apart").
#[derive(Clone, Copy, PartialEq, Eq, PartialOrd, Ord, Debug)]
pub enum Condition {
    GroupStopped,
    GroupSystem,
    RestSystem,
    GroupBeyond,
    RestBeyond,
    GroupMixed,
    RestMixed,
    RestWrites,
    RestTables,
}

pub const CONDITIONS: [(Condition, &str); 9] = [
    (Condition::GroupStopped, "a group core does not run"),
    (Condition::GroupSystem, "a group core runs in system mode"),
    (Condition::RestSystem, "a rest core runs in system mode"),
    (Condition::GroupBeyond, "the group reaches beyond memory"),
    (Condition::RestBeyond, "the rest reaches beyond memory"),
    (Condition::GroupMixed, "a page is writable and table for the group"),
    (Condition::RestMixed, "a page is writable and table for the rest"),
    (Condition::RestWrites, "a page of the group is writable for the rest"),
    (Condition::RestTables, "a page of the group is a table of the rest"),
];

impl Condition {
    pub fn text(self) -> &'static str {
        CONDITIONS[self as usize].1
    }
}

/// What apart looks at for a group of a sound machine.
pub struct Sides {
    pub rest: u32,
    /// Other cores, which do not run.
    pub idle: u32,
    pub group_ways: Ways,
    pub rest_ways: Ways,
    pub fails: Vec<Condition>,
}

impl Sides {
    /// The ways by which a condition on pages fails: those that, for some
    /// page at fault, are the only ones of their kind (writing, or table).
    pub fn by(&self, pages: u32, condition: Condition) -> BTreeSet<Way> {
        use Condition::*;
        let mut all = BTreeSet::new();
        let mut sole = |ways: BTreeSet<Way>| {
            if ways.len() == 1 {
                all.extend(ways);
            }
        };
        let pick = |ways: &Ways, page: u32, what: fn(&Reached) -> bool| -> BTreeSet<Way> {
            of_page(ways, page).filter(|r| what(r)).map(|r| r.way).collect()
        };
        let table: fn(&Reached) -> bool = |r| r.way.table();
        let writable: fn(&Reached) -> bool = |r| r.writable();
        let side = if matches!(condition, GroupBeyond | GroupMixed) { &self.group_ways } else { &self.rest_ways };
        match condition {
            GroupBeyond | RestBeyond => sole(side.iter().filter(|r| r.page >= pages).map(|r| r.way).collect()),
            GroupMixed | RestMixed => {
                for page in (0..pages).filter(|&page| map_byte(side, page) & 6 == 6) {
                    sole(pick(side, page, writable));
                    sole(pick(side, page, table));
                }
            }
            RestWrites | RestTables => {
                let what = if condition == RestWrites { writable } else { table };
                for page in (0..pages).filter(|&page| map_byte(&self.group_ways, page) != 0) {
                    sole(pick(side, page, what));
                }
            }
            _ => {}
        }
        all
    }
}

/// The cores whose bit a test picks.
fn cores_where(t: &[u32], pick: impl Fn(usize, usize) -> bool) -> u32 {
    (0..t[CORES] as usize).filter(|&k| pick(k, block(k))).fold(0, |all, k| all | 1 << k)
}

/// The group is one: not empty, all its cores there.
pub fn sides(t: &[u32], m: &[u8], group: u32) -> Sides {
    use Condition::*;
    let running = cores_where(t, |_, b| t[b + RUNNING] == 1);
    let system = cores_where(t, |_, b| t[b + MODE] % 2 == 0);
    let others = cores_where(t, |k, _| group >> k & 1 == 0);
    let (rest, idle) = (others & running, others & !running);
    let (group_ways, rest_ways) = (ways(t, m, group), ways(t, m, rest));
    let pages = t[PAGES];
    let both = |ways: &Ways| {
        (0..pages).any(|p| of_page(ways, p).any(|r| r.way.table()) && of_page(ways, p).any(|r| r.writable()))
    };
    let meets = |what: fn(&Reached) -> bool| {
        (0..pages).any(|p| of_page(&group_ways, p).next().is_some() && of_page(&rest_ways, p).any(what))
    };
    let mut fails = Vec::new();
    let mut fail = |condition: Condition, yes: bool| {
        if yes {
            fails.push(condition);
        }
    };
    fail(GroupStopped, group & !running != 0);
    fail(GroupSystem, group & running & system != 0);
    fail(RestSystem, rest & system != 0);
    fail(GroupBeyond, group_ways.iter().any(|r| r.page >= pages));
    fail(RestBeyond, rest_ways.iter().any(|r| r.page >= pages));
    fail(GroupMixed, both(&group_ways));
    fail(RestMixed, both(&rest_ways));
    fail(RestWrites, meets(|r| r.writable()));
    fail(RestTables, meets(|r| r.way.table()));
    Sides { rest, idle, group_ways, rest_ways, fails }
}
