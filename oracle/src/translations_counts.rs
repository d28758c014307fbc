//! How often each thing occurs in a translations file: the third part of the
//! tables of README.md.

use crate::counts::Counts;
use crate::machine::*;
use crate::soundness::*;
use crate::translate::*;
use crate::vectors::{Machine, Translation, Translations};
use std::collections::{BTreeMap, BTreeSet};
use std::fmt::Write;

const ANSWERS: [&str; 5] = ["answered", "refused 4", "refused 14", "refused 15", "refused 16"];

/// The refusals, of which several can apply at once.
const REFUSALS_IN_ORDER: [u32; 4] = [4, 14, 15, 16];

const NUMBERS: [&str; 10] = ["0", "1", "2", "3", "10", "63", "64", "65", "66", "others up to 62"];
const NUMBER_TOLD: [&str; 4] = ["all else right", "core not there", "other length", "not sound"];

const CORE_NUMBERS: [&str; 9] = ["0", "1", "2", "3", "4", "5", "80000000", "FFFFFFFF", "others"];

const LENGTHS: [&str; 5] = ["3n", "3n - 1", "3n + 1", "2n, n not 0", "0, n not 0"];
const LENGTH_TOLD: [&str; 5] = ["all else right", "core not there", "more than 64", "both", "not sound"];

const PLACES: [&str; 6] = [
    "the last page of memory",
    "another page of memory",
    "just past memory",
    "FFFFF",
    "FFFFE",
    "elsewhere beyond memory",
];
const NAMED: [&str; 2] = ["the first-level table itself", "the second-level table itself"];
const LOW: [&str; 2] = ["low bits zero", "low bits set"];

const ENTRIES: [&str; 8] = [
    "first, absent",
    "first, absent, accessed",
    "first, present",
    "first, present, accessed",
    "second, absent",
    "second, absent, accessed",
    "second, present",
    "second, present, accessed",
];

/// How an address ends.
const ENDS: [&str; 5] =
    ["found", "absent at level 2", "absent at level 1", "beyond by the second level", "beyond by pto"];
const AFTER: [&str; 6] = [
    "first in the list",
    "after found",
    "after absent at level 2",
    "after absent at level 1",
    "after beyond by the second level",
    "after beyond by pto",
];

const FACTS: [&str; 64] = [
    "the core does not run",
    "the core is in system mode",
    "the core has a mode word other than 0 and 1",
    "another core would be answered otherwise",
    "not core 0, which would be answered otherwise",
    "an address twice",
    "addresses that differ in the low 12 bits alone",
    "three addresses or more, all of one page",
    "an address after which only earlier ones follow",
    "64 pages of one region of 4 MiB",
    "64 pages of 64 regions",
    "ten addresses or more, no two of neighbouring regions",
    "found, low 12 bits set",
    "found, low 12 bits zero",
    "found by first-level entry 0",
    "found by first-level entry 1023",
    "found by second-level entry 0",
    "found by second-level entry 1023",
    "the first word of memory is an entry that is read",
    "the last word of memory is an entry that is read",
    "an entry at both levels, by one address",
    "an entry at both levels, first level by an earlier address",
    "an entry at both levels, second level by an earlier address",
    "two addresses share the first-level entry alone",
    "two addresses share the second-level entry alone",
    "two regions share a second-level table",
    "a second-level table is the page in another core's pto",
    "an entry beyond memory met twice",
    "two different entries beyond memory",
    "reads 0, some address",
    "reads 1, one address",
    "reads 1, two addresses or more",
    "reads 2, one address",
    "reads 64 with 64 addresses",
    "reads 65 with 64 addresses",
    "reads 66 to 127",
    "reads 128",
    "reads fewer than the entries of the separate walks",
    "found: page 0, rights 0",
    "found: page over 19 bits",
    "found: the first-level entry has other rights",
    "found: the first-level entry lacks a right",
    "found: the first-level entry has a right more",
    "found: first-level entry not accessed",
    "found: second-level entry not accessed",
    "found: low seven bits of an entry set",
    "absent at level 2: the entry is zero",
    "absent at level 2: its page would lead to found",
    "absent at level 1: the entry is zero",
    "absent at level 1: it names a page with rights",
    "found beyond memory and an entry beyond memory in one question",
    "found beyond memory and found in memory in one question",
    "pto's low bits would give another answer",
    "a complete walk is held that says otherwise",
    "a complete walk is held for an absent address",
    "a complete walk is held for an address beyond memory",
    "a complete walk of another address space says otherwise",
    "a level 1 walk is held that leads elsewhere",
    "a level 2 walk is held that leads elsewhere",
    "a pending store would change a first-level entry and the answer",
    "a pending store would change a second-level entry and the answer",
    "a pending store of one byte or two would change the answer",
    "a pending store of another core would change the answer",
    "a pending store would make an absent entry present",
];

fn number_label(n: usize) -> &'static str {
    match n {
        0..=3 => NUMBERS[n],
        10 => "10",
        63 => "63",
        64 => "64",
        65 => "65",
        66 => "66",
        _ => "others up to 62",
    }
}

fn core_label(core: u32) -> &'static str {
    match core {
        0..=5 => CORE_NUMBERS[core as usize],
        0x8000_0000 => "80000000",
        0xFFFF_FFFF => "FFFFFFFF",
        _ => "others",
    }
}

fn place_label(pages: u32, page: u32) -> &'static str {
    match page {
        _ if page == pages - 1 => PLACES[0],
        _ if page < pages => PLACES[1],
        _ if page == pages => PLACES[2],
        0xFFFFF => PLACES[3],
        0xFFFFE => PLACES[4],
        _ => PLACES[5],
    }
}

fn end(trail: &Trail) -> usize {
    match trail.answer {
        [FOUND, ..] => 0,
        [ABSENT, 2, _] => 1,
        [ABSENT, ..] => 2,
        _ if trail.entries.len() == 2 => 3,
        _ => 4,
    }
}

/// "4, 14, 16" and so on, in order.
fn applying(which: [bool; 4]) -> String {
    let numbers: Vec<String> =
        REFUSALS_IN_ORDER.iter().zip(which).filter(|(_, yes)| *yes).map(|(number, _)| number.to_string()).collect();
    numbers.join(", ")
}

/// An entry's place and what it holds there.
type Entry = (u32, u32);

/// The first and second entry of a trail, where in memory.
fn both(trail: &Trail) -> (Option<Entry>, Option<Entry>) {
    let at = |i: usize| trail.entries.get(i).and_then(|&(place, pte)| pte.map(|pte| (place, pte)));
    (at(0), at(1))
}

impl Counts {
    /// Counts the questions of one machine.
    pub fn translations(&mut self, g: &Translations) {
        self.vectors += 1;
        g.questions.iter().for_each(|q| self.translation(&g.machine, q));
    }

    /// Counts one question.
    pub fn translation(&mut self, machine: &Machine, q: &Translation) {
        let (n, words) = (q.asked.addresses.len(), q.asked.words as usize);
        self.steps += 1;
        self.addresses += n as u64;
        self.add(
            "t answer",
            ANSWERS[match q.answer {
                0 => 0,
                104 => 1,
                114 => 2,
                115 => 3,
                _ => 4,
            }],
        );
        let not_sound = machine.damage != 0;
        let not_there = q.asked.core >= machine.cores as u32;
        let (many, length) = (n > MOST, words != 3 * n);
        let applies = [not_sound, not_there, many, length];
        if applies.contains(&true) {
            self.add("t applies", &applying(applies));
        }
        let told = match (not_sound, not_there, length) {
            (true, ..) => 3,
            (_, true, _) => 1,
            (_, _, true) => 2,
            _ => 0,
        };
        self.add("t number", &format!("{}/{}", number_label(n), NUMBER_TOLD[told]));
        let told = match (not_sound, not_there, many) {
            (true, ..) => 4,
            (_, true, true) => 3,
            (_, _, true) => 2,
            (_, true, _) => 1,
            _ => 0,
        };
        let lengths = [(3 * n, true), ((3 * n).wrapping_sub(1), true), (3 * n + 1, true), (2 * n, n > 0), (0, n > 0)];
        for (name, _) in LENGTHS.iter().zip(lengths).filter(|(_, (length, may))| *may && *length == words) {
            self.add("t length", &format!("{name}/{}", LENGTH_TOLD[told]));
        }
        if not_sound {
            self.add("t damage", CLAUSES[machine.damage as usize - 1].1);
            return;
        }
        self.add("t core", &format!("{}/{}", core_label(q.asked.core), machine.cores));
        if q.answer == 0 && n > 0 {
            self.add("t machine", &format!("{}/{}", machine.pages, machine.cores));
            self.answered(machine, q);
        }
    }

    /// What is true of a question that is answered, with an address or more.
    fn answered(&mut self, machine: &Machine, q: &Translation) {
        let (t, m, core, asked) = (&machine.tables, &machine.memory, q.asked.core, &q.asked.addresses);
        let (pages, b) = (t[PAGES], block(core as usize));
        let trails: Vec<Trail> = asked.iter().map(|&a| trail(t, m, core, a)).collect();
        let pto = t[b + PTO];
        self.add("t pto", &format!("{}/{}", place_label(pages, pto >> 12), LOW[(pto & 0xFFF != 0) as usize]));

        // Address by address.
        let (mut tables, mut named) = (BTreeSet::new(), BTreeSet::new());
        for (i, trail) in trails.iter().enumerate() {
            let before = if i == 0 { 0 } else { 1 + end(&trails[i - 1]) };
            self.add("t end", &format!("{}/{}", ENDS[end(trail)], AFTER[before]));
            for (level, (_, pte)) in trail.entries.iter().enumerate() {
                if let Some(pte) = *pte {
                    let column = 4 * level + 2 * pte_present(pte) as usize + pte_accessed(pte) as usize;
                    self.add("t entry", &format!("{}/{}", pte_rights(pte), ENTRIES[column]));
                }
            }
            if let (Some((_, first)), true) = (both(trail).0, trail.entries.len() == 2) {
                tables.insert(place_label(pages, pte_base(first)));
                if pte_base(first) == pto >> 12 {
                    tables.insert(NAMED[0]);
                }
                if trail.answer[0] == FOUND {
                    named.insert(place_label(pages, trail.answer[1]));
                    if trail.answer[1] == pto >> 12 {
                        named.insert(NAMED[0]);
                    }
                    if trail.answer[1] == pte_base(first) {
                        named.insert(NAMED[1]);
                    }
                }
            }
        }
        tables.iter().for_each(|name| self.add("t named", &format!("{name}/second-level table")));
        named.iter().for_each(|name| self.add("t named", &format!("{name}/page found")));

        let mut facts = Facts::default();
        facts.about_cores(t, m, core, asked, &trails);
        facts.about_addresses(asked, &trails);
        facts.about_entries(m, q.reads, &trails);
        facts.about_found(&trails, pages);
        facts.about_state(t, m, core, asked, &trails);
        facts.names.iter().for_each(|name| self.add("t fact", name));
    }

    // ------------------------------------------------------------ printing

    /// Every (section, name) that must occur in a translations file.
    pub fn expected_translations() -> Vec<(&'static str, String)> {
        let mut all: Vec<(&'static str, String)> = Vec::new();
        all.extend(ANSWERS.map(|name| ("t answer", name.to_string())));
        all.extend(apply_labels().into_iter().map(|name| ("t applies", name)));
        let mut grid = |section: &'static str, rows: &[&str], columns: &[&str], can: &dyn Fn(usize, usize) -> bool| {
            for (i, row) in rows.iter().enumerate() {
                for (_, column) in columns.iter().enumerate().filter(|(j, _)| can(i, *j)) {
                    all.push((section, format!("{row}/{column}")));
                }
            }
        };
        grid("t number", &NUMBERS, &NUMBER_TOLD, &|_, _| true);
        grid("t core", &CORE_NUMBERS, &["1", "2", "3", "4"], &|_, _| true);
        grid("t length", &LENGTHS, &LENGTH_TOLD, &|_, _| true);
        grid("t machine", &["1", "2", "3", "4", "5", "6", "7", "8"], &["1", "2", "3", "4"], &|_, _| true);
        grid("t pto", &PLACES, &LOW, &|_, _| true);
        grid("t entry", &["0", "1", "2", "3", "4", "5", "6", "7"], &ENTRIES, &|_, _| true);
        grid("t named", &NAMED, &WHAT, &|i, j| i == 0 || j == 1);
        grid("t named", &PLACES, &WHAT, &|_, _| true);
        // With pto beyond memory every address ends so, and else none.
        grid("t end", &ENDS, &AFTER, &|i, j| j == 0 || (i == 4) == (j == 5));
        all.extend(FACTS.iter().map(|name| ("t fact", name.to_string())));
        all.extend(CLAUSES.iter().map(|(_, text)| ("t damage", text.to_string())));
        all
    }

    /// The tables for a translations file.
    pub fn print_translations(&self) -> String {
        let mut out = format!("{} machines, {} questions, {} addresses.\n", self.vectors, self.steps, self.addresses);
        let expected: BTreeSet<(&str, String)> = Counts::expected_translations().into_iter().collect();
        let simple = |out: &mut String, section: &'static str, title: &str, rows: &[String]| {
            writeln!(out, "\n| {title} | times |\n|---|---|").unwrap();
            for row in rows {
                writeln!(out, "| {row} | {} |", self.get(section, row)).unwrap();
            }
        };
        let grid = |out: &mut String, section: &'static str, title: &str, rows: &[&str], columns: &[&str]| {
            writeln!(out, "\n| {title} | {} |", columns.join(" | ")).unwrap();
            writeln!(out, "|---|{}", "---|".repeat(columns.len())).unwrap();
            for row in rows {
                write!(out, "| {row} |").unwrap();
                for column in columns {
                    let name = format!("{row}/{column}");
                    let times = self.get(section, &name);
                    match expected.contains(&(section, name)) {
                        true => write!(out, " {times} |").unwrap(),
                        false => write!(out, " |").unwrap(),
                    }
                }
                out.push('\n');
            }
        };
        let strings = |all: &[&str]| all.iter().map(|s| s.to_string()).collect::<Vec<_>>();
        let cores = ["1", "2", "3", "4"];
        simple(&mut out, "t answer", "answer", &strings(&ANSWERS));
        simple(&mut out, "t applies", "refusals that apply, the first is given", &apply_labels());
        grid(&mut out, "t number", "number of addresses", &NUMBERS, &NUMBER_TOLD);
        grid(&mut out, "t length", "answer words for n addresses", &LENGTHS, &LENGTH_TOLD);
        grid(&mut out, "t core", "core asked, sound machines by number of cores", &CORE_NUMBERS, &cores);
        let pages = ["1", "2", "3", "4", "5", "6", "7", "8"];
        grid(&mut out, "t machine", "answered with an address, by pages and cores", &pages, &cores);
        grid(&mut out, "t pto", "the page in pto is", &PLACES, &LOW);
        grid(&mut out, "t named", "named by an entry", &[&NAMED[..], &PLACES[..]].concat(), &WHAT);
        grid(&mut out, "t end", "addresses that end so", &ENDS, &AFTER);
        grid(&mut out, "t entry", "rights of an entry met", &["0", "1", "2", "3", "4", "5", "6", "7"], &ENTRIES);
        simple(&mut out, "t fact", "fact of an answered question", &strings(&FACTS));
        let clauses = CLAUSES.map(|(_, text)| text.to_string());
        simple(&mut out, "t damage", "damaged tables, broken clause: questions", &clauses);
        out
    }
}

const WHAT: [&str; 2] = ["second-level table", "page found"];

fn apply_labels() -> Vec<String> {
    (1..16u32).map(|set| applying([8, 4, 2, 1].map(|bit| set & bit != 0))).collect()
}

/// What is true of one question.
#[derive(Default)]
struct Facts {
    names: BTreeSet<&'static str>,
}

impl Facts {
    fn told(&mut self, yes: bool, name: &'static str) {
        debug_assert!(FACTS.contains(&name), "{name}");
        if yes {
            self.names.insert(name);
        }
    }

    fn about_cores(&mut self, t: &[u32], m: &[u8], core: u32, asked: &[u32], trails: &[Trail]) {
        let b = block(core as usize);
        self.told(t[b + RUNNING] == 0, "the core does not run");
        self.told(t[b + MODE] & 1 == 0, "the core is in system mode");
        self.told(t[b + MODE] > 1, "the core has a mode word other than 0 and 1");
        let otherwise = |k: u32| asked.iter().zip(trails).any(|(&a, mine)| trail(t, m, k, a).answer != mine.answer);
        self.told((0..t[CORES]).any(otherwise), "another core would be answered otherwise");
        self.told(core != 0 && otherwise(0), "not core 0, which would be answered otherwise");
        let second = |page: u32| {
            trails.iter().any(|trail| trail.entries.len() == 2 && trail.entries[1].0 >> 12 == page && page < t[PAGES])
        };
        let others = (0..t[CORES] as usize).filter(|&k| k != core as usize).map(|k| t[block(k) + PTO] >> 12);
        let mut others = others.filter(|&page| page != t[b + PTO] >> 12);
        self.told(others.any(second), "a second-level table is the page in another core's pto");
    }

    fn about_addresses(&mut self, asked: &[u32], trails: &[Trail]) {
        let all: BTreeSet<u32> = asked.iter().copied().collect();
        let pages: BTreeSet<u32> = asked.iter().map(|a| a >> 12).collect();
        let regions: BTreeSet<u32> = asked.iter().map(|a| a >> 22).collect();
        self.told(all.len() < asked.len(), "an address twice");
        self.told(pages.len() < all.len(), "addresses that differ in the low 12 bits alone");
        self.told(asked.len() > 2 && pages.len() == 1, "three addresses or more, all of one page");
        let last = |i: usize| asked[i + 1..].iter().all(|a| asked[..i].contains(a));
        self.told((1..asked.len().max(2) - 1).any(last), "an address after which only earlier ones follow");
        self.told(pages.len() == 64 && regions.len() == 1, "64 pages of one region of 4 MiB");
        self.told(regions.len() == 64, "64 pages of 64 regions");
        let scattered = regions.len() == asked.len() && regions.iter().all(|r| !regions.contains(&(r + 1)));
        self.told(asked.len() >= 10 && scattered, "ten addresses or more, no two of neighbouring regions");
        let found =
            |what: fn(u32) -> bool| asked.iter().zip(trails).any(|(&a, trail)| trail.answer[0] == FOUND && what(a));
        self.told(found(|a| a & 0xFFF != 0), "found, low 12 bits set");
        self.told(found(|a| a & 0xFFF == 0), "found, low 12 bits zero");
        self.told(found(|a| a >> 22 == 0), "found by first-level entry 0");
        self.told(found(|a| a >> 22 == 1023), "found by first-level entry 1023");
        self.told(found(|a| a >> 12 & 1023 == 0), "found by second-level entry 0");
        self.told(found(|a| a >> 12 & 1023 == 1023), "found by second-level entry 1023");
    }

    fn about_entries(&mut self, m: &[u8], reads: u32, trails: &[Trail]) {
        let met = || trails.iter().flat_map(|trail| &trail.entries).copied();
        let n = trails.len();
        self.told(met().any(|(place, _)| place == 0), "the first word of memory is an entry that is read");
        let last = m.len() as u32 - 4;
        self.told(met().any(|(place, _)| place == last), "the last word of memory is an entry that is read");

        // By which address an entry is met first, at each level.
        let (mut first, mut second) = (BTreeMap::new(), BTreeMap::new());
        for (i, trail) in trails.iter().enumerate() {
            let (one, two) = both(trail);
            one.map(|(place, _)| *first.entry(place).or_insert(i));
            two.map(|(place, _)| *second.entry(place).or_insert(i));
        }
        let met_twice = |order: std::cmp::Ordering| {
            first.iter().any(|(place, i)| second.get(place).is_some_and(|j| i.cmp(j) == order))
        };
        let one = trails.iter().any(|trail| trail.entries.len() == 2 && trail.entries[0].0 == trail.entries[1].0);
        self.told(one, "an entry at both levels, by one address");
        self.told(met_twice(std::cmp::Ordering::Less), "an entry at both levels, first level by an earlier address");
        self.told(
            met_twice(std::cmp::Ordering::Greater),
            "an entry at both levels, second level by an earlier address",
        );
        type Entries<'a> = &'a [(u32, Option<u32>)];
        let pair = |what: fn(Entries, Entries) -> bool| {
            let long = || trails.iter().filter(|trail| trail.entries.len() == 2 && trail.entries[1].1.is_some());
            long().any(|a| long().any(|b| what(&a.entries, &b.entries)))
        };
        self.told(pair(|a, b| a[0] == b[0] && a[1] != b[1]), "two addresses share the first-level entry alone");
        self.told(pair(|a, b| a[0] != b[0] && a[1] == b[1]), "two addresses share the second-level entry alone");
        let shared = pair(|a, b| a[0].0 != b[0].0 && a[1].0 >> 12 == b[1].0 >> 12);
        self.told(shared, "two regions share a second-level table");

        let beyond: Vec<u32> = met().filter(|(_, pte)| pte.is_none()).map(|(place, _)| place).collect();
        let different: BTreeSet<u32> = beyond.iter().copied().collect();
        self.told(different.len() < beyond.len(), "an entry beyond memory met twice");
        self.told(different.len() > 1, "two different entries beyond memory");

        self.told(reads == 0, "reads 0, some address");
        self.told(reads == 1 && n == 1, "reads 1, one address");
        self.told(reads == 1 && n > 1, "reads 1, two addresses or more");
        self.told(reads == 2 && n == 1, "reads 2, one address");
        self.told(reads == 64 && n == 64, "reads 64 with 64 addresses");
        self.told(reads == 65 && n == 64, "reads 65 with 64 addresses");
        self.told((66..128).contains(&reads), "reads 66 to 127");
        self.told(reads == 128, "reads 128");
        let entries = met().filter(|(_, pte)| pte.is_some()).count();
        self.told((reads as usize) < entries, "reads fewer than the entries of the separate walks");
    }

    fn about_found(&mut self, trails: &[Trail], pages: u32) {
        let found: Vec<(u32, u32, [u32; 3])> = trails
            .iter()
            .filter(|trail| trail.answer[0] == FOUND)
            .filter_map(|trail| Some((both(trail).0?.1, both(trail).1?.1, trail.answer)))
            .collect();
        let any = |what: &dyn Fn(u32, u32) -> bool| found.iter().any(|(first, last, _)| what(*first, *last));
        let rights = |what: fn(u32, u32) -> bool| any(&|first, last| what(pte_rights(first), pte_rights(last)));
        self.told(found.iter().any(|(_, _, answer)| *answer == [0, 0, 0]), "found: page 0, rights 0");
        self.told(found.iter().any(|(_, _, answer)| answer[1] >> 19 != 0), "found: page over 19 bits");
        self.told(rights(|first, last| first != last), "found: the first-level entry has other rights");
        self.told(rights(|first, last| first & last != last), "found: the first-level entry lacks a right");
        self.told(rights(|first, last| first | last != last), "found: the first-level entry has a right more");
        self.told(any(&|first, _| !pte_accessed(first)), "found: first-level entry not accessed");
        self.told(any(&|_, last| !pte_accessed(last)), "found: second-level entry not accessed");
        self.told(any(&|first, last| (first | last) & 127 != 0), "found: low seven bits of an entry set");

        let beyond = found.iter().any(|(_, _, answer)| answer[1] >= pages);
        let inside = found.iter().any(|(_, _, answer)| answer[1] < pages);
        let entry = trails.iter().any(|trail| trail.answer[0] == BEYOND);
        self.told(beyond && entry, "found beyond memory and an entry beyond memory in one question");
        self.told(beyond && inside, "found beyond memory and found in memory in one question");

        for trail in trails {
            match (trail.answer, both(trail)) {
                ([ABSENT, 2, _], (Some((_, pte)), _)) => self.told(pte == 0, "absent at level 2: the entry is zero"),
                ([ABSENT, 1, _], (_, Some((_, pte)))) => {
                    self.told(pte == 0, "absent at level 1: the entry is zero");
                    let names = pte_base(pte) != 0 && pte_rights(pte) != 0;
                    self.told(names, "absent at level 1: it names a page with rights");
                }
                _ => {}
            }
        }
    }

    /// Walks and pending stores that would say otherwise, and absent entries.
    fn about_state(&mut self, t: &[u32], m: &[u8], core: u32, asked: &[u32], trails: &[Trail]) {
        let b = block(core as usize);
        // The walk from pto as an address, low bits and all.
        let low = t[b + PTO] & 0xFFF;
        let moved = |a: u32, place: u32| match word(m, place.wrapping_add(low)) {
            None => [BEYOND, 0, 0],
            Some(pte) if !pte_present(pte) => [ABSENT, 2, 0],
            Some(pte) => trail_from(m, 1, pte_base(pte), a).answer,
        };
        let otherwise = asked.iter().zip(trails).any(|(&a, mine)| moved(a, mine.entries[0].0) != mine.answer);
        self.told(low != 0 && otherwise, "pto's low bits would give another answer");

        let walks = walks_of(t, b);
        let asid = t[b + ASID] & 63;
        for (&a, mine) in asked.iter().zip(trails) {
            if let ([ABSENT, 2, _], Some((_, pte))) = (mine.answer, both(mine).0) {
                let on = trail_from(m, 1, pte_base(pte), a).answer[0] == FOUND;
                self.told(on, "absent at level 2: its page would lead to found");
            }
            for w in walks.iter().filter(|w| w.va() == a >> 12) {
                let other =
                    if w.complete() { [FOUND, w.base, w.rights()] } else { trail_from(m, w.level(), w.base, a).answer };
                if other == mine.answer {
                    continue;
                }
                let (ours, complete) = (w.asid() == asid, w.complete());
                self.told(ours && complete, "a complete walk is held that says otherwise");
                self.told(
                    ours && complete && mine.answer[0] == ABSENT,
                    "a complete walk is held for an absent address",
                );
                let far = mine.answer[0] == BEYOND;
                self.told(ours && complete && far, "a complete walk is held for an address beyond memory");
                self.told(!ours && complete, "a complete walk of another address space says otherwise");
                self.told(ours && w.level() == 1, "a level 1 walk is held that leads elsewhere");
                self.told(ours && w.level() == 2, "a level 2 walk is held that leads elsewhere");
            }
        }
        // Memory as each pending store alone would leave it.
        for k in 0..t[CORES] {
            let mut n = t[block(k as usize) + STORES];
            while n != 0 {
                let r = record(block(k as usize), n);
                let (at, value, width) = (t[r + 1], t[r + 2], t[r + 3]);
                n = t[r];
                let level = |i: usize| {
                    let hits = |trail: &&Trail| trail.entries.get(i).is_some_and(|(place, _)| *place == at & !3);
                    trails.iter().any(|trail| hits(&trail))
                };
                if !in_memory(m.len(), at, width) || !level(0) && !level(1) {
                    continue;
                }
                let mut after = m.to_vec();
                let bytes = &value.to_le_bytes()[..width as usize];
                after[at as usize..at as usize + width as usize].copy_from_slice(bytes);
                let changes = |what: &dyn Fn(&Trail) -> bool| {
                    let mut pairs = asked.iter().zip(trails);
                    pairs.any(|(&a, mine)| what(mine) && trail(t, &after, core, a).answer != mine.answer)
                };
                let any = changes(&|_| true);
                let own = k == core;
                self.told(any && own && level(0), "a pending store would change a first-level entry and the answer");
                self.told(any && own && level(1), "a pending store would change a second-level entry and the answer");
                self.told(any && own && width < 4, "a pending store of one byte or two would change the answer");
                self.told(any && !own, "a pending store of another core would change the answer");
                let present = changes(&|mine| mine.answer[0] == ABSENT);
                self.told(present && own, "a pending store would make an absent entry present");
            }
        }
    }
}
