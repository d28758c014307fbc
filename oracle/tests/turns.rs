//! The groups file tells a right reach and apart from ones that go wrong in
//! one place. Each wrong turn below is refuted by some of its questions.

use oracle::machine::{pte_base, pte_present, pte_rights, walks_of, word};
use oracle::soundness::*;
use oracle::vectors::{map_sum, read_groups, Groups, Question, MAP_FILL};
use std::collections::BTreeSet;

const TURNS: [&str; 54] = [
    // Reach.
    "the pto is forgotten",
    "level 2 walks are forgotten",
    "level 1 walks are forgotten",
    "complete walks are forgotten",
    "pending stores are forgotten",
    "absent entries count",
    "the pto's page is a second-level table",
    "a level 2 walk's base is a second-level table",
    "a level 2 walk's base is not read",
    "a level 1 walk's base is a first-level table",
    "a level 1 walk's base is not read",
    "a first-level entry's page is not a table itself",
    "second-level tables of entries are not read",
    "entry 0 is skipped",
    "entry 1023 is skipped",
    "write asks the user right too",
    "write is bit 2 of the rights",
    "a complete walk never grants write",
    "an entry never grants write",
    "a first-level entry that grants write makes a writable page",
    "first-level rights are needed for write as well",
    "a writable page is 4 and not 5",
    "a pending store's page is only read",
    "a page met as table is not read as data",
    "a page is read at one level only",
    "walks of other address spaces are left out",
    "entries that are not accessed are left out",
    "a core that does not run is left out of its group",
    "a core in system mode is left out of its group",
    "the page just behind memory is inside",
    "port pages are not beyond",
    "a beyond page by a pending store is not seen",
    "where a page beyond is reached the map stays",
    "13 comes before 12",
    "12 comes before 4",
    "a refusal clears the map",
    "a longer map is taken",
    "a shorter map is taken",
    "cores that are not there are left out",
    "bit 31 of the group is lost",
    "the empty group reaches nothing",
    // Apart.
    "a group core need not run",
    "a group core may be in system mode",
    "a rest core may be in system mode",
    "the mode is the whole word",
    "cores that do not run count as rest",
    "every other core has to run",
    "the group may reach beyond memory",
    "the rest may reach beyond memory",
    "the group may write its tables",
    "the rest may write its tables",
    "the rest may write what the group only reads",
    "the rest may have tables in pages of the group",
    "the group may not write what the rest reads",
];

/// The map and whether a page beyond is reached, with one turn taken wrong.
fn fill(t: &[u32], m: &[u8], group: u32, turn: &str) -> (Vec<u8>, bool) {
    let is = |name: &str| turn == name;
    let pages = t[PAGES];
    let mut map = vec![0u8; pages as usize];
    let mut beyond = false;
    let mut mark = |page: u32, what: u8| match map.get_mut(page as usize) {
        Some(byte) => {
            if !(is("a page met as table is not read as data") && *byte & 2 != 0 && what == 1) {
                *byte |= what;
            }
        }
        None if is("the page just behind memory is inside") && page == pages => {}
        None if is("port pages are not beyond") && page >= 0xFFFFE => {}
        None => beyond = true,
    };
    let write = |rights: u32| match () {
        _ if is("write asks the user right too") => rights & 3 == 3,
        _ if is("write is bit 2 of the rights") => rights & 4 == 4,
        _ => rights & 1 == 1,
    };
    let written = if is("a writable page is 4 and not 5") { 4 } else { 5 };
    let entries = |page: u32| -> Vec<u32> {
        let from = if is("entry 0 is skipped") { 1 } else { 0 };
        let to = if is("entry 1023 is skipped") { 1023 } else { 1024 };
        (from..to)
            .filter_map(|i| word(m, page << 12 | i << 2))
            .filter(|&pte| pte_present(pte) || is("absent entries count") && pte != 0)
            .filter(|&pte| !is("entries that are not accessed are left out") || pte >> 7 & 1 == 1)
            .collect()
    };
    let (mut first, mut second, mut data) = (BTreeSet::new(), BTreeSet::new(), Vec::new());
    for k in (0..t[CORES] as usize).filter(|k| group >> k & 1 == 1) {
        let b = block(k);
        if is("a core that does not run is left out of its group") && t[b + RUNNING] == 0
            || is("a core in system mode is left out of its group") && t[b + MODE] & 1 == 0
        {
            continue;
        }
        match t[b + PTO] >> 12 {
            _ if is("the pto is forgotten") => {}
            page if is("the pto's page is a second-level table") => drop(second.insert((page, true))),
            page => drop(first.insert(page)),
        }
        for w in walks_of(t, b) {
            if is("walks of other address spaces are left out") && w.asid() != t[b + ASID] & 63 {
                continue;
            }
            match w.level() {
                2 if is("level 2 walks are forgotten") => {}
                2 if is("a level 2 walk's base is a second-level table") => drop(second.insert((w.base, true))),
                2 if is("a level 2 walk's base is not read") => data.push((w.base, 2)),
                2 => drop(first.insert(w.base)),
                1 if is("level 1 walks are forgotten") => {}
                1 if is("a level 1 walk's base is a first-level table") => drop(first.insert(w.base)),
                1 if is("a level 1 walk's base is not read") => data.push((w.base, 2)),
                1 => drop(second.insert((w.base, true))),
                _ if is("complete walks are forgotten") => {}
                _ if is("a complete walk never grants write") => data.push((w.base, 1)),
                _ => data.push((w.base, if write(w.rights()) { written } else { 1 })),
            }
        }
        let mut n = t[b + STORES];
        while n != 0 {
            let page = t[record(b, n) + 1] >> 12;
            match () {
                _ if is("pending stores are forgotten") => {}
                _ if is("a beyond page by a pending store is not seen") && page >= pages => {}
                _ if is("a pending store's page is only read") => data.push((page, 1)),
                _ => data.push((page, written)),
            }
            n = t[record(b, n)];
        }
    }
    for &page in &first {
        mark(page, 2);
        for pte in entries(page) {
            if is("a first-level entry that grants write makes a writable page") && pte_rights(pte) & 1 == 1 {
                mark(pte_base(pte), 5);
            }
            if is("second-level tables of entries are not read") {
                mark(pte_base(pte), 2);
                continue;
            }
            second.insert((pte_base(pte), pte_rights(pte) & 1 == 1));
        }
    }
    for &(page, granted) in &second {
        let named = !is("a first-level entry's page is not a table itself");
        if named || walks_name(t, group, page) {
            mark(page, 2);
        } else if page >= pages {
            mark(page, 0);
        }
        if is("a page is read at one level only") && first.contains(&page) {
            continue;
        }
        for pte in entries(page) {
            let mut writes = write(pte_rights(pte)) && !is("an entry never grants write");
            writes &= granted || !is("first-level rights are needed for write as well");
            mark(pte_base(pte), if writes { written } else { 1 });
        }
    }
    for (page, what) in data {
        mark(page, what);
    }
    (map, beyond)
}

/// Is the page the base of a level 1 walk?
fn walks_name(t: &[u32], group: u32, page: u32) -> bool {
    (0..t[CORES] as usize)
        .filter(|k| group >> k & 1 == 1)
        .any(|k| walks_of(t, block(k)).iter().any(|w| w.level() == 1 && w.base == page))
}

fn bad_group(t: &[u32], group: &mut u32, turn: &str) -> bool {
    if turn == "cores that are not there are left out" {
        *group &= (1 << t[CORES]) - 1;
    }
    if turn == "bit 31 of the group is lost" {
        *group &= !(1 << 31);
    }
    *group == 0 && turn != "the empty group reaches nothing" || *group >> t[CORES] != 0
}

fn reach(t: &[u32], m: &[u8], mut group: u32, map: &mut [u8], turn: &str) -> Result<bool, u32> {
    let is = |name: &str| turn == name;
    let refused = |map: &mut [u8], number: u32| {
        if is("a refusal clears the map") {
            map.fill(0);
        }
        Err(number)
    };
    let pages = t.get(PAGES).copied().unwrap_or(0) as usize;
    let wrong_length = match () {
        _ if is("a longer map is taken") => map.len() < pages,
        _ if is("a shorter map is taken") => map.len() > pages,
        _ => map.len() != pages,
    };
    if is("12 comes before 4") && wrong_length {
        return refused(map, 12);
    }
    if sound(t, m).is_err() {
        return refused(map, 4);
    }
    if is("13 comes before 12") && bad_group(t, &mut group, turn) {
        return refused(map, 13);
    }
    if wrong_length {
        return refused(map, 12);
    }
    if bad_group(t, &mut group, turn) {
        return refused(map, 13);
    }
    let (filled, beyond) = fill(t, m, group, turn);
    if !(beyond && is("where a page beyond is reached the map stays")) {
        map.iter_mut().zip(filled).for_each(|(byte, new)| *byte = new);
    }
    Ok(beyond)
}

fn apart(t: &[u32], m: &[u8], mut group: u32, turn: &str) -> Result<bool, u32> {
    let is = |name: &str| turn == name;
    if sound(t, m).is_err() {
        return Err(4);
    }
    if bad_group(t, &mut group, turn) {
        return Err(13);
    }
    let cores = 0..t[CORES] as usize;
    let running = |k: usize| t[block(k) + RUNNING] == 1;
    let user = |k: usize| match t[block(k) + MODE] {
        mode if is("the mode is the whole word") => mode == 1,
        mode => mode & 1 == 1,
    };
    let mine: Vec<usize> = cores.clone().filter(|k| group >> k & 1 == 1).collect();
    let others: Vec<usize> = cores.filter(|k| group >> k & 1 == 0).collect();
    let rest: Vec<usize> = match () {
        _ if is("cores that do not run count as rest") => others.clone(),
        _ => others.iter().copied().filter(|&k| running(k)).collect(),
    };
    let mask = rest.iter().fold(0, |all, k| all | 1 << k);
    let (g, group_beyond) = fill(t, m, group, turn);
    let (r, rest_beyond) = fill(t, m, mask, turn);
    let pairs = || g.iter().copied().zip(r.iter().copied());
    let no = mine.iter().any(|&k| !running(k)) && !is("a group core need not run")
        || mine.iter().any(|&k| !user(k)) && !is("a group core may be in system mode")
        || rest.iter().any(|&k| !user(k)) && !is("a rest core may be in system mode")
        || is("every other core has to run") && others.iter().any(|&k| !running(k))
        || group_beyond && !is("the group may reach beyond memory")
        || rest_beyond && !is("the rest may reach beyond memory")
        || g.iter().any(|g| g & 6 == 6) && !is("the group may write its tables")
        || r.iter().any(|r| r & 6 == 6) && !is("the rest may write its tables")
        || pairs()
            .any(|(g, r)| g != 0 && r & 4 != 0 && !(g == 1 && is("the rest may write what the group only reads")))
        || pairs().any(|(g, r)| g != 0 && r & 2 != 0) && !is("the rest may have tables in pages of the group")
        || pairs().any(|(g, r)| r != 0 && g & 6 != 0) && is("the group may not write what the rest reads");
    Ok(!no)
}

/// How many questions of a machine a turn answers wrongly.
fn wrong(g: &Groups, turn: &str) -> usize {
    let (t, m) = (&g.machine.tables, &g.machine.memory);
    let answer = |q: &Question| {
        let mut map = vec![MAP_FILL; q.map_length as usize];
        let (reached, beyond) = match reach(t, m, q.group, &mut map, turn) {
            Ok(beyond) => (0, beyond as u8),
            Err(number) => (100 + number as u8, 0),
        };
        let apart = apart(t, m, q.group, turn).map_or_else(|number| 100 + number as u8, |yes| yes as u8);
        Question { group: q.group, map_length: q.map_length, reach: reached, beyond, map_sum: map_sum(&map), apart }
    };
    g.questions.iter().filter(|q| answer(q) != **q).count()
}

#[test]
fn no_wrong_turn_goes_unseen() {
    let all = read_groups(include_bytes!("../vectors/groups.bin")).unwrap().0;
    assert_eq!(all.iter().map(|g| wrong(g, "none")).sum::<usize>(), 0);
    for turn in TURNS {
        let mut found = 0;
        for g in &all {
            found += wrong(g, turn);
            if found >= 20 {
                break;
            }
        }
        assert!(found >= 20, "{turn}: {found} questions");
    }
}
