//! The reasons on machines made at random, held against a plain listing of ways: every way of a core in its order, and of those at
//! fault the first to the lowest page.

use mips86::{Machine, Reason, Root, Side, Way, TABLE};

const PAGES: usize = 12;
/// In a block: the special register mode.
const MODE: usize = 39;

struct Random(u64);

impl Random {
    fn below(&mut self, n: usize) -> usize {
        self.0 = self.0.wrapping_mul(6364136223846793005).wrapping_add(1442695040888963407);
        (self.0 >> 33) as usize % n
    }
}

fn put_entry(m: &mut Machine, table: usize, index: usize, word: u32) {
    let at = 4096 * table + 4 * index;
    m.memory[at..at + 4].copy_from_slice(&word.to_le_bytes());
}

/// Puts the first free record of a core to the front of a chain, by the word of its head.
fn hold(m: &mut Machine, core: usize, head: usize, words: [u32; 3]) {
    let block = 32 + 256 * core;
    let number = m.tables[block + 70];
    let record = block + 128 + 4 * number as usize;
    m.tables[block + 70] = m.tables[record];
    m.tables[record] = m.tables[block + head];
    m.tables[block + head] = number;
    m.tables[record + 1..record + 4].copy_from_slice(&words);
}

/// Four cores on twelve pages; `wild` is how often something that spoils a verdict is put in, of 100.
fn random_machine(r: &mut Random, wild: usize) -> Machine {
    let mut m = Machine::make(4, PAGES).unwrap();
    // a core has three pages of its own
    let page = |r: &mut Random, core: usize| match r.below(100) {
        n if n < wild => r.below(PAGES) as u32,
        n if n < wild + wild / 8 => [PAGES as u32, 40, 0xfffff][r.below(3)],
        _ => (3 * core + 2) as u32,
    };
    for core in 0..4 {
        let block = 32 + 256 * core;
        m.tables[block + 67] = (r.below(100) >= wild / 4) as u32;
        m.tables[block + MODE] = (r.below(100) >= wild / 4) as u32;
        let (first, second) = (3 * core, 3 * core + 1);
        m.tables[block + 37] = (first << 12) as u32 | 0xabc;
        for _ in 0..r.below(4) {
            let to = if r.below(100) < wild / 2 { page(r, core) } else { second as u32 };
            let rights = r.below(8) as u32;
            let present = (r.below(5) > 0) as u32;
            put_entry(&mut m, first, r.below(1024), to << 12 | present << 11 | rights << 8);
        }
        for _ in 0..r.below(5) {
            let to = page(r, core);
            let rights = r.below(8) as u32;
            let present = (r.below(5) > 0) as u32;
            put_entry(&mut m, second, r.below(1024), to << 12 | present << 11 | rights << 8);
        }
        for n in 0..r.below(4) {
            let level = r.below(if wild == 0 { 1 } else { 3 }) as u32;
            let base = page(r, core);
            // no two walks of a core are the same, and rights of a level 2 walk are all
            hold(&mut m, core, 69, [((core * 8 + n) << 12) as u32 | level << 3 | r.below(8) as u32, base, 0]);
        }
        for _ in 0..r.below(3) {
            // a pending store goes to memory or to a port
            let to = page(r, core);
            let to = if to < PAGES as u32 { to } else { 0xfffff };
            hold(&mut m, core, 68, [to << 12 | 0x10, 7, 4]);
        }
    }
    m
}

fn entry(m: &Machine, at: usize) -> Option<u32> {
    let word = u32::from_le_bytes(m.memory.get(at..at + 4)?.try_into().unwrap());
    (word >> 11 & 1 == 1).then_some(word)
}

/// A way and all that go on from it.
fn onward(m: &Machine, way: Way, all: &mut Vec<Way>) {
    all.push(way.clone());
    if way.level == 0 {
        return;
    }
    for i in 0..1024 {
        let at = 4096 * way.page as usize + 4 * i;
        if let Some(word) = entry(m, at) {
            let mut next = way.clone();
            next.entries.push(at as u32);
            next.page = word >> 12;
            next.level -= 1;
            next.write = word >> 8 & 1 == 1;
            onward(m, next, all);
        }
    }
}

fn ways(m: &Machine, cores: &[usize]) -> Vec<Way> {
    let mut all = Vec::new();
    for &core in cores {
        let block = &m.tables[32 + 256 * core..32 + 256 * core + 256];
        let way = |root, page, level, write| Way { core: core as u32, root, entries: vec![], page, level, write };
        onward(m, way(Root::Origin, block[37] >> 12, 2, false), &mut all);
        let mut n = block[69];
        while n != 0 {
            let record = &block[128 + 4 * n as usize..];
            let level = record[1] >> 3 & 3;
            if level < 3 {
                onward(m, way(Root::Walk(n), record[2], level, record[1] & 1 == 1), &mut all);
            }
            n = record[0];
        }
        let mut n = block[68];
        while n != 0 {
            let record = &block[128 + 4 * n as usize..];
            onward(m, way(Root::Store(n), record[1] >> 12, 0, true), &mut all);
            n = record[0];
        }
    }
    all
}

/// The first way to the lowest page, of those that pass a test.
fn lowest(all: &[Way], test: impl Fn(&Way) -> bool) -> Option<Way> {
    all.iter().filter(|w| test(w)).min_by_key(|w| w.page).cloned()
}

fn expected(m: &Machine, group: u32) -> Vec<Reason> {
    let running = |k: usize| m.tables[32 + 256 * k + 67] == 1;
    let user = |k: usize| m.tables[32 + 256 * k + MODE] & 1 == 1;
    let own: Vec<usize> = (0..4).filter(|k| group >> k & 1 == 1).collect();
    let rest: Vec<usize> = (0..4).filter(|k| group >> k & 1 == 0 && running(*k)).collect();
    let mut all = Vec::new();
    let both = |k: &usize| own.contains(k) || rest.contains(k);
    if let Some(k) = (0..4).filter(both).find(|k| !(running(*k) && user(*k))) {
        all.push(Reason::NotUser(k as u32));
    }
    let sides = [(Side::Group, ways(m, &own)), (Side::Rest, ways(m, &rest))];
    let inside = |w: &Way| (w.page as usize) < PAGES;
    for (side, list) in &sides {
        all.extend(lowest(list, |w| !inside(w)).map(|w| Reason::BeyondMemory(*side, w)));
    }
    for (side, list) in &sides {
        let tables: Vec<u32> = list.iter().filter(|w| w.level > 0).map(|w| w.page).collect();
        let fault = lowest(list, |w| inside(w) && w.level == 0 && w.write && tables.contains(&w.page));
        all.extend(fault.map(|w| Reason::OwnTable(*side, w)));
    }
    let reached: Vec<u32> = sides[0].1.iter().map(|w| w.page).collect();
    let fault = lowest(&sides[1].1, |w| inside(w) && (w.level > 0 || w.write) && reached.contains(&w.page));
    all.extend(fault.map(|rest| {
        let group = sides[0].1.iter().find(|own| own.page == rest.page).unwrap().clone();
        Reason::Touches { rest, group }
    }));
    all
}

#[test]
fn reasons_by_a_listing_of_ways() {
    let mut r = Random(7);
    let (mut apart, mut kinds) = (0, [0; 6]);
    for round in 0..1500 {
        let m = random_machine(&mut r, [0, 6, 12, 30][round % 4]);
        for group in 1..16 {
            let plain = expected(&m, group);
            assert_eq!(m.reasons(group).as_ref(), Ok(&plain), "round {round}, group {group}");
            assert_eq!(m.why(group), Ok(plain.first().cloned()));
            assert_eq!(m.apart(group), Ok(plain.is_empty()));
            apart += plain.is_empty() as usize;
            for reason in plain {
                let kind = match reason {
                    Reason::NotUser(_) => 0,
                    Reason::BeyondMemory(side, _) => 1 + side as usize,
                    Reason::OwnTable(side, _) => 3 + side as usize,
                    Reason::Touches { .. } => 5,
                };
                kinds[kind] += 1;
            }
        }
    }
    // each verdict and each reason came often enough to be a test
    assert!(apart > 500, "{apart}");
    assert!(kinds.iter().all(|n| *n > 300), "{kinds:?}");
}

/// A page that is a table is marked as one: the listing and reach agree on what is a table.
#[test]
fn tables_of_the_listing() {
    let mut r = Random(11);
    for _ in 0..100 {
        let m = random_machine(&mut r, 12);
        for group in 1..16 {
            let own: Vec<usize> = (0..4).filter(|k| group >> k & 1 == 1).collect();
            let list = ways(&m, &own);
            let map = m.reach(group).unwrap().map;
            for (page, byte) in map.iter().enumerate() {
                let table = list.iter().any(|w| w.level > 0 && w.page as usize == page);
                assert_eq!(byte & TABLE != 0, table);
            }
        }
    }
}
