//! Translate on machines made at random, held against a plain walk for each address and a set of the entries that all
//! of them need; and on tables laid out by hand that need the most entries.

mod machine;

use machine::{entry, walk, Machine, ASID, BLOCK, MODE, PAGES, PRESENT, PTO, RUNNING};
use mips86::{translate, translate_into, Translated, Translation, PAGE_BYTES};
use std::collections::BTreeSet;

struct Random(u64);

impl Random {
    fn below(&mut self, n: usize) -> usize {
        self.0 = self.0.wrapping_mul(6364136223846793005).wrapping_add(1442695040888963407);
        (self.0 >> 33) as usize % n
    }

    fn word(&mut self) -> u32 {
        (self.below(1 << 16) << 16 | self.below(1 << 16)) as u32
    }

    fn one_in(&mut self, n: usize) -> bool {
        self.below(n) == 0
    }

    fn of<T: Copy>(&mut self, list: &[T]) -> T {
        list[self.below(list.len())]
    }
}

/// The indices of most entries. With 633 or 242 between them, those of pages one or two apart are kept in the same slot.
const INDICES: [u32; 10] = [0, 1, 2, 242, 243, 391, 633, 634, 1022, 1023];

/// A page of a machine with so many, its last one, or one beyond: the next, a far one, a port's.
fn random_page(r: &mut Random, pages: usize) -> u32 {
    match r.below(16) {
        0 => r.of(&[pages as u32, pages as u32 + 1, 4096, 0x80000, 0xFFFFE, 0xFFFFF]),
        1 => pages as u32 - 1,
        _ => r.below(pages) as u32,
    }
}

/// Every page is a table, whose entries name each other and themselves. What translate does not look at is random too:
/// bits of an entry, the state of a core, the walks and stores that it holds.
fn random_machine(r: &mut Random) -> Machine {
    let (cores, pages) = (1 + r.below(4), 1 + r.below(24));
    let mut m = Machine::new(cores, pages);
    for table in 0..pages as u32 {
        for index in INDICES {
            let absent = if r.one_in(6) { PRESENT } else { 0 };
            let rest = r.word() & 0xFF;
            let word = (entry(random_page(r, pages), r.below(8) as u32) | rest) & !absent;
            m.enter(table, index, word);
        }
    }
    for core in 0..cores {
        for va in 0..r.below(4) as u32 {
            let (level, rights) = (r.below(3) as u32, r.below(8) as u32);
            let base = random_page(r, pages);
            m.hold_walk(core, walk(va, core as u32, level, rights, base));
        }
        for _ in 0..r.below(3) {
            let to = r.below(pages) as u32;
            m.hold_store(core, to << 12 | r.of(&INDICES) << 2, r.word(), 4);
        }
        let origin = random_page(r, pages) << 12 | r.below(4096) as u32;
        let block = m.block_mut(core);
        block[PTO] = origin;
        block[ASID] = r.word();
        block[MODE] = r.word();
        block[RUNNING] = r.below(2) as u32;
    }
    m
}

/// Up to 66 addresses, some of them twice, and some of entries that are zero.
fn random_addresses(r: &mut Random) -> Vec<u32> {
    let n = if r.one_in(4) { 60 + r.below(7) } else { r.below(61) };
    let few = 1 + r.below(INDICES.len());
    let mut addresses: Vec<u32> = Vec::new();
    for _ in 0..n {
        let address = match r.below(12) {
            0 => r.word(),
            1 if !addresses.is_empty() => r.of(&addresses) & !0xFFF | r.below(4096) as u32,
            _ => r.of(&INDICES[..few]) << 22 | r.of(&INDICES) << 12 | r.below(4096) as u32,
        };
        addresses.push(address);
    }
    addresses
}

/// Makes the tables not sound.
fn damage(r: &mut Random, m: &mut Machine) {
    let block = BLOCK + 256 * r.below(m.cores());
    match r.below(6) {
        0 => m.tables[block + RUNNING] = 2,
        1 => m.tables[PAGES] += 1,
        2 => m.tables[30] = 1,
        3 => m.tables[block + 71] = 1,
        4 => drop(m.tables.pop()),
        _ => m.memory.extend([0; PAGE_BYTES]),
    }
}

/// What a plain walk for one address meets: the addresses of its entries in memory, and where it leads.
struct Walked {
    entries: Vec<usize>,
    to: Translation,
}

fn plain_walk(m: &Machine, core: usize, address: u32) -> Walked {
    let mut entries = Vec::new();
    let mut table = m.block(core)[PTO] >> 12;
    let mut rights = 0;
    for (level, index) in [(2, address >> 22), (1, address >> 12 & 1023)] {
        let at = table as usize * PAGE_BYTES + 4 * index as usize;
        if at + 4 > m.memory.len() {
            return Walked { entries, to: Translation::Beyond };
        }
        entries.push(at);
        let word = m.word(at as u32);
        if word & PRESENT == 0 {
            return Walked { entries, to: Translation::Absent { level } };
        }
        (table, rights) = (word >> 12, word >> 8 & 7);
    }
    Walked { entries, to: Translation::Mapped { page: table, rights } }
}

fn words(to: Translation) -> [u32; 3] {
    match to {
        Translation::Mapped { page, rights } => [0, page, rights],
        Translation::Absent { level } => [1, level, 0],
        Translation::Beyond => [2, 0, 0],
    }
}

/// The entries that walks meet at a place, 0 first-level or 1 second-level, each once.
fn met(walks: &[Walked], place: usize) -> BTreeSet<usize> {
    walks.iter().filter_map(|w| w.entries.get(place).copied()).collect()
}

/// What occurred, and how often.
#[derive(Debug, Default)]
struct Seen {
    mapped: usize,
    mapped_beyond: usize,
    absent: [usize; 2],
    beyond: [usize; 2],
    /// Questions with an entry that different virtual pages share, at each level; with one that is met at both levels.
    shared: [usize; 2],
    both: usize,
    /// Addresses that meet one entry at both levels.
    twice: usize,
    /// Questions with 0 and with 64 addresses.
    none: usize,
    most: usize,
    /// By the number of the refusal.
    refused: [usize; 17],
}

impl Seen {
    fn count(&mut self, m: &Machine, addresses: &[u32], walks: &[Walked]) {
        for w in walks {
            match w.to {
                Translation::Mapped { page, .. } => {
                    self.mapped += 1;
                    self.mapped_beyond += (page as usize >= m.memory.len() / PAGE_BYTES) as usize;
                }
                Translation::Absent { level } => self.absent[level as usize - 1] += 1,
                Translation::Beyond => self.beyond[w.entries.len()] += 1,
            }
            self.twice += (w.entries.len() == 2 && w.entries[0] == w.entries[1]) as usize;
        }
        let pages: BTreeSet<u32> = addresses.iter().map(|a| a >> 12).collect();
        let of_page = |page: u32| &walks[addresses.iter().position(|a| a >> 12 == page).expect("a walk")].entries;
        for place in 0..2 {
            let users = pages.iter().filter(|&&page| of_page(page).len() > place).count();
            self.shared[place] += (users > met(walks, place).len()) as usize;
        }
        self.both += !met(walks, 0).is_disjoint(&met(walks, 1)) as usize;
        self.none += addresses.is_empty() as usize;
        self.most += (addresses.len() == 64) as usize;
    }

    fn enough(&self) {
        let answers = [self.mapped, self.mapped_beyond, self.twice, self.both, self.none, self.most];
        let [a, b, c] = [self.absent, self.beyond, self.shared];
        let refused = [4, 14, 15, 16].map(|n| self.refused[n]);
        let all = [&answers[..], &a, &b, &c, &refused].concat();
        assert!(all.iter().all(|n| *n >= 50), "{self:?}");
    }
}

#[test]
fn translations_by_plain_walks() {
    let mut r = Random(5);
    let mut seen = Seen::default();
    for round in 0..4000 {
        let mut m = random_machine(&mut r);
        let cores = m.cores();
        let damaged = r.one_in(12);
        if damaged {
            damage(&mut r, &mut m);
        }
        let before = m.clone();
        for _ in 0..3 {
            let core = if r.one_in(12) { r.of(&[cores as u32, 4, 256, u32::MAX]) } else { r.below(cores) as u32 };
            let addresses = random_addresses(&mut r);
            let n = addresses.len();
            let length = if r.one_in(8) { r.of(&[0, n, 2 * n, 3 * n + 1, 3 * n + 3, 192, 195]) } else { 3 * n };
            let refusals = [(4, damaged), (14, core as usize >= cores), (15, n > 64), (16, length != 3 * n)];
            let refusal = refusals.into_iter().find(|(_, holds)| *holds).map(|(number, _)| number);

            let mut answers = vec![0xEEEE_EEEE; length];
            let reads = translate_into(&m.tables, &m.memory, core, &addresses, &mut answers);
            if let Some(number) = refusal {
                seen.refused[number as usize] += 1;
                assert_eq!(reads, Err(number), "round {round}: core {core}, {n} addresses, {length} words");
                assert_eq!(answers, vec![0xEEEE_EEEE; length]);
                if number != 16 {
                    assert_eq!(translate(&m.tables, &m.memory, core, &addresses), Err(number));
                }
                continue;
            }
            let walks: Vec<Walked> = addresses.iter().map(|&a| plain_walk(&m, core as usize, a)).collect();
            let entries: BTreeSet<usize> = walks.iter().flat_map(|w| w.entries.iter().copied()).collect();
            let translations: Vec<Translation> = walks.iter().map(|w| w.to).collect();
            assert_eq!(reads, Ok(entries.len() as u32), "round {round}, core {core}: {addresses:x?}");
            let expected: Vec<u32> = translations.iter().flat_map(|&to| words(to)).collect();
            assert_eq!(answers, expected, "round {round}, core {core}: {addresses:x?}");
            let translated = Translated { translations, reads: entries.len() as u32 };
            assert_eq!(translate(&m.tables, &m.memory, core, &addresses), Ok(translated));
            seen.count(&m, &addresses, &walks);
        }
        assert_eq!(m, before, "round {round}: nothing of the machine is written");
    }
    // each kind of answer and each refusal came often enough to be a test
    seen.enough();
}

/// 64 addresses that share no entry need 128. The second-level ones lie in as many tables, in one table, in tables far
/// apart, and so that all are kept in one slot.
#[test]
fn the_most_entries() {
    let pages = 4096;
    let far = |k: u32| 1 + 64 * k;
    let same_slot = |k: u32| (633 * 4096 - 633 * far(k)) % 1024;
    // of address k: the second-level table and its index there
    type Layout<'a> = &'a dyn Fn(u32) -> (u32, u32);
    let layouts: [Layout; 4] = [&|k| (1 + k, 0), &|k| (1, k), &|k| (far(k), 1023 - k), &|k| (far(k), same_slot(k))];
    for (number, layout) in layouts.iter().enumerate() {
        for first in [0, 960] {
            let mut m = Machine::new(4, pages);
            m.block_mut(3)[PTO] = 0xFFF;
            let mut addresses = Vec::new();
            let mut expected = Vec::new();
            for k in 0..64 {
                let (table, index) = layout(k);
                m.enter(0, first + k, entry(table, 0));
                m.enter(table, index, entry(pages as u32 - k, k % 8));
                addresses.push((first + k) << 22 | index << 12 | k);
                expected.push(Translation::Mapped { page: pages as u32 - k, rights: k % 8 });
            }
            for _ in 0..2 {
                let t = translate(&m.tables, &m.memory, 3, &addresses).expect("an answer");
                assert_eq!((&t.translations, t.reads), (&expected, 128), "layout {number}");
                addresses.reverse();
                expected.reverse();
            }
        }
    }
}
