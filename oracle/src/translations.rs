//! The translations file from a seed: machines with page tables of all kinds
//! and questions for translate.
//!
//! Which questions are kept is steered by the counts of what has occurred so
//! far, until everything in the tables of README.md has occurred often enough.

use crate::counts::Counts;
use crate::generate::{damaged, Rng};
use crate::machine::*;
use crate::refusals::draw_counts;
use crate::sides::{shuffle, Board};
use crate::soundness::*;
use crate::translate::trail;
use crate::vectors::{answer_translation, checksum, Asked, Machine, Translation, Translations};

/// Each thing that is counted occurs so often at least.
const ENOUGH: u64 = 24;

/// The most questions of one machine.
const QUESTIONS: usize = 40;

pub fn translations(seed: u32) -> Vec<Translations> {
    let mut rng = Rng::new(seed as u64 ^ 0x7245_4A57);
    let mut counts = Counts::default();
    let mut all = Vec::new();
    // Every number of cores and pages twice, any questions.
    for n in 0..64 {
        let (machine, pools) = machine(&mut rng, 1 + n % 4, 1 + n as u32 / 4 % 8);
        let questions = (0..8).map(|_| answer_translation(&machine, &question(&mut rng, &machine, &pools))).collect();
        all.push(finish(machine, questions, &mut counts));
    }
    // Damaged tables: questions of which there are few, where one is found.
    for (clause, _) in CLAUSES.iter().cycle().take(3 * CLAUSES.len()) {
        let machine = broken(&mut rng, *clause);
        let mut so_far = Counts::default();
        so_far.merge(&counts);
        let mut questions = Vec::new();
        for _ in 0..8 {
            let mut drawn = (0..12).map(|_| answer_translation(&machine, &question(&mut rng, &machine, &[vec![]])));
            let keep = drawn.find(|q| rare(&so_far, &machine, q) > 0);
            let keep = keep.unwrap_or_else(|| answer_translation(&machine, &short(&mut rng, &machine)));
            so_far.translation(&machine, &keep);
            questions.push(keep);
        }
        all.push(finish(machine, questions, &mut counts));
    }
    // Whatever is rare.
    let mut idle = 0;
    while let Some((section, name)) = wanted(&counts) {
        let (cores, pages) = (1 + rng.below(4) as usize, 1 + rng.below(8));
        let not_sound = name.ends_with("not sound") || section == "t applies" && name.starts_with('4');
        let clause = rng.pick(&CLAUSES).0;
        let (machine, pools) = match not_sound {
            true => (broken(&mut rng, clause), vec![vec![]]),
            false => machine(&mut rng, cores, pages),
        };
        let mut so_far = Counts::default();
        so_far.merge(&counts);
        let mut questions = Vec::new();
        for _ in 0..60 {
            let q = answer_translation(&machine, &question(&mut rng, &machine, &pools));
            if questions.len() < QUESTIONS && rare(&so_far, &machine, &q) > 0 {
                so_far.translation(&machine, &q);
                questions.push(q);
            }
        }
        idle += 1;
        if !questions.is_empty() {
            all.push(finish(machine, questions, &mut counts));
            idle = 0;
        }
        assert!(idle < 200_000, "{section}: {name} does not occur");
    }
    // Refusal counts of every sort, which no answer depends on.
    let mut rng = Rng::new(seed as u64 ^ 0x5245_4655);
    for g in &mut all {
        draw_counts(&mut rng, &mut g.machine.tables);
        g.sum = checksum(&g.machine.tables, &g.machine.memory);
    }
    all
}

/// A machine whose first broken clause is this one.
fn broken(rng: &mut Rng, clause: Clause) -> Machine {
    (0..1000).find_map(|_| damaged(rng, clause)).expect("can be damaged so")
}

fn finish(machine: Machine, questions: Vec<Translation>, counts: &mut Counts) -> Translations {
    let all = Translations { sum: checksum(&machine.tables, &machine.memory), machine, questions };
    counts.translations(&all);
    all
}

/// Something that has not yet occurred often enough.
fn wanted(counts: &Counts) -> Option<(&'static str, String)> {
    Counts::expected_translations().into_iter().find(|(section, name)| counts.get(section, name) < ENOUGH)
}

/// How many things that have not yet occurred often enough a question shows.
fn rare(counts: &Counts, machine: &Machine, q: &Translation) -> usize {
    let mut shown = Counts::default();
    shown.translation(machine, q);
    counts.rare(&shown, ENOUGH)
}

/// A sound machine of any size with a few questions, for trials.
pub fn sample(rng: &mut Rng) -> (Machine, Vec<Asked>) {
    let (cores, pages) = (1 + rng.below(4) as usize, 1 + rng.below(8));
    let (machine, pools) = machine(rng, cores, pages);
    let asked = (0..6).map(|_| question(rng, &machine, &pools)).collect();
    (machine, asked)
}

// ---------------------------------------------------------------- questions

fn core(rng: &mut Rng, machine: &Machine) -> u32 {
    if rng.chance(72) {
        return rng.below(machine.cores as u32);
    }
    let any = rng.word();
    rng.pick(&[0, 1, 2, 3, 4, 5, 1 << 31, 0xFFFF_FFFF, any, machine.cores as u32])
}

fn words(rng: &mut Rng, n: usize) -> u8 {
    let n = n as u8;
    match rng.chance(76) {
        true => 3 * n,
        false => rng.pick(&[(3 * n).saturating_sub(1), 3 * n + 1, 0, 2 * n]),
    }
}

/// A question with few addresses, which says little.
fn short(rng: &mut Rng, machine: &Machine) -> Asked {
    let addresses: Vec<u32> = (0..rng.below(3)).map(|_| rng.word()).collect();
    Asked { core: core(rng, machine), words: words(rng, addresses.len()), addresses }
}

/// A question of any kind. The pools hold virtual pages for each core.
fn question(rng: &mut Rng, machine: &Machine, pools: &[Vec<u32>]) -> Asked {
    let core = core(rng, machine);
    let pool = pools.get(core as usize).unwrap_or(&pools[0]);
    let n = match rng.weighted(&[6, 14, 14, 12, 12, 4, 8, 4, 4, 12]) {
        9 => 4 + rng.below(24) as usize,
        i => [0, 1, 2, 3, 10, 63, 64, 65, 66][i],
    };
    let page = |rng: &mut Rng| match pool.is_empty() || rng.chance(8) {
        true => rng.below(1 << 20),
        false => rng.pick(pool),
    };
    let low = |rng: &mut Rng| match rng.below(4) {
        0 => 0,
        1 => 0xFFF,
        2 => 4 * rng.below(1024),
        _ => rng.below(4096),
    };
    let mut addresses: Vec<u32> = match rng.below(9) {
        // Of the pool, and now and then a page that one of them is near to.
        0..=2 => (0..n).map(|_| page(rng) << 12 | low(rng)).collect(),
        // A few that come again and again.
        3 => {
            let few: Vec<u32> = (0..1 + rng.below(4)).map(|_| page(rng) << 12 | low(rng)).collect();
            (0..n).map(|_| rng.pick(&few)).collect()
        }
        // One page.
        4 => {
            let page = page(rng);
            (0..n).map(|_| page << 12 | low(rng)).collect()
        }
        // One region.
        5 => {
            let region = page(rng) >> 10;
            let (any, known) = (rng.below(960), page(rng) & 1023);
            let start = rng.pick(&[0, 1024 - 64, any, known]);
            let mut all: Vec<u32> = (0..n as u32).map(|i| region << 10 | (start + i) & 1023).collect();
            if rng.chance(50) {
                shuffle(rng, &mut all);
            }
            all.into_iter().map(|page| page << 12 | low(rng)).collect()
        }
        // As many regions.
        6 => {
            let (any, known) = (rng.below(960), page(rng) >> 10);
            let start = rng.pick(&[0, 1024 - 64, any, known]);
            let lower = page(rng) & 1023;
            let step = rng.below(3);
            let mut all: Vec<u32> =
                (0..n as u32).map(|i| ((start + i) & 1023) << 10 | (lower + step * i) & 1023).collect();
            if rng.chance(50) {
                shuffle(rng, &mut all);
            }
            all.into_iter().map(|page| page << 12 | low(rng)).collect()
        }
        // Any.
        7 => (0..n).map(|_| rng.word()).collect(),
        // Regions and lower halves of the pool, put together anew.
        _ => (0..n).map(|_| (page(rng) & !1023 | page(rng) & 1023) << 12 | low(rng)).collect(),
    };
    if n > 2 && rng.chance(25) {
        // The last ones have been there.
        let i = 2 + rng.below(n as u32 - 2) as usize;
        addresses[i] = addresses[rng.below(2) as usize];
    }
    Asked { core, words: words(rng, n), addresses }
}

// ---------------------------------------------------------------- machines

const PRESENT: u32 = 1 << 11;

/// A page beyond memory.
fn far(rng: &mut Rng, pages: u32) -> u32 {
    let any = pages + 1 + rng.below((1 << 20) - pages - 1);
    match rng.below(8) {
        0 | 1 => pages,
        2 | 3 => 0xFFFFF,
        4 | 5 => 0xFFFFE,
        _ => rng.pick(&[0xFFFFD, 0x80000, 0x1000, 0xFFF, pages + 1, any, any]),
    }
}

/// A page of memory, often the last.
fn near(rng: &mut Rng, pages: u32) -> u32 {
    match rng.chance(25) {
        true => pages - 1,
        false => rng.below(pages),
    }
}

/// An entry that names a page.
fn entry(rng: &mut Rng, page: u32) -> u32 {
    let present = if rng.chance(78) { PRESENT } else { 0 };
    let low = if rng.chance(30) { rng.below(128) } else { 0 };
    page << 12 | present | rng.below(8) << 8 | (rng.chance(50) as u32) << 7 | low
}

/// A sound machine, and for each core virtual pages that are worth asking.
fn machine(rng: &mut Rng, cores: usize, pages: u32) -> (Machine, Vec<Vec<u32>>) {
    let mut board = Board::new(cores, pages);
    let mut origins: Vec<u32> = Vec::new();
    let mut pools = Vec::new();
    for k in 0..cores {
        let b = block(k);
        board.t[b + RUNNING] = rng.chance(60) as u32;
        board.t[b + MODE] = rng.pick(&[0, 0, 1, 1, 2, 3, 0xFFFF_FFFE, 0xFFFF_FFFF]);
        board.t[b + ASID] = rng.pick(&[0, 1, 63, 0xFFFF_FF85]);
        // The registers beside pto, where pages are as good as in pto.
        board.t[b + EDATA] = near(rng, pages) << 12;
        let origin = match rng.below(20) {
            0..=5 => far(rng, pages),
            6 | 7 if k > 0 => rng.pick(&origins),
            _ => near(rng, pages),
        };
        let any = rng.below(4096);
        board.t[b + PTO] = origin << 12 | rng.pick(&[0, 0, 0, 4, 0x800, 0xFFF, any]);
        origins.push(origin);
        pools.push(lay(rng, &mut board, origin));
    }
    for (k, pool) in pools.iter().enumerate() {
        hold_walks(rng, &mut board, k, pool);
        pend_stores(rng, &mut board, k, pool);
    }
    debug_assert_eq!(sound(&board.t, &board.m), Ok(()));
    (Machine { cores: cores as u8, pages: pages as u8, damage: 0, tables: board.t, memory: board.m }, pools)
}

/// Tables from a first-level table on. Returns virtual pages that meet them.
fn lay(rng: &mut Rng, board: &mut Board, origin: u32) -> Vec<u32> {
    let pages = board.pages();
    let index = |rng: &mut Rng| match rng.below(5) {
        0 => 0,
        1 => 1023,
        2 => rng.pick(&[1, 512, 1022]),
        _ => rng.below(1024),
    };
    let mut pool = Vec::new();
    if origin >= pages {
        return (0..3).map(|_| index(rng) << 10 | index(rng)).collect();
    }
    let mut tables = Vec::new();
    let mut put = |rng: &mut Rng, table: u32, i: u32, page: u32| {
        let entry = entry(rng, page);
        board.put(table << 12 | i << 2, entry);
    };
    // What a last entry names.
    let target = |rng: &mut Rng, table: u32| match rng.below(12) {
        0 => origin,
        1 => table,
        2 => 0,
        3..=6 => far(rng, pages),
        _ => near(rng, pages),
    };
    for _ in 0..1 + rng.below(6) {
        let upper = index(rng);
        let table = match rng.below(20) {
            0..=4 => origin,
            5..=8 if !tables.is_empty() => rng.pick(&tables),
            9..=12 => far(rng, pages),
            _ => near(rng, pages),
        };
        tables.push(table);
        put(rng, origin, upper, table);
        for _ in 0..1 + rng.below(4) {
            let lower = if table == origin && rng.chance(40) { upper } else { index(rng) };
            pool.push(upper << 10 | lower);
            if table < pages && lower != upper && rng.chance(75) {
                let page = target(rng, table);
                put(rng, table, lower, page);
            }
        }
    }
    // Many of a kind, now and then.
    match rng.below(8) {
        0 => {
            let table = near(rng, pages);
            let start = rng.pick(&[0, 1024 - 64]);
            let some = if rng.chance(70) { 0 } else { 8 };
            for i in 0..64 {
                let page = if rng.chance(some) { far(rng, pages) } else { table };
                let entry = page << 12 | PRESENT | rng.below(16) << 7;
                board.put(origin << 12 | (start + i) << 2, entry);
            }
            pool.push(start << 10 | index(rng));
        }
        1 => {
            let (table, upper) = (near(rng, pages), index(rng));
            let start = rng.pick(&[0, 1024 - 64]);
            for i in 0..64 {
                let page = target(rng, table);
                let entry = entry(rng, page);
                board.put(table << 12 | (start + i) << 2, entry);
            }
            board.put(origin << 12 | upper << 2, table << 12 | PRESENT | rng.below(16) << 7);
            pool.push(upper << 10 | start);
        }
        _ => {}
    }
    pool
}

/// Walks for pages of the pool, which may say anything.
fn hold_walks(rng: &mut Rng, board: &mut Board, k: usize, pool: &[u32]) {
    let pages = board.pages();
    for _ in 0..rng.below(4) {
        let va = rng.pick(pool);
        let asid = match rng.chance(80) {
            true => board.t[block(k) + ASID] & 63,
            false => rng.below(64),
        };
        let base = if rng.chance(80) { near(rng, pages) } else { far(rng, pages) };
        let level = rng.pick(&[0, 0, 1, 2]);
        board.hold(k, Walk::new(va, asid, level, rng.below(8), base));
    }
}

/// Pending stores to entries that pages of the pool need.
fn pend_stores(rng: &mut Rng, board: &mut Board, k: usize, pool: &[u32]) {
    let pages = board.pages();
    for _ in 0..rng.below(3) {
        let va = rng.pick(pool);
        let trail = trail(&board.t, &board.m, k as u32, va << 12);
        let (place, pte) = rng.pick(&trail.entries);
        let Some(pte) = pte else { continue };
        let by = if rng.chance(80) { k } else { rng.below(board.cores() as u32) as usize };
        let other = near(rng, pages) << 12 | pte & 0xFFF;
        let value = rng.pick(&[pte ^ PRESENT, pte ^ PRESENT, other, pte ^ 7 << 8]);
        match rng.below(4) {
            0 => board.pend(by, place + 1, value >> 8, 1),
            1 => board.pend(by, place, value, 2),
            _ => board.pend(by, place, value, 4),
        }
    }
}
