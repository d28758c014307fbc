//! The groups file from a seed: machines for reach and apart.
//!
//! Most have two sides laid apart and at most one condition broken; which
//! machine comes next is steered by the counts of what has occurred so far.

use crate::counts::Counts;
use crate::generate::{damaged, group_machine, sound_machine, Rng};
use crate::refusals::draw_counts;
use crate::sides::{beyond, shuffle, spoil, Board, Side, Style};
use crate::soundness::*;
use crate::vectors::{answer_groups, checksum, Groups, Machine};
use crate::ways::{sides, Condition, Way, CONDITIONS, WAYS};

/// Each thing that is counted occurs so often at least.
const ENOUGH: u64 = 24;

pub fn groups(seed: u32) -> Vec<Groups> {
    let mut rng = Rng::new(seed as u64 ^ 0x6072_0475);
    let mut counts = Counts::default();
    let mut all = Vec::new();
    let mut add = |machine: Machine, rng: &mut Rng, counts: &mut Counts| {
        let asked = questions(rng, &machine, all.len());
        let groups = answer_groups(machine, &asked);
        counts.groups(&groups);
        all.push(groups);
    };
    // Machines of the steps file, and such as reach over here and there.
    let none = Counts::default();
    for n in 0..150 {
        let machine = if n % 3 == 0 { sound_machine(&mut rng, &none) } else { group_machine(&mut rng) };
        add(machine, &mut rng, &mut counts);
    }
    for (clause, _) in CLAUSES.iter().cycle().take(2 * CLAUSES.len()) {
        let machine = (0..1000).find_map(|_| damaged(&mut rng, *clause)).expect("can be damaged so");
        add(machine, &mut rng, &mut counts);
    }
    // Two sides, nothing broken.
    for n in 0..200 {
        let machine = two_sides(&mut rng, None, None, n % 4);
        add(machine, &mut rng, &mut counts);
    }
    // One condition broken, by each way.
    for (condition, text) in CONDITIONS {
        while counts.get("alone", text) < ENOUGH {
            let machine = two_sides(&mut rng, Some(condition), None, 0);
            add(machine, &mut rng, &mut counts);
        }
    }
    for (condition, _) in CONDITIONS {
        for (way, _) in WAYS {
            let row = match condition {
                Condition::GroupBeyond => ("beyond", format!("{}/apart no, group", way.text())),
                Condition::RestBeyond => ("beyond", format!("{}/apart no, rest", way.text())),
                _ => ("by", format!("{}/{}", way.text(), condition.text())),
            };
            if Counts::expected_groups().contains(&row) {
                while counts.get(row.0, &row.1) < ENOUGH {
                    let machine = two_sides(&mut rng, Some(condition), Some(way), 0);
                    add(machine, &mut rng, &mut counts);
                }
            }
        }
    }
    // Whatever else is rare.
    let rare = |counts: &Counts| {
        Counts::expected_groups().into_iter().find(|(section, name)| counts.get(section, name) < ENOUGH)
    };
    while let Some((section, name)) = rare(&counts) {
        let machine = with(&mut rng, section, &name);
        add(machine, &mut rng, &mut counts);
    }
    // Refusal counts of every sort, which no answer depends on.
    let mut rng = Rng::new(seed as u64 ^ 0x5245_4655);
    for g in &mut all {
        draw_counts(&mut rng, &mut g.machine.tables);
        g.sum = checksum(&g.machine.tables, &g.machine.memory);
    }
    all
}

/// A machine in which something occurs, for one of its groups.
fn with(rng: &mut Rng, section: &'static str, name: &str) -> Machine {
    for n in 0..100_000 {
        let condition = match n % 3 {
            0 => None,
            _ => CONDITIONS.iter().find(|(_, text)| name.ends_with(text)).or(Some(&rng.pick(&CONDITIONS))).map(|c| c.0),
        };
        let kind = if condition.is_none() { n / 3 % 4 } else { 0 };
        let machine = two_sides(rng, condition, None, kind);
        let every: Vec<(u32, u16)> = (0..32).map(|group| (group, machine.pages as u16)).collect();
        let mut tried = Counts::default();
        tried.groups(&answer_groups(machine.clone(), &every));
        if tried.get(section, name) > 0 {
            return machine;
        }
    }
    panic!("{section}: {name} does not occur");
}

/// What is asked of a machine: every group of its cores; of every fifth
/// machine, and of those with one core, the groups 0 to 31 and some large numbers; wrong lengths of the
/// map with good groups and bad ones.
fn questions(rng: &mut Rng, machine: &Machine, n: usize) -> Vec<(u32, u16)> {
    let (cores, pages) = (machine.cores as u32, machine.pages as u16);
    let there = |rng: &mut Rng| 1 + rng.below((1 << cores) - 1);
    let not_there = |rng: &mut Rng| {
        let mut all = [1 << cores, 1 | 1 << cores, 16, 31, 1 << 31, 0x8000_0001, 0xFFFF_FFFF, 1 << rng.below(28) << 4];
        shuffle(rng, &mut all);
        all[0]
    };
    let mut asked = Vec::new();
    let lengths = [0, pages - 1, pages + 1];
    if machine.damage != 0 {
        for length in [pages, 0, pages - 1, pages + 1] {
            asked.extend([(there(rng), length), (0, length), (not_there(rng), length)]);
        }
    } else if n % 5 == 0 || cores == 1 {
        asked.extend((0..32).map(|group| (group, pages)));
        asked.extend([0x8000_0001, 0xFFFF_FFFF, 32 << rng.below(26)].map(|group| (group, pages)));
        for length in lengths {
            let some = [0, there(rng), not_there(rng)];
            asked.push((rng.pick(&some), length));
        }
        asked.push((0x8000_0000, pages));
    } else {
        asked.extend((1..1 << cores).map(|group| (group, pages)));
        if n % 4 == 0 {
            let bad = if rng.chance(50) { 0 } else { not_there(rng) };
            asked.push((bad, pages));
        }
        if n % 3 == 0 {
            for group in [there(rng), 0, not_there(rng)] {
                asked.push((group, rng.pick(&lengths)));
            }
        }
    }
    asked
}

/// A machine with two sides, apart but for the condition, if one is given;
/// then the way, if one is given, is what it fails by. `kind` 1 has no rest,
/// 2 some core that does not run, 3 a rest of several cores.
fn two_sides(rng: &mut Rng, condition: Option<Condition>, way: Option<Way>, kind: usize) -> Machine {
    for _ in 0..100_000 {
        if let Some(machine) = try_sides(rng, condition, way, kind) {
            return machine;
        }
    }
    panic!("no machine found for {condition:?} by {way:?}");
}

fn try_sides(rng: &mut Rng, condition: Option<Condition>, way: Option<Way>, kind: usize) -> Option<Machine> {
    let cores = 1 + rng.weighted(&[6, 40, 30, 24]);
    let pages = 3 + rng.below(6);
    let (mut members, mut running, mut idle) = (Vec::new(), Vec::new(), Vec::new());
    for k in 0..cores {
        match rng.below(20) {
            0..=8 => members.push(k),
            9..=16 => running.push(k),
            _ => idle.push(k),
        }
    }
    let suits = match kind {
        1 => running.is_empty(),
        2 => !idle.is_empty(),
        3 => running.len() > 1,
        _ => true,
    };
    if members.is_empty() || !suits {
        return None;
    }
    let group = members.iter().fold(0, |all, k| all | 1 << k);
    let mut board = Board::new(cores, pages);
    let mut order: Vec<u32> = (0..pages).collect();
    shuffle(rng, &mut order);
    let cut = 1 + rng.below(pages - 1) as usize;
    let mut mine = Side::plan(rng, members, &order[..cut], &[]);
    let mut theirs = Side::plan(rng, running, &order[cut..], &[]);
    // Each side may read what the other leaves as it is; the rest any page.
    let pick = |rng: &mut Rng, from: Vec<u32>| from.into_iter().filter(|_| rng.chance(50)).collect::<Vec<u32>>();
    mine.reads = pick(rng, theirs.fixed.clone());
    theirs.reads = pick(rng, [mine.data(), mine.tables()].concat());
    mine.lay(rng, &mut board, Style::Sparse);
    if !theirs.cores.is_empty() {
        theirs.lay(rng, &mut board, Style::Sparse);
    }
    for &k in &idle {
        Side::lay_idle(rng, &mut board, k, Style::Sparse);
    }
    if let Some(condition) = condition {
        let far = beyond(rng, pages);
        if !spoil(rng, &mut board, &mine, &theirs, condition, way, far) {
            return None;
        }
    }
    let sides = sides(&board.t, &board.m, group);
    let fails = condition.map_or(Vec::new(), |c| vec![c]);
    let by = way.is_none_or(|way| sides.by(pages, condition.unwrap()).contains(&way));
    (sides.fails == fails && by).then_some(Machine {
        cores: cores as u8,
        pages: pages as u8,
        damage: 0,
        tables: board.t,
        memory: board.m,
    })
}
