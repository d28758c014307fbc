//! Demand 3 tried on random machines (01, "What demand 3 compares").
//!
//! A pair is two machines, alike for a group and as different as can be
//! elsewhere, for both of which apart says yes. Each gets a list of steps:
//! those of the group are the same in the same order, those of the others
//! are its own. What the group observes has to be the same in both, and
//! memory may change only where the maps of both sides allow it.
//!
//! With a condition of apart switched off the pairs are such that this
//! condition alone fails; then the trial has to find that the claim breaks,
//! where steps can break it.

use crate::generate::Rng;
use crate::isa;
use crate::machine::*;
use crate::reach::{apart, reach, TABLE, WRITABLE};
use crate::refusals::draw_counts;
use crate::sides::{any, spoil, Board, Side, Style};
use crate::soundness::*;
use crate::ways::{self, Condition};
use std::fmt::Write;

/// What is tried.
#[derive(Clone, Copy)]
pub struct Terms {
    /// The condition of apart that is switched off.
    pub off: Option<Condition>,
    /// Are table bytes looked at? Without that a pair that changes its tables
    /// goes on, to where the changed tables lead it.
    pub tables: bool,
    /// Whose word 115 counts a refusal. A wrong turn here has to be found too.
    pub whose: Whose,
}

/// Given the group, the number of cores and the step's core, the core whose
/// word 115 counts.
pub type Whose = fn(u32, usize, usize) -> usize;

impl Terms {
    pub const CLAIM: Terms = Terms { off: None, tables: true, whose: |_, _, core| core };
}

/// Two machines, alike for the group.
pub struct Pair {
    pub group: u32,
    pub one: Board,
    pub two: Board,
}

/// Numbers for the report; answers are counted as done, interrupted, refused.
/// A step of the group counts in both machines.
#[derive(Default, Clone, Debug, PartialEq)]
pub struct Figures {
    pub pairs: u64,
    pub steps: u64,
    pub group: [u64; 3],
    pub others: [u64; 3],
    /// Done or interrupted, by kind, group and others together.
    pub kinds: [u64; 5],
    /// Interrupts by level and refusals by number, group and others together.
    pub levels: [u64; 8],
    pub refused: [u64; 11],
    /// Refusals that the core's word 115 counts, those that find it at its
    /// largest, and pairs with a core of both rests whose words differ at first.
    pub group_counted: u64,
    pub other_counted: u64,
    pub at_the_largest: u64,
    pub counts_differ: u64,
    pub group_stores_left: u64,
    pub other_stores_left: u64,
    pub cas_wrote: u64,
    pub group_accessed_set: u64,
    pub other_accessed_set: u64,
    pub cores_differ: u64,
    pub pages_differ: u64,
    pub rest_empty_in_both: u64,
    pub page_in_common: u64,
    pub idle_cores: u64,
    /// Steps that changed a header word, refusal count included.
    pub header_changed: u64,
    /// Pairs by how they break the claim first.
    pub breaks: [u64; 6],
    pub first_break: Option<String>,
}

/// How a pair breaks the claim.
#[derive(Clone, Copy, PartialEq, Eq, Debug)]
pub enum Break {
    Answer,
    Block,
    Page,
    Untouched,
    TableByte,
    Mode,
}

pub const BREAKS: [(Break, &str); 6] = [
    (Break::Answer, "answers differ"),
    (Break::Block, "blocks differ"),
    (Break::Page, "reached pages differ"),
    (Break::Untouched, "a page that is neither table nor writable changed"),
    (Break::TableByte, "a table byte changed"),
    (Break::Mode, "a core steps in system mode"),
];

type Broken = (Break, String);

impl Figures {
    fn count(&mut self, in_group: bool, kind: u32, answer: Answer) {
        self.steps += 1;
        let place = match answer {
            Answer::Done => 0,
            Answer::Interrupt(level) => {
                self.levels[level as usize] += 1;
                1
            }
            Answer::Refused(why) => {
                self.refused[why.number() as usize] += 1;
                2
            }
        };
        if in_group {
            self.group[place] += 1;
        } else {
            self.others[place] += 1;
        }
        if place < 2 {
            self.kinds[kind as usize] += 1;
        }
    }

    pub fn broken(&self) -> u64 {
        self.breaks.iter().sum()
    }

    pub fn print(&self) -> String {
        let mut out = String::new();
        let o = &mut out;
        let [done, interrupted, refused] = self.group;
        writeln!(o, "{} pairs, {} steps", self.pairs, self.steps).unwrap();
        writeln!(o, "group steps: {done} done, {interrupted} interrupted, {refused} refused").unwrap();
        let [done, interrupted, refused] = self.others;
        writeln!(o, "steps of others: {done} done, {interrupted} interrupted, {refused} refused").unwrap();
        let [core, create, extend, accessed, buffer] = self.kinds;
        writeln!(
            o,
            "accepted: {core} core, {create} tlb-create, {extend} tlb-extend, {accessed} tlb-accessed, {buffer} store buffer"
        )
        .unwrap();
        let list = |numbers: &[u64], from: usize| {
            (from..numbers.len()).map(|n| format!("{n}: {}", numbers[n])).collect::<Vec<_>>().join(", ")
        };
        writeln!(o, "interrupted at level {}", list(&self.levels, 1)).unwrap();
        writeln!(o, "refused {}", list(&self.refused, 4)).unwrap();
        writeln!(
            o,
            "counted in words 115: {} of the group, {} of others, {} of them at the largest; those of a rest core differ at first in {} pairs",
            self.group_counted, self.other_counted, self.at_the_largest, self.counts_differ
        )
        .unwrap();
        writeln!(
            o,
            "stores that left to memory: {} of the group, {} of others; cas that wrote: {}",
            self.group_stores_left, self.other_stores_left, self.cas_wrote
        )
        .unwrap();
        writeln!(
            o,
            "accessed bits set: {} by the group, {} by others",
            self.group_accessed_set, self.other_accessed_set
        )
        .unwrap();
        writeln!(
            o,
            "pairs: {} with different numbers of cores, {} of pages, {} without a rest, {} with a page that both sides reach; {} cores that do not run",
            self.cores_differ, self.pages_differ, self.rest_empty_in_both, self.page_in_common, self.idle_cores
        )
        .unwrap();
        writeln!(o, "steps that changed the header: {}", self.header_changed).unwrap();
        writeln!(o, "pairs that break it: {}", self.broken()).unwrap();
        for (kind, text) in BREAKS.iter().filter(|(kind, _)| self.breaks[*kind as usize] != 0) {
            writeln!(o, "    {text}: {}", self.breaks[*kind as usize]).unwrap();
        }
        if let Some(text) = &self.first_break {
            writeln!(o, "the first: {text}").unwrap();
        }
        out
    }
}

// ---------------------------------------------------------------- pairs

fn of_group(condition: Condition) -> bool {
    use Condition::*;
    matches!(condition, GroupStopped | GroupSystem | GroupBeyond | GroupMixed)
}

/// A pair, or None if this attempt does not meet the terms. With `off` that
/// condition alone fails, in the first machine at least.
pub fn pair(rng: &mut Rng, off: Option<Condition>) -> Option<Pair> {
    let mut cores: Vec<usize> = (0..4).collect();
    crate::sides::shuffle(rng, &mut cores);
    cores.truncate(1 + rng.weighted(&[40, 35, 20, 5]));
    cores.sort();
    let group = cores.iter().fold(0, |all, k| all | 1 << k);
    let lowest = cores[cores.len() - 1] + 1;
    let own = 2 + rng.below(4);
    // Numbers of cores and pages differ where they can, mostly.
    let number = |rng: &mut Rng| (lowest + rng.below(5 - lowest as u32) as usize, own + 1 + rng.below(5));
    let (cores1, pages1) = number(rng);
    let (mut cores2, mut pages2) = number(rng);
    while cores2 == cores1 && lowest < 4 && !rng.chance(10) {
        cores2 = number(rng).0;
    }
    while pages2 == pages1 && !rng.chance(10) {
        pages2 = number(rng).1;
    }

    let mut pages: Vec<u32> = (0..pages1.min(pages2)).collect();
    crate::sides::shuffle(rng, &mut pages);
    let side = Side::plan(rng, cores.clone(), &pages[..own as usize], &[]);
    let mut one = Board::new(cores1, pages1);
    side.lay(rng, &mut one, Style::Dense);
    if let Some(condition) = off.filter(|&c| of_group(c)) {
        let far = rng.pick(&[0xFFFFE, 0xFFFFE, 0xFFFFF, 0x1000]);
        if !spoil(rng, &mut one, &side, &side, condition, None, far) {
            return None;
        }
        match condition {
            Condition::GroupBeyond => use_ports(&mut one, &side),
            Condition::GroupMixed => write_entries(rng, &mut one, &side, &pages[own as usize..], false),
            _ => {}
        }
    }
    let mut map = vec![0; pages1 as usize];
    reach(&one.t, &one.m, group, &mut map).ok()?;
    if map.len() > pages2 as usize && map[pages2 as usize..].iter().any(|&byte| byte != 0) {
        return None;
    }

    // The second machine gets the group's blocks and pages.
    let mut two = Board::new(cores2, pages2);
    for &k in &cores {
        let words = block(k)..block(k) + 256;
        two.t[words.clone()].copy_from_slice(&one.t[words]);
    }
    for page in (0..map.len()).filter(|&page| map[page] != 0) {
        two.page_mut(page as u32).copy_from_slice(one.page(page as u32));
    }
    let rest_off = off.filter(|&c| !of_group(c));
    others(rng, &mut one, &side, &map, rest_off)?;
    let second_off = rest_off.filter(|_| rng.chance(50));
    others(rng, &mut two, &side, &map, second_off)?;

    let mut pair = Pair { group, one, two };
    pair.draw_counts(rng);
    pair.fits(off).then_some(pair)
}

/// Everything that is not the group's: header, other cores, other pages.
fn others(rng: &mut Rng, board: &mut Board, group: &Side, map: &[u8], off: Option<Condition>) -> Option<()> {
    let pages = board.pages();
    for word in REFUSALS..30 {
        board.t[word] = rng.word();
    }
    board.t[LINES] >>= 8;
    if rng.chance(50) {
        board.t[REFUSALS] = rng.pick(&[0, 0xFFFF_FFFF, 0xFFFF_FFFE]);
    }
    if rng.chance(70) {
        board.t[IOREGSEL] = rng.below(24);
    }
    let reached = |page: &u32| map.get(*page as usize).is_some_and(|&byte| byte != 0);
    let own: Vec<u32> = (0..pages).filter(|page| !reached(page)).collect();
    for &page in &own {
        board.page_mut(page).chunks_exact_mut(4).for_each(|c| c.copy_from_slice(&rng.word().to_le_bytes()));
    }
    let (mut running, mut idle) = (Vec::new(), Vec::new());
    for k in (0..board.cores()).filter(|k| !group.cores.contains(k)) {
        if rng.chance(80) {
            running.push(k);
        } else {
            idle.push(k);
        }
    }
    let reads: Vec<u32> = (0..pages).filter(reached).filter(|_| rng.chance(50)).collect();
    if !running.is_empty() && !own.is_empty() {
        let side = Side::plan(rng, running, &own, &reads);
        side.lay(rng, board, Style::Dense);
        if let Some(condition) = off {
            let far = if rng.chance(50) { 0xFFFFE } else { crate::sides::beyond(rng, pages) };
            if !spoil(rng, board, group, &side, condition, None, far) {
                return None;
            }
            aim(rng, board, group, &side, condition);
        }
    } else if off.is_some() {
        return None;
    } else {
        idle.extend(running);
    }
    // Cores that do not run may hold anything.
    for k in idle {
        Side::lay_idle(rng, board, k, Style::Dense);
    }
    Some(())
}

/// Pointers of the rest go to pages of the group, so that a condition that
/// is off is made use of.
fn aim(rng: &mut Rng, board: &mut Board, group: &Side, rest: &Side, condition: Condition) {
    let pages = [group.data(), group.tables()].concat();
    match condition {
        Condition::RestBeyond => return use_ports(board, rest),
        Condition::RestMixed => return write_entries(rng, board, rest, &pages, true),
        _ => {}
    }
    for &k in &rest.cores {
        for x in [9, 10, 13, 14] {
            board.t[block(k) + x] = rng.pick(&pages) << 12 | rng.pick(&[0, 0x10, 0x20, 0x100]);
        }
    }
}

/// Programs start with stores of entries for the pages given, by registers 9
/// and 10, which lead to a page that is writable and table; then they use
/// what these entries map.
fn write_entries(rng: &mut Rng, board: &mut Board, side: &Side, pages: &[u32], store: bool) {
    for &k in &side.cores {
        let b = block(k);
        for x in 5..7 {
            if let Some(page) = any(rng, pages) {
                board.t[b + x] = page << 12 | 0xF8 << 4;
            }
        }
        for (to, entry) in [(8, 9), (11, 10)] {
            board.t[b + to] = ((board.t[b + entry] & 0xFFF) / 4) << 12 | 0x10;
        }
        let pc = board.t[b + PC];
        if side.data().contains(&(pc >> 12)) {
            let uses = if store { [0xAD03_0000, 0xAD64_0000] } else { [0x8D03_0000, 0x8D64_0000] };
            // sw r5 r9, sw r6 r10, then sw or lw r3 r8 and r4 r11
            let program = [0xAD25_0000, 0xAD46_0000, uses[0], uses[1]];
            (0..).zip(program).for_each(|(n, i)| board.put(pc + 4 * n, i));
        }
    }
}

/// Programs start with a load and a store by register 8, which leads to the
/// I/O APIC for a core that reaches beyond memory.
fn use_ports(board: &mut Board, side: &Side) {
    for &k in &side.cores {
        let b = block(k);
        let pc = board.t[b + PC];
        if board.t[b + 8] >> 12 == 0xFFFFE && side.data().contains(&(pc >> 12)) {
            board.put(pc, 0x8D01_0000); // lw r1 r8 0
            board.put(pc + 4, 0xAD02_0000); // sw r2 r8 0
        }
    }
}

impl Pair {
    /// Words 115: for the group the same in both, for others by themselves.
    fn draw_counts(&mut self, rng: &mut Rng) {
        draw_counts(rng, &mut self.one.t);
        draw_counts(rng, &mut self.two.t);
        for word in cores_of(self.group).map(|k| block(k) + CORE_REFUSALS) {
            self.two.t[word] = self.one.t[word];
        }
    }

    /// The terms, each looked at again from the machines themselves.
    pub fn fits(&self, off: Option<Condition>) -> bool {
        let (one, two) = (&self.one, &self.two);
        assert_eq!((sound(&one.t, &one.m), sound(&two.t, &two.m)), (Ok(()), Ok(())));
        // The verdicts.
        let verdicts = [one, two].map(|b| apart(&b.t, &b.m, self.group) == Ok(true));
        match off {
            None if verdicts != [true, true] => return false,
            None => {}
            Some(condition) => {
                let fails = [one, two].map(|b| ways::sides(&b.t, &b.m, self.group).fails);
                if fails[0] != [condition] || !(fails[1].is_empty() || fails[1] == [condition]) {
                    return false;
                }
            }
        }
        // Alike: the blocks, the pages, their bytes.
        let blocks =
            |b: &Board| cores_of(self.group).map(|k| b.t[block(k)..block(k) + 256].to_vec()).collect::<Vec<_>>();
        let (map1, map2) = (one.map(self.group), two.map(self.group));
        let byte = |map: &[u8], page: usize| map.get(page).copied().unwrap_or(0);
        let pages = map1.len().max(map2.len());
        blocks(one) == blocks(two)
            && (0..pages).all(|page| byte(&map1, page) == byte(&map2, page))
            && (0..pages).all(|page| byte(&map1, page) == 0 || one.page(page as u32) == two.page(page as u32))
    }
}

fn cores_of(group: u32) -> impl Iterator<Item = usize> {
    (0..4).filter(move |k| group >> k & 1 == 1)
}

impl Board {
    /// The map for a group; nothing for none.
    fn map(&self, group: u32) -> Vec<u8> {
        let mut map = vec![0; self.pages() as usize];
        if group != 0 {
            reach(&self.t, &self.m, group, &mut map).expect("sound, and a group");
        }
        map
    }
}

// ---------------------------------------------------------------- lists

/// A machine and the list it is being taken through.
struct Course {
    board: Board,
    memory0: Vec<u8>,
    group: u32,
    rest: u32,
    /// Running at the start and not interrupted since: may be named.
    may_step: u32,
    map: Vec<u8>,
    rest_map: Vec<u8>,
    terms: Terms,
}

impl Course {
    fn new(board: Board, group: u32, terms: Terms) -> Course {
        let running = (0..board.cores()).filter(|&k| board.t[block(k) + RUNNING] == 1).fold(0, |all, k| all | 1 << k);
        let rest = running & !group;
        let (map, rest_map) = (board.map(group), board.map(rest));
        Course { memory0: board.m.clone(), board, group, rest, may_step: running, map, rest_map, terms }
    }

    /// One call of step, and what it may do to memory.
    fn take(&mut self, s: &[u32; 6], figures: &mut Figures, user: bool) -> Result<Answer, Broken> {
        let (kind, k) = (s[0], s[1] as usize);
        assert!(kind <= 4 && k < 4 && self.may_step >> k & 1 == 1, "the step may stand in the list");
        let b = block(k);
        let in_group = self.group >> k & 1 == 1;
        if user && self.board.t[b + MODE] & 1 == 0 {
            return Err((Break::Mode, format!("core {k} is in system mode before a step")));
        }
        let store = self.board.t[b + STORES];
        let leaves = kind == 4 && store != 0 && !in_ports(self.board.t[record(b, store) + 1]);
        let before = if kind == 3 || kind == 0 { Some(self.board.m.clone()) } else { None };
        let mut header = [0; 32];
        header.copy_from_slice(&self.board.t[..32]);
        let count = self.board.t[b + CORE_REFUSALS];
        let answer = step(false, &mut self.board.t, &mut self.board.m, s);
        figures.count(in_group, kind, answer);
        figures.header_changed += (header[..] != self.board.t[..32]) as u64;
        if !answer.accepted() {
            let counted = self.board.t[b + CORE_REFUSALS] == count.saturating_add(1);
            *(if in_group { &mut figures.group_counted } else { &mut figures.other_counted }) += counted as u64;
            figures.at_the_largest += (count == u32::MAX) as u64;
            self.count_elsewhere(k, count);
        }
        if answer == Answer::Done {
            if leaves {
                *(if in_group { &mut figures.group_stores_left } else { &mut figures.other_stores_left }) += 1;
            }
            if before.is_some_and(|m| m != self.board.m) {
                match (kind, in_group) {
                    (0, _) => figures.cas_wrote += 1,
                    (_, true) => figures.group_accessed_set += 1,
                    _ => figures.other_accessed_set += 1,
                }
            }
        }
        if let Answer::Interrupt(_) = answer {
            self.may_step &= !(1 << k);
        }
        self.memory_is_right()?;
        Ok(answer)
    }

    /// Takes the count of a refused step elsewhere, where the terms ask for it.
    fn count_elsewhere(&mut self, k: usize, before: u32) {
        let whose = (self.terms.whose)(self.group, self.board.cores(), k);
        if whose != k {
            self.board.t[block(k) + CORE_REFUSALS] = before;
            let count = &mut self.board.t[block(whose) + CORE_REFUSALS];
            *count = count.saturating_add(1);
        }
    }

    /// Pages that are neither table nor writable for a side are as at first;
    /// those that are a table for one are so but for accessed bits.
    fn memory_is_right(&self) -> Result<(), Broken> {
        for page in 0..self.map.len() {
            let marks = self.map[page] | self.rest_map[page];
            let at = page * PAGE..(page + 1) * PAGE;
            let (now, first) = (&self.board.m[at.clone()], &self.memory0[at]);
            if marks & (TABLE | WRITABLE) == 0 && now != first {
                return Err((Break::Untouched, format!("page {page}, neither table nor writable, has changed")));
            }
            if self.terms.tables && marks & TABLE != 0 && now != first {
                for i in 0..PAGE {
                    let accessed = if i % 4 == 0 { 0x80 } else { 0 };
                    if (now[i] ^ first[i]) & !accessed != 0 {
                        return Err((Break::TableByte, format!("byte {i:X} of table page {page} has changed")));
                    }
                }
            }
        }
        Ok(())
    }
}

/// Takes a pair through two lists; an error says how the claim breaks.
pub fn lists(rng: &mut Rng, pair: Pair, terms: &Terms, figures: &mut Figures) -> Result<(), Broken> {
    figures.pairs += 1;
    figures.cores_differ += (pair.one.cores() != pair.two.cores()) as u64;
    figures.pages_differ += (pair.one.pages() != pair.two.pages()) as u64;
    let group = pair.group;
    let mut one = Course::new(pair.one, group, *terms);
    let mut two = Course::new(pair.two, group, *terms);
    let count = |c: &Course, k: usize| c.board.t[block(k) + CORE_REFUSALS];
    figures.counts_differ += cores_of(one.rest & two.rest).any(|k| count(&one, k) != count(&two, k)) as u64;
    figures.rest_empty_in_both += (one.rest | two.rest == 0) as u64;
    for course in [&one, &two] {
        figures.idle_cores += (course.board.cores() as u64) - (course.may_step.count_ones() as u64);
    }
    let common = |c: &Course| c.map.iter().zip(&c.rest_map).any(|(g, r)| *g != 0 && *r != 0);
    figures.page_in_common += (common(&one) || common(&two)) as u64;

    let user = terms.off.is_none();
    let group_steps = rng.pick(&[5, 20, 40, 80]);
    let lively = rng.pick(&[0, 1, 3, 6]);
    for n in 0..group_steps {
        for course in [&mut one, &mut two] {
            for _ in 0..rng.below(lively + 1) {
                let Some(k) = among(rng, course.may_step & course.rest) else { break };
                let s = choose(rng, &course.board, k);
                course.take(&s, figures, user)?;
            }
        }
        let Some(k) = among(rng, one.may_step & group) else { break };
        let s = choose(rng, &one.board, k);
        let first = one.take(&s, figures, user)?;
        if two.may_step >> k & 1 == 0 {
            return Err((Break::Answer, format!("group step {n}: core {k} was interrupted in one list only")));
        }
        let second = two.take(&s, figures, user)?;
        if first.code() != second.code() {
            return Err((Break::Answer, format!("group step {n}, {s:X?}: answers {first} and {second}")));
        }
        observed(&one, &two).map_err(|(kind, text)| (kind, format!("group step {n}, {s:X?}: {text}")))?;
    }
    for course in [&mut one, &mut two] {
        for _ in 0..rng.below(8) {
            let Some(k) = among(rng, course.may_step & course.rest) else { break };
            let s = choose(rng, &course.board, k);
            course.take(&s, figures, user)?;
        }
        assert_eq!(sound(&course.board.t, &course.board.m), Ok(()));
    }
    Ok(())
}

/// What the group observes is the same: its blocks, and the bytes that its
/// map shows, by the map of the machine its list began with.
fn observed(one: &Course, two: &Course) -> Result<(), Broken> {
    for k in cores_of(one.group) {
        let b = block(k);
        if let Some(w) = (0..256).find(|w| one.board.t[b + w] != two.board.t[b + w]) {
            return Err((Break::Block, format!("word {w} of core {k} differs")));
        }
    }
    for page in (0..one.map.len()).filter(|&page| one.map[page] != 0) {
        if one.board.page(page as u32) != two.board.page(page as u32) {
            return Err((Break::Page, format!("page {page} differs")));
        }
    }
    Ok(())
}

fn among(rng: &mut Rng, cores: u32) -> Option<usize> {
    let all: Vec<usize> = cores_of(cores).collect();
    any(rng, &all)
}

// ---------------------------------------------------------------- steps

/// A step of core k that may stand in a list, mostly one that is accepted.
/// What another step would answer is tried on a copy.
fn choose(rng: &mut Rng, board: &Board, k: usize) -> [u32; 6] {
    if rng.chance(4) {
        return garbage(rng, board, k);
    }
    let mut last = None;
    for _ in 0..8 {
        let s = propose(rng, board, k);
        let mut copy = board.clone();
        match step(false, &mut copy.t, &mut copy.m, &s) {
            // Done and nothing moved: a walk held already, a bit set already.
            Answer::Done if copy.t == board.t && copy.m == board.m => {
                last = Some(s);
                if rng.chance(10) {
                    return s;
                }
            }
            Answer::Done => return s,
            Answer::Interrupt(_) if rng.chance(2) => return s,
            Answer::Interrupt(_) => {}
            Answer::Refused(_) => {
                last = last.or(Some(s));
                if rng.chance(5) {
                    return s;
                }
            }
        }
    }
    last.filter(|_| !rng.chance(20)).unwrap_or_else(|| core_or_toward(rng, board, k, &walks_of(&board.t, block(k))))
}

fn propose(rng: &mut Rng, board: &Board, k: usize) -> [u32; 6] {
    let (t, m, b, core) = (&board.t, &board.m, block(k), k as u32);
    let walks = walks_of(t, b);
    match rng.below(20) {
        0..=11 => core_or_toward(rng, board, k, &walks),
        12..=14 if t[b + STORES] != 0 => [4, core, 0, 0, 0, 0],
        15 => [1, core, some_va(rng, board), 0, 0, 0],
        16 => toward(rng, board, k, &walks, t[b + PC] >> 12),
        _ => {
            // A held walk that is not complete: its entry's bit, then on.
            let open: Vec<Walk> = walks.into_iter().filter(|w| !w.complete()).collect();
            match any(rng, &open) {
                Some(w) => advance(rng, m, core, w),
                None => [1, core, some_va(rng, board), 0, 0, 0],
            }
        }
    }
}

fn some_va(rng: &mut Rng, board: &Board) -> u32 {
    match rng.below(8) {
        0 => rng.below(1 << 20),
        1 => rng.pick(&[0x3FF, 0x200, 0xFFFFF, 0xFFFFE, 0x3F0, 0x80200]),
        _ => rng.below(board.pages()),
    }
}

fn advance(rng: &mut Rng, m: &[u8], core: u32, w: Walk) -> [u32; 6] {
    let accessed = w.pte(m).is_some_and(pte_accessed);
    if accessed && !rng.chance(10) {
        [2, core, w.first, w.base, rng.below(8), 0]
    } else {
        [3, core, w.first, w.base, 0, 0]
    }
}

/// A tlb step that brings a translation of va forward.
fn toward(rng: &mut Rng, board: &Board, k: usize, walks: &[Walk], va: u32) -> [u32; 6] {
    let space = board.t[block(k) + ASID] & 63;
    let open: Vec<Walk> =
        walks.iter().copied().filter(|w| w.va() == va && w.asid() == space && !w.complete()).collect();
    match open.iter().min_by_key(|w| w.level()) {
        Some(&w) if !rng.chance(10) => advance(rng, &board.m, k as u32, w),
        _ => [1, k as u32, va, 0, 0, 0],
    }
}

/// A core step, if the walks for it are held; else a tlb step towards one.
fn core_or_toward(rng: &mut Rng, board: &Board, k: usize, walks: &[Walk]) -> [u32; 6] {
    let (t, m, b) = (&board.t, &board.m, block(k));
    let (pc, space) = (t[b + PC], t[b + ASID] & 63);
    let user = t[b + MODE] & 1 == 1;
    let any_walk = Walk { first: 0, base: 0 };
    let find = |rng: &mut Rng, va: u32, rights: u32| {
        let hits: Vec<Walk> = walks.iter().copied().filter(|w| w.hit(va, space, rights)).collect();
        let complete: Vec<Walk> = hits.iter().copied().filter(|w| w.complete()).collect();
        if complete.is_empty() && rng.chance(15) {
            any(rng, &hits) // it may fault
        } else {
            any(rng, &complete)
        }
    };
    let w = match user {
        true => match find(rng, pc >> 12, USER | EXECUTE) {
            Some(w) => w,
            None => return toward(rng, board, k, walks, pc >> 12),
        },
        false => any_walk,
    };
    let mut data = any(rng, walks).unwrap_or(any_walk);
    if let Some(op) = fetch(t, m, b, w).ok().flatten().and_then(isa::decode) {
        let i = fetch(t, m, b, w).ok().flatten().unwrap_or(0);
        if user && (isa::load(op) || isa::store(op) || op == isa::Op::Cas) {
            let va = effective_address(t, b, op, i) >> 12;
            let rights = if isa::load(op) { USER } else { USER | WRITE };
            data = match find(rng, va, rights) {
                Some(w) => w,
                None => return toward(rng, board, k, walks, va),
            };
        }
        if (op == isa::Op::Cas || op == isa::Op::Mfence) && t[b + STORES] != 0 && rng.chance(95) {
            return [4, k as u32, 0, 0, 0, 0];
        }
    }
    [0, k as u32, w.first, w.base, data.first, data.base]
}

/// Kind and core are right; the other words are anything.
fn garbage(rng: &mut Rng, board: &Board, k: usize) -> [u32; 6] {
    let core = k as u32;
    let kind = rng.below(5);
    // A walk of any core, nearly or as it is.
    let whose = rng.below(board.cores() as u32) as usize;
    let walks = walks_of(&board.t, block(whose));
    let mut w = any(rng, &walks).unwrap_or(Walk { first: rng.word(), base: rng.word() });
    if rng.chance(40) {
        w.first ^= 1 << rng.below(32);
    }
    if rng.chance(20) {
        w.base ^= 1 << rng.below(32);
    }
    match rng.below(4) {
        0 => [kind, core, rng.word(), rng.word(), rng.word(), rng.word()],
        1 => [kind, core, w.first, w.base, rng.below(9), rng.below(2)],
        2 => [kind, core, w.first, w.base, w.first, w.base],
        _ => [kind, core, rng.below(1 << 21), 0, 0, 0],
    }
}

// ---------------------------------------------------------------- trial

/// N pairs from a seed.
pub fn trial(seed: u32, pairs: u64, terms: &Terms) -> Figures {
    let mut rng = Rng::new(seed as u64 ^ 0x0D3D_3D3D_0000_0000);
    let mut figures = Figures::default();
    while figures.pairs < pairs {
        let pair = (0..100_000).find_map(|_| pair(&mut rng, terms.off)).expect("a pair is found");
        let group = pair.group;
        if let Err((kind, text)) = lists(&mut rng, pair, terms, &mut figures) {
            figures.breaks[kind as usize] += 1;
            if figures.first_break.is_none() {
                figures.first_break = Some(format!("pair {}, group {group}: {text}", figures.pairs - 1));
            }
        }
    }
    figures
}

/// The row of README.md for a condition that is off: pairs tried, pairs that
/// break the claim and how, and pairs that break it otherwise than by a table
/// byte where that does not end a pair.
pub fn off_row(condition: Condition, strict: &Figures, past: &Figures) -> String {
    let mut row = format!("| {} {} | {} | {} |", condition as u32 + 1, condition.text(), strict.pairs, strict.broken());
    let hows = |f: &Figures| {
        let all = BREAKS.iter().filter(|(kind, _)| f.breaks[*kind as usize] != 0);
        all.map(|(kind, text)| format!("{text} {}", f.breaks[*kind as usize])).collect::<Vec<_>>().join("; ")
    };
    write!(row, " {} | {} | {} | {} |", hows(strict), past.pairs, past.broken(), hows(past)).unwrap();
    row.replace("  ", " ")
}
