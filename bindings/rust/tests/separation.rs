//! What a yes of apart promises (01, 'What demand 3 compares'), tried on machines that take every kind of step: whatever
//! the others hold and do, the group gets the same answers and sees the same state after each of its steps. The group
//! is cores 0 and 2 of each machine; all that is not the group's differs.

mod machine;

use machine::{
    entry, walk, Machine, Walk, ACCESSED, ALL, ASID, BLOCK, CORES, CORE_REFUSALS, EXECUTE, LINES, MODE, PAGES, PC,
    PRESENT, RUNNING, STORES, USER, WRITE,
};
use mips86::{Answer, PAGE_BYTES, TABLE, WRITABLE};

const GROUP: u32 = 1 << 0 | 1 << 2;

/// How many steps the first list has.
const STEPS: usize = 900;

type Step = [u32; 6];

/// Numbers that look random, from a seed.
struct Random(u64);

impl Random {
    fn next(&mut self) -> u32 {
        self.0 = self.0.wrapping_mul(6364136223846793005).wrapping_add(1442695040888963407);
        (self.0 >> 32) as u32
    }

    fn below(&mut self, n: u32) -> u32 {
        (self.next() >> 8) % n
    }

    fn words(&mut self, words: &mut [u32]) {
        words.fill_with(|| self.next());
    }

    fn page(&mut self, m: &mut Machine, page: u32) {
        let page = &mut m.memory[page as usize * PAGE_BYTES..][..PAGE_BYTES];
        page.fill_with(|| self.next() as u8);
    }
}

// ---- instructions

fn i(opcode: u32, rt: u32, rs: u32, immediate: i32) -> u32 {
    opcode << 26 | rs << 21 | rt << 16 | immediate as u32 & 0xFFFF
}

fn r(fun: u32, rd: u32, rs: u32, rt: u32) -> u32 {
    rs << 21 | rt << 16 | rd << 11 | fun
}

const ADDI: u32 = 0x08;
const ANDI: u32 = 0x0C;
const LW: u32 = 0x23;
const LHU: u32 = 0x25;
const SB: u32 = 0x28;
const SH: u32 = 0x29;
const SW: u32 = 0x2B;
const BEQ: u32 = 0x04;
const BNE: u32 = 0x05;
const JAL: u32 = 0x03;
const JR: u32 = 0x08;
const SYSC: u32 = 0x0C;
const ADDU: u32 = 0x21;
const XOR: u32 = 0x26;
const NOR: u32 = 0x27;
const SLTU: u32 = 0x2B;
const CAS: u32 = 0x3F;

/// Virtual pages. The second-level table at FAR is one that core 2 alone has.
const CODE: u32 = 0x400;
const MORE: u32 = 0x401;
const DATA: u32 = 0x402;
const BOTH: u32 = 0x403;
const FAR: u32 = 0x800;

/// The group's program: over the data at register 8, with the page that both sides read at register 9, a word that the
/// two cores share at 11, and a page of code that may be written at 12. Register 20 counts the turns.
fn group_program() -> Vec<u32> {
    vec![
        i(LW, 1, 9, 0),
        i(ADDI, 2, 2, 4),
        i(ANDI, 2, 2, 0x3FC),
        r(ADDU, 10, 8, 2),
        i(LW, 3, 10, 0),
        r(XOR, 3, 3, 1),
        i(ADDI, 3, 3, 1),
        i(SW, 3, 10, 0),
        i(LW, 4, 10, 0), // from the buffer, if the store has not left it
        i(BNE, 4, 3, 11),
        i(SB, 3, 8, 0x401),
        i(LHU, 5, 8, 0x400), // a hazard until the byte has left
        r(SLTU, 6, 5, 1),
        i(BEQ, 6, 0, 2),
        i(SH, 5, 8, 0x404),
        r(CAS, 7, 11, 4), // refused while stores are pending
        JAL << 26 | MORE << 10,
        i(ADDI, 9, 9, 4),
        i(ADDI, 20, 20, -1),
        i(BNE, 20, 0, -19),
        SYSC,
    ]
}

/// What it calls, in the page that may be written.
fn group_routine() -> Vec<u32> {
    vec![i(ADDI, 21, 21, 1), i(SW, 21, 12, 0x800), r(JR, 0, 31, 0)]
}

/// The program of the rest: what it reads of the group's (register 9) and of the page that both read (11) goes to its
/// own data (8). Register 20 counts the turns; then comes `last`, and a load without a translation.
fn rest_program(each: u32, last: u32) -> Vec<u32> {
    vec![
        i(LW, 1, 9, 0),
        i(ADDI, 2, 2, 4),
        i(ANDI, 2, 2, 0xFFC),
        r(ADDU, 10, 8, 2),
        i(SW, 1, 10, 0),
        i(LW, 3, 11, 0x40),
        r(NOR, 4, 1, 3),
        i(SH, 4, 8, 2),
        each,
        r(CAS, 5, 8, 4),
        i(ADDI, 20, 20, -1),
        i(BNE, 20, 0, -11),
        last,
        i(LW, 6, 0, 0),
    ]
}

const NOTHING: u32 = 0; // sll 0 0 0
const ILLEGAL: u32 = 0xFFFF_FFFF;

// ---- machines

fn load(m: &mut Machine, page: u32, words: &[u32]) {
    for (k, &word) in words.iter().enumerate() {
        m.put((page << 12) + 4 * k as u32, word);
    }
}

/// Tables that map virtual pages to pages with rights: what one second-level table holds, named by the first-level one.
fn space(m: &mut Machine, first: u32, second: u32, pages: &[(u32, u32, u32)]) {
    for &(va, page, rights) in pages {
        m.enter(first, va >> 10, entry(second, ALL));
        m.enter(second, va & 1023, entry(page, rights));
    }
}

/// A core at the start of its program: it runs in user mode, and holds a walk of each level and one of another space.
fn start(m: &mut Machine, core: usize, first: u32, second: u32, data: u32, registers: &[(usize, u32)]) {
    let asid = core as u32 + 5;
    m.user(core, first);
    let block = m.block_mut(core);
    block[ASID] = 0xFC0 | asid;
    block[PC] = CODE << 12;
    for &(register, value) in registers {
        block[register] = value;
    }
    m.hold_walk(core, walk(CODE, asid, 2, ALL, first));
    m.hold_walk(core, walk(BOTH, asid, 1, ALL, second));
    m.hold_walk(core, walk(0x999, asid, 0, USER, data));
    m.hold_walk(core, walk(DATA, asid + 1, 0, USER | WRITE, data));
    m.hold_store(core, data << 12 | 0xF10, 0x1357_9BDF, 4);
    m.hold_store(core, data << 12 | 0xFFF, 0x24, 1);
}

/// A machine with the group's blocks and pages, which are the same in all. Everything else comes from the seed.
fn group_of(cores: usize, pages: usize, seed: u64) -> Machine {
    let mut m = Machine::new(cores, pages);
    let mut others = Random(seed);
    others.words(&mut m.tables[2..30]);
    m.tables[LINES] &= 0xFF_FFFF;
    for page in 0..pages as u32 {
        others.page(&mut m, page);
    }
    for core in 0..cores {
        let random = if GROUP >> core & 1 == 1 { &mut Random(core as u64) } else { &mut others };
        let block = m.block_mut(core);
        random.words(&mut block[1..32]);
        random.words(&mut block[64..67]);
        random.words(&mut block[104..112]);
        random.words(&mut block[CORE_REFUSALS..CORE_REFUSALS + 1]);
    }
    m.block_mut(0)[CORE_REFUSALS] = u32::MAX - 1;
    let mut own = Random(7);
    for page in [11, 12, 14, 16] {
        own.page(&mut m, page);
    }
    for page in [2, 5, 7, 9, 10] {
        m.memory[page * PAGE_BYTES..][..PAGE_BYTES].fill(0);
    }
    load(&mut m, 10, &group_program());
    load(&mut m, 16, &group_routine());
    let shared = [(CODE, 10, USER | EXECUTE), (MORE, 16, ALL), (DATA, 11, USER | WRITE), (BOTH, 14, USER)];
    space(&mut m, 2, 7, &shared);
    space(&mut m, 5, 7, &shared);
    space(&mut m, 5, 9, &[(FAR, 12, USER | WRITE)]);
    let common = [(9, BOTH << 12), (11, DATA << 12 | 0x800), (12, MORE << 12)];
    start(&mut m, 0, 2, 7, 11, &[&common[..], &[(8, DATA << 12), (20, 1000)]].concat());
    start(&mut m, 2, 5, 7, 12, &[&common[..], &[(8, FAR << 12), (20, 6)]].concat());
    m
}

/// A core of the rest: tables, code and data of its own; it reads the group's page 11 too, and page 14 as the group does.
fn rest_core(m: &mut Machine, core: usize, [first, second, code, data]: [u32; 4], program: &[u32], turns: u32) {
    for page in [first, second] {
        m.memory[page as usize * PAGE_BYTES..][..PAGE_BYTES].fill(0);
    }
    load(m, code, program);
    space(m, first, second, &[(CODE, code, USER | EXECUTE), (MORE, 11, USER), (DATA, data, ALL), (BOTH, 14, USER)]);
    let registers = [(8, DATA << 12), (9, MORE << 12 | 0x800), (11, BOTH << 12), (20, turns)];
    start(m, core, first, second, data, &registers);
}

/// Two sides of two cores each. Core 1 ends with a page fault, core 3 with a word that is no instruction.
fn two_and_two() -> Machine {
    let mut m = group_of(4, 24, 100);
    rest_core(&mut m, 1, [1, 3, 4, 6], &rest_program(NOTHING, NOTHING), 7);
    rest_core(&mut m, 3, [8, 13, 17, 15], &rest_program(NOTHING, ILLEGAL), 6);
    m
}

/// The rest is one core, and more pages are there.
fn two_and_one() -> Machine {
    let mut m = group_of(3, 31, 200);
    rest_core(&mut m, 1, [30, 21, 1, 8], &rest_program(NOTHING, NOTHING), 1000);
    m
}

/// The rest is empty: the other cores stand, and one holds what would break the verdict if it ran.
fn two_alone() -> Machine {
    let mut m = group_of(4, 17, 300);
    start(&mut m, 1, 2, 7, 11, &[]);
    m.block_mut(1)[RUNNING] = 0;
    m
}

/// As the first, but core 1 may write to page 14, and does.
fn meddling() -> Machine {
    let mut m = two_and_two();
    load(&mut m, 4, &rest_program(i(SW, 1, 11, 0), NOTHING));
    m.enter(3, BOTH & 1023, entry(14, USER | WRITE));
    m
}

// ---- lists of steps

/// A step that the core may well take: mostly forward in its program, or what it needs for that.
fn choose(m: &Machine, core: usize, random: &mut Random) -> Step {
    let k = core as u32;
    let walks = m.walks(core);
    let w = walks[random.below(walks.len() as u32) as usize];
    let pending = m.block(core)[STORES] != 0;
    match random.below(32) {
        0 => [random.below(5), k, random.next(), random.next(), random.next(), random.next()],
        1 => [random.below(4), k, w[0], w[1], random.below(16), 0],
        2 => [1, k, CODE + random.below(5), 0, 0, 0],
        3 => [3, k, w[0], w[1], 0, 0],
        4 => [2, k, w[0], w[1], random.below(8), 0],
        5 => [4, k, 0, 0, 0, 0],
        6..=14 if pending => [4, k, 0, 0, 0, 0],
        _ => forward(m, core, random).unwrap_or_else(|step| step),
    }
}

/// The next step of the core's program. The error is a step that comes before it.
fn forward(m: &Machine, core: usize, random: &mut Random) -> Result<Step, Step> {
    let block = m.block(core);
    let fetch = toward(m, core, block[PC], USER | EXECUTE)?;
    let word = m.word(fetch[1] << 12 | block[PC] & 0xFFC);
    let rs = block[(word >> 21 & 31) as usize];
    let address = rs.wrapping_add(word as i16 as u32);
    let data = match (word >> 26, word & 0x3F) {
        (0x20..=0x25, _) => toward(m, core, address, USER)?,
        (0x28..=0x2B, _) => toward(m, core, address, USER | WRITE)?,
        (0, CAS) => toward(m, core, rs, USER | WRITE)?,
        _ => [random.next(), random.next()], // not consulted
    };
    Ok([0, core as u32, fetch[0], fetch[1], data[0], data[1]])
}

/// The walk by which the core gets to an address with these rights, or one that faults. The error is a step that brings
/// it nearer.
fn toward(m: &Machine, core: usize, address: u32, rights: u32) -> Result<Walk, Step> {
    let k = core as u32;
    let (va, asid) = (address >> 12, m.block(core)[ASID] & 63);
    let of_level = |level: u32| {
        let first = va << 12 | asid << 6 | level << 3;
        m.walks(core).into_iter().filter(move |w| w[0] & !7 == first)
    };
    if let Some(w) = of_level(0).find(|w| w[0] & rights == rights) {
        return Ok(w);
    }
    let (level, w) = match (of_level(1).next(), of_level(2).next()) {
        (Some(w), _) => (1, w),
        (None, Some(w)) => (2, w),
        (None, None) => return Err([1, k, va, 0, 0, 0]),
    };
    let index = va >> (10 * (level - 1)) & 1023;
    let entry = m.word(w[1] << 12 | index << 2);
    if entry & PRESENT == 0 {
        Ok(w)
    } else if entry & ACCESSED == 0 {
        Err([3, k, w[0], w[1], 0, 0])
    } else {
        Err([2, k, w[0], w[1], rights, 0])
    }
}

// ---- what is compared

/// What the group sees after one of its steps: the answer, the words of its blocks, the bytes of its pages.
type Seen = (Answer, Vec<Vec<u32>>, Vec<Vec<u8>>);

/// A machine within a list of calls.
struct Within {
    start: Machine,
    machine: Machine,
    /// The cores that a call may name.
    going: Vec<usize>,
    /// The pages that the group reaches.
    pages: Vec<usize>,
    /// The bytes of the group's map and the rest's, page by page together.
    sides: Vec<u8>,
    /// Steps done, interrupts and refusals by their number, of the group and of the rest.
    done: [[u32; 5]; 2],
    interrupts: [u32; 2],
    refused: [[u32; 14]; 2],
}

impl Within {
    fn new(machine: Machine) -> Within {
        let going: Vec<usize> = (0..machine.cores()).filter(|&k| machine.block(k)[RUNNING] == 1).collect();
        let rest = going.iter().map(|k| 1 << k).sum::<u32>() & !GROUP;
        let (map, _) = machine.reach(GROUP);
        let others = if rest == 0 { vec![0; map.len()] } else { machine.reach(rest).0 };
        let pages = (0..map.len()).filter(|&p| map[p] != 0).collect();
        let sides = map.iter().zip(others).map(|(a, b)| a | b).collect();
        let start = machine.clone();
        Within { start, machine, going, pages, sides, done: [[0; 5]; 2], interrupts: [0; 2], refused: [[0; 14]; 2] }
    }

    /// One call. What the group sees after it, if the step is the group's.
    fn call(&mut self, step: Step) -> Option<Seen> {
        let core = step[1] as usize;
        assert!(step[0] <= 4 && self.going.contains(&core), "a list may not hold {step:?}");
        assert_eq!(self.machine.block(core)[MODE] & 1, 1, "core {core} is in user mode");
        let own = GROUP >> core & 1 == 1;
        let side = if own { 0 } else { 1 };
        let count = |k| self.machine.block(k)[CORE_REFUSALS];
        let before: Vec<u32> = (0..self.machine.cores()).map(count).collect();
        let answer = self.machine.step(&step);
        match answer {
            Answer::Done => self.done[side][step[0] as usize] += 1,
            Answer::Interrupt(_) => {
                self.interrupts[side] += 1;
                self.going.retain(|&k| k != core);
            }
            Answer::Refused(why) => self.refused[side][why as usize] += 1,
        }
        let rises = matches!(answer, Answer::Refused(_));
        for (k, count) in before.into_iter().enumerate() {
            let after = count.saturating_add((rises && k == core).into());
            assert_eq!(self.machine.block(k)[CORE_REFUSALS], after, "refusals of core {k}");
        }
        self.frame();
        let m = &self.machine;
        let blocks = || (0..m.cores()).filter(|k| GROUP >> k & 1 == 1).map(|k| m.block(k).to_vec()).collect();
        let pages = || self.pages.iter().map(|&p| m.page(p).to_vec()).collect();
        own.then(|| (answer, blocks(), pages()))
    }

    /// Bytes of pages that are neither table nor writable are as at first, and those of tables but for accessed bits.
    fn frame(&self) {
        for (page, side) in self.sides.iter().enumerate() {
            let (was, is) = (self.start.page(page), self.machine.page(page));
            if side & (TABLE | WRITABLE) == 0 {
                assert!(was == is, "page {page} is neither table nor writable, and changed");
            }
            if side & TABLE != 0 && was != is {
                for (at, (was, is)) in was.iter().zip(is).enumerate() {
                    let accessed = at % 4 == 0 && *is == was | ACCESSED as u8;
                    assert!(was == is || accessed, "byte {at:x} of page {page}, a table, changed");
                }
            }
        }
    }

    /// A core of one side that may be named, if there is one.
    fn one_of(&self, side: u32, random: &mut Random) -> Option<usize> {
        let cores: Vec<usize> = self.going.iter().copied().filter(|k| side >> k & 1 == 1).collect();
        (!cores.is_empty()).then(|| cores[random.below(cores.len() as u32) as usize])
    }

    fn changed(&self, page: usize) -> bool {
        self.start.page(page) != self.machine.page(page)
    }
}

/// Carries out a list on the machine. Back come the group's steps and what it sees after each.
fn first_list(m: &mut Within, random: &mut Random) -> (Vec<Step>, Vec<Seen>) {
    let (mut steps, mut seen) = (Vec::new(), Vec::new());
    for _ in 0..STEPS {
        let core = m.one_of(u32::MAX, random).expect("a core goes on");
        let step = choose(&m.machine, core, random);
        if let Some(s) = m.call(step) {
            steps.push(step);
            seen.push(s);
        }
    }
    (steps, seen)
}

/// Carries out another list with the same steps of the group, between others of the rest. The place of the first step
/// after which the group sees something else, if there is one.
fn second_list(m: &mut Within, steps: &[Step], seen: &[Seen], random: &mut Random) -> Option<usize> {
    for (n, (step, s)) in steps.iter().zip(seen).enumerate() {
        while random.below(5) < 2 {
            if let Some(core) = m.one_of(!GROUP, random) {
                let step = choose(&m.machine, core, random);
                m.call(step);
            }
        }
        if m.call(*step).as_ref() != Some(s) {
            return Some(n);
        }
    }
    None
}

/// Most steps of a side are accepted, of every kind, and some are refused as no steps and some for a guard.
fn went_on(m: &Within, side: usize) {
    let (done, refused) = (m.done[side].iter().sum::<u32>(), m.refused[side].iter().sum::<u32>());
    assert!(done > 3 * refused, "{done} done, {refused} refused");
    assert!(done > 100 && m.done[side].iter().all(|&n| n >= 5), "{:?}", m.done[side]);
    assert!(m.refused[side][5] > 0 && m.refused[side][6] > 0, "{:?}", m.refused[side]);
    assert_eq!(m.refused[side][4], 0);
}

#[test]
fn the_group_sees_the_same() {
    let mut first = Within::new(two_and_two());
    assert_eq!(first.start.apart(GROUP), Ok(true));
    assert_eq!(first.pages, [2, 5, 7, 9, 10, 11, 12, 14, 16]);
    for side in [GROUP, 15 & !GROUP] {
        assert_eq!(first.start.reach(side).0[14], mips86::DATA, "both sides only read page 14");
    }
    let (steps, seen) = first_list(&mut first, &mut Random(1));
    for side in [0, 1] {
        went_on(&first, side);
    }
    assert_eq!(first.interrupts, [1, 2]);
    // Data moved on both sides, and accessed bits were set in the tables of both.
    for page in [11, 12, 16, 2, 5, 7, 9, 6, 15, 1, 3, 8, 13] {
        assert!(first.changed(page), "page {page} did not move");
    }
    let others: [(u64, Machine, &[usize]); 3] =
        [(2, two_and_one(), &[8, 30, 21]), (3, two_alone(), &[]), (4, two_and_two(), &[6, 15, 1, 3, 8, 13])];
    for (seed, machine, moved) in others {
        let mut other = Within::new(machine);
        assert_eq!(other.start.apart(GROUP), Ok(true));
        assert_eq!(other.pages, first.pages);
        assert_eq!(second_list(&mut other, &steps, &seen, &mut Random(seed)), None, "the list of seed {seed}");
        went_on(&other, 0);
        if !moved.is_empty() {
            went_on(&other, 1);
        }
        assert!(moved.iter().all(|&page| other.changed(page)), "the rest of seed {seed} did not move");
    }
}

/// The machines differ in all but the group's blocks and pages.
#[test]
fn what_differs() {
    let (a, b, c) = (two_and_two(), two_and_one(), two_alone());
    for (m, n) in [(&a, &b), (&a, &c), (&b, &c)] {
        assert!((m.tables[CORES], m.tables[PAGES]) != (n.tables[CORES], n.tables[PAGES]));
        assert!((2..30).all(|k| m.tables[k] != n.tables[k]));
        assert!(m.block(0) == n.block(0) && m.block(2) == n.block(2) && m.block(1) != n.block(1));
        for page in 0..17 {
            assert_eq!(m.page(page) == n.page(page), [2, 5, 7, 9, 10, 11, 12, 14, 16].contains(&page), "page {page}");
        }
    }
    assert!(a.tables.len() > BLOCK + 3 * 256 && b.tables.len() < a.tables.len() && b.memory.len() > a.memory.len());
}

/// The trial can fail: where the rest may write what the group reads, the verdict is no and the group sees it.
#[test]
fn without_the_verdict() {
    let mut first = Within::new(meddling());
    assert_eq!(first.start.apart(GROUP), Ok(false));
    let (steps, seen) = first_list(&mut first, &mut Random(1));
    let mut other = Within::new(two_and_one());
    assert!(second_list(&mut other, &steps, &seen, &mut Random(2)).is_some());
}
