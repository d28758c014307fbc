//! The machines and schedules that are timed. Each schedule has 1,024 steps. All of them are accepted, but for those of
//! `refused`, of which none is.

/// A machine, and the steps that it takes from there.
pub struct Case {
    pub name: &'static str,
    pub tables: Vec<u32>,
    pub memory: Vec<u8>,
    pub schedule: Vec<u32>,
    /// How many of the steps are accepted.
    pub accepted: usize,
}

const STEPS: usize = 1024;

// Places of the tables, for core 0.
pub const BLOCK: usize = 32;
pub const SPR: usize = BLOCK + 32;
const PC: usize = BLOCK + 64;
pub const WALKS: usize = BLOCK + 69;
pub const FREE: usize = BLOCK + 70;
pub const RECORDS: usize = BLOCK + 128;
const SR: usize = 0;
const EPC: usize = 3;
pub const PTO: usize = 5;
pub const MODE: usize = 7;

/// All rights of a walk or an entry.
pub const RIGHTS: u32 = 7;

const ERET: u32 = 0x10 << 26 | 0x10 << 21 | 0x18;

pub fn machine(cores: usize, pages: usize) -> (Vec<u32>, Vec<u8>) {
    let mut tables = vec![0; mips86::table_words(cores)];
    let memory = vec![0; pages * mips86::PAGE_BYTES];
    mips86::make(&mut tables, &memory, cores as u32).expect("a machine is made");
    (tables, memory)
}

pub fn put(memory: &mut [u8], address: usize, word: u32) {
    memory[address..][..4].copy_from_slice(&word.to_le_bytes());
}

fn r(fun: u32, rd: u32, rs: u32, rt: u32) -> u32 {
    rs << 21 | rt << 16 | rd << 11 | fun
}

fn shift(fun: u32, rd: u32, rt: u32, sa: u32) -> u32 {
    rt << 16 | rd << 11 | sa << 6 | fun
}

fn i(opcode: u32, rt: u32, rs: u32, immediate: u32) -> u32 {
    opcode << 26 | rs << 21 | rt << 16 | immediate & 0xFFFF
}

/// movg2s: general register rt to a special register.
fn to_special(register: usize, rt: u32) -> u32 {
    0x10 << 26 | 0b00100 << 21 | rt << 16 | (register as u32) << 11
}

/// What follows an instruction in the schedule: nothing, or the step of the store buffer.
#[derive(Clone, Copy, PartialEq)]
enum Then {
    Next,
    Drain,
}

/// A loop of 14 instructions over the data that register 8 points to: ALU, three loads, two stores and a branch back. With the
/// two steps of the store buffer a turn is 16 steps. The load after the first store is served by the buffer.
fn program() -> Vec<(u32, Then)> {
    use Then::{Drain, Next};
    vec![
        (i(0x08, 1, 1, 1), Next),            // addi 1 1 1
        (r(0x21, 3, 1, 2), Next),            // addu 3 1 2
        (shift(0x00, 4, 3, 3), Next),        // sll 4 3 3
        (r(0x26, 2, 4, 3), Next),            // xor 2 4 3
        (i(0x23, 5, 8, 0x100), Next),        // lw 5 8 100
        (r(0x23, 5, 5, 2), Next),            // subu 5 5 2
        (i(0x2B, 5, 8, 0x104), Next),        // sw 5 8 104
        (i(0x23, 6, 8, 0x104), Drain),       // lw 6 8 104, from the buffer
        (r(0x2B, 7, 6, 1), Next),            // sltu 7 6 1
        (i(0x0D, 7, 7, 0x10), Next),         // ori 7 7 10
        (i(0x24, 9, 8, 0x105), Next),        // lbu 9 8 105
        (r(0x25, 9, 9, 7), Next),            // or 9 9 7
        (i(0x28, 9, 8, 0x108), Drain),       // sb 9 8 108
        (i(0x04, 0, 0, 0x10000 - 13), Next), // beq 0 0 -13
    ]
}

/// The program's bytes from an address on, and its schedule: words 2 to 5 of a core step name the walks.
fn load(memory: &mut [u8], address: usize, walks: [u32; 4]) -> Vec<u32> {
    let mut turn = Vec::new();
    for (k, (word, then)) in program().into_iter().enumerate() {
        put(memory, address + 4 * k, word);
        turn.extend([0, 0, walks[0], walks[1], walks[2], walks[3]]);
        if then == Then::Drain {
            turn.extend([4, 0, 0, 0, 0, 0]);
        }
    }
    turn.into_iter().cycle().take(6 * STEPS).collect()
}

/// One core in system mode, one page.
pub fn system() -> Case {
    let (mut tables, mut memory) = machine(1, 1);
    tables[BLOCK + 8] = 0x400;
    put(&mut memory, 0x500, 0x1234_5678);
    let schedule = load(&mut memory, 0, [0; 4]);
    Case { name: "system mode: ALU, load, store", tables, memory, schedule, accepted: STEPS }
}

/// Core 0 of a machine as made holds these walks, in records from 1 on.
fn hold(tables: &mut [u32], walks: &[[u32; 2]]) {
    for (k, w) in walks.iter().enumerate() {
        let at = RECORDS + 4 * (k + 1);
        tables[at] = if k + 1 < walks.len() { k as u32 + 2 } else { 0 };
        tables[at + 1] = w[0];
        tables[at + 2] = w[1];
    }
    tables[WALKS] = 1;
    tables[FREE] = walks.len() as u32 + 1;
}

/// One core in user mode that holds six walks: code in page 1, data in page 2.
pub fn user() -> Case {
    let (mut tables, mut memory) = machine(1, 4);
    let code = [0x10 << 12 | RIGHTS, 1];
    let data = [0x20 << 12 | RIGHTS, 2];
    let walks = [
        [0x30 << 12 | RIGHTS, 3],
        code,
        [0x10 << 12 | 2 << 3 | RIGHTS, 3],
        data,
        [0x20 << 12 | 2 << 3 | RIGHTS, 3],
        [0x31 << 12 | RIGHTS, 3],
    ];
    hold(&mut tables, &walks);
    tables[SPR + MODE] = 1;
    tables[PC] = 0x10 << 12;
    tables[BLOCK + 8] = 0x20 << 12;
    put(&mut memory, 0x2100, 0x1234_5678);
    let schedule = load(&mut memory, 0x1000, [code[0], code[1], data[0], data[1]]);
    Case { name: "user mode: ALU, load, store by held walks", tables, memory, schedule, accepted: STEPS }
}

/// A core that drops its walks in system mode (flush) and returns to user mode (eret); there its TLB walks seven pages anew, each by
/// create, accessed, extend, accessed, extend, and the code that the first of them maps makes a system call. A turn is 38 steps.
pub fn tlb() -> Case {
    const PAGES: u32 = 7;
    const FIRST: u32 = 0x10;
    let (mut tables, mut memory) = machine(1, 12);
    let entry = |page: u32| page << 12 | 1 << 11 | RIGHTS << 8;
    put(&mut memory, 0, 0x3D); // flush
    put(&mut memory, 4, ERET);
    tables[SPR + PTO] = 1 << 12;
    tables[SPR + EPC] = FIRST << 12;
    // Page 1 is the first-level table, page 2 the second-level one, page 3 the code, and pages 4 to 9 are data.
    put(&mut memory, 0x1000, entry(2));
    for k in 0..PAGES {
        put(&mut memory, 0x2000 + 4 * (FIRST + k) as usize, entry(3 + k));
    }
    for word in 0..1024 {
        put(&mut memory, 0x3000 + 4 * word, 0x0C); // sysc
    }
    let walk = |va: u32, level: u32, rights: u32, base: u32| [va << 12 | level << 3 | rights, base];
    let mut turn = vec![0; 12];
    for k in 0..PAGES {
        let va = FIRST + k;
        let new = walk(va, 2, RIGHTS, 1);
        let half = walk(va, 1, RIGHTS, 2);
        turn.extend([1, 0, va, 0, 0, 0]);
        for w in [new, half] {
            turn.extend([3, 0, w[0], w[1], 0, 0]);
            turn.extend([2, 0, w[0], w[1], 0, 0]);
        }
    }
    let code = walk(FIRST, 0, RIGHTS, 3);
    turn.extend([0, 0, code[0], code[1], 0, 0]);
    let schedule = turn.into_iter().cycle().take(6 * STEPS).collect();
    Case { name: "TLB: create, accessed, extend", tables, memory, schedule, accepted: STEPS }
}

/// The system-mode loop with external interrupts let through (bit 1 of sr): each instruction looks for one, and none is pending.
pub fn none_pending() -> Case {
    let mut case = system();
    case.name = "interrupts let through, none pending";
    case.tables[SPR + SR] = 1 << 1;
    case
}

/// A core in user mode that takes the interrupts of all 24 lines, three vectors in each of the eight words of IRR. In a turn each
/// line is raised, sampled and delivered. Then for each, the lowest vector first, the core is interrupted; its handler lets
/// interrupts through while it writes EOI, so that what is asked for is held against what is in service; the EOI leaves the store
/// buffer and is sent; the line is lowered, and the handler returns. Eight instructions of the program follow. A turn is 272 steps.
pub fn interrupts() -> Case {
    const LINES: u32 = 24;
    const REDIRECT: usize = 6;
    let vector = |line: u32| 32 * (line % 8) + (11 * line + 5) % 32;
    let (mut tables, mut memory) = machine(1, 2);
    for line in 0..LINES {
        tables[REDIRECT + line as usize] = vector(line);
    }
    let code = [0x10 << 12 | RIGHTS, 1];
    hold(&mut tables, &[code]);
    tables[SPR + SR] = 1 << 1;
    tables[SPR + MODE] = 1;
    tables[PC] = 0x10 << 12;
    tables[BLOCK + 8] = 0xFFFF_F000;
    tables[BLOCK + 9] = 1 << 1;
    put(&mut memory, 0x0, to_special(SR, 9)); // movg2s sr 9
    put(&mut memory, 0x4, i(0x2B, 0, 8, 0xC)); // sw 0 8 C: EOI
    put(&mut memory, 0x8, to_special(SR, 0)); // movg2s sr 0
    put(&mut memory, 0xC, ERET);
    put(&mut memory, 0x1000, i(0x08, 1, 1, 1)); // addi 1 1 1
    put(&mut memory, 0x1004, i(0x04, 0, 0, 0x10000 - 1)); // beq 0 0 -1
    let step = |kind: u32, number: u32, level: u32| [kind, number, level, 0, 0, 0];
    let (program, handler) = ([0, 0, code[0], code[1], 0, 0], [0; 6]);
    let (drain, send_eoi) = (step(4, 0, 0), step(6, 0, 0));
    let mut turn = Vec::new();
    for line in 0..LINES {
        turn.extend([step(11, line, 1), step(9, line, 0), step(10, line, 0)]);
    }
    let mut lines: Vec<u32> = (0..LINES).collect();
    lines.sort_by_key(|&line| vector(line));
    for line in lines {
        turn.extend([program, handler, handler, handler, drain, send_eoi, step(11, line, 0), handler]);
    }
    turn.extend([program; 8]);
    let schedule = turn.concat().into_iter().cycle().take(6 * STEPS).collect();
    Case { name: "interrupts of 24 lines, taken and ended", tables, memory, schedule, accepted: STEPS }
}

/// Steps that are refused: of a core, by its empty store buffer and by a stray word, which its own word counts; and of
/// a core that is not there and of no kind, which the header counts. On a machine of one core, and of four.
pub fn refused() -> Vec<Case> {
    let case = |name, cores: usize, steps: [[u32; 6]; 2]| {
        let (tables, memory) = machine(cores, 1);
        let schedule = steps.concat().into_iter().cycle().take(6 * STEPS).collect();
        Case { name, tables, memory, schedule, accepted: 0 }
    };
    let own = |core| [[4, core, 0, 0, 0, 0], [4, core, 0, 0, 0, 1]];
    let header = [[4, 4, 0, 0, 0, 0], [15, 0, 0, 0, 0, 0]];
    vec![
        case("refused, counted by the core, one core", 1, own(0)),
        case("refused, counted in the header, one core", 1, header),
        case("refused, counted by the core, four cores", 4, own(3)),
        case("refused, counted in the header, four cores", 4, header),
    ]
}
