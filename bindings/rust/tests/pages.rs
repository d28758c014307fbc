//! Reach and apart on machines laid out by hand: every byte of the map, every refusal, every condition.

mod machine;

use machine::{entry, walk, Machine, ALL, BLOCK, EXECUTE, MODE, PAGES, PRESENT, PTO, RUNNING, USER, WRITE};
use mips86::{apart, reach, DATA, TABLE, WRITABLE};

const VA: u32 = 0x77;

/// Both calls refuse, and neither writes; a length of the map is no matter for apart.
fn refuses(m: &Machine, group: u32, length: usize, why: u32) {
    let mut map = vec![0xEE; length];
    assert_eq!(reach(&m.tables, &m.memory, group, &mut map), Err(why), "group {group:x}, {length} bytes");
    assert_eq!(map, vec![0xEE; length]);
    if why != 12 {
        assert_eq!(m.apart(group), Err(why), "group {group:x}");
    }
}

#[test]
fn refusals_in_their_order() {
    for cores in 1..=4 {
        let mut m = Machine::new(cores, 16);
        let all = (1 << cores) - 1;
        for group in [1, all] {
            for length in [0, 15, 17, 4096] {
                refuses(&m, group, length, 12);
            }
            assert_eq!(m.reach(group).0.len(), 16);
        }
        for group in [0, all + 1, all + 2, 1 << 31, u32::MAX] {
            refuses(&m, group, 16, 13);
            refuses(&m, group, 15, 12);
        }
        let damaged = BLOCK + 256 * (cores - 1) + RUNNING;
        m.tables[damaged] = 2;
        for (group, length) in [(1, 16), (1, 15), (0, 16), (all + 1, 17)] {
            refuses(&m, group, length, 4);
        }
        m.tables[damaged] = 1;
        m.tables[PAGES] = 15;
        refuses(&m, 1, 15, 4);
    }
    assert_eq!(reach(&[], &[], 0, &mut []), Err(4));
    assert_eq!(apart(&[], &[], 0), Err(4));
}

/// Three cores whose maps are known byte by byte. Core 1 is not running and in system mode.
fn mapped() -> Machine {
    let mut m = Machine::new(3, 16);
    m.user(0, 1);
    m.enter(1, 0, entry(2, ALL)); // the rights of a first-level entry make no page writable
    m.enter(1, 1023, entry(3, 0));
    m.enter(1, 5, entry(12, ALL) & !PRESENT);
    m.enter(2, 0, entry(4, USER));
    m.enter(2, 1023, entry(5, WRITE));
    m.enter(2, 7, entry(12, ALL) & !PRESENT);
    m.enter(2, 8, entry(3, EXECUTE));
    m.enter(3, 1, entry(4, USER | EXECUTE));
    m.enter(4, 0, entry(12, ALL)); // page 4 is no table
    m.block_mut(1)[PTO] = 15 << 12;
    m.hold_walk(1, walk(VA, 1, 2, 0, 6));
    m.enter(6, 512, entry(7, 0));
    m.enter(7, 3, entry(5, USER));
    m.enter(7, 4, entry(8, WRITE));
    m.hold_walk(1, walk(VA, 2, 1, WRITE, 8));
    m.enter(8, 1, entry(2, USER));
    m.hold_walk(1, walk(VA, 3, 0, WRITE, 9));
    m.hold_walk(1, walk(VA, 3, 0, USER | EXECUTE, 10));
    m.hold_store(1, 0xB000, 0x1234_5678, 4);
    m.hold_store(1, 0xBFFC, 0x1234, 2);
    m.hold_store(1, 0xBFFF, 0x12, 1);
    m.user(2, 13);
    m
}

const D: u8 = DATA;
const T: u8 = TABLE;
const W: u8 = DATA | WRITABLE;
const OF_0: [u8; 16] = [0, T, T, T | D, D, W, 0, 0, 0, 0, 0, 0, 0, 0, 0, 0];
const OF_1: [u8; 16] = [0, 0, D, 0, 0, D, T, T, T | W, W, D, W, 0, 0, 0, T];
const OF_2: [u8; 16] = [0, 0, 0, 0, 0, 0, 0, 0, 0, 0, 0, 0, 0, T, 0, 0];

/// The map of a group is that of its cores together.
fn of(group: u32) -> Vec<u8> {
    let maps = [OF_0, OF_1, OF_2];
    let cores = (0..3).filter(|k| group >> k & 1 == 1);
    cores.fold(vec![0; 16], |map, k| map.iter().zip(maps[k]).map(|(a, b)| a | b).collect())
}

#[test]
fn bits_of_the_map() {
    assert_eq!([D, T, WRITABLE], [1, 2, 4]);
    assert_eq!(OF_1, [0, 0, 1, 0, 0, 1, 2, 2, 7, 5, 1, 5, 0, 0, 0, 2]);
}

#[test]
fn a_map_byte_by_byte() {
    let m = mapped();
    for group in 1..8 {
        assert_eq!(m.reach(group), (of(group), false), "group {group}");
    }
}

#[test]
fn one_page() {
    let mut m = Machine::new(1, 1);
    assert_eq!(m.reach(1), (vec![T], false));
    m.hold_store(0, 0xFFF, 0xFF, 1);
    assert_eq!(m.reach(1), (vec![T | W], false));
    m.enter(0, 1023, entry(0, 0)); // the page is its own second-level table, and its own data
    assert_eq!(m.reach(1), (vec![T | W], false));
    m.enter(0, 1023, entry(1, 0));
    assert_eq!(m.reach(1), (vec![T | W], true));
}

/// The most cores and pages. Apart is content with a small stack.
#[test]
fn largest_memory() {
    let mut m = Machine::new(4, 4096);
    for core in 0..4 {
        m.user(core, 1024 * core as u32);
        m.hold_walk(core, walk(VA, 0, 0, USER | WRITE, 1024 * core as u32 + 1023));
    }
    let mut expected = vec![0; 4096];
    for page in (0..4096).step_by(1024) {
        (expected[page], expected[page + 1023]) = (T, W);
    }
    assert_eq!(m.reach(15), (expected.clone(), false));
    let in_thread = |m: Machine| {
        let thread = std::thread::Builder::new().stack_size(128 * 1024);
        thread.spawn(move || (m.apart(5), m)).expect("a thread").join().expect("a verdict")
    };
    let (verdict, mut m) = in_thread(m);
    assert_eq!(verdict, Ok(true));
    m.enter(1024, 0, entry(4096, USER));
    assert_eq!(m.reach(15), (expected, true));
    assert_eq!(in_thread(m).0, Ok(false));
}

/// What a way beyond memory is called, and how it is laid.
type Way = (&'static str, fn(&mut Machine));

/// Ways of core 1 beyond memory. But for the first they take nothing from its map.
const WAYS: [Way; 14] = [
    ("pto", |m| m.block_mut(1)[PTO] = 16 << 12),
    ("a walk of level 2", |m| m.hold_walk(1, walk(VA, 5, 2, ALL, 16))),
    ("a walk of level 1", |m| m.hold_walk(1, walk(VA, 5, 1, ALL, 16))),
    ("a complete walk", |m| m.hold_walk(1, walk(VA, 5, 0, ALL, 16))),
    ("a far walk of level 2", |m| m.hold_walk(1, walk(VA, 5, 2, 0, 0xFFFFF))),
    ("a far walk of level 1", |m| m.hold_walk(1, walk(VA, 5, 1, 0, 0xFFFFE))),
    ("a far complete walk", |m| m.hold_walk(1, walk(VA, 5, 0, 0, 0x80000))),
    ("a first-level entry", |m| m.enter(6, 0, entry(16, 0))),
    ("a second-level entry", |m| m.enter(7, 1023, entry(16, 0))),
    ("a far first-level entry", |m| m.enter(6, 1023, entry(0xFFFFF, ALL))),
    ("a far second-level entry", |m| m.enter(7, 0, entry(0xFFFFF, ALL))),
    ("an entry of a level 1 walk's table", |m| m.enter(8, 2, entry(4096, USER))),
    ("a store to a local APIC port", |m| m.hold_store(1, 0xFFFF_F07C, 1, 4)),
    ("a store to an I/O APIC port", |m| m.hold_store(1, 0xFFFF_E000, 1, 4)),
];

#[test]
fn ways_beyond_memory() {
    for (name, lay) in WAYS {
        let mut m = mapped();
        lay(&mut m);
        let mut expected = of(2);
        if name == "pto" {
            expected[15] = 0;
        }
        assert_eq!(m.reach(2), (expected, true), "{name}");
        assert!(m.reach(3).1 && m.reach(6).1, "{name}");
        assert_eq!(m.reach(5), (of(5), false), "{name} of core 1");
    }
    for (table, index) in [(6, 9), (7, 9), (8, 9)] {
        let mut m = mapped();
        m.enter(table, index, entry(16, ALL) & !PRESENT);
        assert_eq!(m.reach(2), (of(2), false), "an absent entry of page {table}");
    }
}

/// Cores 0 and 1 share tables and pages 1 to 3, core 2 has pages 5 to 7; both sides read page 4, and core 2 reads page 3
/// too. Core 3 is not running, so it is of neither side: it is in system mode and reaches into both.
fn sides() -> Machine {
    let mut m = Machine::new(4, 16);
    for (core, table, data) in [(0, 1, 3), (1, 1, 3), (2, 5, 7)] {
        m.user(core, table);
        m.enter(table, 0, entry(table + 1, ALL));
        m.enter(table + 1, 0, entry(data, WRITE | USER));
        m.enter(table + 1, 1, entry(4, USER | EXECUTE));
        m.hold_walk(core, walk(VA, 0, 2, ALL, table));
        m.hold_walk(core, walk(VA, 0, 1, ALL, table + 1));
        m.hold_walk(core, walk(VA, 0, 0, WRITE | USER, data));
        m.hold_store(core, data << 12, 0x55, 4);
    }
    m.enter(6, 2, entry(3, USER));
    m.block_mut(3)[PTO] = 3 << 12;
    m.hold_store(3, 0x1000, 1, 4);
    m.hold_store(3, 0x5000, 1, 4);
    m.hold_store(3, 0xFFFF_F000, 1, 4);
    m
}

/// Core 3 runs too, with an empty table of its own and nothing held.
fn join(m: &mut Machine, mode: u32) {
    let fresh = Machine::new(4, 16);
    m.block_mut(3).copy_from_slice(fresh.block(3));
    m.user(3, 15);
    m.block_mut(3)[MODE] = mode;
}

/// A change of the sides above, and the verdict for cores 0 and 1 after it.
type Change = (&'static str, bool, fn(&mut Machine));

const CHANGES: [Change; 40] = [
    ("none", true, |_| ()),
    ("an empty rest", true, |m| m.block_mut(2)[RUNNING] = 0),
    ("mode 3 is user mode", true, |m| m.block_mut(1)[MODE] = 3),
    ("the rest reads a table of the group", true, |m| m.enter(6, 3, entry(2, USER))),
    ("the group reads its own table", true, |m| m.enter(2, 3, entry(2, USER))),
    ("the rest reads its own table", true, |m| m.enter(6, 3, entry(6, USER))),
    ("a table at both levels", true, |m| {
        m.enter(1, 0, entry(2, USER));
        m.enter(1, 1, entry(1, USER));
    }),
    ("core 3 in user mode", true, |m| join(m, 1)),
    ("the header is no core's", true, |m| m.tables[2..30].fill(0xFF_FFFF)),
    // every core of both is running in user mode
    ("a group core stands", false, |m| m.block_mut(0)[RUNNING] = 0),
    ("the other group core stands", false, |m| m.block_mut(1)[RUNNING] = 0),
    ("a group core in system mode", false, |m| m.block_mut(0)[MODE] = 0),
    ("mode 2 is system mode", false, |m| m.block_mut(1)[MODE] = 2),
    ("a core of the rest in system mode", false, |m| m.block_mut(2)[MODE] = 0),
    ("core 3 in system mode", false, |m| join(m, 0)),
    // neither side reaches a page beyond memory
    ("the group's pto is beyond", false, |m| m.block_mut(0)[PTO] = 16 << 12),
    ("a walk of the group", false, |m| m.hold_walk(1, walk(VA, 1, 0, USER, 16))),
    ("an entry of the group", false, |m| m.enter(2, 2, entry(16, USER))),
    ("a store of the group", false, |m| m.hold_store(0, 0xFFFF_F000, 1, 4)),
    ("the rest's pto is beyond", false, |m| m.block_mut(2)[PTO] = 16 << 12),
    ("a walk of the rest", false, |m| m.hold_walk(2, walk(VA, 1, 0, USER, 16))),
    ("an entry of the rest", false, |m| m.enter(5, 2, entry(16, USER))),
    ("a store of the rest", false, |m| m.hold_store(2, 0xFFFF_E000, 1, 4)),
    // no page is both writable and table for one side
    ("an entry grants the group write to a table", false, |m| m.enter(2, 3, entry(1, WRITE))),
    ("a walk does", false, |m| m.hold_walk(0, walk(VA, 1, 0, WRITE, 2))),
    ("a store of the group to a table", false, |m| m.hold_store(1, 0x1FFF, 1, 1)),
    ("a walk makes the group's data a table", false, |m| m.hold_walk(0, walk(VA, 1, 1, ALL, 3))),
    ("a table at both levels, whose entries grant write", false, |m| m.enter(1, 1, entry(1, USER))),
    ("an entry grants the rest write to a table", false, |m| m.enter(6, 3, entry(5, WRITE))),
    ("a walk of the rest does", false, |m| m.hold_walk(2, walk(VA, 1, 0, WRITE, 6))),
    ("a store of the rest to a table", false, |m| m.hold_store(2, 0x5FFF, 1, 1)),
    ("an entry makes the rest's data a table", false, |m| m.enter(5, 1, entry(7, ALL))),
    // no page reached by the group is writable or table for the rest
    ("the rest writes what both read", false, |m| m.enter(6, 3, entry(4, WRITE))),
    ("the rest writes what the group writes", false, |m| m.hold_walk(2, walk(VA, 1, 0, WRITE, 3))),
    ("the rest's store to a table of the group", false, |m| m.hold_store(2, 0x2000, 1, 4)),
    ("the group reads what the rest writes", false, |m| m.enter(2, 3, entry(7, USER))),
    ("a page that both read is a table for the rest", false, |m| m.hold_walk(2, walk(VA, 1, 1, 0, 4))),
    ("the rest shares the group's table", false, |m| m.block_mut(2)[PTO] = 2 << 12),
    ("the group reads a table of the rest", false, |m| m.enter(2, 3, entry(6, USER))),
    ("a table of the group is a table for the rest", false, |m| {
        m.enter(1, 0, entry(2, USER));
        m.enter(5, 3, entry(1, 0));
    }),
];

#[test]
fn verdicts() {
    for (name, verdict, change) in CHANGES {
        let mut m = sides();
        change(&mut m);
        assert_eq!(m.apart(3), Ok(verdict), "{name}");
    }
}

#[test]
fn verdicts_for_other_groups() {
    let m = sides();
    assert_eq!(m.apart(4), Ok(false), "the others write what core 2 reads");
    assert_eq!(m.apart(1), Ok(false), "core 1 shares the table of core 0");
    assert_eq!(m.apart(7), Ok(true), "the rest is empty");
    assert_eq!(m.apart(15), Ok(false), "core 3 stands");
    assert_eq!(Machine::new(1, 1).apart(1), Ok(false), "a machine as made is in system mode");
}
