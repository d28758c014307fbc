//! The bundled maps and their verdicts, and machines as bytes.

use mips86::{LoadError, Machine, Reason, Root, Side, Way, DATA, TABLE, WRITABLE};

fn bundled(name: &str) -> Machine {
    let path = format!("{}/../../examples/maps/{name}.bin", env!("CARGO_MANIFEST_DIR"));
    let bytes = std::fs::read(&path).unwrap_or_else(|e| panic!("{path}: {e}"));
    let m = Machine::load(&bytes).unwrap_or_else(|e| panic!("{path}: {e}"));
    assert_eq!(m.save(), bytes);
    m
}

/// The verdict for every group of four cores, at the group's number; 0 is no group.
fn verdicts(m: &Machine) -> Vec<bool> {
    assert_eq!(m.apart(0), Err(13));
    assert_eq!(m.apart(16), Err(13));
    (1..16).map(|group| m.apart(group).unwrap()).collect()
}

/// A way of a core from pto to a data page, by the addresses of its entries.
fn way(core: u32, entries: [u32; 2], page: u32) -> Way {
    Way { core, root: Root::Origin, entries: entries.to_vec(), page, level: 0, write: true }
}

#[test]
fn the_feeder_keeps_all_apart() {
    let m = bundled("feeder");
    assert_eq!(verdicts(&m), [true; 15]);
    for group in 1..16 {
        assert_eq!(m.why(group), Ok(None));
        assert_eq!(m.reasons(group), Ok(vec![]));
    }
    let own = m.reach(0b0010).unwrap();
    assert!(!own.beyond);
    let mut map = vec![0; 64];
    map[6] = TABLE;
    map[7] = TABLE;
    map[24] = DATA;
    map[60] = DATA;
    map[25..=27].fill(DATA + WRITABLE);
    assert_eq!(own.map, map);
}

/// Baltic, core 2, reads a page that north, core 1, writes: not apart are the groups with core 2 and without core 1.
#[test]
fn a_competitors_page() {
    let m = bundled("competitor");
    let expected: Vec<bool> = (1..16).map(|group| group & 0b0110 != 0b0100).collect();
    assert_eq!(verdicts(&m), expected);
    let north = way(1, [0x6004, 0x7400], 25);
    assert_eq!(north.virtual_page(), Some(0x00500));
    let baltic = Way { write: false, ..way(2, [0x8004, 0x9408], 25) };
    assert_eq!(baltic.virtual_page(), Some(0x00502));
    let touches = Reason::Touches { rest: north, group: baltic };
    assert_eq!(m.why(0b0100), Ok(Some(touches.clone())));
    assert_eq!(m.reasons(0b1101), Ok(vec![touches]));
}

/// A side whose own table it can write spoils every verdict, on whichever side it is.
#[test]
fn a_table_of_its_own() {
    let m = bundled("own_table");
    assert_eq!(verdicts(&m), [false; 15]);
    let skagen = way(3, [0xa004, 0xb404], 11);
    assert_eq!(m.reasons(0b0001), Ok(vec![Reason::OwnTable(Side::Rest, skagen.clone())]));
    assert_eq!(m.reasons(0b1001), Ok(vec![Reason::OwnTable(Side::Group, skagen)]));
    assert_eq!((m.why(0), m.why(16)), (Err(13), Err(13)));
}

#[test]
fn bytes_that_are_no_machine() {
    let m = Machine::make(2, 1).unwrap();
    let bytes = m.save();
    let want = 4 * (32 + 512) + 4096;
    assert_eq!(bytes.len(), want);
    for cut in 0..bytes.len() {
        let short = LoadError::Short { have: cut, want: if cut < 8 { 8 } else { want } };
        assert_eq!(Machine::load(&bytes[..cut]), Err(short));
    }
    for more in [1, 3, 4096] {
        let mut long = bytes.clone();
        long.resize(want + more, 0);
        assert_eq!(Machine::load(&long), Err(LoadError::Long { have: want + more, want }));
    }
    for cores in [0, 5, u32::MAX] {
        let mut other = bytes.clone();
        other[..4].copy_from_slice(&cores.to_le_bytes());
        assert_eq!(Machine::load(&other), Err(LoadError::Cores(cores)));
    }
    for pages in [0, 4097, u32::MAX] {
        let mut other = bytes.clone();
        other[4..8].copy_from_slice(&pages.to_le_bytes());
        assert_eq!(Machine::load(&other), Err(LoadError::Pages(pages)));
    }
}

#[test]
fn machines_that_are_not_made() {
    for cores in [0, 5, u32::MAX] {
        assert_eq!(Machine::make(cores, 0), Err(1));
    }
    for pages in [0, 4097, usize::MAX] {
        assert_eq!(Machine::make(4, pages), Err(2));
    }
}

/// Words damaged at random: every question gets an answer or refusal 4, and what was damaged loads again as it was saved.
#[test]
fn damaged_machines() {
    let m = bundled("competitor");
    let mut seed = 1u64;
    let mut next = |n: usize| {
        seed = seed.wrapping_mul(6364136223846793005).wrapping_add(1442695040888963407);
        (seed >> 33) as usize % n
    };
    let mut refused = 0;
    for _ in 0..2000 {
        let mut other = m.clone();
        for _ in 0..=next(3) {
            let at = next(other.tables.len() - 2) + 2;
            other.tables[at] ^= 1 << next(32);
        }
        let page = 4 + next(8);
        other.memory[4096 * page + next(4096)] ^= 1 << next(8);
        for group in 1..16 {
            match other.apart(group) {
                Ok(_) => assert!(other.reach(group).is_ok()),
                Err(n) => {
                    assert_eq!(n, 4);
                    assert_eq!(other.reach(group), Err(4));
                    refused += 1;
                }
            }
        }
        assert_eq!(Machine::load(&other.save()), Ok(other));
    }
    assert!(refused > 0);
}
