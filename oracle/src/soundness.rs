//! Where each thing lies in the tables, and what sound tables are
//! (01, "The machine in lent memory"; block word 115 by request 5 of 02).

// Header words.
pub const CORES: usize = 0;
pub const PAGES: usize = 1;
pub const REFUSALS: usize = 2;
pub const LINES: usize = 3;
pub const IOREGSEL: usize = 4;
pub const IOWIN: usize = 5;
pub const REDIRECT: usize = 6;

// Words of a core's block.
pub const GPR: usize = 0;
pub const SPR: usize = 32;
pub const PC: usize = 64;
pub const HI: usize = 65;
pub const LO: usize = 66;
pub const RUNNING: usize = 67;
pub const STORES: usize = 68;
pub const WALKS: usize = 69;
pub const FREE: usize = 70;
pub const APIC: usize = 72;
pub const APIC_ID: usize = APIC;
pub const ICR_LOW: usize = APIC + 1;
pub const ICR_HIGH: usize = APIC + 2;
pub const EOI: usize = APIC + 3;
pub const ISR: usize = APIC + 4;
pub const IRR: usize = APIC + 12;
pub const EOIPENDING: usize = 104;
pub const SIPIRR: usize = 112;
pub const SIPIVECT: usize = 113;
pub const INITRR: usize = 114;
pub const CORE_REFUSALS: usize = 115;
pub const RECORDS: usize = 128;

// Special registers (table 5).
pub const SR: usize = SPR;
pub const ESR: usize = SPR + 1;
pub const ECA: usize = SPR + 2;
pub const EPC: usize = SPR + 3;
pub const EDATA: usize = SPR + 4;
pub const PTO: usize = SPR + 5;
pub const ASID: usize = SPR + 6;
pub const MODE: usize = SPR + 7;

pub const PAGE: usize = 4096;
pub const MAX_STORES: usize = 8;
pub const MAX_WALKS: usize = 23;

/// Table words for a number of cores.
pub fn table_words(cores: usize) -> usize {
    32 + 256 * cores
}

/// First word of the block of core k.
pub fn block(k: usize) -> usize {
    32 + 256 * k
}

/// First word of record n, in the block that starts at b.
pub fn record(b: usize, n: u32) -> usize {
    b + RECORDS + 4 * n as usize
}

/// Definitions 70 and 71.
pub fn in_apic(a: u32) -> bool {
    a.wrapping_sub(0xFFFF_F000) < 128
}

/// Definitions 72 and 73.
pub fn in_ioapic(a: u32) -> bool {
    a.wrapping_sub(0xFFFF_E000) < 8
}

/// A_dev of definition 75; there are no device ports here.
pub fn in_ports(a: u32) -> bool {
    in_apic(a) || in_ioapic(a)
}

/// All bytes of an access lie in memory.
pub fn in_memory(bytes: usize, a: u32, width: u32) -> bool {
    a as u64 + width as u64 <= bytes as u64
}

/// The clauses of soundness, for saying which one is broken.
#[derive(Clone, Copy, PartialEq, Eq, Debug, PartialOrd, Ord)]
pub enum Clause {
    Cores = 1,
    Pages,
    TableLength,
    MemoryLength,
    HeaderZeros,
    Lines,
    BlockWord71,
    BlockWords116,
    RecordZero,
    Register0,
    Running,
    Sipirr,
    Initrr,
    Sipivect,
    Head,
    Next,
    RecordTwice,
    RecordLost,
    NineStores,
    TooManyWalks,
    StoreWidth,
    StoreAligned,
    StoreHighBits,
    StorePlace,
    WalkLevel,
    WalkBit5,
    WalkBase,
    WalkLastWord,
    WalksEqual,
    FreeRecord,
}

pub const CLAUSES: [(Clause, &str); 30] = [
    (Clause::Cores, "cores not 1 to 4"),
    (Clause::Pages, "pages not 1 to 4096"),
    (Clause::TableLength, "table length"),
    (Clause::MemoryLength, "memory length"),
    (Clause::HeaderZeros, "header words 30 and 31"),
    (Clause::Lines, "lines above bit 23"),
    (Clause::BlockWord71, "block word 71"),
    (Clause::BlockWords116, "block words 116 to 127"),
    (Clause::RecordZero, "record 0 not zero"),
    (Clause::Register0, "general register 0"),
    (Clause::Running, "running not 0 or 1"),
    (Clause::Sipirr, "sipirr not 0 or 1"),
    (Clause::Initrr, "initrr not 0 or 1"),
    (Clause::Sipivect, "sipivect not below 256"),
    (Clause::Head, "head not 0 to 31"),
    (Clause::Next, "next record not 0 to 31"),
    (Clause::RecordTwice, "record met twice (ring or shared)"),
    (Clause::RecordLost, "record on no chain"),
    (Clause::NineStores, "more than 8 stores"),
    (Clause::TooManyWalks, "more than 23 walks"),
    (Clause::StoreWidth, "store width not 1, 2, 4"),
    (Clause::StoreAligned, "store not aligned"),
    (Clause::StoreHighBits, "unused high bits of a store's value"),
    (Clause::StorePlace, "store in neither memory nor ports"),
    (Clause::WalkLevel, "walk level 3"),
    (Clause::WalkBit5, "walk first word, bit 5"),
    (Clause::WalkBase, "walk base over 20 bits"),
    (Clause::WalkLastWord, "walk last word"),
    (Clause::WalksEqual, "two equal walks"),
    (Clause::FreeRecord, "free record not zero"),
];

/// Sound tables: Ok, or the first clause found broken.
pub fn sound(t: &[u32], m: &[u8]) -> Result<(), Clause> {
    // Header. Words 0 and 1 first: all else is read through them.
    if t.len() < 32 {
        return Err(Clause::TableLength);
    }
    if t[CORES] < 1 || t[CORES] > 4 {
        return Err(Clause::Cores);
    }
    if t[PAGES] < 1 || t[PAGES] > 4096 {
        return Err(Clause::Pages);
    }
    let cores = t[CORES] as usize;
    if t.len() != table_words(cores) {
        return Err(Clause::TableLength);
    }
    if m.len() != t[PAGES] as usize * PAGE {
        return Err(Clause::MemoryLength);
    }
    if t[30] != 0 || t[31] != 0 {
        return Err(Clause::HeaderZeros);
    }
    if t[LINES] >> 24 != 0 {
        return Err(Clause::Lines);
    }
    for k in 0..cores {
        sound_block(t, block(k), m.len())?;
    }
    Ok(())
}

fn sound_block(t: &[u32], b: usize, bytes: usize) -> Result<(), Clause> {
    if t[b + 71] != 0 {
        return Err(Clause::BlockWord71);
    }
    if t[b + 116..b + 128].iter().any(|&w| w != 0) {
        return Err(Clause::BlockWords116);
    }
    if t[b + RECORDS..b + RECORDS + 4].iter().any(|&w| w != 0) {
        return Err(Clause::RecordZero);
    }
    if t[b + GPR] != 0 {
        return Err(Clause::Register0);
    }
    if t[b + RUNNING] > 1 {
        return Err(Clause::Running);
    }
    if t[b + SIPIRR] > 1 {
        return Err(Clause::Sipirr);
    }
    if t[b + INITRR] > 1 {
        return Err(Clause::Initrr);
    }
    if t[b + SIPIVECT] > 255 {
        return Err(Clause::Sipivect);
    }

    // The three chains; bit n of `seen` says that record n was met.
    let mut seen = 0u32;
    let mut lengths = [0usize; 3];
    for (chain, head) in [STORES, WALKS, FREE].into_iter().enumerate() {
        let mut n = t[b + head];
        if n > 31 {
            return Err(Clause::Head);
        }
        while n != 0 {
            if seen >> n & 1 == 1 {
                return Err(Clause::RecordTwice);
            }
            seen |= 1 << n;
            lengths[chain] += 1;
            n = t[record(b, n)];
            if n > 31 {
                return Err(Clause::Next);
            }
        }
    }
    if seen != 0xFFFF_FFFE {
        return Err(Clause::RecordLost);
    }
    if lengths[0] > MAX_STORES {
        return Err(Clause::NineStores);
    }
    if lengths[1] > MAX_WALKS {
        return Err(Clause::TooManyWalks);
    }

    let mut n = t[b + STORES];
    while n != 0 {
        let r = record(b, n);
        let (address, value, width) = (t[r + 1], t[r + 2], t[r + 3]);
        if width != 1 && width != 2 && width != 4 {
            return Err(Clause::StoreWidth);
        }
        if address % width != 0 {
            return Err(Clause::StoreAligned);
        }
        if width < 4 && value >> (8 * width) != 0 {
            return Err(Clause::StoreHighBits);
        }
        // Aligned, so a store that starts in ports ends there.
        if !in_memory(bytes, address, width) && !in_ports(address) {
            return Err(Clause::StorePlace);
        }
        n = t[r];
    }

    let mut n = t[b + WALKS];
    while n != 0 {
        let r = record(b, n);
        if t[r + 1] >> 3 & 3 == 3 {
            return Err(Clause::WalkLevel);
        }
        if t[r + 1] >> 5 & 1 == 1 {
            return Err(Clause::WalkBit5);
        }
        if t[r + 2] >> 20 != 0 {
            return Err(Clause::WalkBase);
        }
        if t[r + 3] != 0 {
            return Err(Clause::WalkLastWord);
        }
        let mut other = t[r];
        while other != 0 {
            let o = record(b, other);
            if t[o + 1] == t[r + 1] && t[o + 2] == t[r + 2] {
                return Err(Clause::WalksEqual);
            }
            other = t[o];
        }
        n = t[r];
    }

    let mut n = t[b + FREE];
    while n != 0 {
        let r = record(b, n);
        if t[r + 1] != 0 || t[r + 2] != 0 || t[r + 3] != 0 {
            return Err(Clause::FreeRecord);
        }
        n = t[r];
    }
    Ok(())
}
