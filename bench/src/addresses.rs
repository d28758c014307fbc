//! The machines and addresses on which translate is timed: one core and four, 256 pages, 64 addresses.

use crate::schedules::{machine, put, MODE, PTO, RIGHTS, SPR};
use mips86::{MOST_ADDRESSES, PAGE_BYTES};

const PAGES: usize = 256;
/// The first-level table, the first of the second-level ones, and the first page that the addresses lead to.
const FIRST: usize = 1;
const SECOND: usize = 2;
const DATA: usize = 128;

/// A machine, the core that is asked for, its addresses, and how many different entries they need.
pub struct Case {
    pub name: String,
    pub tables: Vec<u32>,
    pub memory: Vec<u8>,
    pub core: u32,
    pub addresses: Vec<u32>,
    pub reads: u32,
}

fn entry(page: usize) -> u32 {
    (page as u32) << 12 | 1 << 11 | RIGHTS << 8
}

/// The last core of so many is asked for. Address k has index `first(k)` in the first-level table, whose entry names
/// the table in page `table(k)`, and index k there.
fn case(name: &str, cores: usize, reads: u32, first: impl Fn(usize) -> usize, table: impl Fn(usize) -> usize) -> Case {
    let (mut tables, mut memory) = machine(cores, PAGES);
    let core = cores - 1;
    tables[256 * core + SPR + MODE] = 1;
    tables[256 * core + SPR + PTO] = (FIRST as u32) << 12;
    let mut addresses = Vec::new();
    for k in 0..MOST_ADDRESSES {
        put(&mut memory, FIRST * PAGE_BYTES + 4 * first(k), entry(table(k)));
        put(&mut memory, table(k) * PAGE_BYTES + 4 * k, entry(DATA + k));
        addresses.push((first(k) << 22 | k << 12) as u32);
    }
    let name = format!("translate: {name}, {cores} core{}", if cores == 1 { "" } else { "s" });
    Case { name, tables, memory, core: core as u32, addresses, reads }
}

/// 64 addresses of one region of 4 MiB; and of 64 regions, with as many second-level tables in consecutive pages, and
/// with one that all first-level entries name.
pub fn cases(cores: usize) -> [Case; 3] {
    [
        case("one region", cores, 65, |_| 0, |_| SECOND),
        case("64 regions, 64 tables", cores, 128, |k| k, |k| SECOND + k),
        case("64 regions, one table", cores, 128, |k| k, |_| SECOND),
    ]
}
