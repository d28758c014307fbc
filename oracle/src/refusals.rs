//! Small machines for the steps file whose refusal counts are near their
//! largest, and steps of which most are refused (request 5 of 02).

use crate::generate::Rng;
use crate::machine::*;
use crate::sides::Board;
use crate::soundness::*;
use crate::vectors::Machine;

/// Word 115 of each block and, where it is 0, header word 2. The tables may
/// be damaged, so blocks are those that the length has room for.
pub fn draw_counts(rng: &mut Rng, t: &mut [u32]) {
    for b in (block(0)..t.len()).step_by(256) {
        if let Some(count) = t.get_mut(b + CORE_REFUSALS) {
            *count = rng.count();
        }
    }
    if t.get(REFUSALS) == Some(&0) {
        t[REFUSALS] = rng.count();
    }
}

/// A machine of one page and a few steps. Core 0 runs in system mode through
/// zeros, which do nothing; one core is brought near a refusal or a reset.
pub fn refusals(rng: &mut Rng) -> (Machine, Vec<[u32; 6]>) {
    let cores = 1 + rng.below(4);
    let mut board = Board::new(cores as usize, 1);
    let core = rng.below(cores);
    let b = block(core as usize);
    let walk = near(rng, &mut board, core as usize);
    draw_counts(rng, &mut board.t);
    if rng.chance(60) {
        board.t[b + CORE_REFUSALS] = rng.pick(&[0xFFFF_FFFF, 0xFFFF_FFFE]);
    }
    if rng.chance(60) {
        board.t[REFUSALS] = rng.pick(&[0xFFFF_FFFF, 0xFFFF_FFFE]);
    }
    let schedule = (0..2 + rng.below(5)).map(|_| aimed(rng, cores, core, walk)).collect();
    let machine = Machine { cores: cores as u8, pages: 1, damage: 0, tables: board.t, memory: board.m };
    (machine, schedule)
}

/// Brings core k near some refusals, and gives a walk to name.
fn near(rng: &mut Rng, board: &mut Board, k: usize) -> Walk {
    let b = block(k);
    board.t[b + RUNNING] = 1;
    match rng.below(6) {
        // 6: not running, but to be reset and started.
        0 => {
            board.t[b + RUNNING] = rng.below(2);
            board.t[b + INITRR] = 1;
            board.t[b + SIPIRR] = 1;
        }
        // 7: the fetch.
        1 => board.t[b + PC] = rng.pick(&[0x1000, 0x8000_0000]),
        // 7: the entry of a walk.
        2 => {
            board.t[b + MODE] = 1;
            let walk = Walk::new(rng.below(4), 0, 1 + rng.below(2), 7, rng.pick(&[1, 0xFFFFF]));
            board.hold(k, walk);
            return walk;
        }
        // 8: sw r0 r0 0x100 with eight stores pending.
        3 => {
            board.put(0, 0xAC00_0100);
            (0..8).for_each(|n| board.pend(k, 0x200 + 4 * n, 0, 4));
        }
        // 9: 23 walks, and the entry of the first is accessed.
        4 => {
            board.t[b + MODE] = 1;
            board.put(0, 0x0000_0F80);
            (0..23).for_each(|va| board.hold(k, Walk::new(va, 0, 2, 7, 0)));
            return Walk::new(0, 0, 2, 7, 0);
        }
        // 1: a misaligned pc interrupts.
        _ => board.t[b + PC] = rng.below(4),
    }
    Walk { first: rng.below(64), base: 0 }
}

/// A step that is likely to be refused, mostly of this core.
fn aimed(rng: &mut Rng, cores: u32, core: u32, walk: Walk) -> [u32; 6] {
    let any = rng.word();
    let not_there = rng.pick(&[cores, cores, 4, 24, 255, 256, 0x8000_0000, 0xFFFF_FFFF, any | 1 << 16]);
    let who = if rng.chance(75) { core } else { not_there };
    let line = if rng.chance(85) { rng.below(4) } else { rng.pick(&[4, 22, 23, 24, 25, 0xFFFF_FFFF]) };
    let kind = rng.below(9);
    let stray = 2 + rng.below(4) as usize;
    let mut s = match rng.below(16) {
        // A step of each kind, all words right.
        0..=6 => match kind {
            0 => [0, who, walk.first, walk.base, any, 0],
            1 => [1, who, 0x80 + rng.below(9), 0, 0, 0],
            2 => [2, who, walk.first, walk.base, rng.below(8), 0],
            3 => [3, who, walk.first, walk.base, 0, 0],
            _ => [kind, who, 0, 0, 0, 0],
        },
        // Misformed.
        7 => [1, who, rng.pick(&[0x10_0000, 0xFFFF_FFFF, any | 1 << 31]), 0, 0, 0],
        8 => [2, who, walk.first, walk.base, rng.pick(&[8, 15, 0xFFFF_FFFF, any | 1 << 31]), 0],
        9 | 10 => [kind, who, 0, 0, 0, 0],
        // Lines.
        11 | 12 => [9 + rng.below(3), line, 0, 0, 0, 0],
        13 => [11, line, rng.pick(&[0, 1, 2, 3, 0xFFFF_FFFF]), 0, 0, 0],
        // No kind.
        _ => [rng.pick(&[12, 13, 14, 15, 16, 256, 0x8000_0000, 0xFFFF_FFFF]), who, 0, 0, 0, 0],
    };
    if matches!(s[0], 1..=11) && rng.chance(25) {
        s[stray] = rng.pick(&[1, 0xFF, 0x8000_0000, any]);
    }
    s
}
