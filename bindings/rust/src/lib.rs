//! The MIPS-86 machine with one to four cores, for Rust: make a machine, take one step, run a schedule; which pages a
//! group of cores reaches, whether the group is kept apart from the others, and why it is not; where virtual addresses
//! of a core lead; the text of an instruction word.
//!
//! [`Machine`] owns a machine's tables and memory; the functions are for a caller who lends them, and those of texts need
//! no machine. All of a machine is in the two: nothing is kept between calls. Every call is safe with any words and
//! bytes, since the functions ask nothing but sound references. What each operation answers and does to what it is lent
//! is proved in Rattle (crates/mips86); `../../include/mips86.h` has the layout, the kinds of step and the refusals in short.

mod disassemble;
mod machine;
mod translate;
mod why;

pub use disassemble::{disassemble, disassemble_into, disassembled};
pub use machine::{LoadError, Machine, Reach};
pub use translate::{translate, translate_into, Translated, Translation};
pub use why::{reasons, why, Reason, Root, Side, Way};

/// Bytes of a page of memory.
pub const PAGE_BYTES: usize = 4096;
/// Words of a step.
pub const STEP_WORDS: usize = 6;
/// The most steps of a schedule.
pub const MOST_STEPS: usize = 1024;
/// The most addresses of one translation.
pub const MOST_ADDRESSES: usize = 64;
/// Words of the answer for an address.
pub const ANSWER_WORDS: usize = 3;
/// Bytes of the buffer for the text of an instruction word.
pub const TEXT_BYTES: usize = 32;

/// In a map's byte: the page is named by a present entry of a second-level table, by a complete walk or by a pending
/// store.
pub const DATA: u8 = 1;
/// In a map's byte: the page is named by pto, by a present entry of a first-level table or by a walk that is not
/// complete.
pub const TABLE: u8 = 2;
/// In a map's byte, besides `DATA`: an entry or walk that names the page grants write, or a pending store goes there.
pub const WRITABLE: u8 = 4;

/// Words of the tables of a machine with so many cores.
pub const fn table_words(cores: usize) -> usize {
    32 + 256 * cores
}

/// The word of the tables that counts the refusals that no core counts, see [`step`].
pub const REFUSALS: usize = 2;

/// The word of the tables that counts the refusals of a core, 0 to 3, see [`step`].
pub const fn core_refusals(core: usize) -> usize {
    32 + 256 * core + 115
}

/// What a step answers.
#[derive(Clone, Copy, Debug, PartialEq, Eq)]
pub enum Answer {
    Done,
    /// A core took an interrupt of this level, 0 to 7.
    Interrupt(u32),
    /// The number of the refusal, 4 to 10.
    Refused(u32),
}

/// Why a run stopped.
#[derive(Clone, Copy, Debug, PartialEq, Eq)]
pub enum Stop {
    /// The end of the schedule.
    End,
    /// The limit is spent.
    Limit,
    /// The number of the refusal: 4 and 11 before any step, 5 to 10 of a step.
    Refused(u32),
}

/// How many steps a run accepted, and why it stopped.
#[derive(Clone, Copy, Debug, PartialEq, Eq)]
pub struct Ran {
    pub accepted: u32,
    pub stop: Stop,
}

mod c {
    extern "C" {
        pub fn mips86_make(tables: *mut u32, ntables: usize, memory: *const u8, nmemory: usize, cores: u32) -> u32;
        pub fn mips86_step(
            tables: *mut u32,
            ntables: usize,
            memory: *mut u8,
            nmemory: usize,
            step: *const u32,
            nstep: usize,
        ) -> u32;
        pub fn mips86_run(
            tables: *mut u32,
            ntables: usize,
            memory: *mut u8,
            nmemory: usize,
            schedule: *const u32,
            nschedule: usize,
            limit: u32,
            accepted: *mut u32,
        ) -> u32;
        pub fn mips86_reach(
            tables: *const u32,
            ntables: usize,
            memory: *const u8,
            nmemory: usize,
            group: u32,
            map: *mut u8,
            nmap: usize,
            beyond: *mut u32,
        ) -> u32;
        pub fn mips86_apart(tables: *const u32, ntables: usize, memory: *const u8, nmemory: usize, group: u32) -> u32;
        pub fn mips86_why(
            tables: *const u32,
            ntables: usize,
            memory: *const u8,
            nmemory: usize,
            group: u32,
            after: u32,
            words: *mut u32,
            nwords: usize,
        ) -> u32;
        pub fn mips86_translate(
            tables: *const u32,
            ntables: usize,
            memory: *const u8,
            nmemory: usize,
            core: u32,
            addresses: *const u32,
            naddresses: usize,
            answers: *mut u32,
            nanswers: usize,
            reads: *mut u32,
        ) -> u32;
        pub fn mips86_disassemble(word: u32, text: *mut u8, ntext: usize) -> u32;
    }
}

/// A refusal is 100 plus its number.
const REFUSED: u32 = 100;

/// Makes a machine of so many cores as it is after reset. Fills the tables and leaves the memory. The error is the
/// number of the refusal, 1 to 3, which writes nothing.
pub fn make(tables: &mut [u32], memory: &[u8], cores: u32) -> Result<(), u32> {
    // SAFETY: a slice's pointer is not null, is aligned and is good for its length, and what `tables` refers to
    // overlaps nothing else. The same holds below.
    let n = unsafe { c::mips86_make(tables.as_mut_ptr(), tables.len(), memory.as_ptr(), memory.len(), cores) };
    match n {
        0 => Ok(()),
        n => Err(n - REFUSED),
    }
}

/// Takes one step of six words. Every refusal but 4 is counted: in the word [`core_refusals`] of the core that a step
/// of kind 0 to 8 names, and in the word [`REFUSALS`] where that core is not there and for all other calls.
pub fn step(tables: &mut [u32], memory: &mut [u8], step: &[u32]) -> Answer {
    // SAFETY: as in `make`.
    let n = unsafe {
        c::mips86_step(tables.as_mut_ptr(), tables.len(), memory.as_mut_ptr(), memory.len(), step.as_ptr(), step.len())
    };
    match n {
        0 => Answer::Done,
        1..=8 => Answer::Interrupt(n - 1),
        n => Answer::Refused(n - REFUSED),
    }
}

/// Takes the steps of a schedule, six words each: to its end, until `limit` steps are accepted, or up to and with the
/// first that is refused, which is counted as a single step is.
pub fn run(tables: &mut [u32], memory: &mut [u8], schedule: &[u32], limit: u32) -> Ran {
    let mut accepted = 0;
    // SAFETY: as in `make`; `accepted` is a local.
    let n = unsafe {
        c::mips86_run(
            tables.as_mut_ptr(),
            tables.len(),
            memory.as_mut_ptr(),
            memory.len(),
            schedule.as_ptr(),
            schedule.len(),
            limit,
            &mut accepted,
        )
    };
    let stop = match n {
        0 => Stop::End,
        1 => Stop::Limit,
        n => Stop::Refused(n - REFUSED),
    };
    Ran { accepted, stop }
}

/// Fills the map, one byte a page, with what each page is for a group of cores: the sum of `DATA`, `TABLE` and
/// `WRITABLE`, 0 where the group does not reach it. Bit n of `group` stands for core n; its cores count in any mode,
/// whether or not they run. Ok says whether a page beyond memory is reached; the map is filled in both cases. The error
/// is the number of the refusal, 4, 12 or 13, which leaves the map.
pub fn reach(tables: &[u32], memory: &[u8], group: u32, map: &mut [u8]) -> Result<bool, u32> {
    let mut beyond = 0;
    // SAFETY: as in `make`; `map` is the only slice that is written, and `beyond` is a local.
    let n = unsafe {
        c::mips86_reach(
            tables.as_ptr(),
            tables.len(),
            memory.as_ptr(),
            memory.len(),
            group,
            map.as_mut_ptr(),
            map.len(),
            &mut beyond,
        )
    };
    match n {
        0 => Ok(beyond == 1),
        n => Err(n - REFUSED),
    }
}

/// Is the group kept apart from the rest, the other running cores? A yes promises that the group gets the same answers
/// and sees the same state after each of its steps, whatever the others hold and do, in lists of single steps of kinds
/// 0 to 4, each core up to its first interrupt (`../../include/mips86.h` says it in full). The error is the number of
/// the refusal, 4 or 13. It uses some 33 KB of stack.
pub fn apart(tables: &[u32], memory: &[u8], group: u32) -> Result<bool, u32> {
    // SAFETY: as in `make`; nothing is written.
    let n = unsafe { c::mips86_apart(tables.as_ptr(), tables.len(), memory.as_ptr(), memory.len(), group) };
    match n {
        0 => Ok(false),
        1 => Ok(true),
        n => Err(n - REFUSED),
    }
}
