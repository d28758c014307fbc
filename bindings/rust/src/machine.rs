//! A machine that owns its tables and its memory.

use crate::{apart, core_refusals, make, reach, reasons, run, step, table_words, translate, why};
use crate::{Answer, Ran, Reason, Translated, PAGE_BYTES, REFUSALS, STEP_WORDS};
use std::fmt;

/// A machine: its table words and its memory bytes, which are all of it.
///
/// ```
/// use mips86::{Answer, Machine};
///
/// let mut m = Machine::make(1, 1)?;
/// assert_eq!(m.step([11, 3, 1, 0, 0, 0]), Answer::Done); // line 3 rises
/// assert_eq!(m.step([4, 0, 0, 0, 0, 0]), Answer::Refused(6)); // no store is pending
/// # Ok::<(), u32>(())
/// ```
#[derive(Clone, Debug, PartialEq, Eq)]
pub struct Machine {
    pub tables: Vec<u32>,
    pub memory: Vec<u8>,
}

/// What a group of cores reaches.
#[derive(Clone, Debug, PartialEq, Eq)]
pub struct Reach {
    /// A byte a page: the sum of `DATA`, `TABLE` and `WRITABLE`.
    pub map: Vec<u8>,
    /// A page beyond memory is reached.
    pub beyond: bool,
}

/// Why some bytes are no machine.
#[derive(Clone, Copy, Debug, PartialEq, Eq)]
pub enum LoadError {
    /// They end before the machine does. The first two words say how long it is; without them, 8 bytes are wanted.
    Short { have: usize, want: usize },
    /// Bytes follow the machine.
    Long { have: usize, want: usize },
    /// Word 0 is not 1 to 4.
    Cores(u32),
    /// Word 1 is not 1 to 4,096.
    Pages(u32),
}

impl fmt::Display for LoadError {
    fn fmt(&self, f: &mut fmt::Formatter<'_>) -> fmt::Result {
        match *self {
            LoadError::Short { have, want } => write!(f, "{have} bytes, where the machine has {want}"),
            LoadError::Long { have, want } => write!(f, "{have} bytes, and the machine ends after {want}"),
            LoadError::Cores(n) => write!(f, "word 0 says {n} cores, not 1 to 4"),
            LoadError::Pages(n) => write!(f, "word 1 says {n} pages, not 1 to 4096"),
        }
    }
}

impl std::error::Error for LoadError {}

impl Machine {
    /// A machine as it is after reset, its memory zero. The error is the number of the refusal: 1 for cores that are not
    /// 1 to 4, 2 for pages that are not 1 to 4,096.
    pub fn make(cores: u32, pages: usize) -> Result<Machine, u32> {
        if !(1..=4).contains(&cores) {
            return Err(1);
        }
        if !(1..=4096).contains(&pages) {
            return Err(2);
        }
        let mut m = Machine { tables: vec![0; table_words(cores as usize)], memory: vec![0; PAGE_BYTES * pages] };
        make(&mut m.tables, &m.memory, cores)?;
        Ok(m)
    }

    /// Takes one step.
    pub fn step(&mut self, words: [u32; STEP_WORDS]) -> Answer {
        step(&mut self.tables, &mut self.memory, &words)
    }

    /// Takes the steps of a schedule, at most 1,024: to its end, until `limit` steps are accepted, or up to and with the
    /// first that is refused.
    ///
    /// ```
    /// use mips86::{Machine, Ran, Stop};
    ///
    /// let mut m = Machine::make(2, 4)?;
    /// let schedule = [[11, 0, 1, 0, 0, 0], [11, 1, 1, 0, 0, 0]];
    /// assert_eq!(m.run(&schedule, 8), Ran { accepted: 2, stop: Stop::End });
    /// # Ok::<(), u32>(())
    /// ```
    pub fn run(&mut self, schedule: &[[u32; STEP_WORDS]], limit: u32) -> Ran {
        run(&mut self.tables, &mut self.memory, schedule.as_flattened(), limit)
    }

    /// How many steps of a core were refused: those of kinds 0 to 8 that name it, whatever the refusal but 4, single or
    /// in a run. It stays at `u32::MAX`, and a reset of the core keeps it. None where the tables have no such core.
    ///
    /// ```
    /// use mips86::Machine;
    ///
    /// let mut m = Machine::make(2, 1)?;
    /// m.step([4, 1, 0, 0, 0, 0]); // no store of core 1 is pending
    /// m.step([4, 1, 9, 0, 0, 0]); // a store buffer step has no word 2
    /// m.step([4, 2, 0, 0, 0, 0]); // there is no core 2
    /// assert_eq!((m.core_refusals(0), m.core_refusals(1), m.refusals()), (Some(0), Some(2), 1));
    /// assert_eq!(m.core_refusals(2), None);
    /// # Ok::<(), u32>(())
    /// ```
    pub fn core_refusals(&self, core: usize) -> Option<u32> {
        if core >= 4 {
            return None;
        }
        self.tables.get(core_refusals(core)).copied()
    }

    /// How many steps were refused that no core counts: those of a core that is not there and of kinds 9 and above, and
    /// calls of more or fewer than six words. It stays at `u32::MAX`. 0 where the tables have no such word.
    pub fn refusals(&self) -> u32 {
        self.tables.get(REFUSALS).copied().unwrap_or(0)
    }

    /// The pages that a group of cores reaches. The error is the number of the refusal: 4 where the tables are not
    /// sound, 13 where the group is empty or names a core that is not there.
    ///
    /// ```
    /// use mips86::{Machine, TABLE};
    ///
    /// let r = Machine::make(1, 2)?.reach(0b1)?;
    /// assert_eq!((r.map, r.beyond), (vec![TABLE, 0], false)); // pto names page 0
    /// # Ok::<(), u32>(())
    /// ```
    pub fn reach(&self, group: u32) -> Result<Reach, u32> {
        let mut map = vec![0; self.memory.len() / PAGE_BYTES];
        let beyond = reach(&self.tables, &self.memory, group, &mut map)?;
        Ok(Reach { map, beyond })
    }

    /// Is the group kept apart from the other running cores? See [`apart`](crate::apart()) for what a yes promises.
    ///
    /// ```
    /// use mips86::Machine;
    ///
    /// let m = Machine::make(1, 1)?;
    /// assert_eq!(m.apart(0b1), Ok(false)); // its core is in system mode
    /// assert_eq!(m.apart(0b10), Err(13)); // there is no core 1
    /// # Ok::<(), u32>(())
    /// ```
    pub fn apart(&self, group: u32) -> Result<bool, u32> {
        apart(&self.tables, &self.memory, group)
    }

    /// Why the group is not apart: the first reason, none exactly where `apart` says yes.
    ///
    /// ```
    /// use mips86::{Machine, Reason};
    ///
    /// let m = Machine::make(1, 1)?;
    /// assert_eq!(m.why(0b1)?, Some(Reason::NotUser(0)));
    /// # Ok::<(), u32>(())
    /// ```
    pub fn why(&self, group: u32) -> Result<Option<Reason>, u32> {
        why(&self.tables, &self.memory, group)
    }

    /// All reasons, at most one for each condition and side, in their order.
    ///
    /// ```
    /// use mips86::{Machine, Reason};
    ///
    /// assert_eq!(Machine::make(1, 1)?.reasons(0b1)?, [Reason::NotUser(0)]);
    /// # Ok::<(), u32>(())
    /// ```
    pub fn reasons(&self, group: u32) -> Result<Vec<Reason>, u32> {
        reasons(&self.tables, &self.memory, group)
    }

    /// Where up to 64 virtual addresses of a core lead, by the page tables in memory alone, and how many table entries
    /// that takes. The error is the number of the refusal: 4 where the tables are not sound, 14 where the core is not
    /// there, 15 where there are more than 64 addresses.
    ///
    /// ```
    /// use mips86::{Machine, Translation};
    ///
    /// let entry = |page: u32, rights: u32| (page << 12 | 1 << 11 | rights << 8).to_le_bytes();
    /// let mut m = Machine::make(1, 4)?; // pto names page 0
    /// m.memory[..4].copy_from_slice(&entry(1, 0b111)); // entry 0 there names page 1
    /// m.memory[4096..4100].copy_from_slice(&entry(3, 0b011)); // and entry 0 of that one page 3
    /// let t = m.translate(0, &[0x123, 0x1000, 0x40_0000])?;
    /// let mapped = Translation::Mapped { page: 3, rights: 0b011 };
    /// assert_eq!(t.translations, [mapped, Translation::Absent { level: 1 }, Translation::Absent { level: 2 }]);
    /// assert_eq!(t.reads, 4); // two in each table
    /// assert_eq!(m.translate(1, &[]), Err(14)); // there is no core 1
    /// # Ok::<(), u32>(())
    /// ```
    pub fn translate(&self, core: u32, addresses: &[u32]) -> Result<Translated, u32> {
        translate(&self.tables, &self.memory, core, addresses)
    }

    /// The machine as bytes: its table words, low byte first, then its memory.
    ///
    /// ```
    /// use mips86::Machine;
    ///
    /// let bytes = Machine::make(1, 1)?.save();
    /// assert_eq!(bytes.len(), 4 * (32 + 256) + 4096);
    /// assert_eq!(&bytes[..8], &[1, 0, 0, 0, 1, 0, 0, 0]);
    /// # Ok::<(), u32>(())
    /// ```
    pub fn save(&self) -> Vec<u8> {
        let words = self.tables.iter().flat_map(|w| w.to_le_bytes());
        words.chain(self.memory.iter().copied()).collect()
    }

    /// The machine that some bytes are, as `save` writes them. Their number follows from the first two words; whether the
    /// tables are sound is not asked, since every operation asks it.
    ///
    /// ```
    /// use mips86::{LoadError, Machine};
    ///
    /// let m = Machine::make(4, 2)?;
    /// let bytes = m.save();
    /// assert_eq!(Machine::load(&bytes), Ok(m));
    /// assert_eq!(Machine::load(&bytes[..7]), Err(LoadError::Short { have: 7, want: 8 }));
    /// # Ok::<(), u32>(())
    /// ```
    pub fn load(bytes: &[u8]) -> Result<Machine, LoadError> {
        let have = bytes.len();
        let word = |i: usize| u32::from_le_bytes([bytes[i], bytes[i + 1], bytes[i + 2], bytes[i + 3]]);
        if have < 8 {
            return Err(LoadError::Short { have, want: 8 });
        }
        let (cores, pages) = (word(0), word(4));
        if !(1..=4).contains(&cores) {
            return Err(LoadError::Cores(cores));
        }
        if !(1..=4096).contains(&pages) {
            return Err(LoadError::Pages(pages));
        }
        let split = 4 * table_words(cores as usize);
        let want = split + PAGE_BYTES * pages as usize;
        if have < want {
            return Err(LoadError::Short { have, want });
        }
        if have > want {
            return Err(LoadError::Long { have, want });
        }
        let tables = (0..split).step_by(4).map(word).collect();
        Ok(Machine { tables, memory: bytes[split..].to_vec() })
    }
}
