//! Where virtual addresses of a core lead.

use crate::{c, ANSWER_WORDS, MOST_ADDRESSES, REFUSED};

/// Where an address leads, by the page tables in memory alone. That it does is proved.
#[derive(Clone, Copy, Debug, PartialEq, Eq)]
pub enum Translation {
    /// To this page, which may lie anywhere, with the rights of the last entry: bit 0 write, bit 1 user, bit 2 execute.
    Mapped { page: u32, rights: u32 },
    /// To an entry that is not present, of a first-level table (2) or a second-level one (1).
    Absent { level: u32 },
    /// To an entry beyond memory, as one at a port is.
    Beyond,
}

/// Where some addresses lead.
#[derive(Clone, Debug, PartialEq, Eq)]
pub struct Translated {
    /// One for each address, in their order.
    pub translations: Vec<Translation>,
    /// How many different table entries, by address, all of them need, those beyond memory left out.
    pub reads: u32,
}

fn translation(answer: &[u32]) -> Translation {
    match *answer {
        [0, page, rights] => Translation::Mapped { page, rights },
        [1, level, _] => Translation::Absent { level },
        _ => Translation::Beyond,
    }
}

/// Where up to 64 virtual addresses of a core lead: fills three words an address, `0, page, rights`, `1, level, 0` or
/// `2, 0, 0` for the three kinds of [`Translation`]. Each address is followed by a walk of its own from the page in
/// pto; its low 12 bits say nothing. Neither the walks that the core holds nor accessed bits are looked at, nor whether
/// it runs, nor its mode. Ok is the number of different table entries that all of them need, those beyond memory left
/// out; each of them is read once. The error is the number of the refusal, 4, 14, 15 or 16, which leaves the answers.
/// It allocates nothing and uses some 2 KB of stack.
///
/// ```
/// use mips86::{make, table_words, translate_into, PAGE_BYTES};
///
/// let (mut tables, memory) = ([0; table_words(1)], [0; PAGE_BYTES]);
/// make(&mut tables, &memory, 1)?;
/// let mut answers = [0; 6];
/// assert_eq!(translate_into(&tables, &memory, 0, &[0x1234, 0x40_0000], &mut answers), Ok(2));
/// assert_eq!(answers, [1, 2, 0, 1, 2, 0]); // the table in page 0 is empty
/// assert_eq!(translate_into(&tables, &memory, 0, &[0x1234], &mut answers), Err(16)); // three words are wanted
/// # Ok::<(), u32>(())
/// ```
pub fn translate_into(
    tables: &[u32],
    memory: &[u8],
    core: u32,
    addresses: &[u32],
    answers: &mut [u32],
) -> Result<u32, u32> {
    let mut reads = 0;
    // SAFETY: as in `make`; `answers` is the only slice that is written, and `reads` is a local.
    let n = unsafe {
        c::mips86_translate(
            tables.as_ptr(),
            tables.len(),
            memory.as_ptr(),
            memory.len(),
            core,
            addresses.as_ptr(),
            addresses.len(),
            answers.as_mut_ptr(),
            answers.len(),
            &mut reads,
        )
    };
    match n {
        0 => Ok(reads),
        n => Err(n - REFUSED),
    }
}

/// Where up to 64 virtual addresses of a core lead, as a list; see [`translate_into`]. The error is the number of the
/// refusal, 4, 14 or 15.
pub fn translate(tables: &[u32], memory: &[u8], core: u32, addresses: &[u32]) -> Result<Translated, u32> {
    let mut words = [0; ANSWER_WORDS * MOST_ADDRESSES];
    // with more addresses the refusal is 4, 14 or 15, whatever the length of the answers
    let length = words.len().min(ANSWER_WORDS * addresses.len());
    let answers = &mut words[..length];
    let reads = translate_into(tables, memory, core, addresses, answers)?;
    Ok(Translated { translations: answers.chunks_exact(ANSWER_WORDS).map(translation).collect(), reads })
}
