//! A plain simulator of the four-core MIPS-86 controller.
//!
//! Written from the scope paper ("01"), the first five of the change requests
//! ("02"), the MIPS-86 report of 4 November 2013 ("000") and the settled
//! readings (docs/DECISIONS.md). Definition numbers in comments are those of
//! 000.

pub mod counts;
pub mod demand3;
pub mod disassemble;
pub mod generate;
pub mod groups;
pub mod groups_counts;
pub mod isa;
pub mod machine;
pub mod program;
pub mod reach;
pub mod refusals;
pub mod refusals_counts;
pub mod sides;
pub mod soundness;
pub mod texts;
pub mod texts_counts;
pub mod translate;
pub mod translations;
pub mod translations_counts;
pub mod vectors;
pub mod ways;

pub use disassemble::disassemble;
pub use machine::{make, run, step, Answer, Run, Stop, Why};
pub use reach::{apart, reach};
pub use soundness::{sound, Clause};
pub use translate::translate;
