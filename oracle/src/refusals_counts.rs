//! Where refused steps are counted, by request 5 of 02: the last tables of
//! the steps file in README.md.

use crate::counts::{Counts, KINDS};
use crate::machine::*;
use crate::soundness::*;
use crate::vectors::Vector;
use std::fmt::Write;

const TOP: u32 = u32::MAX;

/// Kinds 0 to 8 take a core.
const CORE_KINDS: usize = 9;

/// What kinds 0 to 8 meet; the last row is of accepted steps.
const BY_KIND: [&str; 14] = [
    "word 115, refused 5",
    "word 115, refused 6",
    "word 115, refused 7",
    "word 115, refused 8",
    "word 115, refused 9",
    "word 115, refused 10",
    "word 115 of core 0",
    "word 115 of core 1",
    "word 115 of core 2",
    "word 115 of core 3",
    "word 115, one below the largest, reaches it",
    "word 115, at the largest, stays",
    "header word 2, no such core",
    "(accepted, word 115 not 0)",
];

/// The kinds that can meet such a row.
fn kinds_of(row: &str) -> &'static [usize] {
    match row {
        "word 115, refused 5" => &[1, 2, 3, 4, 5, 6, 7, 8], // the words of a core step are free
        "word 115, refused 7" => &[0, 2, 3],
        "word 115, refused 8" => &[0],
        "word 115, refused 9" => &[1, 2],
        "word 115, refused 10" => &[], // sound tables have a free record where one is needed
        _ => &[0, 1, 2, 3, 4, 5, 6, 7, 8],
    }
}

/// Why a step is refused, and where that is counted.
const CAUSES: [(&str, &str); 17] = [
    ("5, va over 20 bits", "its core"),
    ("5, rights over 3 bits", "its core"),
    ("5, stray word", "its core"),
    ("6, kinds 0 to 8", "its core"),
    ("7", "its core"),
    ("8", "its core"),
    ("9", "its core"),
    ("5, no such core, all else right", "header"),
    ("5, no such core, va over 20 bits", "header"),
    ("5, no such core, rights over 3 bits", "header"),
    ("5, no such core, stray word", "header"),
    ("5, no such line", "header"),
    ("5, line level not 0 or 1", "header"),
    ("5, stray word, kinds 9 to 11", "header"),
    ("6, kinds 9 and 10", "header"),
    ("5, no such kind, second word a core", "header"),
    ("5, no such kind, second word no core", "header"),
];

/// The count before such a step.
const BEFORE: [&str; 3] = ["further below", "one below the largest", "at the largest"];

const LINE_KINDS: [usize; 3] = [9, 10, 11];

const VALUES: [&str; 5] = ["0", "1", "FFFFFFFE", "FFFFFFFF", "others"];

const FACTS: [&str; 17] = [
    "INIT done, word 115 of its core not 0",
    "INIT done, word 115 of its core at the largest",
    "INIT done, word 115 of another core not 0",
    "start of a core done, word 115 of its core not 0",
    "start of a core done, word 115 of its core at the largest",
    "start of a core done, word 115 of another core not 0",
    "core step interrupted, word 115 of its core not 0",
    "word 115 one below the largest, reaches it",
    "word 115 at the largest, stays",
    "word 115 counts, header word 2 at the largest",
    "header word 2 one below the largest, reaches it",
    "header word 2 at the largest, stays",
    "header word 2 counts, some word 115 at the largest",
    "refused 4, kinds 0 to 8 with a core that is there",
    "refused 4, another step",
    "run stops by a refusal counted in word 115",
    "run stops by a refusal counted in header word 2",
];

/// The row of CAUSES for a step that is refused 5 to 9.
fn cause(cores: u32, s: &[u32; 6], why: Why) -> &'static str {
    let of_core = s[0] <= 8;
    let place = match why {
        Why::Va => 0,
        Why::Rights => 1,
        Why::StrayWord if of_core => 2,
        _ if of_core && why.number() > 5 => why.number() as usize - 3,
        Why::Core => match beside_the_core(s) {
            Some(Why::Va) => 8,
            Some(Why::Rights) => 9,
            Some(Why::StrayWord) => 10,
            _ => 7,
        },
        Why::Line => 11,
        Why::Level => 12,
        Why::StrayWord => 13,
        Why::Kind if s[1] < cores => 15,
        Why::Kind => 16,
        _ => 14,
    };
    CAUSES[place].0
}

/// What would be wrong with the form if the core were there.
fn beside_the_core(s: &[u32; 6]) -> Option<Why> {
    let (mut t, mut m) = (vec![0; table_words(1)], vec![0; PAGE]);
    make(1, &mut t, &m).expect("in range");
    match step(false, &mut t, &mut m, &[s[0], 0, s[2], s[3], s[4], s[5]]) {
        Answer::Refused(why) if why.number() == 5 => Some(why),
        _ => None,
    }
}

fn value(count: u32) -> &'static str {
    match count {
        0 => VALUES[0],
        1 => VALUES[1],
        0xFFFF_FFFE => VALUES[2],
        TOP => VALUES[3],
        _ => VALUES[4],
    }
}

impl Counts {
    fn refusal_fact(&mut self, name: &'static str) {
        debug_assert!(FACTS.contains(&name), "{name}");
        self.add("refusal fact", name);
    }

    /// The counts that a sound machine starts with, and what stops its run.
    pub(crate) fn refusals_of(&mut self, v: &Vector) {
        let t = &v.machine.tables;
        if v.machine.damage != 0 {
            return;
        }
        self.add("refusal value", &format!("{}/header word 2", value(t[REFUSALS])));
        for k in 0..t[CORES] as usize {
            self.add("refusal value", &format!("{}/word 115", value(t[block(k) + CORE_REFUSALS])));
        }
        if v.run.stop >= 100 {
            let stopped_by = &v.steps[v.run.accepted as usize].words;
            self.refusal_fact(match refusal_count(t[CORES], stopped_by) {
                REFUSALS => "run stops by a refusal counted in header word 2",
                _ => "run stops by a refusal counted in word 115",
            });
        }
    }

    /// Counts one step, given the tables before it.
    pub(crate) fn refusal(&mut self, t0: &[u32], s: &[u32; 6], answer: Answer) {
        let cores = t0.first().copied().unwrap_or(0);
        let own = s[0] <= 8 && s[1] < cores; // a step of a core that is there
        if answer == Answer::Refused(Why::NotSound) {
            let of_core = "refused 4, kinds 0 to 8 with a core that is there";
            return self.refusal_fact(if own { of_core } else { "refused 4, another step" });
        }
        let count = t0[refusal_count(cores, s)];
        let word = |k: usize| t0[block(k) + CORE_REFUSALS];
        let by_kind = |row: &str| format!("{}/{row}", s[0]);
        if let Answer::Refused(why) = answer {
            let before = match count {
                TOP => 2,
                0xFFFF_FFFE => 1,
                _ => 0,
            };
            self.add("refused for", &format!("{}/{}", cause(cores, s, why), BEFORE[before]));
            if own {
                self.add("refused by", &by_kind(&format!("word 115, refused {}", why.number())));
                self.add("refused by", &by_kind(&format!("word 115 of core {}", s[1])));
                if before > 0 {
                    self.add("refused by", &by_kind(BY_KIND[9 + before]));
                    self.refusal_fact(FACTS[6 + before]);
                }
                if t0[REFUSALS] == TOP {
                    self.refusal_fact("word 115 counts, header word 2 at the largest");
                }
            } else {
                match s[0] {
                    0..=8 => self.add("refused by", &by_kind("header word 2, no such core")),
                    9..=11 if s[1] < cores => self.add("refused line", &by_kind(&s[1].to_string())),
                    _ => {}
                }
                if before > 0 {
                    self.refusal_fact(FACTS[9 + before]);
                }
                if (0..cores as usize).any(|k| word(k) == TOP) {
                    self.refusal_fact("header word 2 counts, some word 115 at the largest");
                }
            }
        } else if own {
            if count != 0 {
                self.add("refused by", &by_kind("(accepted, word 115 not 0)"));
            }
            let other = (0..cores as usize).any(|k| k != s[1] as usize && word(k) != 0);
            let facts = match s[0] {
                7 => &FACTS[..3],
                8 => &FACTS[3..6],
                _ if answer != Answer::Done && count != 0 => return self.refusal_fact(FACTS[6]),
                _ => return,
            };
            for (fact, holds) in facts.iter().zip([count != 0, count == TOP, other]) {
                if holds {
                    self.refusal_fact(fact);
                }
            }
        }
    }

    /// Every (section, name) of these tables that must occur.
    pub fn expected_refusals() -> Vec<(&'static str, String)> {
        let mut all = Vec::new();
        for row in BY_KIND {
            all.extend(kinds_of(row).iter().map(|kind| ("refused by", format!("{kind}/{row}"))));
        }
        for (cause, _) in CAUSES {
            all.extend(BEFORE.map(|before| ("refused for", format!("{cause}/{before}"))));
        }
        for kind in LINE_KINDS {
            all.extend((0..4).map(|line| ("refused line", format!("{kind}/{line}"))));
        }
        for value in VALUES {
            all.extend(["word 115", "header word 2"].map(|word| ("refusal value", format!("{value}/{word}"))));
        }
        all.extend(FACTS.map(|fact| ("refusal fact", fact.to_string())));
        all
    }

    pub(crate) fn print_refusals(&self) -> String {
        let mut out = String::new();
        let o = &mut out;
        let cells = |row: Vec<Option<u64>>| {
            row.iter().map(|n| n.map_or(" |".into(), |n| format!(" {n} |"))).collect::<String>()
        };
        writeln!(o, "\n| a refused step counts in | {} |", KINDS[..CORE_KINDS].join(" | ")).unwrap();
        writeln!(o, "|---|{}", "---|".repeat(CORE_KINDS)).unwrap();
        for row in BY_KIND {
            let cell = |kind| kinds_of(row).contains(&kind).then(|| self.get("refused by", &format!("{kind}/{row}")));
            writeln!(o, "| {row} |{}", cells((0..CORE_KINDS).map(cell).collect())).unwrap();
        }
        writeln!(o, "\n| refused, by the count before | counted in | {} |", BEFORE.join(" | ")).unwrap();
        writeln!(o, "|---|---|---|---|---|").unwrap();
        for (cause, place) in CAUSES {
            let row = BEFORE.map(|before| Some(self.get("refused for", &format!("{cause}/{before}"))));
            writeln!(o, "| {cause} | {place} |{}", cells(row.to_vec())).unwrap();
        }
        let kinds = LINE_KINDS.map(|kind| KINDS[kind]).join(" | ");
        writeln!(o, "\n| refused, a core has the line's number | {kinds} |\n|---|---|---|---|").unwrap();
        for line in 0..4 {
            let row = LINE_KINDS.map(|kind| Some(self.get("refused line", &format!("{kind}/{line}"))));
            writeln!(o, "| line {line} |{}", cells(row.to_vec())).unwrap();
        }
        writeln!(o, "\n| refusal count in sound tables | word 115 | header word 2 |\n|---|---|---|").unwrap();
        for value in VALUES {
            let row = ["word 115", "header word 2"].map(|w| Some(self.get("refusal value", &format!("{value}/{w}"))));
            writeln!(o, "| {value} |{}", cells(row.to_vec())).unwrap();
        }
        writeln!(o, "\n| fact of a refusal count | times |\n|---|---|").unwrap();
        for fact in FACTS {
            writeln!(o, "| {fact} | {} |", self.get("refusal fact", fact)).unwrap();
        }
        out
    }
}
