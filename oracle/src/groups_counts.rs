//! How often each thing occurs in a groups file: the second part of the
//! tables of README.md.

use crate::counts::Counts;
use crate::machine::*;
use crate::soundness::*;
use crate::vectors::{Groups, Question};
use crate::ways::*;
use std::collections::BTreeSet;
use std::fmt::Write;

const ANSWERS: [&str; 9] = [
    "reach filled, nothing beyond",
    "reach filled, page beyond",
    "reach refused 4",
    "reach refused 12",
    "reach refused 13",
    "apart yes",
    "apart no",
    "apart refused 4",
    "apart refused 13",
];

const LENGTHS: [&str; 4] = ["right", "0", "one less", "one more"];
const TOLD: [&str; 6] = [
    "sound, good group",
    "sound, empty group",
    "sound, core not there",
    "damaged, good group",
    "damaged, empty group",
    "damaged, core not there",
];

const BEYOND: [&str; 3] = ["reach", "apart no, group", "apart no, rest"];

/// Conditions that are broken by ways of writing or of tables.
const BY: [Condition; 4] = [Condition::GroupMixed, Condition::RestMixed, Condition::RestWrites, Condition::RestTables];

const FACTS: [&str; 51] = [
    "reach: the page just behind memory is reached",
    "reach: a port page is reached",
    "reach: an absent entry names a page beyond, none is reached",
    "reach: the last page of memory is reached",
    "reach: a page is first- and second-level table",
    "reach: a first-level table names itself",
    "reach: a second-level table names itself",
    "reach: a page is data and table (3)",
    "reach: a page is writable and table (7)",
    "reach: a page is data of one core and table of another",
    "reach: a page is writable by one core and read by another",
    "reach: a core of the group does not run",
    "reach: a page is reached by a core that does not run alone",
    "reach: a core of the group is in system mode",
    "reach: a core of the group has a mode word other than 0 and 1",
    "reach: a page by first-level entry 0 alone",
    "reach: a page by first-level entry 1023 alone",
    "reach: a page by second-level entry 0 alone",
    "reach: a page by second-level entry 1023 alone",
    "reach: a page is writable by rights 1 alone",
    "reach: a walk of another address space counts",
    "apart yes: one core in the machine",
    "apart yes: every core in the group, two or more",
    "apart yes: rest empty, the others do not run",
    "apart yes: rest of one core",
    "apart yes: rest of two cores or three",
    "apart yes: group of one core, rest not empty",
    "apart yes: group of two cores or three, rest not empty",
    "apart yes: group holds a level 2 walk, rest not empty",
    "apart yes: group holds a level 1 walk, rest not empty",
    "apart yes: group holds a complete walk, rest not empty",
    "apart yes: group holds a pending store, rest not empty",
    "apart yes: rest holds a level 2 walk",
    "apart yes: rest holds a level 1 walk",
    "apart yes: rest holds a complete walk",
    "apart yes: rest holds a pending store",
    "apart yes: both sides only read a page",
    "apart yes: the rest reads a page that the group writes",
    "apart yes: the rest reads a table page of the group",
    "apart yes: a page is read and table for the group",
    "apart yes: a page is read and table for the rest",
    "apart yes: a mode word other than 1",
    "apart yes: a core that does not run is in system mode",
    "apart yes: a core that does not run reaches beyond memory",
    "apart yes: a core that does not run has a page that is writable and table",
    "apart yes: a core that does not run could write a page of the group",
    "apart yes: a core that does not run has a table in a page of the group",
    "apart no: a page is data of the group and table of the rest",
    "apart no: a page is data of the rest and table of the group",
    "apart no: the group reads a page that the rest writes",
    "apart no, yes for the others: the group reads what they write",
];

const MET: [&str; 4] = ["1 read", "5 written", "2 table", "3 read and table"];

/// Groups asked of machines by number of cores.
fn asked_label(group: u32) -> String {
    match group {
        0..=31 => format!("{group}"),
        32..=0x7FFF_FFFF => "32 to 7FFFFFFF".into(),
        0x8000_0001 => "80000001".into(),
        _ => "80000000 and more, but 80000001".into(),
    }
}

fn asked_labels() -> Vec<String> {
    (0..=32).chain([0x8000_0001, 0xFFFF_FFFF]).map(asked_label).collect()
}

impl Counts {
    /// Counts the questions of one machine.
    pub fn groups(&mut self, g: &Groups) {
        self.vectors += 1;
        let (cores, pages) = (g.machine.cores as u32, g.machine.pages as u16);
        if g.machine.damage != 0 {
            self.add("groups damage", CLAUSES[g.machine.damage as usize - 1].1);
        }
        for q in &g.questions {
            self.steps += 1;
            self.answers(q);
            let damaged = 3 * (g.machine.damage != 0) as usize;
            let told = match q.group {
                0 => 1,
                group if group >> cores != 0 => 2,
                _ => 0,
            };
            let lengths = [pages, 0, pages - 1, pages + 1];
            for (name, _) in LENGTHS.iter().zip(lengths).filter(|(_, length)| *length == q.map_length) {
                self.add("length", &format!("{name}/{}", TOLD[damaged + told]));
            }
            if damaged == 0 && q.map_length == pages {
                self.add("asked", &format!("{}/{cores}", asked_label(q.group)));
                if told == 0 {
                    self.facts(&g.machine.tables, &g.machine.memory, q.group);
                }
            }
        }
    }

    fn answers(&mut self, q: &Question) {
        let reach = match (q.reach, q.beyond) {
            (0, 0) => 0,
            (0, _) => 1,
            (104, _) => 2,
            (112, _) => 3,
            _ => 4,
        };
        let apart = match q.apart {
            1 => 5,
            0 => 6,
            104 => 7,
            _ => 8,
        };
        self.add("groups", ANSWERS[reach]);
        self.add("groups", ANSWERS[apart]);
    }

    fn fact(&mut self, yes: bool, name: &'static str) {
        debug_assert!(FACTS.contains(&name), "{name}");
        if yes {
            self.add("fact", name);
        }
    }

    /// What is true of a group that is one, in a sound machine.
    fn facts(&mut self, t: &[u32], m: &[u8], group: u32) {
        let pages = t[PAGES];
        let sides = sides(t, m, group);
        self.reach_facts(t, m, group, &sides.group_ways);

        for (way, text) in WAYS {
            let beyond = sides.by(pages, Condition::GroupBeyond);
            if beyond.contains(&way) {
                self.add("beyond", &format!("{text}/{}", BEYOND[0]));
            }
        }
        if let [condition] = sides.fails[..] {
            self.add("alone", condition.text());
            for way in sides.by(pages, condition) {
                match condition {
                    Condition::GroupBeyond => self.add("beyond", &format!("{}/{}", way.text(), BEYOND[1])),
                    Condition::RestBeyond => self.add("beyond", &format!("{}/{}", way.text(), BEYOND[2])),
                    _ => self.add("by", &format!("{}/{}", way.text(), condition.text())),
                }
            }
            if matches!(condition, Condition::RestWrites | Condition::RestTables) {
                let mut met = BTreeSet::new();
                for page in 0..pages {
                    let wanted = if condition == Condition::RestWrites { 4 } else { 2 };
                    let mine = map_byte(&sides.group_ways, page);
                    if mine != 0 && map_byte(&sides.rest_ways, page) & wanted != 0 {
                        met.insert(mine);
                    }
                }
                for (byte, name) in [1, 5, 2, 3].into_iter().zip(MET) {
                    if met.contains(&byte) {
                        self.add("met", &format!("{name}/{}", condition.text()));
                    }
                }
            }
        }
        if sides.fails.is_empty() {
            self.yes_facts(t, m, group, &sides);
        } else {
            let both = |mine: u8, theirs: u8| {
                (0..pages).any(|p| {
                    map_byte(&sides.group_ways, p) & mine == mine && map_byte(&sides.rest_ways, p) & theirs == theirs
                })
            };
            self.fact(both(1, 2), "apart no: a page is data of the group and table of the rest");
            self.fact(both(2, 1), "apart no: a page is data of the rest and table of the group");
            self.fact(both(1, 4), "apart no: the group reads a page that the rest writes");
            if sides.fails == [Condition::RestWrites] {
                let other_way = crate::apart(t, m, sides.rest) == Ok(true);
                self.fact(other_way, "apart no, yes for the others: the group reads what they write");
            }
        }
    }

    fn reach_facts(&mut self, t: &[u32], m: &[u8], group: u32, all: &Ways) {
        let pages = t[PAGES];
        let cores: Vec<usize> = (0..t[CORES] as usize).filter(|k| group >> k & 1 == 1).collect();
        let beyond = all.iter().any(|r| r.page >= pages);
        self.fact(all.iter().any(|r| r.page == pages), "reach: the page just behind memory is reached");
        self.fact(all.iter().any(|r| r.page >= 0xFFFFE), "reach: a port page is reached");
        self.fact(all.iter().any(|r| r.page == pages - 1), "reach: the last page of memory is reached");
        let first: BTreeSet<u32> = all.iter().filter(|r| r.way.first() && r.page < pages).map(|r| r.page).collect();
        let second: BTreeSet<u32> = all.iter().filter(|r| r.way.second() && r.page < pages).map(|r| r.page).collect();
        let entries = |page: u32| (0..1024).filter_map(move |i| entry(m, page, i));
        let absent = |pte: u32| !pte_present(pte) && pte_base(pte) >= pages;
        let absent_beyond = first.union(&second).any(|&page| entries(page).any(absent));
        self.fact(absent_beyond && !beyond, "reach: an absent entry names a page beyond, none is reached");
        self.fact(first.intersection(&second).next().is_some(), "reach: a page is first- and second-level table");
        let itself = |page: u32| entries(page).any(|pte| pte_present(pte) && pte_base(pte) == page);
        self.fact(first.iter().any(|&page| itself(page)), "reach: a first-level table names itself");
        self.fact(second.iter().any(|&page| itself(page)), "reach: a second-level table names itself");
        let has = |byte: u8| (0..pages).any(|page| map_byte(all, page) == byte);
        self.fact(has(3), "reach: a page is data and table (3)");
        self.fact(has(7), "reach: a page is writable and table (7)");

        // Core by core.
        let each: Vec<Ways> = cores.iter().map(|&k| ways(t, m, 1 << k)).collect();
        let across = |one: u8, other: u8, not: u8| {
            (0..pages).any(|p| {
                each.iter().enumerate().any(|(i, a)| {
                    each.iter().enumerate().any(|(j, b)| {
                        let (a, b) = (map_byte(a, p), map_byte(b, p));
                        i != j && a & one != 0 && b & other != 0 && b & not == 0
                    })
                })
            })
        };
        self.fact(across(1, 2, 1), "reach: a page is data of one core and table of another");
        self.fact(across(4, 1, 4), "reach: a page is writable by one core and read by another");
        let stopped: Vec<usize> = cores.iter().copied().filter(|&k| t[block(k) + RUNNING] == 0).collect();
        self.fact(!stopped.is_empty(), "reach: a core of the group does not run");
        let runs = cores.iter().filter(|k| !stopped.contains(k)).fold(0, |all, k| all | 1 << k);
        let others = ways(t, m, runs);
        let only = (0..pages).any(|p| map_byte(all, p) != 0 && map_byte(&others, p) == 0);
        self.fact(only && runs != 0, "reach: a page is reached by a core that does not run alone");
        let mode = |k: &usize| t[block(*k) + MODE];
        self.fact(cores.iter().any(|k| mode(k) % 2 == 0), "reach: a core of the group is in system mode");
        self.fact(cores.iter().any(|k| mode(k) > 1), "reach: a core of the group has a mode word other than 0 and 1");

        let sole = |way: Way, index: u32| {
            (0..pages)
                .any(|p| of_page(all, p).count() == 1 && of_page(all, p).any(|r| r.way == way && r.index == index))
        };
        self.fact(sole(Way::FirstEntry, 0), "reach: a page by first-level entry 0 alone");
        self.fact(sole(Way::FirstEntry, 1023), "reach: a page by first-level entry 1023 alone");
        self.fact(sole(Way::SecondEntry, 0), "reach: a page by second-level entry 0 alone");
        self.fact(sole(Way::SecondEntry, 1023), "reach: a page by second-level entry 1023 alone");
        let ones = (0..pages).any(|p| {
            let writing: Vec<&Reached> = of_page(all, p).filter(|r| r.writable()).collect();
            !writing.is_empty() && writing.iter().all(|r| r.rights == WRITE && r.way != Way::Store)
        });
        self.fact(ones, "reach: a page is writable by rights 1 alone");
        let foreign = cores.iter().any(|&k| {
            let b = block(k);
            walks_of(t, b)
                .iter()
                .any(|w| w.asid() != t[b + ASID] & 63 && of_page(all, w.base).count() == 1 && w.base < pages)
        });
        self.fact(foreign, "reach: a walk of another address space counts");
        for r in all {
            if r.way != Way::Pto && r.way != Way::Store {
                self.add("rights", &format!("{}/{}", r.rights, r.way.text()));
            }
        }
    }

    fn yes_facts(&mut self, t: &[u32], m: &[u8], group: u32, s: &Sides) {
        let pages = t[PAGES];
        let (members, rest) = (group.count_ones(), s.rest.count_ones());
        self.fact(t[CORES] == 1, "apart yes: one core in the machine");
        self.fact(members > 1 && members == t[CORES], "apart yes: every core in the group, two or more");
        self.fact(rest == 0 && s.idle != 0, "apart yes: rest empty, the others do not run");
        self.fact(rest == 1, "apart yes: rest of one core");
        self.fact(rest > 1, "apart yes: rest of two cores or three");
        self.fact(members == 1 && rest > 0, "apart yes: group of one core, rest not empty");
        self.fact(members > 1 && rest > 0, "apart yes: group of two cores or three, rest not empty");
        let holds = |ways: &Ways, way: Way| ways.iter().any(|r| r.way == way) && rest > 0;
        let (mine, theirs) = (&s.group_ways, &s.rest_ways);
        self.fact(holds(mine, Way::Walk2), "apart yes: group holds a level 2 walk, rest not empty");
        self.fact(holds(mine, Way::Walk1), "apart yes: group holds a level 1 walk, rest not empty");
        self.fact(holds(mine, Way::Complete), "apart yes: group holds a complete walk, rest not empty");
        self.fact(holds(mine, Way::Store), "apart yes: group holds a pending store, rest not empty");
        self.fact(holds(theirs, Way::Walk2), "apart yes: rest holds a level 2 walk");
        self.fact(holds(theirs, Way::Walk1), "apart yes: rest holds a level 1 walk");
        self.fact(holds(theirs, Way::Complete), "apart yes: rest holds a complete walk");
        self.fact(holds(theirs, Way::Store), "apart yes: rest holds a pending store");
        let bytes = |what: fn(u8, u8) -> bool| (0..pages).any(|p| what(map_byte(mine, p), map_byte(theirs, p)));
        self.fact(bytes(|g, r| g == 1 && r == 1), "apart yes: both sides only read a page");
        self.fact(bytes(|g, r| g == 5 && r == 1), "apart yes: the rest reads a page that the group writes");
        self.fact(bytes(|g, r| g & 2 != 0 && r == 1), "apart yes: the rest reads a table page of the group");
        self.fact(bytes(|g, _| g == 3), "apart yes: a page is read and table for the group");
        self.fact(bytes(|_, r| r == 3), "apart yes: a page is read and table for the rest");
        let cores = |set: u32| (0..t[CORES] as usize).filter(move |k| set >> k & 1 == 1);
        self.fact(cores(group | s.rest).any(|k| t[block(k) + MODE] != 1), "apart yes: a mode word other than 1");
        self.fact(
            cores(s.idle).any(|k| t[block(k) + MODE] % 2 == 0),
            "apart yes: a core that does not run is in system mode",
        );
        let idle = ways(t, m, s.idle);
        self.fact(idle.iter().any(|r| r.page >= pages), "apart yes: a core that does not run reaches beyond memory");
        self.fact(
            (0..pages).any(|p| map_byte(&idle, p) & 6 == 6),
            "apart yes: a core that does not run has a page that is writable and table",
        );
        let on_group = |bit: u8| (0..pages).any(|p| map_byte(mine, p) != 0 && map_byte(&idle, p) & bit != 0);
        self.fact(on_group(4), "apart yes: a core that does not run could write a page of the group");
        self.fact(on_group(2), "apart yes: a core that does not run has a table in a page of the group");
    }

    // ------------------------------------------------------------ printing

    /// Every (section, name) that must occur in a groups file.
    pub fn expected_groups() -> Vec<(&'static str, String)> {
        let mut all: Vec<(&'static str, String)> = Vec::new();
        all.extend(ANSWERS.iter().map(|name| ("groups", name.to_string())));
        for label in asked_labels() {
            all.extend((1..=4).map(|cores| ("asked", format!("{label}/{cores}"))));
        }
        for length in LENGTHS {
            all.extend(TOLD.iter().map(|told| ("length", format!("{length}/{told}"))));
        }
        for (_, way) in WAYS {
            all.extend(BEYOND.iter().map(|which| ("beyond", format!("{way}/{which}"))));
        }
        all.extend(CONDITIONS.iter().map(|(_, text)| ("alone", text.to_string())));
        for (way, text) in WAYS {
            all.extend(BY.iter().filter(|c| breaks_by(**c, way)).map(|c| ("by", format!("{text}/{}", c.text()))));
        }
        for name in MET {
            for condition in &BY[2..] {
                all.push(("met", format!("{name}/{}", condition.text())));
            }
        }
        all.extend(FACTS.iter().map(|name| ("fact", name.to_string())));
        for rights in 0..8 {
            all.extend(RIGHTS.iter().map(|way| ("rights", format!("{rights}/{}", way.text()))));
        }
        all
    }

    fn table(&self, out: &mut String, section: &'static str, title: &str, rows: &[String], columns: &[&str]) {
        let expected: BTreeSet<String> =
            Counts::expected_groups().into_iter().filter(|(s, _)| *s == section).map(|(_, name)| name).collect();
        writeln!(out, "\n| {title} | {} |", columns.join(" | ")).unwrap();
        writeln!(out, "|---|{}", "---|".repeat(columns.len())).unwrap();
        for row in rows {
            write!(out, "| {row} |").unwrap();
            for column in columns {
                let name = format!("{row}/{column}");
                match expected.contains(&name) {
                    true => write!(out, " {} |", self.get(section, &name)).unwrap(),
                    false => write!(out, " |").unwrap(),
                }
            }
            out.push('\n');
        }
    }

    /// The tables for a groups file.
    pub fn print_groups(&self) -> String {
        let mut out = format!("{} machines, {} questions.\n", self.vectors, self.steps);
        let simple = |out: &mut String, section: &'static str, title: &str, rows: &[&str]| {
            writeln!(out, "\n| {title} | times |\n|---|---|").unwrap();
            for row in rows {
                writeln!(out, "| {row} | {} |", self.get(section, row)).unwrap();
            }
        };
        let strings = |all: &[&str]| all.iter().map(|s| s.to_string()).collect::<Vec<_>>();
        let conditions = CONDITIONS.map(|(_, text)| text);
        let ways = strings(&WAYS.map(|(_, text)| text));
        let cores = ["1", "2", "3", "4"];
        simple(&mut out, "groups", "answer", &ANSWERS);
        self.table(&mut out, "asked", "group asked, by number of cores", &asked_labels(), &cores);
        self.table(&mut out, "length", "length of the map", &strings(&LENGTHS), &TOLD);
        self.table(&mut out, "beyond", "beyond memory by this way alone", &ways, &BEYOND);
        simple(&mut out, "alone", "apart no because of this alone", &conditions);
        self.table(&mut out, "by", "and there by", &ways, &BY.map(|c| c.text()));
        self.table(&mut out, "met", "the page is to the group", &strings(&MET), &[BY[2].text(), BY[3].text()]);
        simple(&mut out, "fact", "fact", &FACTS);
        let rights: Vec<String> = (0..8).map(|r| r.to_string()).collect();
        self.table(&mut out, "rights", "rights met in a", &rights, &RIGHTS.map(|way| way.text()));
        simple(&mut out, "groups damage", "damaged tables, broken clause", &CLAUSES.map(|(_, text)| text));
        out
    }
}

const RIGHTS: [Way; 5] = [Way::Walk2, Way::FirstEntry, Way::Walk1, Way::SecondEntry, Way::Complete];

fn breaks_by(condition: Condition, way: Way) -> bool {
    match condition {
        Condition::GroupMixed | Condition::RestMixed => true,
        Condition::RestWrites => !way.table(),
        _ => way.table(),
    }
}
