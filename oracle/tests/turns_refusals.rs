//! The steps file tells the rule on refusal counts (request 5 of 02) from
//! rules that go wrong in one place. Each wrong turn below is refuted by some
//! of its steps, runs or machines.
//!
//! A machine with a wrong rule goes as the file says up to the first step
//! after which that rule leaves another count. So a step with another check
//! sum is looked for, with all else as in the file.

use oracle::soundness::*;
use oracle::vectors::{checksum, read_groups, read_steps, read_translations, Vector};
use oracle::{run, sound, step, Answer, Stop};

const STEPS: &[u8] = include_bytes!("../vectors/steps.bin");
const GROUPS: &[u8] = include_bytes!("../vectors/groups.bin");
const TRANSLATIONS: &[u8] = include_bytes!("../vectors/translations.bin");

const HEADER: usize = 2;
const TOP: u32 = 0xFFFF_FFFF;

/// Word 115 of core k.
fn word(k: usize) -> usize {
    32 + 256 * k + 115
}

/// A step of a sound machine.
struct Seen {
    kind: u32,
    who: u32,
    cores: usize,
    /// The refusal, or 0.
    number: u32,
    interrupted: bool,
}

impl Seen {
    /// The word that counts it where refused.
    fn place(&self) -> usize {
        if self.kind <= 8 && (self.who as usize) < self.cores {
            word(self.who as usize)
        } else {
            HEADER
        }
    }
    fn own(&self) -> bool {
        self.place() != HEADER
    }
    fn core(&self) -> usize {
        self.who as usize
    }
    /// A core or line number that is a core's.
    fn like_a_core(&self) -> bool {
        (self.who as usize) < self.cores
    }
    fn place_unless(&self, elsewhere: bool, place: usize) -> usize {
        if elsewhere {
            place
        } else {
            self.place()
        }
    }
}

/// What a rule does to the tables as they were before a refused step, or as
/// an accepted one left them.
type Rule = Box<dyn Fn(&Seen, &mut [u32])>;
type Turns = Vec<(String, Rule)>;

fn up(t: &mut [u32], place: usize) {
    t[place] = t[place].saturating_add(1);
}

/// A rule that counts in one word.
fn counts_in(turns: &mut Turns, name: impl Into<String>, place: impl Fn(&Seen) -> usize + 'static) {
    turns.push((name.into(), Box::new(move |s, t| up(t, place(s)))));
}

/// A rule that does anything.
fn does(turns: &mut Turns, name: &str, rule: impl Fn(&Seen, &mut [u32]) + 'static) {
    turns.push((name.into(), Box::new(rule)));
}

/// Wrong turns in what a refused step leaves.
fn refused_turns() -> Turns {
    let mut all = Vec::new();
    let a = &mut all;
    counts_in(a, "all in the header", |_| HEADER);
    counts_in(a, "misformed steps in the header", |s| s.place_unless(s.number == 5, HEADER));
    counts_in(a, "only misformed steps with their core", |s| s.place_unless(s.number != 5, HEADER));
    counts_in(a, "only kinds 0 to 4 with their core", |s| s.place_unless(s.kind > 4, HEADER));
    counts_in(a, "only core steps with their core", |s| s.place_unless(s.kind > 0, HEADER));
    for kind in 0..9 {
        counts_in(a, format!("kind {kind} in the header"), move |s| s.place_unless(s.kind == kind, HEADER));
    }
    for number in 5..10 {
        counts_in(a, format!("refusal {number} in the header"), move |s| s.place_unless(s.number == number, HEADER));
    }
    for k in 0..4 {
        counts_in(a, format!("core {k} in the header"), move |s| s.place_unless(s.own() && s.core() == k, HEADER));
    }
    for kind in 9..12 {
        counts_in(a, format!("kind {kind} with the core of its line's number"), move |s| {
            s.place_unless(s.kind == kind && s.like_a_core(), word(s.core() % 4))
        });
        counts_in(a, format!("kind {kind} with core 0"), move |s| s.place_unless(s.kind == kind, word(0)));
    }
    counts_in(a, "kind 12 with a core", |s| s.place_unless(s.kind == 12 && s.like_a_core(), word(s.core() % 4)));
    counts_in(a, "kinds above 11 with a core", |s| s.place_unless(s.kind > 11 && s.like_a_core(), word(s.core() % 4)));
    counts_in(a, "kinds above 11 with core 0", |s| s.place_unless(s.kind > 11, word(0)));
    counts_in(a, "the kind's low byte alone", |s| {
        s.place_unless(s.kind > 255 && s.kind & 255 <= 8 && s.like_a_core(), word(s.core() % 4))
    });
    let absent = |s: &Seen| s.kind <= 8 && !s.like_a_core();
    counts_in(a, "a core not there with core 0", move |s| s.place_unless(absent(s), word(0)));
    counts_in(a, "a core not there with the last core", move |s| s.place_unless(absent(s), word(s.cores - 1)));
    counts_in(a, "a core not there with the one left over", move |s| {
        s.place_unless(absent(s), word(s.core() % s.cores))
    });
    counts_in(a, "with the next core", |s| s.place_unless(s.own(), word((s.core() + 1) % s.cores)));
    counts_in(a, "with the core before", |s| s.place_unless(s.own(), word((s.core() + s.cores - 1) % s.cores)));
    counts_in(a, "with core 0 always", |s| s.place_unless(s.own(), word(0)));
    counts_in(a, "in word 114", |s| s.place() - s.own() as usize);
    counts_in(a, "in word 116", |s| s.place() + s.own() as usize);
    does(a, "both at once", |s, t| {
        up(t, s.place());
        if s.own() {
            up(t, HEADER);
        }
    });
    does(a, "the header's with every core too", |s, t| {
        up(t, s.place());
        if !s.own() {
            (0..s.cores).for_each(|k| up(t, word(k)));
        }
    });
    does(a, "with every core", |s, t| match s.own() {
        true => (0..s.cores).for_each(|k| up(t, word(k))),
        false => up(t, HEADER),
    });
    does(a, "not at all", |_, _| {});
    does(a, "cores not at all", |s, t| {
        if !s.own() {
            up(t, HEADER);
        }
    });
    does(a, "the header not at all", |s, t| {
        if s.own() {
            up(t, s.place());
        }
    });
    for own in [true, false] {
        let whose = if own { "a core's" } else { "the header's" };
        let mut add = |name: &str, next: fn(u32) -> u32| {
            a.push((
                format!("{whose} count {name}"),
                Box::new(move |s: &Seen, t: &mut [u32]| match s.own() == own {
                    true => t[s.place()] = next(t[s.place()]),
                    false => up(t, s.place()),
                }),
            ))
        };
        add("wraps to 0", |n| n.wrapping_add(1));
        add("wraps to 1", |n| n.checked_add(1).unwrap_or(1));
        add("stays one short of the largest", |n| if n >= TOP - 1 { n } else { n + 1 });
        add("goes back to one short of the largest", |n| n.saturating_add(1).min(TOP - 1));
        add("stays at 7FFFFFFF or above", |n| if n >= 0x7FFF_FFFF { n } else { n + 1 });
        add("has 8 bits", |n| n & 0xFFFF_FF00 | n.saturating_add(1) & 0xFF);
        add("has 16 bits", |n| n & 0xFFFF_0000 | n.saturating_add(1) & 0xFFFF);
        add("has 31 bits", |n| n & 0x8000_0000 | n.saturating_add(1) & 0x7FFF_FFFF);
        add("goes up by two", |n| n.saturating_add(2));
    }
    does(a, "a core's stays where the header's is at its largest", |s, t| {
        if !s.own() || t[HEADER] != TOP {
            up(t, s.place());
        }
    });
    does(a, "the header's stays where core 0's is at its largest", |s, t| {
        if s.own() || t[word(0)] != TOP {
            up(t, s.place());
        }
    });
    does(a, "a core's at its largest goes on in the header", |s, t| {
        let place = if t[s.place()] == TOP { HEADER } else { s.place() };
        up(t, place);
    });
    all
}

/// Wrong turns in what an accepted step leaves.
fn accepted_turns() -> Turns {
    let mut all = Vec::new();
    let a = &mut all;
    let clear = |s: &Seen, t: &mut [u32]| t[word(s.core())] = 0;
    let clear_all = |s: &Seen, t: &mut [u32]| (0..s.cores).for_each(|k| t[word(k)] = 0);
    for (kind, name) in [(7, "INIT"), (8, "start of a core")] {
        let of = move |s: &Seen| s.kind == kind;
        does(a, &format!("{name} clears its core's"), move |s, t| {
            if of(s) {
                clear(s, t)
            }
        });
        does(a, &format!("{name} clears every core's"), move |s, t| {
            if of(s) {
                clear_all(s, t)
            }
        });
        does(a, &format!("{name} clears the others'"), move |s, t| {
            let kept = t[word(s.core() % 4 % s.cores)];
            if of(s) {
                clear_all(s, t);
                t[word(s.core())] = kept;
            }
        });
        does(a, &format!("{name} clears the header's"), move |s, t| {
            if of(s) {
                t[HEADER] = 0
            }
        });
        does(a, &format!("{name} counts"), move |s, t| {
            if of(s) {
                up(t, s.place())
            }
        });
    }
    does(a, "an interrupt clears its core's", move |s, t| {
        if s.interrupted {
            clear(s, t)
        }
    });
    does(a, "an interrupt counts", |s, t| {
        if s.interrupted {
            up(t, s.place())
        }
    });
    does(a, "an accepted step counts", |s, t| up(t, s.place()));
    does(a, "an accepted step of a core counts", |s, t| {
        if s.own() {
            up(t, s.place())
        }
    });
    does(a, "an accepted step counts in the header", |_, t| up(t, HEADER));
    does(a, "an accepted step of a core clears its count", move |s, t| {
        if s.own() {
            clear(s, t)
        }
    });
    all
}

/// The number of vectors with a step after which the rule leaves another
/// check sum than the file's, for each rule.
fn refuted(vectors: &[Vector], refused: &Turns, accepted: &Turns) -> (Vec<usize>, Vec<usize>) {
    let mut found = (vec![0; refused.len()], vec![0; accepted.len()]);
    for v in vectors.iter().filter(|v| v.machine.damage == 0) {
        let mut seen = (vec![false; refused.len()], vec![false; accepted.len()]);
        let (mut t, mut m) = (v.machine.tables.clone(), v.machine.memory.clone());
        for s in &v.steps {
            let before = t.clone();
            let answer = step(true, &mut t, &mut m, &s.words);
            let [kind, who, ..] = s.words;
            let number = if let Answer::Refused(why) = answer { why.number() } else { 0 };
            let interrupted = matches!(answer, Answer::Interrupt(_));
            let step = Seen { kind, who, cores: t[0] as usize, number, interrupted };
            let (turns, seen, from) = match number {
                0 => (accepted, &mut seen.1, &t),
                _ => (refused, &mut seen.0, &before),
            };
            for ((_, rule), seen) in turns.iter().zip(seen).filter(|(_, seen)| !**seen) {
                let mut turned = from.clone();
                rule(&step, &mut turned);
                *seen = turned != t && checksum(&turned, &m) != s.sum;
            }
        }
        found.0.iter_mut().zip(seen.0).for_each(|(n, seen)| *n += seen as usize);
        found.1.iter_mut().zip(seen.1).for_each(|(n, seen)| *n += seen as usize);
    }
    found
}

#[test]
fn no_wrong_turn_goes_unseen() {
    let vectors = read_steps(STEPS).unwrap().0;
    let mut right = (Vec::new(), Vec::new());
    counts_in(&mut right.0, "the rule itself", Seen::place);
    does(&mut right.1, "the rule itself", |_, _| {});
    assert_eq!(refuted(&vectors, &right.0, &right.1), (vec![0], vec![0]));
    let (refused, accepted) = (refused_turns(), accepted_turns());
    let found = refuted(&vectors, &refused, &accepted);
    for ((name, _), found) in refused.iter().chain(&accepted).zip(found.0.iter().chain(&found.1)) {
        println!("{found:5} {name}");
        assert!(*found >= 10, "{name}: seen in {found} vectors");
    }
    println!("{} turns", refused.len() + accepted.len());
}

/// A run counts the step that stops it, and where its single step would.
#[test]
fn no_wrong_turn_of_run_goes_unseen() {
    let turns = ["not counted", "in the header", "with core 0", "in both", "11 in the header", "4 in the header"];
    let mut found = [0; 6];
    for v in read_steps(STEPS).unwrap().0 {
        let (mut t, mut m) = (v.machine.tables.clone(), v.machine.memory.clone());
        let schedule: Vec<u32> = v.steps.iter().flat_map(|s| s.words).take(v.run.words as usize).collect();
        let result = run(true, &mut t, &mut m, &schedule, v.run.limit);
        let mut tried = |turn: usize, t: &[u32]| found[turn] += (checksum(t, &m) != v.run.sum) as usize;
        match result {
            Ok(r) if matches!(r.stop, Stop::Refused(_)) => {
                let [kind, who, ..] = v.steps[r.accepted as usize].words;
                let own = kind <= 8 && who < t[0];
                let place = if own { word(who as usize) } else { HEADER };
                // As it was: no accepted step changes a count.
                t[place] = v.machine.tables[place];
                tried(0, &t);
                if own {
                    let places = [&[HEADER][..], &[word(0)], &[place, HEADER]];
                    for (turn, places) in (1..).zip(places) {
                        let mut turned = t.clone();
                        places.iter().for_each(|&p| up(&mut turned, p));
                        tried(turn, &turned);
                    }
                }
            }
            Err(number) if t.len() > HEADER => {
                up(&mut t, HEADER);
                tried(if number == 11 { 4 } else { 5 }, &t);
            }
            _ => {}
        }
    }
    for (name, found) in turns.iter().zip(found) {
        println!("{found:5} {name}");
        assert!(found >= 10, "{name}: seen in {found} runs");
    }
}

/// Refusal 4 counts nowhere.
#[test]
fn a_count_under_refusal_4_is_seen() {
    let mut found = [0; 2];
    for v in read_steps(STEPS).unwrap().0.iter().filter(|v| v.machine.damage != 0) {
        let (t, m) = (&v.machine.tables, &v.machine.memory);
        for s in &v.steps {
            let [kind, who, ..] = s.words;
            assert_eq!((s.answer, s.sum), (104, checksum(t, m)));
            let own = kind <= 8 && who < t.first().copied().unwrap_or(0).min(4) && word(who as usize) < t.len();
            for (n, place) in [HEADER, if own { word(who as usize) } else { HEADER }].into_iter().enumerate() {
                let mut turned = t.clone();
                if place < t.len() {
                    up(&mut turned, place);
                }
                found[n] += (checksum(&turned, m) != s.sum) as usize;
            }
        }
    }
    assert!(found[0] > 500 && found[1] > 500, "{found:?}");
}

/// Every machine of the three files that have some, with its clause.
fn machines() -> [Vec<oracle::vectors::Machine>; 3] {
    [
        read_steps(STEPS).unwrap().0.into_iter().map(|v| v.machine).collect(),
        read_groups(GROUPS).unwrap().0.into_iter().map(|g| g.machine).collect(),
        read_translations(TRANSLATIONS).unwrap().0.into_iter().map(|g| g.machine).collect(),
    ]
}

/// Soundness leaves word 115 free, and no word after it, in each file: a
/// machine is refused 4 or not, which shows in all its answers.
#[test]
fn no_wrong_turn_of_soundness_goes_unseen() {
    type Asks = fn(u32) -> bool;
    let asks: [(&str, Asks); 5] = [
        ("word 115 is 0", |n| n == 0),
        ("word 115 is 0 or 1", |n| n <= 1),
        ("word 115 is below 80000000", |n| n < 0x8000_0000),
        ("word 115 is below FFFFFFFE", |n| n < TOP - 1),
        ("word 115 is below FFFFFFFF", |n| n < TOP),
    ];
    for all in machines() {
        let counts = |t: &[u32]| (0..t[0] as usize).map(|k| t[word(k)]).collect::<Vec<_>>();
        for (name, holds) in asks {
            let wrong = all.iter().filter(|m| m.damage == 0 && !counts(&m.tables).into_iter().all(holds)).count();
            println!("{wrong:5} {name}");
            assert!(wrong >= 40, "{name}: {wrong} machines");
        }
        for k in 0..4 {
            let one = |m: &&oracle::vectors::Machine| m.damage == 0 && k < m.cores as usize && m.tables[word(k)] != 0;
            assert!(all.iter().filter(one).count() >= 20, "word 115 of core {k} is 0");
        }
        // Sound but for one word from 116 on.
        let free = |from: usize, to: usize| {
            let without = |m: &oracle::vectors::Machine| {
                let mut t = m.tables.clone();
                (0..m.cores as usize).for_each(|k| t[block(k) + from..block(k) + to + 1].fill(0));
                sound(&t, &m.memory).is_ok()
            };
            all.iter().filter(|m| m.damage == Clause::BlockWords116 as u8 && without(m)).count()
        };
        println!(
            "{:5} word 116 is free, {} word 127, {} words 116 to 127",
            free(116, 116),
            free(127, 127),
            free(116, 127)
        );
        assert!(free(116, 116) > 0 && free(127, 127) > 0 && free(116, 127) > 1);
    }
}
