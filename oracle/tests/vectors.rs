//! The committed vectors: made by their seed, true of the simulator, and
//! broad enough.

use oracle::counts::Counts;
use oracle::machine::step;
use oracle::soundness::*;
use oracle::{generate, groups, isa, run, sound, texts, translations, vectors, Answer, Stop};

const STEPS: &[u8] = include_bytes!("../vectors/steps.bin");
const GROUPS: &[u8] = include_bytes!("../vectors/groups.bin");
const TRANSLATIONS: &[u8] = include_bytes!("../vectors/translations.bin");
const TEXTS: &[u8] = include_bytes!("../vectors/texts.bin");
const README: &str = include_str!("../README.md");

#[test]
fn the_seed_makes_the_files() {
    let (_, seed) = vectors::read_steps(STEPS).unwrap();
    assert!(vectors::write_steps(&generate::steps(seed), seed) == STEPS, "steps.bin");
    let (_, seed) = vectors::read_groups(GROUPS).unwrap();
    assert!(vectors::write_groups(&groups::groups(seed), seed) == GROUPS, "groups.bin");
    let (_, seed) = vectors::read_translations(TRANSLATIONS).unwrap();
    let made = vectors::write_translations(&translations::translations(seed), seed);
    assert!(made == TRANSLATIONS, "translations.bin");
    let (_, seed) = vectors::read_texts(TEXTS).unwrap();
    assert!(vectors::write_texts(&texts::texts(seed), seed) == TEXTS, "texts.bin");
}

/// Every answer and check sum; soundness is kept; a refused step changes its
/// count alone, and refusal 4 not even that; an accepted one changes no count;
/// the unchecked step agrees.
#[test]
fn steps_are_as_the_file_says() {
    assert!(STEPS.len() < 3_200_000);
    for v in vectors::read_steps(STEPS).unwrap().0 {
        let (mut t, mut m) = (v.machine.tables.clone(), v.machine.memory.clone());
        assert_eq!(vectors::checksum(&t, &m), v.sum);
        assert_eq!(sound(&t, &m).map_err(|c| c as u8).err().unwrap_or(0), v.machine.damage);
        for s in &v.steps {
            let (t0, m0) = (t.clone(), m.clone());
            let answer = step(true, &mut t, &mut m, &s.words);
            assert_eq!((answer.code(), vectors::checksum(&t, &m)), (s.answer, s.sum));
            if let Answer::Refused(why) = answer {
                let mut expected = t0.clone();
                if why.number() != 4 {
                    let [kind, core, ..] = s.words;
                    let core_is_there = kind < 9 && core < t0[CORES];
                    let count = if core_is_there { 32 + 256 * core as usize + 115 } else { 2 };
                    expected[count] = expected[count].saturating_add(1);
                }
                assert_eq!((&t, &m), (&expected, &m0));
            } else {
                assert_eq!(refusal_words(&t), refusal_words(&t0));
            }
            if v.machine.damage == 0 {
                assert_eq!(sound(&t, &m), Ok(()));
                let (mut t1, mut m1) = (t0, m0);
                assert_eq!(step(false, &mut t1, &mut m1, &s.words), answer);
                assert_eq!((&t1, &m1), (&t, &m));
            }
        }
    }
}

/// Every refusal count of the tables.
fn refusal_words(t: &[u32]) -> Vec<u32> {
    (0..t[0] as usize).map(|k| t[32 + 256 * k + 115]).chain([t[2]]).collect()
}

/// Run equals that many single steps.
#[test]
fn runs_are_single_steps() {
    for v in vectors::read_steps(STEPS).unwrap().0 {
        let flat: Vec<u32> = v.steps.iter().flat_map(|s| s.words).take(v.run.words as usize).collect();
        let (mut t, mut m) = (v.machine.tables.clone(), v.machine.memory.clone());
        let result = run(true, &mut t, &mut m, &flat, v.run.limit);
        assert_eq!(vectors::checksum(&t, &m), v.run.sum);
        match result {
            Err(number) => {
                assert_eq!((number as u8, v.run.accepted, v.run.stop), (v.run.refusal, 0, 0));
                assert_eq!(v.run.sum, v.sum);
            }
            Ok(r) => {
                assert_eq!((v.run.refusal, r.accepted as u16), (0, v.run.accepted));
                let accepted = r.accepted as usize;
                let (stop, taken) = match r.stop {
                    Stop::End => (0, accepted),
                    Stop::Limit => (1, accepted),
                    Stop::Refused(why) => (100 + why.number() as u8, accepted + 1),
                };
                assert_eq!(stop, v.run.stop);
                let single = if taken == 0 { v.sum } else { v.steps[taken - 1].sum };
                assert_eq!(single, v.run.sum);
                assert!(v.steps[..accepted].iter().all(|s| s.answer < 100));
            }
        }
    }
}

#[test]
fn groups_are_as_the_file_says() {
    for g in vectors::read_groups(GROUPS).unwrap().0 {
        assert!(g.questions.len() <= 40 && g.questions.iter().all(|q| q.map_length <= 9));
        let asked: Vec<(u32, u16)> = g.questions.iter().map(|q| (q.group, q.map_length)).collect();
        assert_eq!(vectors::answer_groups(g.machine.clone(), &asked), g);
    }
}

/// Every answer; the numbers stay where README.md says; where refused, reads
/// are 0 and the words as before.
#[test]
fn translations_are_as_the_file_says() {
    assert!(TRANSLATIONS.len() < 600_000);
    for g in vectors::read_translations(TRANSLATIONS).unwrap().0 {
        assert!(g.questions.len() <= 40);
        assert_eq!(
            sound(&g.machine.tables, &g.machine.memory).map_err(|c| c as u8).err().unwrap_or(0),
            g.machine.damage
        );
        for q in &g.questions {
            assert!(q.asked.addresses.len() <= 66 && q.asked.words <= 200);
            assert!(q.answer == 104 || g.machine.damage == 0);
            let untouched = vectors::answer_sum(&vec![vectors::ANSWER_FILL; q.asked.words as usize]);
            assert!(q.answer == 0 || (q.reads, q.sum) == (0, untouched));
        }
        let asked: Vec<vectors::Asked> = g.questions.iter().map(|q| q.asked.clone()).collect();
        assert_eq!(vectors::answer_translations(g.machine.clone(), &asked), g);
    }
}

/// Every answer and every byte; the lengths stay where README.md says; a text
/// is followed by zeros, and where refused the buffer is as before.
#[test]
fn texts_are_as_the_file_says() {
    assert!(TEXTS.len() < 300_000);
    for v in vectors::read_texts(TEXTS).unwrap().0 {
        let length = v.buffer.len();
        assert!(length <= 40);
        if length == 32 {
            let (text, rest) = v.buffer.split_at(v.answer as usize);
            assert!((3..=20).contains(&v.answer) && rest.iter().all(|byte| *byte == 0));
            assert_eq!(text, oracle::disassemble::text(v.word).as_bytes());
        } else {
            assert_eq!((v.answer, &v.buffer), (117, &vec![vectors::TEXT_FILL; length]));
        }
        assert_eq!(vectors::answer_text(v.word, length), v);
    }
}

/// Each thing that can occur does so twenty times, sums, refusal counts and
/// translations 24 times, texts as often as README.md says above their tables,
/// and README.md has the tables that `oracle counts` prints.
#[test]
fn counts() {
    let mut counts = Counts::default();
    vectors::read_steps(STEPS).unwrap().0.iter().for_each(|v| counts.vector(v));
    for (section, name) in Counts::expected() {
        let times = counts.get(section, &name);
        let least = if section == "sum" || section.starts_with("refus") { 24 } else { 20 };
        assert!(times >= least, "{section}: {name} occurs {times} times");
    }
    assert_eq!(counts.get("answer", "interrupt 0") + counts.get("answer", "refused 10"), 0);
    assert_eq!(isa::ROWS.len(), 61);
    assert!(README.contains(&counts.print()), "counts of steps.bin in README.md");
    let mut counts = Counts::default();
    vectors::read_groups(GROUPS).unwrap().0.iter().for_each(|g| counts.groups(g));
    for (section, name) in Counts::expected_groups() {
        let times = counts.get(section, &name);
        assert!(times >= 20, "{section}: {name} occurs {times} times");
    }
    for (_, text) in CLAUSES {
        assert!(counts.get("groups damage", text) >= 2, "{text}");
    }
    assert!(README.contains(&counts.print_groups()), "counts of groups.bin in README.md");
    let mut counts = Counts::default();
    vectors::read_translations(TRANSLATIONS).unwrap().0.iter().for_each(|g| counts.translations(g));
    for (section, name) in Counts::expected_translations() {
        let times = counts.get(section, &name);
        assert!(times >= 24, "{section}: {name} occurs {times} times");
    }
    assert!(README.contains(&counts.print_translations()), "counts of translations.bin in README.md");
    let mut counts = Counts::default();
    vectors::read_texts(TEXTS).unwrap().0.iter().for_each(|v| counts.text(v));
    for (section, name, least) in Counts::expected_texts() {
        let times = counts.get(section, &name);
        assert!(times >= least, "{section}: {name} occurs {times} times");
    }
    assert!(README.contains(&counts.print_texts()), "counts of texts.bin in README.md");
}

/// Reach and apart agree with the plain listing of ways and conditions.
#[test]
fn reach_and_apart_are_as_listed() {
    use oracle::ways::{map_byte, sides, ways};
    let vectors = vectors::read_steps(STEPS).unwrap().0.into_iter().step_by(7).map(|v| v.machine);
    let groups = vectors::read_groups(GROUPS).unwrap().0.into_iter().map(|g| g.machine);
    for machine in vectors.chain(groups).filter(|machine| machine.damage == 0) {
        let (t, m) = (&machine.tables, &machine.memory);
        for group in 1..1 << machine.cores {
            let all = ways(t, m, group);
            let mut map = vec![0xEE; machine.pages as usize];
            let beyond = oracle::reach(t, m, group, &mut map);
            assert_eq!(beyond, Ok(all.iter().any(|r| r.page >= machine.pages as u32)));
            assert!((0..).zip(&map).all(|(page, byte)| map_byte(&all, page) == *byte));
            assert_eq!(oracle::apart(t, m, group), Ok(sides(t, m, group).fails.is_empty()));
        }
    }
}
