//! Times the proved machine beside the plain simulator (`../oracle`) in one process, on the same machines: schedules of
//! steps, maps on which reach and apart answer, addresses that translate follows, and words that disassemble shows. With
//! an argument only those whose name holds it; with the argument `every word` the texts of all words are compared. See
//! docs/PERFORMANCE.md.

mod addresses;
mod maps;
mod schedules;
mod words;

use schedules::Case;
use std::hint::black_box;
use std::time::Instant;

/// Times one way takes the schedule; the ways take turns, so that they meet the same state of the processor.
const REPEATS: usize = 2000;

/// A way to take a schedule on tables and memory: how many steps were accepted.
type Way = fn(&mut [u32], &mut [u8], &[u32]) -> usize;

fn proved_run(t: &mut [u32], m: &mut [u8], s: &[u32]) -> usize {
    mips86::run(t, m, s, u32::MAX).accepted as usize
}

fn oracle_run(t: &mut [u32], m: &mut [u8], s: &[u32]) -> usize {
    oracle::machine::run(false, t, m, s, u32::MAX).map_or(0, |r| r.accepted as usize)
}

fn proved_steps(t: &mut [u32], m: &mut [u8], s: &[u32]) -> usize {
    let accepted =
        |x: &[u32], t: &mut [u32], m: &mut [u8]| !matches!(mips86::step(t, m, x), mips86::Answer::Refused(_));
    s.chunks_exact(6).filter(|x| accepted(x, t, m)).count()
}

fn oracle_steps(checked: bool, t: &mut [u32], m: &mut [u8], s: &[u32]) -> usize {
    let accepted = |x: &[u32], t: &mut [u32], m: &mut [u8]| {
        !matches!(oracle::machine::step(checked, t, m, x), oracle::machine::Answer::Refused(_))
    };
    s.chunks_exact(6).filter(|x| accepted(x, t, m)).count()
}

fn oracle_unchecked(t: &mut [u32], m: &mut [u8], s: &[u32]) -> usize {
    oracle_steps(false, t, m, s)
}

fn oracle_checked(t: &mut [u32], m: &mut [u8], s: &[u32]) -> usize {
    oracle_steps(true, t, m, s)
}

/// Nanoseconds: the best and the median of all repeats.
struct Time {
    best: f64,
    median: f64,
}

fn time(mut nanos: Vec<f64>) -> Time {
    nanos.sort_by(f64::total_cmp);
    Time { best: nanos[0], median: nanos[nanos.len() / 2] }
}

/// Each way's time a step. All of them must accept as many steps as the case says and leave the same tables and memory.
fn times(case: &Case, ways: &[Way]) -> Vec<Time> {
    let steps = case.schedule.len() / 6;
    let mut nanos = vec![Vec::with_capacity(REPEATS); ways.len()];
    let mut left: Vec<(Vec<u32>, Vec<u8>)> = vec![(case.tables.clone(), case.memory.clone()); ways.len()];
    for _ in 0..REPEATS {
        for (k, way) in ways.iter().enumerate() {
            let (t, m) = &mut left[k];
            t.copy_from_slice(&case.tables);
            m.copy_from_slice(&case.memory);
            let start = Instant::now();
            let accepted = way(black_box(t), black_box(m), black_box(&case.schedule));
            nanos[k].push(start.elapsed().as_nanos() as f64 / steps as f64);
            assert_eq!(accepted, case.accepted, "{}: way {k}, steps accepted", case.name);
        }
    }
    for (k, l) in left.iter().enumerate() {
        assert!(*l == left[0], "{}: way {k} leaves another machine than way 0", case.name);
    }
    assert!(left[0].0 != case.tables, "{}: the tables did not move", case.name);
    nanos.into_iter().map(time).collect()
}

/// The map of a case and a way's answer: beyond memory for reach, the verdict for apart.
type Answer = (Vec<u8>, bool);

/// A way to answer a question on tables and memory: it fills the map that it is given, or leaves it.
type Question = fn(&[u32], &[u8], u32, &mut [u8]) -> Result<bool, u32>;

fn proved_apart(t: &[u32], m: &[u8], group: u32, _: &mut [u8]) -> Result<bool, u32> {
    mips86::apart(t, m, group)
}

fn oracle_apart(t: &[u32], m: &[u8], group: u32, _: &mut [u8]) -> Result<bool, u32> {
    oracle::apart(t, m, group)
}

/// Each way's time a call, then that of one plain read of the table pages, which adds up their words, and of one that
/// takes each word by itself. The ways must agree on the answer and the map.
fn question_times(case: &maps::Case, read: &[usize], ways: &[Question]) -> (Vec<Time>, Answer) {
    let (t, m) = (&case.tables[..], &case.memory[..]);
    let mut nanos = vec![Vec::with_capacity(case.repeats); ways.len() + 2];
    let mut answers: Vec<Answer> = vec![(vec![0; m.len() / mips86::PAGE_BYTES], false); ways.len()];
    for _ in 0..case.repeats {
        for (k, way) in ways.iter().enumerate() {
            let start = Instant::now();
            let answer = way(black_box(t), black_box(m), black_box(case.group), black_box(&mut answers[k].0));
            nanos[k].push(start.elapsed().as_nanos() as f64);
            answers[k].1 = answer.unwrap_or_else(|why| panic!("{}: way {k} refused {why}", case.name));
        }
        let words = || black_box(read).iter().flat_map(|&page| maps::words(black_box(m), page));
        let start = Instant::now();
        black_box(words().fold(0, u32::wrapping_add));
        nanos[ways.len()].push(start.elapsed().as_nanos() as f64);
        let start = Instant::now();
        words().for_each(|word| {
            black_box(word);
        });
        nanos[ways.len() + 1].push(start.elapsed().as_nanos() as f64);
    }
    for (k, answer) in answers.iter().enumerate() {
        assert!(*answer == answers[0], "{}: way {k} answers otherwise than way 0", case.name);
    }
    (nanos.into_iter().map(time).collect(), answers.swap_remove(0))
}

/// The targets that were missed.
#[derive(Default)]
struct Missed(Vec<String>);

impl Missed {
    fn hold(&mut self, name: &str, ratio: f64, most: f64) {
        if ratio > most {
            self.0.push(format!("{name}: {ratio:.2}, target at most {most:.1}"));
        }
    }
}

fn time_schedule(case: &Case, missed: &mut Missed) {
    println!("\n{}", case.name);
    let run = times(case, &[proved_run, oracle_run]);
    let ratio = run[0].median / run[1].median;
    println!(
        "  run     proved {:7.1} / {:7.1}   plain, unchecked {:7.1} / {:7.1}   ratio {ratio:.2}",
        run[0].best, run[0].median, run[1].best, run[1].median
    );
    missed.hold(&format!("{}, run", case.name), ratio, 1.0);
    missed.hold(&format!("{}, step", case.name), time_steps(case), 3.0);
}

/// Times single steps, and gives the ratio to the plain simulator without its check.
fn time_steps(case: &Case) -> f64 {
    let step = times(case, &[proved_steps, oracle_unchecked, oracle_checked]);
    let ratio = step[0].median / step[1].median;
    println!(
        "  step    proved {:7.1} / {:7.1}   plain, unchecked {:7.1} / {:7.1}   ratio {ratio:.2}",
        step[0].best, step[0].median, step[1].best, step[1].median
    );
    println!(
        "                                    plain, checked   {:7.1} / {:7.1}   ratio {:.2}",
        step[2].best,
        step[2].median,
        step[0].median / step[2].median
    );
    ratio
}

fn print_question(name: &str, case: &maps::Case, read: &[usize], times: &[Time], missed: &mut Missed) {
    let micros = |t: &Time| format!("{:8.1} / {:8.1}", t.best / 1000.0, t.median / 1000.0);
    let [plain, once, by_word] = [1, 2, 3].map(|k| times[0].median / times[k].median);
    println!("\n{}, {name}: {} table pages read", case.name, read.len());
    println!("  {name}   proved {}   plain            {}   ratio {plain:.2}", micros(&times[0]), micros(&times[1]));
    println!("                                      the tables read  {}   ratio {once:.2}", micros(&times[2]));
    println!("                                      word by word     {}   ratio {by_word:.2}", micros(&times[3]));
    missed.hold(&format!("{}, {name} to the plain simulator's", case.name), plain, 1.0);
    missed.hold(&format!("{}, {name} to one read of the tables", case.name), once, 2.0);
}

fn time_reach(case: &maps::Case, missed: &mut Missed) {
    let read = maps::table_pages(case, case.group);
    let (times, (map, beyond)) = question_times(case, &read, &[mips86::reach, oracle::reach]);
    let tables = map.iter().filter(|byte| *byte & mips86::TABLE != 0).count();
    assert!(!beyond && map.iter().all(|&byte| byte != 0), "{}: each page is reached, and none beyond", case.name);
    assert!(read.iter().all(|&p| map[p] & mips86::TABLE != 0) && tables <= read.len(), "{}: tables", case.name);
    print_question("reach", case, &read, &times, missed);
}

fn time_apart(case: &maps::Case, missed: &mut Missed) {
    let read = [case.group, maps::ALL & !case.group].map(|side| maps::table_pages(case, side)).concat();
    let (times, (_, yes)) = question_times(case, &read, &[proved_apart, oracle_apart]);
    assert!(yes, "{}: the answer is yes, for which both sides' tables are read", case.name);
    print_question("apart", case, &read, &times, missed);
}

/// Times one way translates; and calls in a row of one time, since one alone is short for the clock.
const TRANSLATE_REPEATS: usize = 2000;
const IN_A_ROW: usize = 16;

/// A way to translate the addresses of a core: it fills the answers, and says how many entries were read.
type Translate = fn(&[u32], &[u8], u32, &[u32], &mut [u32]) -> Result<u32, u32>;

/// Each address by a call of its own; the sum of the entries read.
fn one_by_one(way: Translate, t: &[u32], m: &[u8], core: u32, list: &[u32], answers: &mut [u32]) -> Result<u32, u32> {
    let each = list.chunks_exact(1).zip(answers.chunks_exact_mut(mips86::ANSWER_WORDS));
    each.map(|(address, answer)| way(black_box(t), black_box(m), core, address, answer)).sum()
}

fn proved_one_by_one(t: &[u32], m: &[u8], core: u32, list: &[u32], answers: &mut [u32]) -> Result<u32, u32> {
    one_by_one(mips86::translate_into, t, m, core, list, answers)
}

fn oracle_one_by_one(t: &[u32], m: &[u8], core: u32, list: &[u32], answers: &mut [u32]) -> Result<u32, u32> {
    one_by_one(oracle::translate, t, m, core, list, answers)
}

/// Each way's time for all addresses. The ways must agree on the answers, which are pages, and read as many entries as
/// the case or, one by one, two an address.
fn translate_times(case: &addresses::Case, ways: &[(Translate, u32)]) -> Vec<Time> {
    let (t, m, list) = (&case.tables[..], &case.memory[..], &case.addresses[..]);
    let mut nanos = vec![Vec::with_capacity(TRANSLATE_REPEATS); ways.len()];
    let mut answers = vec![vec![u32::MAX; mips86::ANSWER_WORDS * list.len()]; ways.len()];
    for _ in 0..TRANSLATE_REPEATS {
        for (k, (way, expected)) in ways.iter().enumerate() {
            let mut reads = Ok(0);
            answers[k].fill(u32::MAX);
            let start = Instant::now();
            for _ in 0..IN_A_ROW {
                let answers = black_box(&mut answers[k][..]);
                reads = black_box(way(black_box(t), black_box(m), black_box(case.core), black_box(list), answers));
            }
            nanos[k].push(start.elapsed().as_nanos() as f64 / IN_A_ROW as f64);
            assert_eq!(reads, Ok(*expected), "{}: entries that way {k} reads", case.name);
        }
        for (k, words) in answers.iter().enumerate() {
            assert!(*words == answers[0], "{}: way {k} answers otherwise than way 0", case.name);
        }
    }
    assert!(answers[0].iter().step_by(3).all(|&kind| kind == 0), "{}: each address leads to a page", case.name);
    nanos.into_iter().map(time).collect()
}

fn time_translate(case: &addresses::Case) {
    let (once, each) = (case.reads, 2 * case.addresses.len() as u32);
    let ways: [(Translate, u32); 4] = [
        (mips86::translate_into, once),
        (oracle::translate, once),
        (proved_one_by_one, each),
        (oracle_one_by_one, each),
    ];
    let times = translate_times(case, &ways);
    let nanos = |k: usize| format!("{:8.1} / {:8.1}", times[k].best, times[k].median);
    let ratio = |a: usize, b: usize| times[a].median / times[b].median;
    println!("\n{}: {once} entries", case.name);
    println!("  one call   proved {}   plain {}   ratio {:.2}", nanos(0), nanos(1), ratio(0, 1));
    println!("  64 calls   proved {}   plain {}   ratio {:.2}", nanos(2), nanos(3), ratio(2, 3));
    println!("  one call to 64 calls: proved {:.3}, plain {:.3}", ratio(0, 2), ratio(1, 3));
}

fn time_disassemble() {
    let (words, proved, plain) = words::times();
    let (proved, plain) = (time(proved), time(plain));
    let ratio = proved.median / plain.median;
    println!("\ndisassemble, nanoseconds a word, best / median; {words} words");
    println!(
        "  proved {:.1} / {:.1}   plain {:.1} / {:.1}   ratio {ratio:.2}",
        proved.best, proved.median, plain.best, plain.median
    );
}

fn main() {
    let mut missed = Missed::default();
    let part = std::env::args().nth(1).unwrap_or_default();
    if part == "every word" {
        println!("{} words, all with the same text", words::compare_all());
        return;
    }
    println!("nanoseconds a step, best / median of {REPEATS} repeats of 1,024 steps; ratios of the medians");
    let cases =
        [schedules::system(), schedules::user(), schedules::tlb(), schedules::interrupts(), schedules::none_pending()];
    for case in cases {
        if case.name.contains(&part) {
            time_schedule(&case, &mut missed);
        }
    }
    // A run ends at a refused step, so these are single ones. They have no target.
    for case in schedules::refused() {
        if case.name.contains(&part) {
            println!("\n{}", case.name);
            time_steps(&case);
        }
    }
    println!("\nmicroseconds a call, best / median; ratios of the medians");
    for case in [maps::sparse(maps::ALL), maps::dense_reach()] {
        if case.name.contains(&part) {
            time_reach(&case, &mut missed);
        }
    }
    for case in [maps::sparse(maps::HALF), maps::dense_apart()] {
        if case.name.contains(&part) {
            time_apart(&case, &mut missed);
        }
    }
    println!("\nnanoseconds for 64 addresses, best / median of {TRANSLATE_REPEATS} repeats; ratios of the medians");
    for case in [1, 4].into_iter().flat_map(addresses::cases) {
        if case.name.contains(&part) {
            time_translate(&case);
        }
    }
    if "disassemble".contains(&part) {
        time_disassemble();
    }
    println!();
    for m in &missed.0 {
        println!("missed: {m}");
    }
    println!("{} targets missed", missed.0.len());
}
