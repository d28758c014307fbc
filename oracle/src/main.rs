//! oracle: the simulator's commands. `oracle help` lists them.

use oracle::counts::Counts;
use oracle::machine::step;
use oracle::soundness::*;
use oracle::ways::CONDITIONS;
use oracle::{demand3, generate, groups, isa, program, texts, translations, vectors};
use std::io::{Read, Write};

const HELP: &str = "\
oracle simulate < INPUT        the run program: input to answers
oracle vectors SEED > FILE     make the steps file
oracle groups SEED > FILE      make the groups file (reach and apart)
oracle translations SEED > FILE
                               make the translations file (translate)
oracle texts SEED > FILE       make the texts file (disassemble)
oracle replay FILE [N]         each answer of a steps, translations or texts file,
                               and what changed (vector or machine N alone)
oracle check FILE              replay a file of any kind and compare
oracle counts FILE             how often each thing occurs
oracle disassemble WORD...     the text of each word (hexadecimal)
oracle demand3 SEED N [C [on]] demand 3 on N pairs of machines (condition C, 1 to 9,
                               off; on: a changed table byte does not end a pair)
";

fn main() {
    let args: Vec<String> = std::env::args().skip(1).collect();
    let args: Vec<&str> = args.iter().map(|s| s.as_str()).collect();
    let result = match args[..] {
        ["simulate"] => simulate(),
        ["vectors", seed] => number(seed).and_then(|s| print(&vectors::write_steps(&generate::steps(s), s))),
        ["groups", seed] => number(seed).and_then(|s| print(&vectors::write_groups(&groups::groups(s), s))),
        ["translations", seed] => {
            number(seed).and_then(|s| print(&vectors::write_translations(&translations::translations(s), s)))
        }
        ["texts", seed] => number(seed).and_then(|s| print(&vectors::write_texts(&texts::texts(s), s))),
        ["disassemble", ref words @ ..] if !words.is_empty() => disassemble(words),
        ["replay", file] => replay(file, None),
        ["replay", file, n] => number(n).and_then(|n| replay(file, Some(n as usize))),
        ["check", file] => check(file),
        ["counts", file] => counts(file),
        ["demand3", seed, n] => number(seed).and_then(|s| demand(s, number(n)?, None, true)),
        ["demand3", seed, n, off] => number(seed).and_then(|s| demand(s, number(n)?, Some(number(off)?), true)),
        ["demand3", seed, n, off, "on"] => number(seed).and_then(|s| demand(s, number(n)?, Some(number(off)?), false)),
        _ => Err(HELP.to_string()),
    };
    if let Err(message) = result {
        eprintln!("{}", message.trim_end());
        std::process::exit(1);
    }
}

type Outcome = Result<(), String>;

fn number(text: &str) -> Result<u32, String> {
    text.parse().map_err(|_| format!("not a number: {text}"))
}

fn load(file: &str) -> Result<Vec<u8>, String> {
    std::fs::read(file).map_err(|e| format!("{file}: {e}"))
}

fn print(bytes: &[u8]) -> Outcome {
    std::io::stdout().write_all(bytes).map_err(|e| e.to_string())
}

fn simulate() -> Outcome {
    let mut input = Vec::new();
    std::io::stdin().read_to_end(&mut input).map_err(|e| e.to_string())?;
    print(program::simulate(&input).as_bytes())
}

fn is_groups(bytes: &[u8]) -> bool {
    bytes.starts_with(vectors::GROUPS_MAGIC)
}

fn is_translations(bytes: &[u8]) -> bool {
    bytes.starts_with(vectors::TRANSLATIONS_MAGIC)
}

fn is_texts(bytes: &[u8]) -> bool {
    bytes.starts_with(vectors::TEXTS_MAGIC)
}

/// A text a line.
fn disassemble(words: &[&str]) -> Outcome {
    let mut out = String::new();
    for word in words {
        let number =
            u32::from_str_radix(word.trim_start_matches("0x"), 16).map_err(|_| format!("not a word: {word}"))?;
        out += &oracle::disassemble::text(number);
        out.push('\n');
    }
    print(out.as_bytes())
}

fn check(file: &str) -> Outcome {
    let bytes = load(file)?;
    if is_texts(&bytes) {
        let (all, _) = vectors::read_texts(&bytes)?;
        if let Some(n) = all.iter().position(|v| vectors::answer_text(v.word, v.buffer.len()) != *v) {
            return Err(format!("vector {n} differs"));
        }
        println!("{} vectors agree", all.len());
        return Ok(());
    }
    if is_translations(&bytes) {
        let (all, _) = vectors::read_translations(&bytes)?;
        let mut questions = 0;
        for (n, g) in all.iter().enumerate() {
            let asked: Vec<vectors::Asked> = g.questions.iter().map(|q| q.asked.clone()).collect();
            let again = vectors::answer_translations(g.machine.clone(), &asked);
            if let Some(i) = (0..asked.len()).find(|&i| again.questions[i] != g.questions[i]) {
                return Err(format!("machine {n} differs at question {i}"));
            }
            if again != *g {
                return Err(format!("machine {n} differs in its check sum"));
            }
            questions += asked.len();
        }
        println!("{} machines, {questions} questions agree", all.len());
        return Ok(());
    }
    if is_groups(&bytes) {
        let (groups, _) = vectors::read_groups(&bytes)?;
        for (n, g) in groups.iter().enumerate() {
            let asked: Vec<(u32, u16)> = g.questions.iter().map(|q| (q.group, q.map_length)).collect();
            if vectors::answer_groups(g.machine.clone(), &asked) != *g {
                return Err(format!("machine {n} differs"));
            }
        }
        println!("{} machines agree", groups.len());
        return Ok(());
    }
    let (all, _) = vectors::read_steps(&bytes)?;
    let mut steps = 0;
    for (n, v) in all.iter().enumerate() {
        let schedule: Vec<[u32; 6]> = v.steps.iter().map(|s| s.words).collect();
        let again = vectors::answer_steps(v.machine.clone(), &schedule, v.run.words, v.run.limit);
        if let Some(i) = (0..schedule.len()).find(|&i| again.steps[i] != v.steps[i]) {
            return Err(format!("vector {n} differs at step {i}"));
        }
        if again != *v {
            return Err(format!("vector {n} differs in its run or first check sum"));
        }
        steps += schedule.len();
    }
    println!("{} vectors, {steps} steps agree", all.len());
    Ok(())
}

fn counts(file: &str) -> Outcome {
    let bytes = load(file)?;
    let mut counts = Counts::default();
    if is_texts(&bytes) {
        vectors::read_texts(&bytes)?.0.iter().for_each(|v| counts.text(v));
        return print(counts.print_texts().as_bytes());
    }
    if is_translations(&bytes) {
        vectors::read_translations(&bytes)?.0.iter().for_each(|g| counts.translations(g));
        return print(counts.print_translations().as_bytes());
    }
    if is_groups(&bytes) {
        vectors::read_groups(&bytes)?.0.iter().for_each(|g| counts.groups(g));
        return print(counts.print_groups().as_bytes());
    }
    vectors::read_steps(&bytes)?.0.iter().for_each(|v| counts.vector(v));
    print(counts.print().as_bytes())
}

/// Fails if the claim breaks; with a condition off, that is for the reader.
fn demand(seed: u32, pairs: u32, off: Option<u32>, tables: bool) -> Outcome {
    let off = match off {
        None => None,
        Some(n) => {
            let (condition, text) = *CONDITIONS.get((n as usize).wrapping_sub(1)).ok_or("conditions are 1 to 9")?;
            println!("off: {text}");
            Some(condition)
        }
    };
    let figures = demand3::trial(seed, pairs as u64, &demand3::Terms { off, tables, ..demand3::Terms::CLAIM });
    print(figures.print().as_bytes())?;
    if off.is_none() && figures.broken() != 0 {
        return Err("it breaks".into());
    }
    Ok(())
}

fn replay(file: &str, only: Option<usize>) -> Outcome {
    let bytes = load(file)?;
    if is_translations(&bytes) {
        return replay_translations(&bytes, only);
    }
    if is_texts(&bytes) {
        return replay_texts(&bytes, only);
    }
    let (all, _) = vectors::read_steps(&bytes)?;
    let mut out = String::new();
    for (n, v) in all.iter().enumerate().filter(|(n, _)| only.is_none_or(|o| o == *n)) {
        let (mut t, mut m) = (v.machine.tables.clone(), v.machine.memory.clone());
        out += &format!("vector {n}: {} cores, {} pages", v.machine.cores, v.machine.pages);
        match sound(&t, &m) {
            Ok(()) => out += "\n",
            Err(clause) => out += &format!(", not sound: {}\n", CLAUSES[clause as usize - 1].1),
        }
        for (place, s) in v.steps.iter().enumerate() {
            let (t0, m0) = (t.clone(), m.clone());
            let w = s.words;
            out += &format!("{place} ({}, {}, {:X}, {:X}, {:X}, {:X})", w[0], w[1], w[2], w[3], w[4], w[5]);
            out += &instruction(&t, &m, &w);
            let answer = step(true, &mut t, &mut m, &w);
            out += &format!(": {answer}");
            if let oracle::Answer::Refused(why) = answer {
                out += &format!(" ({})", why.text());
            }
            if answer.code() != s.answer {
                out += &format!("  FILE SAYS {}", s.answer);
            } else if vectors::checksum(&t, &m) != s.sum {
                out += "  FILE HAS ANOTHER CHECK SUM";
            }
            out.push('\n');
            for i in (0..t.len()).filter(|&i| t[i] != t0[i]) {
                out += &format!("    {}: {:08X} -> {:08X}\n", table_word(i), t0[i], t[i]);
            }
            for i in (0..m.len()).filter(|&i| m[i] != m0[i]) {
                out += &format!("    memory {i:X}: {:02X} -> {:02X}\n", m0[i], m[i]);
            }
        }
        let r = &v.run;
        out += &format!(
            "run of {} words, limit {}: refusal {}, accepted {}, stop {}\n",
            r.words, r.limit, r.refusal, r.accepted, r.stop
        );
    }
    print(out.as_bytes())
}

/// Each question, and where answered each address with its three words and
/// the addresses of the entries that it needs.
fn replay_translations(bytes: &[u8], only: Option<usize>) -> Outcome {
    let mut out = String::new();
    let (all, _) = vectors::read_translations(bytes)?;
    for (n, g) in all.iter().enumerate().filter(|(n, _)| only.is_none_or(|o| o == *n)) {
        let (t, m) = (&g.machine.tables, &g.machine.memory);
        out += &format!("machine {n}: {} cores, {} pages", g.machine.cores, g.machine.pages);
        match sound(t, m) {
            Ok(()) => out += "\n",
            Err(clause) => out += &format!(", not sound: {}\n", CLAUSES[clause as usize - 1].1),
        }
        if vectors::checksum(t, m) != g.sum {
            out += "  FILE HAS ANOTHER CHECK SUM\n";
        }
        for (place, q) in g.questions.iter().enumerate() {
            let a = &q.asked;
            let again = vectors::answer_translation(&g.machine, a);
            out += &format!("{place} core {}, {} addresses, {} words: ", a.core, a.addresses.len(), a.words);
            out += &match again.answer {
                0 => format!("{} reads", again.reads),
                refused => format!("refused {}", refused - 100),
            };
            if (again.answer, again.reads) != (q.answer, q.reads) {
                out += &format!("  FILE SAYS {}, {} reads", q.answer, q.reads);
            } else if again.sum != q.sum {
                out += "  FILE HAS ANOTHER CHECK SUM";
            }
            out.push('\n');
            for &address in a.addresses.iter().filter(|_| again.answer == 0) {
                let trail = oracle::translate::trail(t, m, a.core, address);
                let [what, x, y] = trail.answer;
                out += &format!("    {address:08X}: {what} {x:X} {y}, entries");
                for (at, pte) in trail.entries {
                    out += &pte.map_or(format!(" {at:X} beyond"), |pte| format!(" {at:X} ({pte:08X})"));
                }
                out.push('\n');
            }
        }
    }
    print(out.as_bytes())
}

/// Each word with its text, or the length that is refused.
fn replay_texts(bytes: &[u8], only: Option<usize>) -> Outcome {
    let mut out = String::new();
    let (all, _) = vectors::read_texts(bytes)?;
    for (n, v) in all.iter().enumerate().filter(|(n, _)| only.is_none_or(|o| o == *n)) {
        let again = vectors::answer_text(v.word, v.buffer.len());
        out += &format!("vector {n}: {:08X} ", v.word);
        out += &match again.answer {
            117 => format!("refused 17, {} bytes", v.buffer.len()),
            _ => oracle::disassemble::text(v.word),
        };
        if again.answer != v.answer {
            out += &format!("  FILE SAYS {}", v.answer);
        } else if again.buffer != v.buffer {
            out += "  FILE HAS OTHER BYTES";
        }
        out.push('\n');
    }
    print(out.as_bytes())
}

/// The pc and the instruction a core step is about to fetch.
fn instruction(t: &[u32], m: &[u8], s: &[u32; 6]) -> String {
    if s[0] != 0 || sound(t, m).is_err() || s[1] >= t[CORES] {
        return String::new();
    }
    let b = block(s[1] as usize);
    let mode = if t[b + MODE] & 1 == 1 { "user" } else { "system" };
    match oracle::machine::fetch(t, m, b, oracle::machine::Walk { first: s[2], base: s[3] }) {
        Ok(Some(i)) => format!(" {mode} pc {:X} {i:08X} {}", t[b + PC], isa::name(i)),
        _ => format!(" {mode} pc {:X}", t[b + PC]),
    }
}

/// A table word in the words of 01.
fn table_word(i: usize) -> String {
    if i < 32 {
        return match i {
            REFUSALS => "refusal count".into(),
            LINES => "lines".into(),
            IOREGSEL => "IOREGSEL".into(),
            IOWIN => "IOWIN".into(),
            6..=29 => format!("redirect {}", i - REDIRECT),
            _ => format!("header {i}"),
        };
    }
    let (core, w) = ((i - 32) / 256, (i - 32) % 256);
    let name = match w {
        0..=31 => format!("gpr {w}"),
        32..=63 => format!("spr {}", w - SPR),
        PC => "pc".into(),
        HI => "HI".into(),
        LO => "LO".into(),
        RUNNING => "running".into(),
        STORES => "head of stores".into(),
        WALKS => "head of walks".into(),
        FREE => "head of free".into(),
        72..=103 => format!("APIC port {}", 4 * (w - APIC)),
        104..=111 => format!("eoipending {}", w - EOIPENDING),
        SIPIRR => "sipirr".into(),
        SIPIVECT => "sipivect".into(),
        INITRR => "initrr".into(),
        CORE_REFUSALS => "refusal count".into(),
        128.. => format!("record {} word {}", (w - RECORDS) / 4, (w - RECORDS) % 4),
        _ => format!("block word {w}"),
    };
    format!("core {core} {name}")
}
