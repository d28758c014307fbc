//! The vectors of the independent simulator, replayed through the library: every answer, check sum, map, answer word
//! and text of the four files in oracle/vectors is held against what the library gives. oracle/README.md says how they
//! stand in the files, byte by byte.
//!
//! How often each thing occurred is held against vectors.counts, and these counts against the tables of
//! oracle/README.md, so that a file with less in it fails. The last tests show that the others can fail.

use mips86::{
    apart, core_refusals, disassemble_into, disassembled, make, reach, run, step, table_words, translate_into,
};
use mips86::{Answer, Machine, Stop, PAGE_BYTES, REFUSALS, STEP_WORDS};
use std::collections::BTreeMap;
use std::fmt::Debug;
use std::hint::black_box;

/// What is wanted, or a text: what differs first, or what in a file has not its form.
type Checked<T = ()> = Result<T, String>;

fn same<T: PartialEq + Debug>(what: &str, found: T, expected: T) -> Checked {
    if found == expected {
        return Ok(());
    }
    Err(format!("{what}: found {found:?}, expected {expected:?}"))
}

/// How often each thing occurred, by its name.
#[derive(Default)]
struct Counts(BTreeMap<String, u32>);

impl Counts {
    fn add(&mut self, name: impl Into<String>, times: u32) {
        *self.0.entry(name.into()).or_default() += times;
    }

    fn one(&mut self, name: impl Into<String>) {
        self.add(name, 1);
    }

    fn of(&self, name: &str) -> u32 {
        self.0.get(name).copied().unwrap_or(0)
    }
}

// ---- the files

/// A file of oracle/vectors.
struct File {
    name: &'static str,
    /// Its first four bytes.
    mark: &'static [u8; 4],
    /// What it has many of: vectors or machines.
    item: &'static str,
    /// Replays the next of these.
    replay: fn(&mut Reader, &mut Counts) -> Checked,
    /// Parts of oracle/README.md on the file, with an empty line between them. A name in braces stands for its count.
    tables: &'static str,
}

const STEPS: File =
    File { name: "steps.bin", mark: b"M86S", item: "vector", replay: replay_steps, tables: STEPS_TABLES };
const GROUPS: File =
    File { name: "groups.bin", mark: b"M86G", item: "machine", replay: replay_groups, tables: GROUPS_TABLES };
const TRANSLATIONS: File = File {
    name: "translations.bin",
    mark: b"M86T",
    item: "machine",
    replay: replay_translations,
    tables: TRANSLATIONS_TABLES,
};
const TEXTS: File =
    File { name: "texts.bin", mark: b"M86D", item: "vector", replay: replay_text, tables: TEXTS_TABLES };
const FILES: [File; 4] = [STEPS, GROUPS, TRANSLATIONS, TEXTS];

/// Bytes of a file's header: mark, version, number of vectors or machines, seed.
const HEADER: usize = 16;

/// The bytes of something in oracle.
fn in_oracle(path: &str) -> Vec<u8> {
    let path = format!("{}/../../oracle/{path}", env!("CARGO_MANIFEST_DIR"));
    std::fs::read(&path).unwrap_or_else(|error| panic!("{path}: {error}"))
}

impl File {
    fn bytes(&self) -> Vec<u8> {
        in_oracle(&format!("vectors/{}", self.name))
    }
}

/// Reads a file from front to back.
struct Reader<'a> {
    bytes: &'a [u8],
    /// The place of the next byte.
    at: usize,
    /// The places of the bytes that are held against something or say how much follows.
    held: Vec<usize>,
}

impl<'a> Reader<'a> {
    fn take(&mut self, length: usize) -> Checked<&'a [u8]> {
        let rest = &self.bytes[self.at..];
        let taken = rest.get(..length).ok_or_else(|| format!("the file ends after {} bytes", self.bytes.len()))?;
        self.at += length;
        Ok(taken)
    }

    /// A number, low byte first.
    fn number(&mut self, width: usize) -> Checked<u32> {
        Ok(self.take(width)?.iter().rev().fold(0, |number, &byte| number << 8 | u32::from(byte)))
    }

    /// A number that is the length of something; the files have no greater one than `most`.
    fn length(&mut self, width: usize, most: usize) -> Checked<usize> {
        let length = self.number(width)? as usize;
        if length > most {
            return Err(format!("a length of {length}, where {most} is the most"));
        }
        Ok(length)
    }

    /// How many steps or questions follow.
    fn count(&mut self, most: usize) -> Checked<usize> {
        self.held.extend(self.at..self.at + 2);
        self.length(2, most)
    }

    /// Holds what was found against the next number.
    fn expect(&mut self, what: &str, width: usize, found: u32) -> Checked {
        self.held.extend(self.at..self.at + width);
        same(what, found, self.number(width)?)
    }

    /// Holds what was found against the next bytes.
    fn expect_bytes(&mut self, what: &str, found: &[u8]) -> Checked {
        self.held.extend(self.at..self.at + found.len());
        same(what, found, self.take(found.len())?)
    }

    /// The header: how many vectors or machines follow.
    fn header(&mut self, mark: &[u8; 4]) -> Checked<u32> {
        self.expect_bytes("the mark", mark)?;
        self.expect("the version", 4, 1)?;
        self.held.extend(self.at..self.at + 4);
        let number = self.number(4)?;
        self.number(4)?; // the seed
        Ok(number)
    }

    /// Puts runs of words of the file over some words.
    fn runs(&mut self, words: &mut [u32]) -> Checked {
        loop {
            let length = self.number(2)? as usize;
            if length == 0 {
                return Ok(());
            }
            let start = self.number(2)? as usize;
            let place = words.get_mut(start..start + length).ok_or("a run of words leads past their end")?;
            for word in place {
                *word = self.number(4)?;
            }
        }
    }

    /// A machine: it is made in the room for the largest, the runs go over it, and it is cut to what is handed over.
    fn machine(&mut self) -> Checked<Machine> {
        let mut tables = vec![0; table_words(4)];
        let mut memory = vec![0; 8 * PAGE_BYTES / 4];
        let (cores, pages, damage) = (self.length(1, 4)?, self.length(1, 8)?, self.number(1)?);
        let (table_length, memory_length) = (self.length(2, tables.len())?, self.length(2, memory.len())?);
        let made = make(&mut tables[..table_words(cores)], &vec![0; pages * PAGE_BYTES], cores as u32);
        same("make", made, Ok(()))?;
        self.runs(&mut tables)?;
        self.runs(&mut memory)?;
        tables.truncate(table_length);
        memory.truncate(memory_length);
        let machine = Machine { tables, memory: memory.into_iter().flat_map(u32::to_le_bytes).collect() };
        same("tables that are not sound", machine.apart(1) == Err(4), damage != 0)?;
        self.expect("the sum of the machine", 4, sum(&machine))?;
        Ok(machine)
    }

    /// The words of a step. Two bits of its form say how many bytes each has.
    fn step(&mut self) -> Checked<[u32; STEP_WORDS]> {
        let form = self.number(2)?;
        let mut words = [0; STEP_WORDS];
        for (place, word) in words.iter_mut().enumerate() {
            let width = [0, 1, 2, 4][(form >> (2 * place) & 3) as usize];
            *word = self.number(width)?;
        }
        Ok(words)
    }
}

/// A check sum with one word more.
fn mix(sum: u32, word: u32) -> u32 {
    sum.wrapping_mul(16_777_619).wrapping_add(word)
}

fn sum_of_words(words: &[u32]) -> u32 {
    words.iter().fold(0, |sum, &word| mix(sum, word))
}

fn sum_of_bytes(bytes: &[u8]) -> u32 {
    bytes.iter().fold(0, |sum, &byte| mix(sum, byte.into()))
}

/// The check sum of a machine, tables first. By the black box nothing is taken for unchanged that was lent to be read.
fn sum(machine: &Machine) -> u32 {
    let Machine { tables, memory } = black_box(machine);
    let words = memory.chunks_exact(4).map(|bytes| u32::from_le_bytes(bytes.try_into().expect("four bytes")));
    words.fold(sum_of_words(tables), mix)
}

/// Elements behind a buffer that is handed over; nothing may be written there.
const BEHIND: usize = 8;

// ---- the replay

/// What a replay leaves.
struct Replayed {
    counts: Counts,
    /// Where each vector or machine begins, and the file's end.
    starts: Vec<usize>,
    /// The places of the bytes that were held against something or said how much follows.
    held: Vec<usize>,
}

/// Replays a file to its last byte, or up to the first difference.
fn replay(file: &File, bytes: &[u8]) -> Checked<Replayed> {
    replay_items(file, bytes).map_err(|text| format!("{}, {text}", file.name))
}

fn replay_items(file: &File, bytes: &[u8]) -> Checked<Replayed> {
    let mut reader = Reader { bytes, at: 0, held: vec![] };
    let mut counts = Counts::default();
    let mut starts = vec![HEADER];
    for number in 0..reader.header(file.mark)? {
        let replayed = (file.replay)(&mut reader, &mut counts);
        replayed.map_err(|text| format!("{} {number}: {text}", file.item))?;
        starts.push(reader.at);
    }
    same("bytes behind the last", bytes.len() - reader.at, 0)?;
    Ok(Replayed { counts, starts, held: reader.held })
}

/// Replays a vector of steps.bin: its steps one by one, and its run on a copy of the machine before them.
fn replay_steps(reader: &mut Reader, counts: &mut Counts) -> Checked {
    let mut machine = reader.machine()?;
    let mut copy = machine.clone();
    let mut schedule = vec![];
    counts.one("vectors");
    for number in 0..reader.count(88)? {
        let words = reader.step()?;
        take_step(reader, counts, &mut machine, &words).map_err(|text| format!("step {number}: {text}"))?;
        schedule.extend(words);
    }
    take_run(reader, counts, &mut copy, &schedule).map_err(|text| format!("run: {text}"))
}

fn take_step(reader: &mut Reader, counts: &mut Counts, machine: &mut Machine, words: &[u32]) -> Checked {
    let before = Refusals::of(machine);
    let answer = step(&mut machine.tables, &mut machine.memory, words);
    let (number, name) = match answer {
        Answer::Done => (0, "done".to_owned()),
        Answer::Interrupt(level) => (1 + level, format!("interrupt {level}")),
        Answer::Refused(number) => (100 + number, format!("refused {number}")),
    };
    reader.expect("the answer", 1, number)?;
    reader.expect("the sum after it", 4, sum(machine))?;
    // 12 stands for all that are no kind
    let kind = words[0].min(12);
    let accepted = if number < 100 { "accepted" } else { "refused" };
    counts.one("steps");
    counts.one(name);
    counts.one(format!("kind {kind} {accepted}"));
    before.count(counts, words, answer);
    Ok(())
}

/// The counts of refusals: the header's, and those of the cores.
struct Refusals {
    cores: u32,
    header: u32,
    own: Vec<u32>,
}

impl Refusals {
    /// Of damaged tables those that there are.
    fn of(machine: &Machine) -> Refusals {
        let word = |place: usize| machine.tables.get(place).copied();
        let own = (0..4).map_while(|core| word(core_refusals(core))).collect();
        Refusals { cores: word(0).unwrap_or(0), header: word(REFUSALS).unwrap_or(0), own }
    }

    /// Whether the step is of a core that is there.
    fn is_own(&self, words: &[u32]) -> bool {
        words[0] <= 8 && words[1] < self.cores
    }

    /// Counts what a step met; these are the counts before it.
    fn count(&self, counts: &mut Counts, words: &[u32], answer: Answer) {
        match (answer, self.is_own(words)) {
            (Answer::Refused(4), true) => counts.one("refused 4, a core"),
            (Answer::Refused(4), false) => counts.one("refused 4, another step"),
            (Answer::Refused(_), false) => {
                counts.add("header reaches", (self.header == u32::MAX - 1).into());
                counts.add("header stays", (self.header == u32::MAX).into());
                counts.add("header, own largest", self.own.contains(&u32::MAX).into());
            }
            (_, true) => self.count_own(counts, words, answer),
            (_, false) => {}
        }
    }

    fn count_own(&self, counts: &mut Counts, words: &[u32], answer: Answer) {
        let core = words[1] as usize;
        let own = self.own[core];
        match answer {
            Answer::Refused(_) => {
                counts.add("own reaches", (own == u32::MAX - 1).into());
                counts.add("own stays", (own == u32::MAX).into());
                counts.add("own, header largest", (self.header == u32::MAX).into());
            }
            Answer::Interrupt(_) => counts.add("interrupt own", (own != 0).into()),
            Answer::Done if words[0] >= 7 => {
                let name = if words[0] == 7 { "INIT" } else { "start" };
                let another = (0..self.own.len()).any(|other| other != core && self.own[other] != 0);
                counts.add(format!("{name} own"), (own != 0).into());
                counts.add(format!("{name} own largest"), (own == u32::MAX).into());
                counts.add(format!("{name} another"), another.into());
            }
            Answer::Done => {}
        }
    }
}

/// The run gets so many words from the front of the schedule, be they whole steps or not.
fn take_run(reader: &mut Reader, counts: &mut Counts, machine: &mut Machine, schedule: &[u32]) -> Checked {
    let (length, limit) = (reader.length(2, schedule.len())?, reader.number(4)?);
    let before = Refusals::of(machine);
    let ran = run(&mut machine.tables, &mut machine.memory, &schedule[..length], limit);
    let (own, stop, name) = match ran.stop {
        Stop::End => (0, 0, "run end".to_owned()),
        Stop::Limit => (0, 1, "run limit".to_owned()),
        Stop::Refused(number @ (4 | 11)) => (number, 0, format!("run refused {number}")),
        Stop::Refused(number) => (0, 100 + number, format!("run refused {number}")),
    };
    reader.expect("its own refusal", 1, own)?;
    reader.expect("the number of steps accepted", 2, ran.accepted)?;
    reader.expect("why it stopped", 1, stop)?;
    reader.expect("the sum after it", 4, sum(machine))?;
    counts.one(name);
    counts.add("run refused by a step", (stop >= 100).into());
    if stop >= 100 {
        let refused = &schedule[STEP_WORDS * ran.accepted as usize..];
        let whose = if before.is_own(refused) { "own" } else { "header" };
        counts.one(format!("run refused {whose}"));
    }
    Ok(())
}

/// Replays a machine of groups.bin. None of its questions may change it.
fn replay_groups(reader: &mut Reader, counts: &mut Counts) -> Checked {
    let machine = reader.machine()?;
    counts.one("machines");
    ask_all(reader, counts, &machine, |reader, counts| {
        let group = reader.number(4)?;
        ask_reach(reader, counts, &machine, group)?;
        ask_apart(reader, counts, &machine, group)
    })
}

/// Asks the questions of a machine, and looks after each whether the machine is as before.
fn ask_all(
    reader: &mut Reader,
    counts: &mut Counts,
    machine: &Machine,
    ask: impl Fn(&mut Reader, &mut Counts) -> Checked,
) -> Checked {
    let before = sum(machine);
    for number in 0..reader.count(40)? {
        let asked = ask(reader, counts).and_then(|()| same("the sum of the machine after it", sum(machine), before));
        asked.map_err(|text| format!("question {number}: {text}"))?;
    }
    Ok(())
}

fn ask_reach(reader: &mut Reader, counts: &mut Counts, machine: &Machine, group: u32) -> Checked {
    let length = reader.length(2, 9)?;
    let mut map = vec![0xEE; length + BEHIND];
    let reached = reach(&machine.tables, &machine.memory, group, &mut map[..length]);
    let (answer, beyond, name) = match reached {
        Ok(false) => (0, 0, "reach inside".to_owned()),
        Ok(true) => (0, 1, "reach beyond".to_owned()),
        Err(number) => (100 + number, 0, format!("reach refused {number}")),
    };
    reader.expect("reach", 1, answer)?;
    reader.expect("reach, a page beyond memory", 1, beyond)?;
    reader.expect("the sum of the map", 4, sum_of_bytes(&map[..length]))?;
    counts.one("questions");
    counts.one(name);
    same("the bytes behind the map", &map[length..], &[0xEE; BEHIND])
}

fn ask_apart(reader: &mut Reader, counts: &mut Counts, machine: &Machine, group: u32) -> Checked {
    let (answer, name) = match apart(&machine.tables, &machine.memory, group) {
        Ok(false) => (0, "apart no".to_owned()),
        Ok(true) => (1, "apart yes".to_owned()),
        Err(number) => (100 + number, format!("apart refused {number}")),
    };
    reader.expect("apart", 1, answer)?;
    counts.one(name);
    Ok(())
}

/// Replays a machine of translations.bin. None of its questions may change it.
fn replay_translations(reader: &mut Reader, counts: &mut Counts) -> Checked {
    let machine = reader.machine()?;
    counts.one("translate machines");
    ask_all(reader, counts, &machine, |reader, counts| ask_translate(reader, counts, &machine))
}

fn ask_translate(reader: &mut Reader, counts: &mut Counts, machine: &Machine) -> Checked {
    let core = reader.number(4)?;
    let (number, length) = (reader.length(1, 66)?, reader.length(1, 200)?);
    let addresses = (0..number).map(|_| reader.number(4)).collect::<Checked<Vec<u32>>>()?;
    let mut answers = vec![0xEEEE_EEEE; length + BEHIND];
    let translated = translate_into(&machine.tables, &machine.memory, core, &addresses, &mut answers[..length]);
    let (answer, reads, name) = match translated {
        Ok(reads) => (0, reads, "translate answered".to_owned()),
        Err(number) => (100 + number, 0, format!("translate refused {number}")),
    };
    reader.expect("translate", 1, answer)?;
    reader.expect("the number of entries read", 4, reads)?;
    reader.expect("the sum of the answer words", 4, sum_of_words(&answers[..length]))?;
    counts.one("translate questions");
    counts.add("translate addresses", number as u32);
    counts.one(name);
    same("the words behind the answers", &answers[length..], &[0xEEEE_EEEE; BEHIND])
}

/// Replays a vector of texts.bin: a word, and the whole buffer with its text.
fn replay_text(reader: &mut Reader, counts: &mut Counts) -> Checked {
    let (word, length) = (reader.number(4)?, reader.length(1, 40)?);
    let mut text = vec![0xEE; length + BEHIND];
    let answer = disassemble_into(word, &mut text[..length]).map(|text| text.len() as u32);
    let (number, name) = match answer {
        Ok(length) => (length, "texts answered".to_owned()),
        Err(number) => (100 + number, format!("texts refused {number}")),
    };
    reader.expect(&format!("the answer for {word:08x}"), 1, number)?;
    reader.expect_bytes(&format!("the buffer for {word:08x}"), &text[..length])?;
    let legal = if disassembled(word) == "ill" { "illegal" } else { "legal" };
    counts.one("texts");
    counts.one(format!("{name}, {legal}"));
    counts.one(name);
    same("the bytes behind the buffer", &text[length..], &[0xEE; BEHIND])
}

// ---- the counts

/// A line of a file's part, under its heading, is a name and a number.
const STORED: &str = include_str!("vectors.counts");

fn stored(file: &File) -> Vec<(&'static str, u32)> {
    let (_, part) = STORED.split_once(&format!("# {}\n", file.name)).expect("a heading");
    let lines = part.lines().take_while(|line| !line.is_empty());
    let pairs = lines.map(|line| line.rsplit_once(' ').expect("a name and a number"));
    pairs.map(|(name, number)| (name, number.parse().expect("a number"))).collect()
}

/// Holds counts against the stored ones, line by line. What occurred has a line.
fn hold_counts(file: &File, counts: &Counts) -> Checked {
    let stored = stored(file);
    for &(name, number) in &stored {
        same(&format!("{}, count of '{name}' in vectors.counts", file.name), counts.of(name), number)?;
    }
    let names = stored.iter().map(|(name, _)| *name).collect::<Vec<&str>>();
    match counts.0.keys().find(|name| !names.contains(&name.as_str())) {
        Some(name) => Err(format!("{}: vectors.counts has no line '{name}'", file.name)),
        None => Ok(()),
    }
}

/// Replays a file, and holds what occurred against the stored counts.
fn check(file: &File, bytes: &[u8]) -> Checked {
    hold_counts(file, &replay(file, bytes)?.counts)
}

/// A file's parts of oracle/README.md as they must be, with the stored counts.
fn tables(file: &File) -> String {
    let fill = |text: String, (name, number)| text.replace(&format!("{{{name}}}"), &format!("{number}"));
    stored(file).into_iter().fold(file.tables.to_owned(), fill)
}

/// Holds the section of oracle/README.md on a file against the stored counts, line by line.
fn hold_readme(file: &File, readme: &str) -> Checked {
    let title = format!("vectors/{}\n", file.name);
    let section = readme.split("\n### ").find(|section| section.starts_with(&title)).unwrap_or_default();
    let what = format!("oracle/README.md on {}", file.name);
    for table in tables(file).split("\n\n") {
        let head = table.lines().next();
        let mut found = section.lines().skip_while(|line| Some(*line) != head).take_while(|line| !line.is_empty());
        for line in table.lines() {
            same(&what, found.next(), Some(line))?;
        }
        same(&what, found.next(), None)?; // the table ends
    }
    Ok(())
}

const STEPS_TABLES: &str = "\
{vectors} vectors, {steps} steps.

| answer | times |
|---|---|
| done | {done} |
| interrupt 0 | {interrupt 0} |
| interrupt 1 | {interrupt 1} |
| interrupt 2 | {interrupt 2} |
| interrupt 3 | {interrupt 3} |
| interrupt 4 | {interrupt 4} |
| interrupt 5 | {interrupt 5} |
| interrupt 6 | {interrupt 6} |
| interrupt 7 | {interrupt 7} |
| refused 4 | {refused 4} |
| refused 5 | {refused 5} |
| refused 6 | {refused 6} |
| refused 7 | {refused 7} |
| refused 8 | {refused 8} |
| refused 9 | {refused 9} |
| refused 10 | {refused 10} |

| step kind | accepted | refused |
|---|---|---|
| 0 core | {kind 0 accepted} | {kind 0 refused} |
| 1 tlb-create | {kind 1 accepted} | {kind 1 refused} |
| 2 tlb-extend | {kind 2 accepted} | {kind 2 refused} |
| 3 tlb-accessed | {kind 3 accepted} | {kind 3 refused} |
| 4 store buffer | {kind 4 accepted} | {kind 4 refused} |
| 5 apic-sendIPI | {kind 5 accepted} | {kind 5 refused} |
| 6 apic-sendEOI | {kind 6 accepted} | {kind 6 refused} |
| 7 apic-initCore | {kind 7 accepted} | {kind 7 refused} |
| 8 apic-startCore | {kind 8 accepted} | {kind 8 refused} |
| 9 ioapic-sample | {kind 9 accepted} | {kind 9 refused} |
| 10 ioapic-deliver | {kind 10 accepted} | {kind 10 refused} |
| 11 set line | {kind 11 accepted} | {kind 11 refused} |

| run stops by | times |
|---|---|
| end | {run end} |
| limit spent | {run limit} |
| a step's refusal | {run refused by a step} |
| refused 4 | {run refused 4} |
| refused 11 | {run refused 11} |

| fact of a refusal count | times |
|---|---|
| INIT done, word 115 of its core not 0 | {INIT own} |
| INIT done, word 115 of its core at the largest | {INIT own largest} |
| INIT done, word 115 of another core not 0 | {INIT another} |
| start of a core done, word 115 of its core not 0 | {start own} |
| start of a core done, word 115 of its core at the largest | {start own largest} |
| start of a core done, word 115 of another core not 0 | {start another} |
| core step interrupted, word 115 of its core not 0 | {interrupt own} |
| word 115 one below the largest, reaches it | {own reaches} |
| word 115 at the largest, stays | {own stays} |
| word 115 counts, header word 2 at the largest | {own, header largest} |
| header word 2 one below the largest, reaches it | {header reaches} |
| header word 2 at the largest, stays | {header stays} |
| header word 2 counts, some word 115 at the largest | {header, own largest} |
| refused 4, kinds 0 to 8 with a core that is there | {refused 4, a core} |
| refused 4, another step | {refused 4, another step} |
| run stops by a refusal counted in word 115 | {run refused own} |
| run stops by a refusal counted in header word 2 | {run refused header} |";

const GROUPS_TABLES: &str = "\
{machines} machines, {questions} questions.

| answer | times |
|---|---|
| reach filled, nothing beyond | {reach inside} |
| reach filled, page beyond | {reach beyond} |
| reach refused 4 | {reach refused 4} |
| reach refused 12 | {reach refused 12} |
| reach refused 13 | {reach refused 13} |
| apart yes | {apart yes} |
| apart no | {apart no} |
| apart refused 4 | {apart refused 4} |
| apart refused 13 | {apart refused 13} |";

const TRANSLATIONS_TABLES: &str = "\
{translate machines} machines, {translate questions} questions, {translate addresses} addresses.

| answer | times |
|---|---|
| answered | {translate answered} |
| refused 4 | {translate refused 4} |
| refused 14 | {translate refused 14} |
| refused 15 | {translate refused 15} |
| refused 16 | {translate refused 16} |";

const TEXTS_TABLES: &str = "\
{texts} vectors.

| answer | times |
|---|---|
| text of a legal word | {texts answered, legal} |
| `ill` | {texts answered, illegal} |
| refused 17, legal word | {texts refused 17, legal} |
| refused 17, illegal word | {texts refused 17, illegal} |";

// ---- the tests

#[track_caller]
fn holds(checked: Checked) {
    if let Err(text) = checked {
        panic!("{text}");
    }
}

#[test]
fn steps_and_runs() {
    holds(check(&STEPS, &STEPS.bytes()));
}

#[test]
fn groups() {
    holds(check(&GROUPS, &GROUPS.bytes()));
}

#[test]
fn translations() {
    holds(check(&TRANSLATIONS, &TRANSLATIONS.bytes()));
}

#[test]
fn texts() {
    holds(check(&TEXTS, &TEXTS.bytes()));
}

fn readme() -> String {
    String::from_utf8(in_oracle("README.md")).expect("a text")
}

/// The stored counts are those that the independent simulator's own account of the files has.
#[test]
fn the_counts_of_the_simulator() {
    for file in FILES {
        holds(hold_readme(&file, &readme()));
    }
}

/// A text with its last digit changed.
fn with_another_digit(text: &str) -> String {
    let last = text.rfind(|letter: char| letter.is_ascii_digit()).expect("a digit");
    let digit = if text.as_bytes()[last] == b'0' { '1' } else { '0' };
    format!("{}{digit}{}", &text[..last], &text[last + 1..])
}

/// A row that is not in the simulator's account, or has another number there.
#[test]
fn a_changed_row_is_noticed() {
    let readme = readme();
    for file in FILES {
        let section = readme.find(&format!("### vectors/{}\n", file.name)).expect("a section");
        for row in tables(&file).lines().filter(|line| line.contains(|letter: char| letter.is_ascii_digit())) {
            let start = section + readme[section..].find(row).expect("the row");
            let (before, after) = (&readme[..start], &readme[start + row.len()..]);
            let without = [before, &after["\n".len()..]].concat();
            let changed = [before, &with_another_digit(row), after].concat();
            assert!(hold_readme(&file, &without).is_err(), "{}, without {row}", file.name);
            assert!(hold_readme(&file, &changed).is_err(), "{}, with another {row}", file.name);
        }
    }
}

/// A file with one of its vectors or machines alone.
fn alone(bytes: &[u8], starts: &[usize], item: usize) -> Vec<u8> {
    let mut file = bytes[..HEADER].to_vec();
    file[8..12].copy_from_slice(&1u32.to_le_bytes());
    file.extend(&bytes[starts[item]..starts[item + 1]]);
    file
}

/// A file in which all is right, and too little: it fails by its counts. One that is cut or goes on fails by its end.
#[test]
fn a_file_with_less_or_more_is_noticed() {
    for file in FILES {
        let bytes = file.bytes();
        let mut empty = bytes[..HEADER].to_vec();
        empty[8..12].fill(0);
        assert!(replay(&file, &empty).is_ok() && check(&file, &empty).is_err(), "{}, empty", file.name);
        let starts = replay(&file, &bytes).expect("a good file").starts;
        let first = alone(&bytes, &starts, 0);
        assert!(replay(&file, &first).is_ok() && check(&file, &first).is_err(), "{}, its first alone", file.name);
        let cut = &first[..first.len() - 1];
        assert!(replay(&file, cut).is_err(), "{}, cut", file.name);
        let longer = [&first[..], &[0]].concat();
        assert!(replay(&file, &longer).is_err(), "{}, longer", file.name);
    }
}

/// Another bit in the last byte that is held against an answer, and, for vectors or machines from all over a file, in
/// any byte that is or that says how much follows.
#[test]
fn a_changed_byte_is_noticed() {
    for file in FILES {
        let mut bytes = file.bytes();
        let Replayed { starts, held, .. } = replay(&file, &bytes).expect("a good file");
        let last = *held.last().expect("a place");
        bytes[last] ^= 1;
        assert!(replay(&file, &bytes).is_err(), "{}, byte {last}", file.name);
        bytes[last] ^= 1;
        let items = starts.len() - 1;
        let mut changed = 0;
        for item in (0..items).step_by(items / 10) {
            let mut one = alone(&bytes, &starts, item);
            for place in replay(&file, &one).expect("a good file").held {
                one[place] ^= 1;
                assert!(replay(&file, &one).is_err(), "{}, {} {item}, byte {place}", file.name, file.item);
                one[place] ^= 1;
                changed += 1;
            }
        }
        assert!(changed > 300, "{}: {changed} bytes", file.name);
    }
}
