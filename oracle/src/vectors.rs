//! The vector files: what a vector holds, and its bytes. README.md says the
//! same byte by byte.

use crate::disassemble::disassemble;
use crate::machine::{make, run, step, Answer, Stop};
use crate::reach::{apart, reach};
use crate::soundness::{table_words, PAGE};
use crate::translate::translate;

pub const STEPS_MAGIC: &[u8; 4] = b"M86S";
pub const GROUPS_MAGIC: &[u8; 4] = b"M86G";
pub const TRANSLATIONS_MAGIC: &[u8; 4] = b"M86T";
pub const TEXTS_MAGIC: &[u8; 4] = b"M86D";
pub const VERSION: u32 = 1;
/// Each map byte before a call of reach.
pub const MAP_FILL: u8 = 0xEE;
/// Each answer word before a call of translate.
pub const ANSWER_FILL: u32 = 0xEEEE_EEEE;
/// Each byte of the buffer before a call of disassemble.
pub const TEXT_FILL: u8 = 0xEE;
/// The longest such buffer in a texts file.
pub const TEXT_MOST: usize = 40;

/// A machine as handed to the operations. `tables` and `memory` have the
/// lengths handed in, which for damaged machines may disagree with the words.
#[derive(Clone, PartialEq, Debug)]
pub struct Machine {
    pub cores: u8,
    pub pages: u8,
    /// 0 for sound tables, else the number of the broken clause.
    pub damage: u8,
    pub tables: Vec<u32>,
    pub memory: Vec<u8>,
}

#[derive(Clone, PartialEq, Debug)]
pub struct Step {
    pub words: [u32; 6],
    pub answer: u8,
    pub sum: u32,
}

#[derive(Clone, PartialEq, Debug)]
pub struct RunPart {
    /// Words of the schedule handed to run.
    pub words: u16,
    pub limit: u32,
    /// 0, or the refusal 4 or 11.
    pub refusal: u8,
    pub accepted: u16,
    /// 0 end, 1 limit, 100 + refusal of a step.
    pub stop: u8,
    pub sum: u32,
}

#[derive(Clone, PartialEq, Debug)]
pub struct Vector {
    pub machine: Machine,
    pub sum: u32,
    pub steps: Vec<Step>,
    pub run: RunPart,
}

#[derive(Clone, PartialEq, Debug)]
pub struct Question {
    pub group: u32,
    pub map_length: u16,
    /// 0, or 100 + refusal.
    pub reach: u8,
    pub beyond: u8,
    pub map_sum: u32,
    /// 0 no, 1 yes, 100 + refusal.
    pub apart: u8,
}

#[derive(Clone, PartialEq, Debug)]
pub struct Groups {
    pub machine: Machine,
    pub sum: u32,
    pub questions: Vec<Question>,
}

/// What translate is asked.
#[derive(Clone, PartialEq, Debug)]
pub struct Asked {
    pub core: u32,
    pub addresses: Vec<u32>,
    /// Words of the answer buffer handed over.
    pub words: u8,
}

#[derive(Clone, PartialEq, Debug)]
pub struct Translation {
    pub asked: Asked,
    /// 0, or 100 + refusal.
    pub answer: u8,
    /// 0 where refused.
    pub reads: u32,
    /// Check sum of the answer words after the call.
    pub sum: u32,
}

#[derive(Clone, PartialEq, Debug)]
pub struct Translations {
    pub machine: Machine,
    pub sum: u32,
    pub questions: Vec<Translation>,
}

/// One call of disassemble.
#[derive(Clone, PartialEq, Debug)]
pub struct Text {
    pub word: u32,
    /// The length of the text, or 100 + refusal.
    pub answer: u8,
    /// The whole buffer after the call; its length is the one handed over.
    pub buffer: Vec<u8>,
}

// ---------------------------------------------------------------- check sums

/// One step of the check sum.
pub fn add(h: u32, word: u32) -> u32 {
    h.wrapping_mul(16_777_619).wrapping_add(word)
}

/// Over all table words, then all memory words (four bytes, low byte first).
pub fn checksum(t: &[u32], m: &[u8]) -> u32 {
    let h = t.iter().fold(0, |h, &w| add(h, w));
    m.chunks_exact(4).fold(h, |h, c| add(h, u32::from_le_bytes([c[0], c[1], c[2], c[3]])))
}

pub fn map_sum(map: &[u8]) -> u32 {
    map.iter().fold(0, |h, &byte| add(h, byte as u32))
}

pub fn answer_sum(answers: &[u32]) -> u32 {
    answers.iter().fold(0, |h, &word| add(h, word))
}

// ---------------------------------------------------------------- making

/// The tables that make leaves, in a buffer for the longest machine.
fn made(cores: u8, pages: u8) -> Vec<u32> {
    let mut t = vec![0; table_words(4)];
    let memory = vec![0; pages as usize * PAGE];
    make(cores as u32, &mut t[..table_words(cores as usize)], &memory).expect("in range");
    t
}

/// Answers and check sums for a schedule.
pub fn answer_steps(machine: Machine, schedule: &[[u32; 6]], run_words: u16, limit: u32) -> Vector {
    let (mut t, mut m) = (machine.tables.clone(), machine.memory.clone());
    let mut steps = Vec::new();
    for words in schedule {
        let answer = step(true, &mut t, &mut m, words).code();
        steps.push(Step { words: *words, answer, sum: checksum(&t, &m) });
    }
    let run = answer_run(&machine, schedule, run_words, limit);
    Vector { sum: checksum(&machine.tables, &machine.memory), machine, steps, run }
}

fn answer_run(machine: &Machine, schedule: &[[u32; 6]], words: u16, limit: u32) -> RunPart {
    let (mut t, mut m) = (machine.tables.clone(), machine.memory.clone());
    let flat: Vec<u32> = schedule.iter().flatten().copied().collect();
    let (refusal, accepted, stop) = match run(true, &mut t, &mut m, &flat[..words as usize], limit) {
        Err(number) => (number as u8, 0, 0),
        Ok(r) => match r.stop {
            Stop::End => (0, r.accepted as u16, 0),
            Stop::Limit => (0, r.accepted as u16, 1),
            Stop::Refused(why) => (0, r.accepted as u16, Answer::Refused(why).code()),
        },
    };
    RunPart { words, limit, refusal, accepted, stop, sum: checksum(&t, &m) }
}

/// Answers of reach and apart for pairs of group and map length.
pub fn answer_groups(machine: Machine, asked: &[(u32, u16)]) -> Groups {
    let (t, m) = (&machine.tables, &machine.memory);
    let questions = asked
        .iter()
        .map(|&(group, map_length)| {
            let mut map = vec![MAP_FILL; map_length as usize];
            let (reach, beyond) = match reach(t, m, group, &mut map) {
                Ok(beyond) => (0, beyond as u8),
                Err(number) => (100 + number as u8, 0),
            };
            let apart = match apart(t, m, group) {
                Ok(yes) => yes as u8,
                Err(number) => 100 + number as u8,
            };
            Question { group, map_length, reach, beyond, map_sum: map_sum(&map), apart }
        })
        .collect();
    Groups { sum: checksum(t, m), machine, questions }
}

/// The answer of translate to one question.
pub fn answer_translation(machine: &Machine, asked: &Asked) -> Translation {
    let mut answers = vec![ANSWER_FILL; asked.words as usize];
    let (answer, reads) = match translate(&machine.tables, &machine.memory, asked.core, &asked.addresses, &mut answers)
    {
        Ok(reads) => (0, reads),
        Err(number) => (100 + number as u8, 0),
    };
    Translation { asked: asked.clone(), answer, reads, sum: answer_sum(&answers) }
}

/// Answers of translate to some questions.
pub fn answer_translations(machine: Machine, asked: &[Asked]) -> Translations {
    let questions = asked.iter().map(|asked| answer_translation(&machine, asked)).collect();
    Translations { sum: checksum(&machine.tables, &machine.memory), machine, questions }
}

/// The answer of disassemble with a buffer of this length.
pub fn answer_text(word: u32, length: usize) -> Text {
    let mut buffer = vec![TEXT_FILL; length];
    let answer = match disassemble(word, &mut buffer) {
        Ok(length) => length as u8,
        Err(number) => 100 + number as u8,
    };
    Text { word, answer, buffer }
}

// ---------------------------------------------------------------- writing

#[derive(Default)]
pub struct Writer {
    pub bytes: Vec<u8>,
}

impl Writer {
    fn u8(&mut self, x: u8) {
        self.bytes.push(x);
    }
    fn u16(&mut self, x: u16) {
        self.bytes.extend(x.to_le_bytes());
    }
    fn u32(&mut self, x: u32) {
        self.bytes.extend(x.to_le_bytes());
    }

    fn header(&mut self, magic: &[u8; 4], count: usize, seed: u32) {
        self.bytes.extend(magic);
        self.u32(VERSION);
        self.u32(count as u32);
        self.u32(seed);
    }

    /// Runs of words that differ from `base`; a gap of one equal word is
    /// written along, as it costs no more than a new run.
    fn runs(&mut self, words: &[u32], base: &[u32]) {
        let differs = |i: usize| i < words.len() && words[i] != base[i];
        let mut i = 0;
        while i < words.len() {
            if !differs(i) {
                i += 1;
                continue;
            }
            let start = i;
            while differs(i) || differs(i + 1) {
                i += 1;
            }
            self.u16((i - start) as u16);
            self.u16(start as u16);
            for &word in &words[start..i] {
                self.u32(word);
            }
        }
        self.u16(0);
    }

    fn machine(&mut self, machine: &Machine) {
        self.u8(machine.cores);
        self.u8(machine.pages);
        self.u8(machine.damage);
        self.u16(machine.tables.len() as u16);
        self.u16((machine.memory.len() / 4) as u16);
        self.runs(&machine.tables, &made(machine.cores, machine.pages));
        let words: Vec<u32> =
            machine.memory.chunks_exact(4).map(|c| u32::from_le_bytes([c[0], c[1], c[2], c[3]])).collect();
        self.runs(&words, &vec![0; words.len()]);
    }

    /// Two bits a word: 0 zero, 1 one byte, 2 two bytes, 3 four bytes.
    fn step(&mut self, words: &[u32; 6]) {
        let size = |w: u32| match w {
            0 => 0,
            1..=0xFF => 1,
            0x100..=0xFFFF => 2,
            _ => 3u16,
        };
        self.u16((0..6).fold(0, |form, i| form | size(words[i]) << (2 * i)));
        for &w in words {
            match size(w) {
                0 => {}
                1 => self.u8(w as u8),
                2 => self.u16(w as u16),
                _ => self.u32(w),
            }
        }
    }

    fn vector(&mut self, v: &Vector) {
        self.machine(&v.machine);
        self.u32(v.sum);
        self.u16(v.steps.len() as u16);
        for s in &v.steps {
            self.step(&s.words);
            self.u8(s.answer);
            self.u32(s.sum);
        }
        self.u16(v.run.words);
        self.u32(v.run.limit);
        self.u8(v.run.refusal);
        self.u16(v.run.accepted);
        self.u8(v.run.stop);
        self.u32(v.run.sum);
    }

    fn groups(&mut self, g: &Groups) {
        self.machine(&g.machine);
        self.u32(g.sum);
        self.u16(g.questions.len() as u16);
        for q in &g.questions {
            self.u32(q.group);
            self.u16(q.map_length);
            self.u8(q.reach);
            self.u8(q.beyond);
            self.u32(q.map_sum);
            self.u8(q.apart);
        }
    }

    fn translations(&mut self, g: &Translations) {
        self.machine(&g.machine);
        self.u32(g.sum);
        self.u16(g.questions.len() as u16);
        for q in &g.questions {
            self.u32(q.asked.core);
            self.u8(q.asked.addresses.len() as u8);
            self.u8(q.asked.words);
            q.asked.addresses.iter().for_each(|&address| self.u32(address));
            self.u8(q.answer);
            self.u32(q.reads);
            self.u32(q.sum);
        }
    }

    fn text(&mut self, text: &Text) {
        self.u32(text.word);
        self.u8(text.buffer.len() as u8);
        self.u8(text.answer);
        self.bytes.extend(&text.buffer);
    }
}

pub fn write_steps(vectors: &[Vector], seed: u32) -> Vec<u8> {
    let mut w = Writer::default();
    w.header(STEPS_MAGIC, vectors.len(), seed);
    vectors.iter().for_each(|v| w.vector(v));
    w.bytes
}

pub fn write_groups(groups: &[Groups], seed: u32) -> Vec<u8> {
    let mut w = Writer::default();
    w.header(GROUPS_MAGIC, groups.len(), seed);
    groups.iter().for_each(|g| w.groups(g));
    w.bytes
}

pub fn write_translations(all: &[Translations], seed: u32) -> Vec<u8> {
    let mut w = Writer::default();
    w.header(TRANSLATIONS_MAGIC, all.len(), seed);
    all.iter().for_each(|g| w.translations(g));
    w.bytes
}

pub fn write_texts(all: &[Text], seed: u32) -> Vec<u8> {
    let mut w = Writer::default();
    w.header(TEXTS_MAGIC, all.len(), seed);
    all.iter().for_each(|text| w.text(text));
    w.bytes
}

// ---------------------------------------------------------------- reading

struct Reader<'a> {
    bytes: &'a [u8],
}

type Read<T> = Result<T, String>;

impl Reader<'_> {
    fn take(&mut self, n: usize) -> Read<&[u8]> {
        if self.bytes.len() < n {
            return Err("file ends too early".into());
        }
        let (head, tail) = self.bytes.split_at(n);
        self.bytes = tail;
        Ok(head)
    }
    fn u8(&mut self) -> Read<u8> {
        Ok(self.take(1)?[0])
    }
    fn u16(&mut self) -> Read<u16> {
        let b = self.take(2)?;
        Ok(u16::from_le_bytes([b[0], b[1]]))
    }
    fn u32(&mut self) -> Read<u32> {
        let b = self.take(4)?;
        Ok(u32::from_le_bytes([b[0], b[1], b[2], b[3]]))
    }

    /// Count of vectors and seed.
    fn header(&mut self, magic: &[u8; 4]) -> Read<(u32, u32)> {
        if self.take(4)? != magic {
            return Err("not such a file".into());
        }
        if self.u32()? != VERSION {
            return Err("another version".into());
        }
        Ok((self.u32()?, self.u32()?))
    }

    fn runs(&mut self, words: &mut [u32]) -> Read<()> {
        loop {
            let count = self.u16()? as usize;
            if count == 0 {
                return Ok(());
            }
            let start = self.u16()? as usize;
            if start + count > words.len() {
                return Err("a run leaves its table".into());
            }
            for word in &mut words[start..start + count] {
                *word = self.u32()?;
            }
        }
    }

    fn machine(&mut self) -> Read<Machine> {
        let (cores, pages, damage) = (self.u8()?, self.u8()?, self.u8()?);
        if !(1..=4).contains(&cores) || !(1..=8).contains(&pages) {
            return Err("cores or pages out of range".into());
        }
        let (table_words, memory_words) = (self.u16()? as usize, self.u16()? as usize);
        let mut tables = made(cores, pages);
        if table_words > tables.len() || memory_words > 8 * PAGE / 4 {
            return Err("a length out of range".into());
        }
        tables.truncate(table_words);
        self.runs(&mut tables)?;
        let mut words = vec![0; memory_words];
        self.runs(&mut words)?;
        let memory = words.iter().flat_map(|w| w.to_le_bytes()).collect();
        Ok(Machine { cores, pages, damage, tables, memory })
    }

    fn step(&mut self) -> Read<[u32; 6]> {
        let form = self.u16()?;
        let mut words = [0; 6];
        for (i, word) in words.iter_mut().enumerate() {
            *word = match form >> (2 * i) & 3 {
                0 => 0,
                1 => self.u8()? as u32,
                2 => self.u16()? as u32,
                _ => self.u32()?,
            };
        }
        Ok(words)
    }

    fn vector(&mut self) -> Read<Vector> {
        let machine = self.machine()?;
        let sum = self.u32()?;
        let count = self.u16()?;
        let mut steps = Vec::new();
        for _ in 0..count {
            steps.push(Step { words: self.step()?, answer: self.u8()?, sum: self.u32()? });
        }
        let run = RunPart {
            words: self.u16()?,
            limit: self.u32()?,
            refusal: self.u8()?,
            accepted: self.u16()?,
            stop: self.u8()?,
            sum: self.u32()?,
        };
        if run.words as usize > 6 * steps.len() {
            return Err("run is handed more words than there are".into());
        }
        Ok(Vector { machine, sum, steps, run })
    }

    fn groups(&mut self) -> Read<Groups> {
        let machine = self.machine()?;
        let sum = self.u32()?;
        let count = self.u16()?;
        let mut questions = Vec::new();
        for _ in 0..count {
            questions.push(Question {
                group: self.u32()?,
                map_length: self.u16()?,
                reach: self.u8()?,
                beyond: self.u8()?,
                map_sum: self.u32()?,
                apart: self.u8()?,
            });
        }
        Ok(Groups { machine, sum, questions })
    }

    fn translations(&mut self) -> Read<Translations> {
        let machine = self.machine()?;
        let sum = self.u32()?;
        let count = self.u16()?;
        let mut questions = Vec::new();
        for _ in 0..count {
            let (core, n, words) = (self.u32()?, self.u8()?, self.u8()?);
            let addresses = (0..n).map(|_| self.u32()).collect::<Read<Vec<u32>>>()?;
            let asked = Asked { core, addresses, words };
            questions.push(Translation { asked, answer: self.u8()?, reads: self.u32()?, sum: self.u32()? });
        }
        Ok(Translations { machine, sum, questions })
    }

    fn text(&mut self) -> Read<Text> {
        let (word, length, answer) = (self.u32()?, self.u8()? as usize, self.u8()?);
        if length > TEXT_MOST {
            return Err("a length out of range".into());
        }
        Ok(Text { word, answer, buffer: self.take(length)?.to_vec() })
    }
}

/// The vectors of a steps file and its seed.
pub fn read_steps(bytes: &[u8]) -> Read<(Vec<Vector>, u32)> {
    let mut r = Reader { bytes };
    let (count, seed) = r.header(STEPS_MAGIC)?;
    let vectors = (0..count).map(|_| r.vector()).collect::<Read<Vec<_>>>()?;
    if !r.bytes.is_empty() {
        return Err("bytes after the last vector".into());
    }
    Ok((vectors, seed))
}

/// The machines of a groups file and its seed.
pub fn read_groups(bytes: &[u8]) -> Read<(Vec<Groups>, u32)> {
    let mut r = Reader { bytes };
    let (count, seed) = r.header(GROUPS_MAGIC)?;
    let groups = (0..count).map(|_| r.groups()).collect::<Read<Vec<_>>>()?;
    if !r.bytes.is_empty() {
        return Err("bytes after the last machine".into());
    }
    Ok((groups, seed))
}

/// The machines of a translations file and its seed.
pub fn read_translations(bytes: &[u8]) -> Read<(Vec<Translations>, u32)> {
    let mut r = Reader { bytes };
    let (count, seed) = r.header(TRANSLATIONS_MAGIC)?;
    let all = (0..count).map(|_| r.translations()).collect::<Read<Vec<_>>>()?;
    if !r.bytes.is_empty() {
        return Err("bytes after the last machine".into());
    }
    Ok((all, seed))
}

/// The vectors of a texts file and its seed.
pub fn read_texts(bytes: &[u8]) -> Read<(Vec<Text>, u32)> {
    let mut r = Reader { bytes };
    let (count, seed) = r.header(TEXTS_MAGIC)?;
    let all = (0..count).map(|_| r.text()).collect::<Read<Vec<_>>>()?;
    if !r.bytes.is_empty() {
        return Err("bytes after the last vector".into());
    }
    Ok((all, seed))
}
