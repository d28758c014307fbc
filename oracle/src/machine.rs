//! Make, step and run (01, "Operations"), with the transitions of 11.3.
//!
//! A step first looks at every guard and every byte it needs, and only then
//! writes. `checked` adds the soundness check (refusal 4); without it the
//! tables are taken to be sound. Nothing is allocated in a step.

use crate::isa::{self, Op};
use crate::soundness::*;

/// What a step answers.
#[derive(Clone, Copy, PartialEq, Eq, Debug)]
pub enum Answer {
    Done,
    Interrupt(u32),
    Refused(Why),
}

/// Why a step is refused. 01 answers only `number`; the names are for people.
#[derive(Clone, Copy, PartialEq, Eq, Debug, PartialOrd, Ord)]
pub enum Why {
    // 4
    NotSound,
    // 5
    Length,
    Kind,
    Core,
    Line,
    Level,
    Va,
    Rights,
    StrayWord,
    // 6
    NotRunning,
    FetchWalkNotHeld,
    FetchNoHit,
    FetchIncomplete,
    FetchPort,
    BufferNotEmpty,
    DataWalkNotHeld,
    DataNoHit,
    DataIncomplete,
    Hazard,
    NarrowAtPort,
    CasAtPort,
    BufferEmpty,
    NarrowStoreAtPort,
    SelectTooLarge,
    SystemMode,
    WalkNotHeld,
    WalkComplete,
    OtherAsid,
    NotAccessed,
    NotPresent,
    NothingToSend,
    DestinationMode,
    DeliveryMode,
    NoEoiPending,
    NoInitPending,
    NoSipiPending,
    AlreadyRunning,
    LineDown,
    Masked,
    AwaitsEoi,
    NothingToDeliver,
    // 7
    FetchEntryOutside,
    FetchOutside,
    DataEntryOutside,
    LoadOutside,
    StoreOutside,
    CasOutside,
    EntryOutside,
    // 8, 9, 10
    NinthStore,
    TwentyFourthWalk,
    NoFreeRecord,
}

use Why::*;

pub const WHYS: [(Why, &str); 51] = [
    (NotSound, "tables not sound"),
    (Length, "not six words"),
    (Kind, "no such kind"),
    (Core, "no such core"),
    (Line, "no such line"),
    (Level, "line level not 0 or 1"),
    (Va, "va over 20 bits"),
    (Rights, "rights over 3 bits"),
    (StrayWord, "stray word"),
    (NotRunning, "core not running"),
    (FetchWalkNotHeld, "fetch walk not held"),
    (FetchNoHit, "fetch walk no hit"),
    (FetchIncomplete, "fetch walk incomplete, no fault"),
    (FetchPort, "fetch at a port"),
    (BufferNotEmpty, "cas or mfence with stores pending"),
    (DataWalkNotHeld, "data walk not held"),
    (DataNoHit, "data walk no hit"),
    (DataIncomplete, "data walk incomplete, no fault"),
    (Hazard, "store buffer hazard"),
    (NarrowAtPort, "byte or half access at a port"),
    (CasAtPort, "cas at a port"),
    (BufferEmpty, "store buffer empty"),
    (NarrowStoreAtPort, "byte or half store leaves for a port"),
    (SelectTooLarge, "IOREGSEL written with 24 or more"),
    (SystemMode, "tlb step in system mode"),
    (WalkNotHeld, "tlb step, walk not held"),
    (WalkComplete, "tlb step, walk complete"),
    (OtherAsid, "tlb step, other address space"),
    (NotAccessed, "tlb-extend, entry not accessed"),
    (NotPresent, "tlb step, entry not present"),
    (NothingToSend, "sendIPI, nothing to send"),
    (DestinationMode, "sendIPI, destination mode 0"),
    (DeliveryMode, "sendIPI, delivery mode unknown"),
    (NoEoiPending, "sendEOI, none pending"),
    (NoInitPending, "initCore, none pending"),
    (NoSipiPending, "startCore, none pending"),
    (AlreadyRunning, "startCore, core running"),
    (LineDown, "sample, line down"),
    (Masked, "sample, entry masked"),
    (AwaitsEoi, "sample, entry awaits EOI"),
    (NothingToDeliver, "deliver, nothing to deliver"),
    (FetchEntryOutside, "entry for the fetch fault outside memory"),
    (FetchOutside, "fetch outside memory"),
    (DataEntryOutside, "entry for the data fault outside memory"),
    (LoadOutside, "load outside memory and ports"),
    (StoreOutside, "store outside memory and ports"),
    (CasOutside, "cas outside memory"),
    (EntryOutside, "tlb step, entry outside memory"),
    (NinthStore, "ninth store"),
    (TwentyFourthWalk, "twenty-fourth walk"),
    (NoFreeRecord, "no free record"),
];

impl Why {
    /// The refusal number of 01.
    pub fn number(self) -> u32 {
        match self {
            NotSound => 4,
            _ if self <= StrayWord => 5,
            _ if self <= NothingToDeliver => 6,
            _ if self <= EntryOutside => 7,
            NinthStore => 8,
            TwentyFourthWalk => 9,
            _ => 10,
        }
    }
    pub fn text(self) -> &'static str {
        WHYS[self as usize].1
    }
}

impl Answer {
    /// As the vectors store it: 0 done, 1 + level, 100 + refusal.
    pub fn code(self) -> u8 {
        match self {
            Answer::Done => 0,
            Answer::Interrupt(level) => 1 + level as u8,
            Answer::Refused(why) => 100 + why.number() as u8,
        }
    }
    pub fn accepted(self) -> bool {
        !matches!(self, Answer::Refused(_))
    }
}

/// The words of the run program.
impl std::fmt::Display for Answer {
    fn fmt(&self, f: &mut std::fmt::Formatter) -> std::fmt::Result {
        match self {
            Answer::Done => write!(f, "done"),
            Answer::Interrupt(level) => write!(f, "interrupt {level}"),
            Answer::Refused(why) => write!(f, "refused {}", why.number()),
        }
    }
}

// ---------------------------------------------------------------- make

/// Make a machine: fills the tables by 12.1, leaves memory. Err is 1, 2 or 3.
pub fn make(cores: u32, t: &mut [u32], m: &[u8]) -> Result<(), u32> {
    if !(1..=4).contains(&cores) {
        return Err(1);
    }
    if m.len() % PAGE != 0 || m.is_empty() || m.len() > 4096 * PAGE {
        return Err(2);
    }
    if t.len() != table_words(cores as usize) {
        return Err(3);
    }
    t.fill(0);
    t[CORES] = cores;
    t[PAGES] = (m.len() / PAGE) as u32;
    for k in 0..cores {
        let b = block(k as usize);
        t[b + RUNNING] = (k == 0) as u32;
        t[b + APIC_ID] = k << 24;
        t[b + FREE] = 1;
        for n in 1..31 {
            t[record(b, n)] = n + 1;
        }
    }
    Ok(())
}

// ---------------------------------------------------------------- step

/// One step. With `checked` unset the caller vouches that the tables are sound.
pub fn step(checked: bool, t: &mut [u32], m: &mut [u8], s: &[u32]) -> Answer {
    if checked && sound(t, m).is_err() {
        return Answer::Refused(NotSound);
    }
    match s.try_into() {
        Ok(six) => step_six(t, m, six),
        Err(_) => refuse(t, s, Length),
    }
}

/// A step of six words on sound tables.
#[inline]
fn step_six(t: &mut [u32], m: &mut [u8], s: &[u32; 6]) -> Answer {
    match transition(t, m, s) {
        Ok(None) => Answer::Done,
        Ok(Some(level)) => Answer::Interrupt(level),
        Err(why) => refuse(t, s, why),
    }
}

/// Counts the refusal and answers it.
#[cold]
fn refuse(t: &mut [u32], s: &[u32], why: Why) -> Answer {
    let count = &mut t[refusal_count(t[CORES], s)];
    *count = count.saturating_add(1);
    Answer::Refused(why)
}

/// The table word that counts this call where it is refused 5 to 10: word 115
/// of its core for kinds 0 to 8 and a core that is there, else header word 2.
pub fn refusal_count(cores: u32, s: &[u32]) -> usize {
    match *s {
        [0..=8, core, _, _, _, _] if core < cores => block(core as usize) + CORE_REFUSALS,
        _ => REFUSALS,
    }
}

/// Form (refusal 5) but for the length, then the transition. Ok(Some(level))
/// is an interrupt.
fn transition(t: &mut [u32], m: &mut [u8], s: &[u32; 6]) -> Result<Option<u32>, Why> {
    let [kind, who, a, b, c, d] = *s;
    if kind > 11 {
        return Err(Kind);
    }
    if kind <= 8 && who >= t[CORES] {
        return Err(Core);
    }
    if kind >= 9 && who > 23 {
        return Err(Line);
    }
    let stray = match kind {
        0 => false,
        1 | 11 => b != 0 || c != 0 || d != 0,
        2 => d != 0,
        3 => c != 0 || d != 0,
        _ => a != 0 || b != 0 || c != 0 || d != 0,
    };
    if stray {
        return Err(StrayWord);
    }
    if kind == 1 && a >> 20 != 0 {
        return Err(Va);
    }
    if kind == 2 && c > 7 {
        return Err(Rights);
    }
    if kind == 11 && a > 1 {
        return Err(Level);
    }
    let k = who as usize;
    match kind {
        0 => return core_step(t, m, k, s),
        1 => tlb_create(t, k, a)?,
        2 => tlb_extend(t, m, k, Walk { first: a, base: b })?,
        3 => tlb_accessed(t, m, k, Walk { first: a, base: b })?,
        4 => store_buffer(t, m, k)?,
        5 => send_ipi(t, k)?,
        6 => send_eoi(t, k)?,
        7 => init_core(t, k)?,
        8 => start_core(t, k)?,
        9 => sample(t, k)?,
        10 => deliver(t, k)?,
        _ => t[LINES] = t[LINES] & !(1 << who) | a << who,
    }
    Ok(None)
}

// ---------------------------------------------------------------- memory

/// m_4(a) of definition 4; None outside memory.
pub fn word(m: &[u8], a: u32) -> Option<u32> {
    let a = a as usize;
    let bytes = m.get(a..a + 4)?;
    Some(u32::from_le_bytes([bytes[0], bytes[1], bytes[2], bytes[3]]))
}

/// Definition 5, a write of `width` bytes that lie in memory.
fn write(m: &mut [u8], a: u32, value: u32, width: u32) {
    let a = a as usize;
    m[a..a + width as usize].copy_from_slice(&value.to_le_bytes()[..width as usize]);
}

// ---------------------------------------------------------------- chains

/// Takes the first free record, which is there.
fn take(t: &mut [u32], b: usize) -> u32 {
    let n = t[b + FREE];
    t[b + FREE] = t[record(b, n)];
    n
}

/// Puts record n to the front of the free chain.
fn put_back(t: &mut [u32], b: usize, n: u32) {
    let r = record(b, n);
    t[r] = t[b + FREE];
    t[r + 1..r + 4].fill(0);
    t[b + FREE] = n;
}

/// Number of records on the chain whose head is word `head` of the block.
pub fn chain_length(t: &[u32], b: usize, head: usize) -> usize {
    let mut count = 0;
    let mut n = t[b + head];
    while n != 0 {
        count += 1;
        n = t[record(b, n)];
    }
    count
}

// ---------------------------------------------------------------- walks

/// Definition 6, packed as in 01: va, asid, level and rights in the first
/// word, the base page in the second. Words handed in may be any.
#[derive(Clone, Copy, PartialEq, Eq, Debug)]
pub struct Walk {
    pub first: u32,
    pub base: u32,
}

impl Walk {
    pub fn new(va: u32, asid: u32, level: u32, rights: u32, base: u32) -> Walk {
        Walk { first: va << 12 | asid << 6 | level << 3 | rights, base }
    }
    pub fn va(self) -> u32 {
        self.first >> 12
    }
    pub fn asid(self) -> u32 {
        self.first >> 6 & 63
    }
    pub fn level(self) -> u32 {
        self.first >> 3 & 3
    }
    pub fn rights(self) -> u32 {
        self.first & 7
    }
    /// Definition 15.
    pub fn complete(self) -> bool {
        self.level() == 0
    }
    /// Definition 10. Level 2 indexes by the upper ten bits of va, level 1
    /// by the lower ten.
    pub fn ptea(self) -> u32 {
        let index = if self.level() == 2 { self.va() >> 10 } else { self.va() & 1023 };
        (self.base << 12).wrapping_add(index << 2)
    }
    /// Definition 11; None if the entry is not in memory (base is below 2^20).
    pub fn pte(self, m: &[u8]) -> Option<u32> {
        word(m, self.ptea())
    }
    /// Definition 18 for a page and rights.
    pub fn hit(self, va: u32, asid: u32, rights: u32) -> bool {
        self.va() == va && self.asid() == asid && rights & !self.rights() == 0
    }
}

// Definition 9.
pub fn pte_base(pte: u32) -> u32 {
    pte >> 12
}
pub fn pte_present(pte: u32) -> bool {
    pte >> 11 & 1 == 1
}
pub fn pte_rights(pte: u32) -> u32 {
    pte >> 8 & 7
}
pub fn pte_accessed(pte: u32) -> bool {
    pte >> 7 & 1 == 1
}

// Rights asked by a translation request.
pub const WRITE: u32 = 1;
pub const USER: u32 = 2;
pub const EXECUTE: u32 = 4;

/// w in c.p(k).tlb: both words equal a held walk's.
pub fn held(t: &[u32], b: usize, w: Walk) -> bool {
    let mut n = t[b + WALKS];
    while n != 0 {
        let r = record(b, n);
        if t[r + 1] == w.first && t[r + 2] == w.base {
            return true;
        }
        n = t[r];
    }
    false
}

/// The walks a core holds.
pub fn walks_of(t: &[u32], b: usize) -> Vec<Walk> {
    let mut all = Vec::new();
    let mut n = t[b + WALKS];
    while n != 0 {
        let r = record(b, n);
        all.push(Walk { first: t[r + 1], base: t[r + 2] });
        n = t[r];
    }
    all
}

/// May walk w be added? Refusals 9 and 10; a walk already held always may.
fn room_for_walk(t: &[u32], b: usize, w: Walk) -> Result<(), Why> {
    if held(t, b, w) {
        return Ok(());
    }
    if chain_length(t, b, WALKS) >= MAX_WALKS {
        return Err(TwentyFourthWalk);
    }
    if t[b + FREE] == 0 {
        return Err(NoFreeRecord);
    }
    Ok(())
}

/// add-walk of definition 20: first in the chain, unless held.
fn add_walk(t: &mut [u32], b: usize, w: Walk) {
    if held(t, b, w) {
        return;
    }
    let n = take(t, b);
    let r = record(b, n);
    t[r] = t[b + WALKS];
    t[r + 1] = w.first;
    t[r + 2] = w.base;
    t[r + 3] = 0;
    t[b + WALKS] = n;
}

/// Drops the walks that `goes` picks, in chain order.
fn drop_walks(t: &mut [u32], b: usize, goes: impl Fn(Walk) -> bool) {
    let mut link = b + WALKS; // the word that names the record at hand
    while t[link] != 0 {
        let n = t[link];
        let r = record(b, n);
        if goes(Walk { first: t[r + 1], base: t[r + 2] }) {
            t[link] = t[r];
            put_back(t, b, n);
        } else {
            link = r;
        }
    }
}

/// (flush, asid, va) of definition 20.
fn flush_page(t: &mut [u32], b: usize, asid: u32, va: u32) {
    drop_walks(t, b, |w| w.asid() == asid && w.va() == va);
}

fn user_mode(t: &[u32], b: usize) -> bool {
    t[b + MODE] & 1 == 1
}

/// Definition 78.
fn asid(t: &[u32], b: usize) -> u32 {
    t[b + ASID] & 63
}

fn tlb_create(t: &mut [u32], k: usize, va: u32) -> Result<(), Why> {
    let b = block(k);
    if !user_mode(t, b) {
        return Err(SystemMode);
    }
    if t[b + RUNNING] == 0 {
        return Err(NotRunning);
    }
    // Definition 12.
    let w = Walk::new(va, asid(t, b), 2, 7, t[b + PTO] >> 12);
    room_for_walk(t, b, w)?;
    add_walk(t, b, w);
    Ok(())
}

fn tlb_extend(t: &mut [u32], m: &[u8], k: usize, w: Walk) -> Result<(), Why> {
    let b = block(k);
    if !held(t, b, w) {
        return Err(WalkNotHeld);
    }
    if w.complete() {
        return Err(WalkComplete);
    }
    if w.asid() != asid(t, b) {
        return Err(OtherAsid);
    }
    if t[b + RUNNING] == 0 {
        return Err(NotRunning);
    }
    let pte = w.pte(m).ok_or(EntryOutside)?;
    if !pte_accessed(pte) {
        return Err(NotAccessed);
    }
    // wext(w, pte, 000).fault, definition 14.
    if !pte_present(pte) {
        return Err(NotPresent);
    }
    let extended = Walk::new(w.va(), w.asid(), w.level() - 1, pte_rights(pte), pte_base(pte));
    room_for_walk(t, b, extended)?;
    add_walk(t, b, extended);
    Ok(())
}

fn tlb_accessed(t: &[u32], m: &mut [u8], k: usize, w: Walk) -> Result<(), Why> {
    let b = block(k);
    if !user_mode(t, b) {
        return Err(SystemMode);
    }
    if !held(t, b, w) {
        return Err(WalkNotHeld);
    }
    if w.complete() {
        return Err(WalkComplete);
    }
    if w.asid() != asid(t, b) {
        return Err(OtherAsid);
    }
    let pte = w.pte(m).ok_or(EntryOutside)?;
    if !pte_present(pte) {
        return Err(NotPresent);
    }
    // Definition 16.
    write(m, w.ptea(), pte | 1 << 7, 4);
    Ok(())
}

// ---------------------------------------------------------------- store buffer

/// Definition 59: the record of the newest pending store that writes byte x,
/// 0 for none.
fn newest(t: &[u32], b: usize, x: u32) -> u32 {
    let mut found = 0;
    let mut n = t[b + STORES]; // oldest first
    while n != 0 {
        let r = record(b, n);
        if x.wrapping_sub(t[r + 1]) < t[r + 3] {
            found = n;
        }
        n = t[r];
    }
    found
}

/// Definition 61.
pub fn hazard(t: &[u32], b: usize, a: u32, width: u32) -> bool {
    if t[b + STORES] == 0 {
        return false;
    }
    let first = newest(t, b, a);
    (1..width).any(|i| newest(t, b, a.wrapping_add(i)) != first)
}

/// ms of definition 77 for an aligned load without hazard; None if a byte is
/// in neither memory nor ports.
fn memory_system(t: &[u32], m: &[u8], b: usize, a: u32, width: u32) -> Option<u32> {
    let mask = if width == 4 { u32::MAX } else { (1 << (8 * width)) - 1 };
    let n = newest(t, b, a);
    if n != 0 {
        let r = record(b, n);
        return Some(t[r + 2] >> (8 * (a - t[r + 1])) & mask);
    }
    // At ports only aligned words come here.
    if in_apic(a) {
        return Some(t[b + APIC + (a - 0xFFFF_F000) as usize / 4]);
    }
    if in_ioapic(a) {
        return Some(t[IOREGSEL + (a - 0xFFFF_E000) as usize / 4]);
    }
    if !in_memory(m.len(), a, width) {
        return None;
    }
    let mut value = 0;
    for i in 0..width {
        value |= (m[(a + i) as usize] as u32) << (8 * i);
    }
    Some(value)
}

fn store_buffer(t: &mut [u32], m: &mut [u8], k: usize) -> Result<(), Why> {
    let b = block(k);
    let n = t[b + STORES];
    if n == 0 {
        return Err(BufferEmpty);
    }
    let r = record(b, n);
    let (a, v, width) = (t[r + 1], t[r + 2], t[r + 3]);
    if in_ports(a) && width != 4 {
        return Err(NarrowStoreAtPort);
    }
    if in_apic(a) {
        let port = (a - 0xFFFF_F000) as usize;
        t[b + APIC + port / 4] = v;
        if port == 12 {
            // Write with side effects, section 9.2.
            if let Some(vector) = lowest(&t[b + ISR..b + ISR + 8]) {
                clear_bit(&mut t[b + ISR..], vector);
                set_bit(&mut t[b + EOIPENDING..], vector);
            }
        }
    } else if a == 0xFFFF_E000 {
        if v > 23 {
            return Err(SelectTooLarge);
        }
        t[IOREGSEL] = v;
        t[IOWIN] = t[REDIRECT + v as usize];
    } else if a == 0xFFFF_E004 {
        t[IOWIN] = v;
        if t[IOREGSEL] < 24 {
            t[REDIRECT + t[IOREGSEL] as usize] = v;
        }
    } else {
        write(m, a, v, width);
    }
    t[b + STORES] = t[r];
    put_back(t, b, n);
    Ok(())
}

// ---------------------------------------------------------------- APICs

/// The lowest vector set in eight words (IRR, ISR or eoipending).
pub fn lowest(words: &[u32]) -> Option<u32> {
    for (i, &w) in words[..8].iter().enumerate() {
        if w != 0 {
            return Some(32 * i as u32 + w.trailing_zeros());
        }
    }
    None
}

fn set_bit(words: &mut [u32], vector: u32) {
    words[vector as usize / 32] |= 1 << (vector % 32);
}

fn clear_bit(words: &mut [u32], vector: u32) {
    words[vector as usize / 32] &= !(1 << (vector % 32));
}

/// Definition 66: the lowest vector of eev, if any. A vector counts while no
/// vector at or below it is in service.
pub fn external_event(t: &[u32], b: usize) -> Option<u32> {
    let request = lowest(&t[b + IRR..b + IRR + 8])?;
    match lowest(&t[b + ISR..b + ISR + 8]) {
        Some(service) if service <= request => None,
        _ => Some(request),
    }
}

/// Bits 27 to 24 of the ID register.
fn apic_id(t: &[u32], b: usize) -> u32 {
    t[b + APIC_ID] >> 24 & 15
}

/// Receiving an interrupt (9.2): dm 000 Fixed, 101 INIT, 110 SIPI.
fn receive(t: &mut [u32], b: usize, dm: u32, vector: u32) {
    match dm {
        0b000 => set_bit(&mut t[b + IRR..], vector),
        0b101 => t[b + INITRR] = 1,
        _ => {
            if t[b + SIPIRR] == 0 {
                t[b + SIPIRR] = 1;
                t[b + SIPIVECT] = vector;
            }
        }
    }
}

fn send_ipi(t: &mut [u32], k: usize) -> Result<(), Why> {
    let sender = block(k);
    let icr = t[sender + ICR_LOW];
    if icr >> 12 & 1 == 0 {
        return Err(NothingToSend);
    }
    if icr >> 11 & 1 == 0 {
        return Err(DestinationMode);
    }
    let dm = icr >> 8 & 7;
    if dm != 0b000 && dm != 0b101 && dm != 0b110 {
        return Err(DeliveryMode);
    }
    let vector = icr & 255;
    let shorthand = icr >> 18 & 3;
    let dest = t[sender + ICR_HIGH] >> 24;
    t[sender + ICR_LOW] = icr & !(1 << 12);
    for j in 0..t[CORES] as usize {
        let b = block(j);
        let target = match shorthand {
            0b00 => apic_id(t, b) == dest,
            0b01 => j == k,
            0b10 => true,
            _ => j != k,
        };
        if target {
            receive(t, b, dm, vector);
        }
    }
    Ok(())
}

fn send_eoi(t: &mut [u32], k: usize) -> Result<(), Why> {
    let b = block(k);
    let vector = lowest(&t[b + EOIPENDING..b + EOIPENDING + 8]).ok_or(NoEoiPending)?;
    clear_bit(&mut t[b + EOIPENDING..], vector);
    // The I/O APIC receives the EOI (10.2).
    for entry in &mut t[REDIRECT..REDIRECT + 24] {
        if *entry & 255 == vector {
            *entry &= !(1 << 14);
        }
    }
    Ok(())
}

fn init_core(t: &mut [u32], k: usize) -> Result<(), Why> {
    let b = block(k);
    if t[b + INITRR] == 0 {
        return Err(NoInitPending);
    }
    t[b + PC] = 0;
    t[b + MODE] = 0;
    t[b + ECA] = 0;
    t[b + RUNNING] = 0;
    t[b + INITRR] = 0;
    Ok(())
}

fn start_core(t: &mut [u32], k: usize) -> Result<(), Why> {
    let b = block(k);
    if t[b + SIPIRR] == 0 {
        return Err(NoSipiPending);
    }
    if t[b + RUNNING] == 1 {
        return Err(AlreadyRunning);
    }
    t[b + PC] = t[b + SIPIVECT] << 24;
    t[b + RUNNING] = 1;
    t[b + SIPIRR] = 0;
    Ok(())
}

fn sample(t: &mut [u32], line: usize) -> Result<(), Why> {
    let entry = t[REDIRECT + line];
    if t[LINES] >> line & 1 == 0 {
        return Err(LineDown);
    }
    if entry >> 16 & 1 == 1 {
        return Err(Masked);
    }
    if entry >> 14 & 1 == 1 {
        return Err(AwaitsEoi);
    }
    t[REDIRECT + line] = entry | 1 << 12;
    Ok(())
}

fn deliver(t: &mut [u32], line: usize) -> Result<(), Why> {
    let entry = t[REDIRECT + line];
    if entry >> 12 & 1 == 0 {
        return Err(NothingToDeliver);
    }
    for j in 0..t[CORES] as usize {
        let b = block(j);
        if apic_id(t, b) == entry >> 24 {
            receive(t, b, 0b000, entry & 255);
        }
    }
    t[REDIRECT + line] = entry & !(1 << 12) | 1 << 14;
    Ok(())
}

// ---------------------------------------------------------------- core step

/// What a consulted walk gives.
enum Translation {
    Page(u32),
    Fault,
}

/// The guards on a consulted walk: held, a hit, and complete unless it
/// faults (definition 19). Errors in the order given: not held, no hit,
/// incomplete without fault, entry outside memory.
fn translate(
    t: &[u32],
    m: &[u8],
    b: usize,
    w: Walk,
    va: u32,
    rights: u32,
    errors: [Why; 4],
) -> Result<Translation, Why> {
    if !held(t, b, w) {
        return Err(errors[0]);
    }
    if !w.hit(va, asid(t, b), rights) {
        return Err(errors[1]);
    }
    if w.complete() {
        return Ok(Translation::Page(w.base));
    }
    let pte = w.pte(m).ok_or(errors[3])?;
    if !pte_present(pte) || rights & !pte_rights(pte) != 0 {
        return Ok(Translation::Fault);
    }
    Err(errors[2])
}

/// The instruction a core step fetches, or None for a misaligned pc or a
/// fetch fault. All guards that come before the instruction are looked at.
pub fn fetch(t: &[u32], m: &[u8], b: usize, w: Walk) -> Result<Option<u32>, Why> {
    if t[b + RUNNING] == 0 {
        return Err(NotRunning);
    }
    let pc = t[b + PC];
    if pc & 3 != 0 {
        return Ok(None);
    }
    let pma = if user_mode(t, b) {
        let errors = [FetchWalkNotHeld, FetchNoHit, FetchIncomplete, FetchEntryOutside];
        match translate(t, m, b, w, pc >> 12, USER | EXECUTE, errors)? {
            Translation::Page(page) => page << 12 | pc & 0xFFF,
            Translation::Fault => return Ok(None),
        }
    } else {
        pc
    };
    if in_ports(pma) {
        return Err(FetchPort);
    }
    word(m, pma).map(Some).ok_or(FetchOutside)
}

/// Definition 40.
pub fn effective_address(t: &[u32], b: usize, op: Op, i: u32) -> u32 {
    let base = t[b + GPR + isa::rs(i)];
    if op == Op::Cas {
        base
    } else {
        base.wrapping_add(isa::simm(i))
    }
}

fn core_step(t: &mut [u32], m: &mut [u8], k: usize, s: &[u32; 6]) -> Result<Option<u32>, Why> {
    let b = block(k);
    let pc = t[b + PC];
    let user = user_mode(t, b);

    let Some(i) = fetch(t, m, b, Walk { first: s[2], base: s[3] })? else {
        // No instruction: a misaligned pc (cause 3) or a fetch fault (cause 4).
        if pc & 3 != 0 {
            let mca = masked(t, b, 1 << 3);
            return Ok(Some(jisr(t, b, mca, pc, 0)));
        }
        let mca = masked(t, b, 1 << 4);
        flush_page(t, b, asid(t, b), pc >> 12);
        return Ok(Some(jisr(t, b, mca, pc, 0)));
    };
    let Some(op) = isa::decode(i) else {
        let mca = masked(t, b, 1 << 2);
        return Ok(Some(jisr(t, b, mca, pc, 0)));
    };

    // Guards that need the instruction.
    if (op == Op::Cas || op == Op::Mfence) && t[b + STORES] != 0 {
        return Err(BufferNotEmpty);
    }
    let accesses = isa::load(op) || isa::store(op) || op == Op::Cas;
    let mut ea = 0;
    let mut pma = 0; // pmaEA
    let mut pfls = false;
    if accesses {
        ea = effective_address(t, b, op, i);
        pma = ea;
        if user {
            let rights = if isa::load(op) { USER } else { USER | WRITE };
            let errors = [DataWalkNotHeld, DataNoHit, DataIncomplete, DataEntryOutside];
            let w = Walk { first: s[4], base: s[5] };
            match translate(t, m, b, w, ea >> 12, rights, errors)? {
                Translation::Page(page) => pma = page << 12 | ea & 0xFFF,
                Translation::Fault => pfls = true,
            }
        }
        if !pfls {
            // pmaEA means something.
            let width = isa::width(op);
            if isa::load(op) && hazard(t, b, pma, width) {
                return Err(Hazard);
            }
            if width != 4 && in_ports(pma) {
                return Err(NarrowAtPort);
            }
            if op == Op::Cas && in_ports(pma) {
                return Err(CasAtPort);
            }
        }
    }

    // Causes: the table of 6.3.
    let ill = user && isa::privileged(op);
    let mal = accesses && ea % isa::width(op) != 0; // definition 41
    let sysc = op == Op::Sysc;
    let (alu_result, ovf) = if isa::alu(op) {
        let rtype = isa::compr(op);
        let a = t[b + GPR + isa::rs(i)];
        let right = if rtype { t[b + GPR + isa::rt(i)] } else { isa::rop_immediate(i) };
        (isa::alures(a, right, isa::alucon(i, rtype), !rtype), isa::overflows(op, a, right))
    } else {
        (0, false)
    };
    let iev = (ill as u32) << 2 | (mal as u32) << 3 | (pfls as u32) << 5 | (sysc as u32) << 6 | (ovf as u32) << 7;
    let mca = masked(t, b, iev);
    if mca != 0 {
        // Definitions 52 to 54.
        let level = mca.trailing_zeros();
        let continues = level >= 6;
        if continues && isa::alu(op) {
            set_gpr(t, b, alu_destination(op, i), alu_result);
        }
        if pfls {
            flush_page(t, b, asid(t, b), ea >> 12);
        }
        let epc = if continues { pc.wrapping_add(4) } else { pc };
        return Ok(Some(jisr(t, b, mca, epc, ea)));
    }

    execute(t, m, b, op, i, pma, alu_result)?;
    Ok(None)
}

/// Definition 50: internal causes (bits 2 to 7) and the external one, masked
/// by bits 1 and 7 of sr.
fn masked(t: &[u32], b: usize, iev: u32) -> u32 {
    let sr = t[b + SR];
    let external = sr & 2 != 0 && external_event(t, b).is_some();
    let mut mca = iev | (external as u32) << 1;
    if sr & 1 << 7 == 0 {
        mca &= !(1 << 7);
    }
    mca
}

/// Definition 54, and the local APIC's reaction (9.2). Returns the level.
fn jisr(t: &mut [u32], b: usize, mca: u32, epc: u32, ea: u32) -> u32 {
    let level = mca.trailing_zeros();
    match level {
        // The lowest vector of eev; masked() has found one.
        1 => t[b + EDATA] = external_event(t, b).unwrap_or(0),
        5 => t[b + EDATA] = ea,
        _ => {}
    }
    t[b + PC] = 0;
    t[b + ESR] = t[b + SR];
    t[b + SR] = 0;
    t[b + MODE] = 0;
    t[b + ECA] = mca;
    t[b + EPC] = epc;
    if let Some(vector) = lowest(&t[b + IRR..b + IRR + 8]) {
        clear_bit(&mut t[b + IRR..], vector);
        set_bit(&mut t[b + ISR..], vector);
    }
    level
}

/// General register 0 stays zero.
fn set_gpr(t: &mut [u32], b: usize, x: usize, value: u32) {
    if x != 0 {
        t[b + GPR + x] = value;
    }
}

/// Definition 46 for ALU instructions.
fn alu_destination(op: Op, i: u32) -> usize {
    if isa::compr(op) {
        isa::rd(i)
    } else {
        isa::rt(i)
    }
}

/// Definition 49 (and 55 for eret) with the changes around it, for an
/// instruction that is not interrupted. Refusals 7, 8 and 10 come first.
fn execute(t: &mut [u32], m: &mut [u8], b: usize, op: Op, i: u32, pma: u32, alu_result: u32) -> Result<(), Why> {
    let pc = t[b + PC];
    let mut next = pc.wrapping_add(4);
    let s = t[b + GPR + isa::rs(i)];
    let r = t[b + GPR + isa::rt(i)];
    match op {
        Op::Lb | Op::Lh | Op::Lw | Op::Lbu | Op::Lhu => {
            let value = memory_system(t, m, b, pma, isa::width(op)).ok_or(LoadOutside)?;
            // Definition 43.
            let value = match op {
                Op::Lb => value as u8 as i8 as i32 as u32,
                Op::Lh => value as u16 as i16 as i32 as u32,
                _ => value,
            };
            set_gpr(t, b, isa::rt(i), value);
        }
        Op::Sb | Op::Sh | Op::Sw => put_store(t, m, b, pma, r, isa::width(op))?,
        Op::Cas => {
            let old = word(m, pma).ok_or(CasOutside)?;
            if old == t[b + GPR + isa::rd(i)] {
                write(m, pma, r, 4);
            }
            set_gpr(t, b, isa::rd(i), old);
        }
        Op::Mfence => {} // its guard is its effect
        _ if isa::alu(op) => set_gpr(t, b, alu_destination(op, i), alu_result),
        Op::Bltz | Op::Bgez | Op::Beq | Op::Bne | Op::Blez | Op::Bgtz => {
            if isa::taken(op, s, r) {
                next = isa::branch_target(pc, i);
            }
        }
        Op::J => next = isa::jump_target(pc, i),
        Op::Jal => {
            set_gpr(t, b, 31, pc.wrapping_add(4));
            next = isa::jump_target(pc, i);
        }
        Op::Jr => next = s,
        Op::Jalr => {
            set_gpr(t, b, isa::rd(i), pc.wrapping_add(4));
            next = s;
        }
        // Definitions 35 to 39; fun[2] tells the distances apart.
        Op::Sll => set_gpr(t, b, isa::rd(i), r << isa::sa(i)),
        Op::Srl => set_gpr(t, b, isa::rd(i), r >> isa::sa(i)),
        Op::Sra => set_gpr(t, b, isa::rd(i), (r as i32 >> isa::sa(i)) as u32),
        Op::Sllv => set_gpr(t, b, isa::rd(i), r << (s & 31)),
        Op::Srlv => set_gpr(t, b, isa::rd(i), r >> (s & 31)),
        Op::Srav => set_gpr(t, b, isa::rd(i), (r as i32 >> (s & 31)) as u32),
        Op::Mfhi => set_gpr(t, b, isa::rd(i), t[b + HI]),
        Op::Mflo => set_gpr(t, b, isa::rd(i), t[b + LO]),
        Op::Mthi => t[b + HI] = s,
        Op::Mtlo => t[b + LO] = s,
        // Definitions 31 and 32.
        Op::Mult | Op::Multu | Op::Madd | Op::Maddu | Op::Msub | Op::Msubu => {
            let result = isa::mures(s, r, t[b + HI], t[b + LO], isa::mulcon(i));
            t[b + HI] = (result >> 32) as u32;
            t[b + LO] = result as u32;
        }
        // HI and LO are kept.
        Op::Mul => {
            let result = isa::mures(s, r, t[b + HI], t[b + LO], isa::mulcon(i));
            set_gpr(t, b, isa::rd(i), result as u32);
        }
        Op::Flush => drop_walks(t, b, |_| true),
        // tlb' of 11.3: the page of rd in the address space of rs, and every
        // incomplete walk.
        Op::Invlpg => {
            let (space, va) = (s & 63, t[b + GPR + isa::rd(i)] >> 12);
            drop_walks(t, b, |w| w.asid() == space && w.va() == va || !w.complete());
        }
        Op::Movg2s => t[b + SPR + isa::rd(i)] = r,
        Op::Movs2g => set_gpr(t, b, isa::rt(i), t[b + SPR + isa::rd(i)]),
        Op::Eret => {
            next = t[b + EPC];
            t[b + MODE] = 1;
            t[b + SR] = t[b + ESR];
            // The local APIC's reaction to rfe.
            if let Some(vector) = lowest(&t[b + ISR..b + ISR + 8]) {
                clear_bit(&mut t[b + ISR..], vector);
            }
        }
        _ => unreachable!("sysc always interrupts, ALU is above"),
    }
    t[b + PC] = next;
    Ok(())
}

/// A store enters the buffer, last in the chain. Refusals 7, 8, 10.
fn put_store(t: &mut [u32], m: &[u8], b: usize, a: u32, value: u32, width: u32) -> Result<(), Why> {
    if !in_memory(m.len(), a, width) && !in_ports(a) {
        return Err(StoreOutside);
    }
    let mut link = b + STORES;
    let mut count = 0;
    while t[link] != 0 {
        link = record(b, t[link]);
        count += 1;
    }
    if count >= MAX_STORES {
        return Err(NinthStore);
    }
    if t[b + FREE] == 0 {
        return Err(NoFreeRecord);
    }
    let n = take(t, b);
    t[link] = n;
    let r = record(b, n);
    t[r] = 0;
    t[r + 1] = a;
    t[r + 2] = if width == 4 { value } else { value & ((1 << (8 * width)) - 1) };
    t[r + 3] = width;
    Ok(())
}

// ---------------------------------------------------------------- run

/// Why a run stopped.
#[derive(Clone, Copy, PartialEq, Eq, Debug)]
pub enum Stop {
    End,
    Limit,
    Refused(Why),
}

/// What a run answers.
#[derive(Clone, Copy, PartialEq, Eq, Debug)]
pub struct Run {
    pub accepted: u32,
    pub stop: Stop,
}

/// Run a schedule of six words a step. Err is 4 or 11. Soundness is looked
/// at once, if at all: a step keeps it.
pub fn run(checked: bool, t: &mut [u32], m: &mut [u8], schedule: &[u32], limit: u32) -> Result<Run, u32> {
    if checked && sound(t, m).is_err() {
        return Err(4);
    }
    if schedule.len() % 6 != 0 || schedule.len() > 6144 {
        return Err(11);
    }
    let mut accepted = 0;
    for s in schedule.chunks_exact(6) {
        if accepted == limit {
            return Ok(Run { accepted, stop: Stop::Limit });
        }
        let s = [s[0], s[1], s[2], s[3], s[4], s[5]];
        if let Answer::Refused(why) = step_six(t, m, &s) {
            return Ok(Run { accepted, stop: Stop::Refused(why) });
        }
        accepted += 1;
    }
    Ok(Run { accepted, stop: Stop::End })
}
