//! The translations file tells a right translate from ones that go wrong in
//! one place. Each wrong turn below is refuted by some of its questions.

use oracle::machine::{pte_accessed, pte_base, pte_present, pte_rights, walks_of, word};
use oracle::soundness::*;
use oracle::vectors::{answer_sum, read_translations, Asked, Translations, ANSWER_FILL};
use std::collections::BTreeSet;

const TURNS: [&str; 92] = [
    // The count.
    "an entry counts each time it is needed",
    "an entry is remembered for the next address alone",
    "entries beyond memory count",
    "second-level entries beyond memory count",
    "an entry met at both levels counts twice",
    "an entry met at both levels by one address counts twice",
    "first-level entries do not count",
    "second-level entries do not count",
    "absent entries do not count",
    "entries are told apart by address and page asked",
    "entries are told apart by what they hold",
    "entries are told apart by their index",
    "the count is of the last address alone",
    "the count is of the first address alone",
    "the count stops at 64",
    "the count stops at 127",
    "tables are counted, not entries",
    // The words.
    "the third word of an absent address is left over",
    "the words of an address beyond memory are left over",
    "the third word of an address beyond memory is left over",
    "words that are 0 are not written",
    "levels 1 and 2 are swapped",
    "an absent address gives the levels done",
    "an absent address gives the entry's rights",
    "an absent address gives the entry's page",
    "an address beyond memory gives the level",
    "beyond memory is told as absent",
    "absent is told as beyond memory",
    "the page is given as an address",
    "the page is given with the address's low bits",
    "the page loses its highest bit",
    "the first-level entry's page is given",
    "the first-level entry's rights are given",
    "the rights of both are anded",
    "the rights of both are ored",
    "the rights bring the present bit along",
    "the rights bring the accessed bit along",
    "the rights are turned around",
    "the answers stop at the first that is not found",
    "the answers stop at the first beyond memory",
    "an address asked before is passed over",
    "a page asked before is passed over",
    // The walk.
    "a first-level entry has to be accessed",
    "a second-level entry has to be accessed",
    "a first-level entry has to grant user",
    "a second-level entry has to grant something",
    "the present bit of the first level is not asked",
    "the present bit of the second level is not asked",
    "the two indices are swapped",
    "the upper index loses its highest bit",
    "the lower index loses its highest bit",
    "the address's low bits move the second-level entry",
    "entry 1023 is not there",
    "pto's low bits are used",
    "edata is taken for pto",
    "asid is taken for pto",
    "pto of core 0 is taken",
    "one page more is memory",
    "the last page is not memory",
    "4096 pages are memory",
    "ports are read as zero",
    "a page beyond memory is taken for an entry beyond memory",
    "a page beyond memory is taken for absent",
    "a page at a port is taken for an entry beyond memory",
    "a second-level table that is the first-level table is beyond memory",
    "page 0 holds no table",
    "a complete walk is asked first",
    "a complete walk of any address space is asked first",
    "a level 1 walk is asked first",
    "a level 2 walk is asked first",
    "pending stores of the core are seen",
    "pending stores of every core are seen",
    "a core in system mode is not translated",
    // Refusals.
    "a core that does not run is not there",
    "14 comes before 4",
    "15 comes before 4",
    "16 comes before 4",
    "15 comes before 14",
    "16 comes before 14",
    "16 comes before 15",
    "a refusal writes zeros",
    "refusal 4 writes zeros",
    "refusal 14 writes zeros",
    "refusal 15 writes zeros",
    "refusal 16 writes zeros",
    "refusal 16 clears one word",
    "65 addresses are allowed",
    "64 addresses are refused",
    "no address at all is refused",
    "a longer buffer is taken",
    "a shorter buffer is taken",
    "the core's upper 16 bits are lost",
];

/// Numbers that the turns count by.
#[derive(Default)]
struct Read {
    keys: BTreeSet<(u32, u32, u32)>,
    times: u32,
    first: u32,
    last: u32,
}

/// One core's tables, with one turn taken wrong.
struct Turned<'a> {
    t: &'a [u32],
    m: Vec<u8>,
    core: u32,
    turn: &'a str,
    read: Read,
}

impl Turned<'_> {
    fn is(&self, name: &str) -> bool {
        self.turn == name
    }

    /// An entry, or None beyond memory; counted by the turn's own rule.
    fn entry(&mut self, level: u32, table: u32, index: u32, low: u32, va: u32) -> Option<u32> {
        let place = (table << 12).wrapping_add(index << 2).wrapping_add(low);
        let pages = self.t[PAGES];
        let zero = self.is("one page more is memory") && place >> 12 == pages
            || self.is("4096 pages are memory") && place >> 12 < 4096
            || self.is("ports are read as zero") && in_ports(place);
        let hidden = self.is("the last page is not memory") && place >> 12 == pages - 1
            || self.is("page 0 holds no table") && place >> 12 == 0
            || self.is("entry 1023 is not there") && index == 1023;
        let pte = if hidden { None } else { word(&self.m, place) }.or(if zero && !hidden { Some(0) } else { None });
        let key = match self.turn {
            "an entry counts each time it is needed" => (self.read.times, 0, 0),
            "an entry met at both levels counts twice" => (place, level, 0),
            "entries are told apart by address and page asked" => (place, va, 0),
            "entries are told apart by what they hold" => (pte.unwrap_or(0), 0, 0),
            "entries are told apart by their index" => (place & 0xFFF, 0, 0),
            "tables are counted, not entries" => (place >> 12, 0, 0),
            _ => (place, 0, 0),
        };
        let counts = match self.turn {
            "entries beyond memory count" => true,
            "second-level entries beyond memory count" => pte.is_some() || level == 1,
            "first-level entries do not count" => pte.is_some() && level == 1,
            "second-level entries do not count" => pte.is_some() && level == 2,
            "absent entries do not count" => pte.is_some_and(pte_present),
            _ => pte.is_some(),
        };
        if counts {
            self.read.times += 1;
            self.read.last += 1;
            self.read.keys.insert(key);
        }
        pte
    }

    fn present(&self, level: u32, pte: u32) -> bool {
        let first = level == 2;
        match self.turn {
            "a first-level entry has to be accessed" if first => pte_present(pte) && pte_accessed(pte),
            "a second-level entry has to be accessed" if !first => pte_present(pte) && pte_accessed(pte),
            "a first-level entry has to grant user" if first => pte_present(pte) && pte_rights(pte) & 2 != 0,
            "a second-level entry has to grant something" if !first => pte_present(pte) && pte_rights(pte) != 0,
            "the present bit of the first level is not asked" if first => true,
            "the present bit of the second level is not asked" if !first => true,
            _ => pte_present(pte),
        }
    }

    fn beyond(&self, level: u32) -> [u32; 3] {
        match self.turn {
            "an address beyond memory gives the level" => [2, level, 0],
            "beyond memory is told as absent" => [1, level, 0],
            _ => [2, 0, 0],
        }
    }

    fn absent(&self, level: u32, pte: u32) -> [u32; 3] {
        match self.turn {
            "levels 1 and 2 are swapped" => [1, 3 - level, 0],
            "an absent address gives the levels done" => [1, 2 - level, 0],
            "an absent address gives the entry's rights" => [1, level, pte_rights(pte)],
            "an absent address gives the entry's page" => [1, pte_base(pte), 0],
            "absent is told as beyond memory" => [2, 0, 0],
            _ => [1, level, 0],
        }
    }

    /// The answer for one address.
    fn walk(&mut self, address: u32) -> [u32; 3] {
        let b = block(self.core as usize);
        let va = address >> 12;
        let mut pto = self.t[b + PTO];
        if self.is("edata is taken for pto") {
            pto = self.t[b + EDATA];
        }
        if self.is("asid is taken for pto") {
            pto = self.t[b + ASID];
        }
        if self.is("pto of core 0 is taken") {
            pto = self.t[block(0) + PTO];
        }
        if self.is("a core in system mode is not translated") && self.t[b + MODE] & 1 == 0 {
            return [0, va, 7];
        }
        let (mut origin, mut second) = (pto >> 12, None);
        let asid = self.t[b + ASID] & 63;
        for w in walks_of(self.t, b).into_iter().filter(|w| w.va() == va) {
            let ours = w.asid() == asid;
            match (self.turn, w.level()) {
                ("a complete walk is asked first", 0) if ours => return [0, w.base, w.rights()],
                ("a complete walk of any address space is asked first", 0) => return [0, w.base, w.rights()],
                ("a level 1 walk is asked first", 1) if ours => second = Some(w.base),
                ("a level 2 walk is asked first", 2) if ours => origin = w.base,
                _ => {}
            }
        }
        let (mut upper, mut lower) = (va >> 10, va & 1023);
        match self.turn {
            "the two indices are swapped" => (upper, lower) = (lower, upper),
            "the upper index loses its highest bit" => upper &= 511,
            "the lower index loses its highest bit" => lower &= 511,
            _ => {}
        }
        let low = if self.is("pto's low bits are used") { pto & 0xFFF } else { 0 };
        let (table, above) = match second {
            Some(table) => (table, 7 << 8),
            None => {
                let Some(first) = self.entry(2, origin, upper, low, va) else {
                    return self.beyond(2);
                };
                if !self.present(2, first) {
                    return self.absent(2, first);
                }
                (pte_base(first), first)
            }
        };
        if self.is("a second-level table that is the first-level table is beyond memory") && table == origin {
            return [2, 0, 0];
        }
        let low = if self.is("the address's low bits move the second-level entry") { address & 0xFFC } else { 0 };
        let Some(last) = self.entry(1, table, lower, low, va) else {
            return self.beyond(1);
        };
        if !self.present(1, last) {
            return self.absent(1, last);
        }
        let (page, pages) = (pte_base(last), self.t[PAGES]);
        let (upper, rights) = (pte_rights(above), pte_rights(last));
        match self.turn {
            "the page is given as an address" => [0, page << 12, rights],
            "the page is given with the address's low bits" => [0, page + (address & 0xFFF), rights],
            "the page loses its highest bit" => [0, page & 0x7FFFF, rights],
            "the first-level entry's page is given" => [0, table, rights],
            "the first-level entry's rights are given" => [0, page, upper],
            "the rights of both are anded" => [0, page, rights & upper],
            "the rights of both are ored" => [0, page, rights | upper],
            "the rights bring the present bit along" => [0, page, last >> 8 & 15],
            "the rights bring the accessed bit along" => [0, page, last >> 7 & 15],
            "the rights are turned around" => [0, page, rights & 2 | rights >> 2 | (rights & 1) << 2],
            "a page beyond memory is taken for an entry beyond memory" if page >= pages => [2, 0, 0],
            "a page beyond memory is taken for absent" if page >= pages => [1, 1, 0],
            "a page at a port is taken for an entry beyond memory" if page >= 0xFFFFE => [2, 0, 0],
            _ => [0, page, rights],
        }
    }

    fn count(&self) -> u32 {
        let all = self.read.keys.len() as u32;
        match self.turn {
            "the count is of the last address alone" => self.read.last,
            "the count is of the first address alone" => self.read.first,
            "the count stops at 64" => all.min(64),
            "the count stops at 127" => all.min(127),
            _ => all,
        }
    }
}

/// Memory as the pending stores of core k would leave it.
fn drain(t: &[u32], m: &mut [u8], k: usize) {
    let mut n = t[block(k) + STORES];
    while n != 0 {
        let r = record(block(k), n);
        let (at, width) = (t[r + 1] as usize, t[r + 3] as usize);
        if at + width <= m.len() {
            m[at..at + width].copy_from_slice(&t[r + 2].to_le_bytes()[..width]);
        }
        n = t[r];
    }
}

/// The refusal, if there is one.
fn refused(t: &[u32], m: &[u8], asked: &Asked, turn: &str) -> Option<u32> {
    let is = |name: &str| turn == name;
    let (n, words) = (asked.addresses.len(), asked.words as usize);
    let cores = t.first().copied().unwrap_or(0);
    let core = if is("the core's upper 16 bits are lost") { asked.core & 0xFFFF } else { asked.core };
    let still = |k: u32| is("a core that does not run is not there") && t[block(k as usize) + RUNNING] == 0;
    let unsound = sound(t, m).is_err();
    let not_there = core >= cores || !unsound && still(core);
    let many = match () {
        _ if is("65 addresses are allowed") => n > 65,
        _ if is("64 addresses are refused") => n > 63,
        _ if is("no address at all is refused") => n > 64 || n == 0,
        _ => n > 64,
    };
    let length = match () {
        _ if is("a longer buffer is taken") => words < 3 * n,
        _ if is("a shorter buffer is taken") => words > 3 * n,
        _ => words != 3 * n,
    };
    let mut order = vec![4, 14, 15, 16];
    if let [number, "comes", "before", other] = turn.split(' ').collect::<Vec<_>>()[..] {
        let (number, other): (u32, u32) = (number.parse().unwrap(), other.parse().unwrap());
        order.retain(|x| *x != number);
        order.insert(order.iter().position(|x| *x == other).unwrap(), number);
    }
    order.into_iter().find(|number| match number {
        4 => unsound,
        14 => not_there,
        15 => many,
        _ => length,
    })
}

/// Translate with one turn taken wrong: answer, reads and the words after it.
fn translate(t: &[u32], m: &[u8], asked: &Asked, turn: &str) -> (u8, u32, Vec<u32>) {
    let is = |name: &str| turn == name;
    let mut words = vec![ANSWER_FILL; asked.words as usize];
    if let Some(number) = refused(t, m, asked, turn) {
        if is("a refusal writes zeros") || turn == format!("refusal {number} writes zeros") {
            words.fill(0);
        }
        if is("refusal 16 clears one word") && number == 16 {
            words.iter_mut().take(1).for_each(|word| *word = 0);
        }
        return (100 + number as u8, 0, words);
    }
    let core = if is("the core's upper 16 bits are lost") { asked.core & 0xFFFF } else { asked.core };
    let mut memory = m.to_vec();
    if is("pending stores of every core are seen") {
        (0..t[CORES] as usize).for_each(|k| drain(t, &mut memory, k));
    } else if is("pending stores of the core are seen") {
        drain(t, &mut memory, core as usize);
    }
    let mut turned = Turned { t, m: memory, core, turn, read: Read::default() };
    let mut before = [0; 3];
    for (i, &address) in asked.addresses.iter().enumerate() {
        let earlier = &asked.addresses[..i];
        if is("an address asked before is passed over") && earlier.contains(&address)
            || is("a page asked before is passed over") && earlier.iter().any(|a| a >> 12 == address >> 12)
        {
            continue;
        }
        turned.read.last = 0;
        let kept = turned.read.keys.clone();
        let answer = turned.walk(address);
        if i == 0 {
            turned.read.first = turned.read.last;
        }
        if is("an entry is remembered for the next address alone") {
            // A key for each address that needs it, but for runs of them.
            turned.read.keys = kept;
            let mut one = Turned { t, m: m.to_vec(), core, turn: "none", read: Read::default() };
            one.walk(address);
            let mut last = Turned { t, m: m.to_vec(), core, turn: "none", read: Read::default() };
            if i > 0 {
                last.walk(asked.addresses[i - 1]);
            }
            for (place, ..) in one.read.keys.difference(&last.read.keys) {
                turned.read.keys.insert((*place, i as u32, 0));
            }
        }
        if is("an entry met at both levels by one address counts twice") && turned.read.last == 2 {
            let b = block(core as usize);
            let place = (t[b + PTO] >> 12 << 12) + (address >> 22 << 2);
            let second = word(m, place).map(|pte| (pte_base(pte) << 12) + (address >> 12 << 2 & 0xFFC));
            if second == Some(place) {
                turned.read.keys.insert((place, 1, 1));
            }
        }
        let mut given = answer;
        match answer[0] {
            1 if is("the third word of an absent address is left over") => given[2] = before[2],
            2 if is("the words of an address beyond memory are left over") => given = [2, before[1], before[2]],
            2 if is("the third word of an address beyond memory is left over") => given[2] = before[2],
            _ => {}
        }
        before = given;
        for (j, word) in given.into_iter().enumerate() {
            if let (Some(place), false) =
                (words.get_mut(3 * i + j), is("words that are 0 are not written") && word == 0)
            {
                *place = word;
            }
        }
        if is("the answers stop at the first that is not found") && answer[0] != 0
            || is("the answers stop at the first beyond memory") && answer[0] == 2
        {
            break;
        }
    }
    (0, turned.count(), words)
}

/// How many questions of a machine a turn answers wrongly.
fn wrong(g: &Translations, turn: &str) -> usize {
    let (t, m) = (&g.machine.tables, &g.machine.memory);
    let differs = |asked: &Asked, right: (u8, u32, u32)| {
        let (answer, reads, words) = translate(t, m, asked, turn);
        (answer, reads, answer_sum(&words)) != right
    };
    g.questions.iter().filter(|q| differs(&q.asked, (q.answer, q.reads, q.sum))).count()
}

#[test]
fn no_wrong_turn_goes_unseen() {
    let all = read_translations(include_bytes!("../vectors/translations.bin")).unwrap().0;
    assert_eq!(all.iter().map(|g| wrong(g, "none")).sum::<usize>(), 0);
    let mut unseen = Vec::new();
    for turn in TURNS {
        let mut found = 0;
        for g in &all {
            found += wrong(g, turn);
            if found >= 20 {
                break;
            }
        }
        if found < 20 {
            unseen.push((turn, found));
        }
    }
    assert!(unseen.is_empty(), "{unseen:?}");
}
