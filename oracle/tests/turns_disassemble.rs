//! The texts file tells a right disassemble from ones that go wrong in one
//! place. Each wrong turn below is refuted by some of its vectors.

use oracle::disassemble::{unsigned, SYNTAX};
use oracle::isa::{self, Op, ROWS};
use oracle::texts::{forms, Form};
use oracle::vectors::{read_texts, Text, TEXT_FILL};

/// One way to go wrong.
#[derive(Clone, Copy, PartialEq, Debug)]
enum Turn {
    None,
    /// The row's immediate signed where it is unsigned, and the other way.
    OtherSign(Op),
    /// Two of the row's operands change places.
    Swapped(Op, usize, usize),
    /// One of the row's operands is not shown.
    Without(Op, usize),
    /// An operand is taken from another field.
    Instead(Op, usize, &'static str),
    /// A field that the row does not name comes last.
    With(Op, &'static str),
    /// The row is not known.
    Unknown(Op),
    /// The row asks that its free bits are zero.
    Strict(Op),
    /// The row asks that one of its free bits is zero.
    StrictBit(Op, u32),
    /// The row has the mnemonic of another.
    Called(Op, Op),
    /// One bit of the row's codes is not looked at; it is asked first.
    LooseFirst(Op, u32),
    /// The same, but it is asked last.
    LooseLast(Op, u32),
    /// A buffer of this length is taken.
    Taken(usize),
    Said(&'static str),
}

const SAID: [&str; 112] = [
    // Numbers.
    "every immediate is unsigned",
    "every immediate is signed",
    "loads and stores have an unsigned immediate",
    "branches have an unsigned immediate",
    "sltiu and addiu have an unsigned immediate",
    "8000 is shown as 32768 where signed",
    "8000 is shown as -0",
    "8000 is shown as 0",
    "below zero by ones' complement",
    "the sign is lost",
    "the minus stands apart",
    "a plus before what is above zero",
    "a plus before what is not below zero",
    "a plus before signed immediates above zero",
    "zero is shown as nothing",
    "zero is shown as -0",
    "immediates in hexadecimal",
    "unsigned immediates in hexadecimal",
    "an index in hexadecimal",
    "a shift amount in hexadecimal",
    "numbers of five digits at least",
    "numbers of two digits at least",
    "numbers lose their zeros at the end",
    "numbers lose their digits after the fourth",
    "numbers lose their digits after the seventh",
    "numbers over 9999 lose their first digit",
    "numbers over 9999999 lose their first digit",
    "the digits are turned round",
    "digits nine are shown as a colon",
    "immediates of 15 bits",
    "a branch's immediate times four",
    "a branch's immediate plus one",
    "a branch's immediate plus four",
    "a load's or store's immediate in full words",
    "an index times four",
    "an index of 25 bits",
    "an index of 16 bits",
    "an index is signed",
    "a shift amount is signed",
    "a shift amount of four bits",
    "lui shows what it loads",
    // Registers.
    "registers without their letter",
    "registers with a dollar",
    "registers with a capital letter",
    "registers with an x",
    "registers in hexadecimal",
    "registers of two digits",
    "registers of four bits",
    "registers counted from one",
    "register 0 is shown as zero",
    "register 31 is shown as ra",
    "special registers by their names",
    "special registers with another letter",
    "special registers of three bits",
    "special registers above 7 give ill",
    // Blanks and the like.
    "no blank before the first operand",
    "two blanks before the first operand",
    "two blanks before each later operand",
    "mnemonics filled up to six letters",
    "a blank behind the text",
    "a blank behind what has no operands",
    "a blank before the text",
    "a tab before the first operand",
    "commas between operands",
    "commas and no blanks between operands",
    "an immediate with the register in brackets",
    "an immediate with a number sign",
    "a line feed behind the text",
    "capital letters",
    "a capital letter first",
    // Names of the trade.
    "nop for the word 0",
    "move for addu with register 0",
    "li for addiu with register 0",
    "b for beq of register 0 with itself",
    "beqz and bnez",
    "not for nor with register 0",
    "jalr with one operand where rd is 31",
    "ret for jr of register 31",
    "syscall for sysc",
    "mtc0 and mfc0",
    "u-forms without their u",
    "u-forms and others swapped",
    // Illegal words.
    "an illegal word gives nothing",
    "an illegal word gives illegal",
    "an illegal word gives ILL",
    "an illegal word gives ill and the word",
    "an illegal word gives question marks",
    "an illegal word is refused",
    "an illegal opcode is refused",
    "an illegal word answers 0 and writes ill",
    "an illegal word leaves the buffer behind ill",
    "an illegal word leaves the buffer",
    "an opcode's lowest row is taken for its illegal words",
    "opcode 28 is taken like opcode 0",
    "rows of opcode 0 at every opcode of R-type",
    "bltz and bgez by the lowest bit of rt",
    "a word of all ones or zeros is illegal",
    // The buffer.
    "what stood behind the text stays",
    "a zero behind the text, and the rest stays",
    "the last byte stays",
    "blanks behind the text",
    "the text stands at the end",
    "the answer is always 32",
    "the answer counts a zero behind the text",
    "the answer is one short",
    "the answer is 0",
    "a longer buffer is taken",
    "a buffer that is shorter, but not than the text, is taken",
    "the refusal is 16",
    "a refusal writes zeros",
    "a refusal writes the text where it fits",
    "a refusal clears one byte",
];

struct Turned<'a> {
    turn: Turn,
    forms: &'a [Form],
    branch: bool,
    access: bool,
}

fn field(word: u32, name: &str) -> u32 {
    match name {
        "rs" => isa::rs(word) as u32,
        "rt" => isa::rt(word) as u32,
        "rd" => isa::rd(word) as u32,
        "sa" => isa::sa(word),
        "fun" => isa::fun(word),
        "imm" => isa::imm(word),
        _ => isa::iindex(word),
    }
}

impl Turned<'_> {
    fn is(&self, name: &str) -> bool {
        matches!(self.turn, Turn::Said(said) if said == name)
    }

    /// The row that is taken.
    fn row(&self, word: u32) -> Option<Op> {
        let form = |op: Op| &self.forms[op as usize];
        let loose = |op: Op, bit: u32| (word ^ form(op).value) & form(op).codes & !(1 << bit) == 0;
        let right = isa::decode(word);
        match self.turn {
            Turn::Unknown(op) if right == Some(op) => None,
            Turn::Strict(op) if right == Some(op) && word & form(op).free != 0 => None,
            Turn::StrictBit(op, bit) if right == Some(op) && word >> bit & 1 == 1 => None,
            Turn::LooseFirst(op, bit) if loose(op, bit) => Some(op),
            Turn::LooseLast(op, bit) if right.is_none() && loose(op, bit) => Some(op),
            Turn::Said("special registers above 7 give ill")
                if matches!(right, Some(Op::Movg2s | Op::Movs2g)) && isa::rd(word) > 7 =>
            {
                None
            }
            Turn::Said("an opcode's lowest row is taken for its illegal words") => {
                right.or_else(|| ROWS.iter().find(|row| row.opcode == isa::opc(word)).map(|row| row.op))
            }
            Turn::Said("opcode 28 is taken like opcode 0") if isa::opc(word) == 28 => isa::decode(word & 0x03FF_FFFF),
            Turn::Said("rows of opcode 0 at every opcode of R-type") if [16, 28].contains(&isa::opc(word)) => {
                right.or_else(|| isa::decode(word & 0x03FF_FFFF))
            }
            Turn::Said("bltz and bgez by the lowest bit of rt") if isa::opc(word) == 1 => {
                isa::decode(word & !(30 << 16))
            }
            Turn::Said("a word of all ones or zeros is illegal") if word == 0 || word == 0xFFFF_FFFF => None,
            _ => right,
        }
    }

    fn number(&self, kind: &str, value: i64) -> String {
        let size = value.unsigned_abs();
        let immediate = kind == "imm" || kind == "uimm";
        let hexadecimal = self.is("immediates in hexadecimal") && immediate
            || self.is("unsigned immediates in hexadecimal") && kind == "uimm"
            || self.is("an index in hexadecimal") && kind == "iindex"
            || self.is("a shift amount in hexadecimal") && kind == "sa";
        let mut digits = if hexadecimal { format!("{size:x}") } else { size.to_string() };
        let cut = |digits: &str, n: usize| digits[..digits.len().min(n)].to_string();
        let short =
            |digits: &str, n: usize| if digits.len() > n { digits[1..].to_string() } else { digits.to_string() };
        match self.turn {
            Turn::Said("numbers of five digits at least") if immediate => digits = format!("{digits:0>5}"),
            Turn::Said("numbers of two digits at least") => digits = format!("{digits:0>2}"),
            Turn::Said("numbers lose their zeros at the end") if value != 0 => {
                digits = digits.trim_end_matches('0').into()
            }
            Turn::Said("numbers lose their digits after the fourth") => digits = cut(&digits, 4),
            Turn::Said("numbers lose their digits after the seventh") => digits = cut(&digits, 7),
            Turn::Said("numbers over 9999 lose their first digit") => digits = short(&digits, 4),
            Turn::Said("numbers over 9999999 lose their first digit") => digits = short(&digits, 7),
            Turn::Said("the digits are turned round") => digits = digits.chars().rev().collect(),
            Turn::Said("digits nine are shown as a colon") => digits = digits.replace('9', ":"),
            Turn::Said("zero is shown as nothing") if value == 0 => digits = String::new(),
            _ => {}
        }
        let sign = match (self.turn, kind, value) {
            (Turn::Said("the sign is lost"), ..) => "",
            (Turn::Said("the minus stands apart"), _, ..=-1) => "- ",
            (Turn::Said("a plus before what is above zero"), _, 1..) => "+",
            (Turn::Said("a plus before what is not below zero"), _, 0..) => "+",
            (Turn::Said("a plus before signed immediates above zero"), "imm", 1..) => "+",
            (Turn::Said("zero is shown as -0"), "imm", 0) => "-",
            (_, _, ..=-1) => "-",
            _ => "",
        };
        let mark = if self.is("an immediate with a number sign") && immediate { "#" } else { "" };
        format!("{mark}{sign}{digits}")
    }

    fn register(&self, op: Op, name: &str, value: u32) -> String {
        let special = name == "rd" && matches!(op, Op::Movg2s | Op::Movs2g);
        let number = self.number("register", value as i64);
        match self.turn {
            Turn::Said("registers without their letter") => number,
            Turn::Said("registers with a dollar") => format!("${number}"),
            Turn::Said("registers with a capital letter") => format!("R{number}"),
            Turn::Said("registers with an x") => format!("x{number}"),
            Turn::Said("registers in hexadecimal") => format!("r{value:x}"),
            Turn::Said("registers of two digits") => format!("r{number:0>2}"),
            Turn::Said("registers of four bits") => format!("r{}", value & 15),
            Turn::Said("registers counted from one") => format!("r{}", value + 1),
            Turn::Said("register 0 is shown as zero") if value == 0 => "zero".into(),
            Turn::Said("register 31 is shown as ra") if value == 31 => "ra".into(),
            Turn::Said("special registers by their names") if special && value < 8 => {
                ["sr", "esr", "eca", "epc", "edata", "pto", "asid", "mode"][value as usize].into()
            }
            Turn::Said("special registers with another letter") if special => format!("s{number}"),
            Turn::Said("special registers of three bits") if special => format!("r{}", value & 7),
            _ => format!("r{number}"),
        }
    }

    fn operand(&self, op: Op, name: &str, word: u32) -> String {
        let value = field(word, name);
        if name.starts_with('r') {
            return self.register(op, name, value);
        }
        if name != "imm" {
            let value = value as i64;
            return match (self.turn, name) {
                (Turn::Said("an index times four"), "iindex") => self.number(name, 4 * value),
                (Turn::Said("an index of 25 bits"), "iindex") => self.number(name, value & 0x1FF_FFFF),
                (Turn::Said("an index of 16 bits"), "iindex") => self.number(name, value & 0xFFFF),
                (Turn::Said("an index is signed"), "iindex") if value >> 25 == 1 => {
                    self.number(name, value - (1 << 26))
                }
                (Turn::Said("a shift amount is signed"), "sa") if value > 15 => self.number(name, value - 32),
                (Turn::Said("a shift amount of four bits"), "sa") => self.number(name, value & 15),
                _ => self.number(name, value),
            };
        }
        let mut signed = !unsigned(op);
        match self.turn {
            Turn::OtherSign(other) if other == op => signed = !signed,
            Turn::Said("every immediate is unsigned") => signed = false,
            Turn::Said("every immediate is signed") => signed = true,
            Turn::Said("loads and stores have an unsigned immediate") => signed &= !self.access,
            Turn::Said("branches have an unsigned immediate") => signed &= !self.branch,
            Turn::Said("sltiu and addiu have an unsigned immediate") => signed &= !matches!(op, Op::Sltiu | Op::Addiu),
            Turn::Said("8000 is shown as 32768 where signed") if value == 0x8000 => signed = false,
            Turn::Said("8000 is shown as -0") if signed && value == 0x8000 => return "-0".into(),
            Turn::Said("8000 is shown as 0") if signed && value == 0x8000 => return "0".into(),
            Turn::Said("below zero by ones' complement") if signed && value > 0x7FFF => {
                return format!("-{}", 0xFFFF - value);
            }
            _ => {}
        }
        let right = if signed { value as u16 as i16 as i64 } else { value as i64 };
        let shown = match self.turn {
            Turn::Said("a branch's immediate times four") if self.branch => 4 * right,
            Turn::Said("a branch's immediate plus one") if self.branch => right + 1,
            Turn::Said("a branch's immediate plus four") if self.branch => right + 4,
            Turn::Said("a load's or store's immediate in full words") if self.access => right & !3,
            Turn::Said("immediates of 15 bits") => right & 0x7FFF,
            Turn::Said("lui shows what it loads") if op == Op::Lui => right << 16,
            _ => right,
        };
        self.number(if unsigned(op) { "uimm" } else { "imm" }, shown)
    }

    fn mnemonic(&self, op: Op, word: u32) -> String {
        let name = ROWS[op as usize].name;
        let known = |name: &str| ROWS.iter().any(|row| row.name == name);
        let (longer, shorter) = (format!("{name}u"), name.trim_end_matches('u').to_string());
        match self.turn {
            Turn::Called(from, to) if from == op => ROWS[to as usize].name.into(),
            Turn::Said("u-forms without their u") if name != shorter => shorter,
            Turn::Said("u-forms and others swapped") if name != shorter => shorter,
            Turn::Said("u-forms and others swapped") if known(&longer) => longer,
            Turn::Said("syscall for sysc") if op == Op::Sysc => "syscall".into(),
            Turn::Said("mtc0 and mfc0") if op == Op::Movg2s => "mtc0".into(),
            Turn::Said("mtc0 and mfc0") if op == Op::Movs2g => "mfc0".into(),
            Turn::Said("ret for jr of register 31") if op == Op::Jr && isa::rs(word) == 31 => "ret".into(),
            _ => name.into(),
        }
    }

    fn text(&mut self, word: u32) -> String {
        let Some(op) = self.row(word) else {
            return match self.turn {
                Turn::Said("an illegal word gives nothing") => String::new(),
                Turn::Said("an illegal word gives illegal") => "illegal".into(),
                Turn::Said("an illegal word gives ILL") => "ILL".into(),
                Turn::Said("an illegal word gives ill and the word") => format!("ill {word}"),
                Turn::Said("an illegal word gives question marks") => "???".into(),
                _ => "ill".into(),
            };
        };
        self.branch = matches!(op, Op::Beq | Op::Bne | Op::Bltz | Op::Bgez | Op::Blez | Op::Bgtz);
        self.access = isa::load(op) || isa::store(op);
        let mut names: Vec<&str> = SYNTAX[op as usize].split(' ').skip(1).collect();
        match self.turn {
            Turn::Swapped(other, i, j) if other == op => names.swap(i, j),
            Turn::Without(other, i) if other == op => {
                names.remove(i);
            }
            Turn::Instead(other, i, name) if other == op => names[i] = name,
            Turn::With(other, name) if other == op => names.push(name),
            Turn::Said("jalr with one operand where rd is 31") if op == Op::Jalr && isa::rd(word) == 31 => {
                names = vec!["rs"]
            }
            _ => {}
        }
        let operands: Vec<String> = names.iter().map(|name| self.operand(op, name, word)).collect();
        let name = self.mnemonic(op, word);
        let (rs, rt) = (isa::rs(word), isa::rt(word));
        let plain = operands.iter().fold(name.clone(), |text, operand| format!("{text} {operand}"));
        let joined = |first: &str, later: &str| match operands.is_empty() {
            true => name.clone(),
            false => format!("{name}{first}{}", operands.join(later)),
        };
        match self.turn {
            Turn::Said("no blank before the first operand") => joined("", " "),
            Turn::Said("two blanks before the first operand") => joined("  ", " "),
            Turn::Said("two blanks before each later operand") => joined(" ", "  "),
            Turn::Said("mnemonics filled up to six letters") => {
                operands.iter().fold(format!("{name:6}"), |text, operand| format!("{text} {operand}"))
            }
            Turn::Said("a blank behind the text") => plain + " ",
            Turn::Said("a blank behind what has no operands") if operands.is_empty() => plain + " ",
            Turn::Said("a blank before the text") => format!(" {plain}"),
            Turn::Said("a line feed behind the text") => plain + "\n",
            Turn::Said("a tab before the first operand") => joined("\t", " "),
            Turn::Said("commas between operands") => joined(" ", ", "),
            Turn::Said("commas and no blanks between operands") => joined(" ", ","),
            Turn::Said("an immediate with the register in brackets") if self.access => {
                format!("{name} {} {}({})", operands[0], operands[2], operands[1])
            }
            Turn::Said("capital letters") => plain.to_uppercase(),
            Turn::Said("a capital letter first") => plain[..1].to_uppercase() + &plain[1..],
            Turn::Said("nop for the word 0") if word == 0 => "nop".into(),
            Turn::Said("move for addu with register 0") if op == Op::Addu && rt == 0 => {
                format!("move {} {}", operands[0], operands[1])
            }
            Turn::Said("li for addiu with register 0") if op == Op::Addiu && rs == 0 => {
                format!("li {} {}", operands[0], operands[2])
            }
            Turn::Said("b for beq of register 0 with itself") if op == Op::Beq && rs + rt == 0 => {
                format!("b {}", operands[2])
            }
            Turn::Said("beqz and bnez") if matches!(op, Op::Beq | Op::Bne) && rt == 0 => {
                format!("{name}z {} {}", operands[0], operands[2])
            }
            Turn::Said("not for nor with register 0") if op == Op::Nor && rt == 0 => {
                format!("not {} {}", operands[0], operands[1])
            }
            _ => plain,
        }
    }

    /// The answer and the whole buffer after a call.
    fn call(&mut self, word: u32, length: usize) -> (u8, Vec<u8>) {
        let mut buffer = vec![TEXT_FILL; length];
        let mut text = self.text(word).into_bytes();
        text.truncate(36);
        let legal = isa::decode(word).is_some();
        let taken = match self.turn {
            Turn::Taken(other) => length == other || length == 32,
            Turn::Said("a longer buffer is taken") => length >= 32,
            Turn::Said("a buffer that is shorter, but not than the text, is taken") => {
                length >= text.len() && length <= 32
            }
            Turn::Said("an illegal word is refused") => length == 32 && legal,
            Turn::Said("an illegal opcode is refused") => {
                length == 32 && ROWS.iter().any(|row| row.opcode == isa::opc(word))
            }
            _ => length == 32,
        };
        if !taken {
            match self.turn {
                Turn::Said("a refusal writes zeros") => buffer.fill(0),
                Turn::Said("a refusal writes the text where it fits") if text.len() <= length => {
                    buffer[..text.len()].copy_from_slice(&text)
                }
                Turn::Said("a refusal clears one byte") => buffer.iter_mut().take(1).for_each(|byte| *byte = 0),
                _ => {}
            }
            return (if self.is("the refusal is 16") { 116 } else { 117 }, buffer);
        }
        let end = text.len().min(length);
        match self.turn {
            Turn::Said("what stood behind the text stays") => {}
            Turn::Said("an illegal word leaves the buffer behind ill") if !legal => {}
            Turn::Said("a zero behind the text, and the rest stays") => buffer[end] = 0,
            Turn::Said("the last byte stays") => buffer[..31].fill(0),
            Turn::Said("blanks behind the text") => buffer.fill(b' '),
            _ => buffer.fill(0),
        }
        let start = if self.is("the text stands at the end") { length - end } else { 0 };
        buffer[start..start + end].copy_from_slice(&text[..end]);
        if self.is("an illegal word leaves the buffer") && !legal {
            buffer.fill(TEXT_FILL);
        }
        let answer = match self.turn {
            Turn::Said("the answer is always 32") => 32,
            Turn::Said("the answer counts a zero behind the text") => text.len() + 1,
            Turn::Said("the answer is one short") => text.len() - 1,
            Turn::Said("the answer is 0") => 0,
            Turn::Said("an illegal word answers 0 and writes ill") if !legal => 0,
            _ => text.len(),
        };
        (answer as u8, buffer)
    }
}

fn turns(forms: &[Form]) -> Vec<Turn> {
    let mut all: Vec<Turn> = SAID.iter().map(|said| Turn::Said(said)).collect();
    all.extend((0..=40).filter(|length| *length != 32).map(Turn::Taken));
    for form in forms {
        let op = form.op;
        let n = form.named.len();
        let named = |name: &str| form.named.iter().any(|field| field.name == name);
        if named("imm") {
            all.push(Turn::OtherSign(op));
        }
        for i in 0..n {
            all.push(Turn::Without(op, i));
            all.extend((i + 1..n).map(|j| Turn::Swapped(op, i, j)));
            for other in ["rs", "rt", "rd", "sa"] {
                if form.named[i].bits == 5 && form.named[i].name != other {
                    all.push(Turn::Instead(op, i, other));
                }
            }
        }
        all.extend(
            ["rs", "rt", "rd", "sa", "fun"].into_iter().filter(|name| !named(name)).map(|name| Turn::With(op, name)),
        );
        all.push(Turn::Unknown(op));
        let bits = |mask: u32| (0..32).filter(move |bit| mask >> bit & 1 == 1);
        if form.free != 0 {
            all.push(Turn::Strict(op));
        }
        all.extend(bits(form.free).map(|bit| Turn::StrictBit(op, bit)));
        all.extend(ROWS.iter().filter(|row| row.op != op).map(|row| Turn::Called(op, row.op)));
        for bit in bits(form.codes) {
            all.push(Turn::LooseFirst(op, bit));
            // Where the neighbours are all legal there is nothing to be loose about.
            let next = form.value ^ 1 << bit;
            let legal = |free: u32| isa::decode(next & form.codes | free & !form.codes).is_some();
            if ![0, 0x5555_5555, 0xAAAA_AAAA, 0xFFFF_FFFF].into_iter().all(legal) {
                all.push(Turn::LooseLast(op, bit));
            }
        }
    }
    all
}

/// A turn at one row can show at that row's words alone.
fn may_show(forms: &[Form], turn: Turn, word: u32) -> bool {
    match turn {
        Turn::OtherSign(op)
        | Turn::Swapped(op, ..)
        | Turn::Without(op, _)
        | Turn::Instead(op, ..)
        | Turn::With(op, _)
        | Turn::Unknown(op)
        | Turn::Strict(op)
        | Turn::StrictBit(op, _)
        | Turn::Called(op, _) => forms[op as usize].matches(word),
        Turn::LooseFirst(op, bit) | Turn::LooseLast(op, bit) => forms[op as usize].matches(word ^ 1 << bit),
        Turn::None | Turn::Taken(_) | Turn::Said(_) => true,
    }
}

/// How many vectors a turn answers wrongly, up to a number.
fn wrong(all: &[Text], forms: &[Form], turn: Turn, enough: usize) -> usize {
    let mut turned = Turned { turn, forms, branch: false, access: false };
    let mut differs = |v: &&Text| turned.call(v.word, v.buffer.len()) != (v.answer, v.buffer.clone());
    all.iter().filter(|v| may_show(forms, turn, v.word) && differs(v)).take(enough).count()
}

#[test]
fn no_wrong_turn_goes_unseen() {
    let all = read_texts(include_bytes!("../vectors/texts.bin")).unwrap().0;
    let forms = forms();
    assert_eq!(wrong(&all, &forms, Turn::None, 1), 0);
    let turns = turns(&forms);
    assert_eq!(turns.len(), 5988);
    // Two vectors refute each turn, but for these: the word 0 stands there once.
    let once = [Turn::Said("nop for the word 0"), Turn::Said("a word of all ones or zeros is illegal")];
    let least = |turn: &Turn| if once.contains(turn) { 1 } else { 2 };
    let unseen: Vec<&Turn> = turns.iter().filter(|turn| wrong(&all, &forms, **turn, 2) < least(turn)).collect();
    assert!(unseen.is_empty(), "{unseen:?}");
}
