//! Disassemble: texts worked out by hand, one or more for each row of tables
//! 1 to 4; the operation against a second one that goes by patterns of bits;
//! and the texts read back.

use oracle::disassemble::{disassemble, text, SYNTAX};
use oracle::generate::Rng;
use oracle::isa::{self, ROWS};
use oracle::texts::{forms, Form};
use std::collections::BTreeMap;

/// A word of each row, its fields in the order of 2.1, and its text. The
/// fields that a row does not name hold something too.
#[rustfmt::skip]
#[allow(clippy::unusual_byte_groupings)]
const BY_HAND: [(u32, &str); 61] = [
    // Table 1: opcode, rs, rt, imm.
    (0b100000_00010_00001_0000000000000100, "lb r1 r2 4"),
    (0b100001_00011_11111_1111111111111110, "lh r31 r3 -2"),
    (0b100011_11101_01000_1000000000000000, "lw r8 r29 -32768"),
    (0b100100_00000_01010_0111111111111111, "lbu r10 r0 32767"),
    (0b100101_10011_00000_0000000000000000, "lhu r0 r19 0"),
    (0b101000_00101_00100_1111111111111111, "sb r4 r5 -1"),
    (0b101001_10100_01001_0000000001100100, "sh r9 r20 100"),
    (0b101011_11101_11111_1111111111111000, "sw r31 r29 -8"),
    (0b001000_00010_00001_1111111111111111, "addi r1 r2 -1"),
    (0b001001_11111_11111_1000000000000000, "addiu r31 r31 -32768"),
    (0b001010_01100_01011_1000000000000001, "slti r11 r12 -32767"),
    (0b001011_01110_01101_1111111111111111, "sltiu r13 r14 -1"),
    (0b001100_00111_00110_1111111111111111, "andi r6 r7 65535"),
    (0b001101_10001_10000_1000000000000000, "ori r16 r17 32768"),
    (0b001110_10010_01111_0000000000001010, "xori r15 r18 10"),
    (0b001111_11111_10101_1000000000000001, "lui r21 32769"),
    (0b000001_10110_00000_1111111111111111, "bltz r22 -1"),
    (0b000001_10111_00001_0000000000000001, "bgez r23 1"),
    (0b000100_00001_00010_0000000000000011, "beq r1 r2 3"),
    (0b000101_00010_00001_1111111111111101, "bne r2 r1 -3"),
    (0b000110_11000_00000_1000000000000000, "blez r24 -32768"),
    (0b000111_11001_00000_0111111111111111, "bgtz r25 32767"),
    // Table 2: opcode, iindex.
    (0b000010_00000000000000000000000001, "j 1"),
    (0b000011_11111111111111111111111111, "jal 67108863"),
    // Table 3: opcode, rs, rt, rd, sa, fun.
    (0b000000_11111_00011_00010_00101_000000, "sll r2 r3 5"),
    (0b000000_00000_11010_11001_11111_000010, "srl r25 r26 31"),
    (0b000000_00001_00101_00100_00000_000011, "sra r4 r5 0"),
    (0b000000_00011_00010_00001_11111_000100, "sllv r1 r2 r3"),
    (0b000000_00110_00101_00100_00000_000110, "srlv r4 r5 r6"),
    (0b000000_01001_01000_00111_00001_000111, "srav r7 r8 r9"),
    (0b000000_11111_11110_00001_11101_010000, "mfhi r1"),
    (0b000000_00010_11110_11111_11101_010001, "mthi r2"),
    (0b000000_11111_11110_00011_11101_010010, "mflo r3"),
    (0b000000_00100_11110_11111_11101_010011, "mtlo r4"),
    (0b000000_00101_00110_11111_11111_011000, "mult r5 r6"),
    (0b000000_00111_01000_11111_11111_011001, "multu r7 r8"),
    (0b000000_01010_01011_01001_11111_100000, "add r9 r10 r11"),
    (0b000000_01101_01110_01100_00000_100001, "addu r12 r13 r14"),
    (0b000000_10000_10001_01111_00000_100010, "sub r15 r16 r17"),
    (0b000000_10011_10100_10010_00000_100011, "subu r18 r19 r20"),
    (0b000000_10110_10111_10101_00000_100100, "and r21 r22 r23"),
    (0b000000_11001_11010_11000_00000_100101, "or r24 r25 r26"),
    (0b000000_11100_11101_11011_00000_100110, "xor r27 r28 r29"),
    (0b000000_11111_00000_11110_00000_100111, "nor r30 r31 r0"),
    (0b000000_00010_00011_00001_00000_101010, "slt r1 r2 r3"),
    (0b000000_00101_00110_00100_00000_101011, "sltu r4 r5 r6"),
    (0b000000_11111_00001_00010_00011_001000, "jr r31"),
    (0b000000_00011_00001_11111_00010_001001, "jalr r31 r3"),
    (0b000000_00001_00010_00011_00100_001100, "sysc"),
    (0b000000_01000_01001_00111_00001_111111, "cas r7 r8 r9"),
    (0b000000_00001_00010_00011_00100_111110, "mfence"),
    (0b000000_00001_00010_00011_00100_111101, "flush"),
    (0b000000_01011_11111_01010_11111_111100, "invlpg r10 r11"),
    // Table 4: the same.
    (0b011100_01100_01101_11111_11111_000000, "madd r12 r13"),
    (0b011100_01110_01111_11111_11111_000001, "maddu r14 r15"),
    (0b011100_10001_10010_10000_11111_000010, "mul r16 r17 r18"),
    (0b011100_10011_10100_11111_11111_000100, "msub r19 r20"),
    (0b011100_10101_10110_11111_11111_000101, "msubu r21 r22"),
    (0b010000_10000_00001_00010_00011_011000, "eret"),
    (0b010000_00100_00001_00111_11111_111111, "movg2s r7 r1"),
    (0b010000_00000_11110_00101_10101_010101, "movs2g r5 r30"),
];

/// The rows once more: the word's bits, and the text with the letters of the
/// fields. s, t, d are registers, a the shift amount, x the index, i a signed
/// immediate, u an unsigned one; a point is any bit.
#[rustfmt::skip]
const PATTERNS: [(&str, &str); 61] = [
    ("100000 sssss ttttt iiiii iiiii iiiiii", "lb t s i"),
    ("100001 sssss ttttt iiiii iiiii iiiiii", "lh t s i"),
    ("100011 sssss ttttt iiiii iiiii iiiiii", "lw t s i"),
    ("100100 sssss ttttt iiiii iiiii iiiiii", "lbu t s i"),
    ("100101 sssss ttttt iiiii iiiii iiiiii", "lhu t s i"),
    ("101000 sssss ttttt iiiii iiiii iiiiii", "sb t s i"),
    ("101001 sssss ttttt iiiii iiiii iiiiii", "sh t s i"),
    ("101011 sssss ttttt iiiii iiiii iiiiii", "sw t s i"),
    ("001000 sssss ttttt iiiii iiiii iiiiii", "addi t s i"),
    ("001001 sssss ttttt iiiii iiiii iiiiii", "addiu t s i"),
    ("001010 sssss ttttt iiiii iiiii iiiiii", "slti t s i"),
    ("001011 sssss ttttt iiiii iiiii iiiiii", "sltiu t s i"),
    ("001100 sssss ttttt uuuuu uuuuu uuuuuu", "andi t s u"),
    ("001101 sssss ttttt uuuuu uuuuu uuuuuu", "ori t s u"),
    ("001110 sssss ttttt uuuuu uuuuu uuuuuu", "xori t s u"),
    ("001111 ..... ttttt uuuuu uuuuu uuuuuu", "lui t u"),
    ("000001 sssss 00000 iiiii iiiii iiiiii", "bltz s i"),
    ("000001 sssss 00001 iiiii iiiii iiiiii", "bgez s i"),
    ("000100 sssss ttttt iiiii iiiii iiiiii", "beq s t i"),
    ("000101 sssss ttttt iiiii iiiii iiiiii", "bne s t i"),
    ("000110 sssss 00000 iiiii iiiii iiiiii", "blez s i"),
    ("000111 sssss 00000 iiiii iiiii iiiiii", "bgtz s i"),
    ("000010 xxxxx xxxxx xxxxx xxxxx xxxxxx", "j x"),
    ("000011 xxxxx xxxxx xxxxx xxxxx xxxxxx", "jal x"),
    ("000000 ..... ttttt ddddd aaaaa 000000", "sll d t a"),
    ("000000 ..... ttttt ddddd aaaaa 000010", "srl d t a"),
    ("000000 ..... ttttt ddddd aaaaa 000011", "sra d t a"),
    ("000000 sssss ttttt ddddd ..... 000100", "sllv d t s"),
    ("000000 sssss ttttt ddddd ..... 000110", "srlv d t s"),
    ("000000 sssss ttttt ddddd ..... 000111", "srav d t s"),
    ("000000 ..... ..... ddddd ..... 010000", "mfhi d"),
    ("000000 sssss ..... ..... ..... 010001", "mthi s"),
    ("000000 ..... ..... ddddd ..... 010010", "mflo d"),
    ("000000 sssss ..... ..... ..... 010011", "mtlo s"),
    ("000000 sssss ttttt ..... ..... 011000", "mult s t"),
    ("000000 sssss ttttt ..... ..... 011001", "multu s t"),
    ("000000 sssss ttttt ddddd ..... 100000", "add d s t"),
    ("000000 sssss ttttt ddddd ..... 100001", "addu d s t"),
    ("000000 sssss ttttt ddddd ..... 100010", "sub d s t"),
    ("000000 sssss ttttt ddddd ..... 100011", "subu d s t"),
    ("000000 sssss ttttt ddddd ..... 100100", "and d s t"),
    ("000000 sssss ttttt ddddd ..... 100101", "or d s t"),
    ("000000 sssss ttttt ddddd ..... 100110", "xor d s t"),
    ("000000 sssss ttttt ddddd ..... 100111", "nor d s t"),
    ("000000 sssss ttttt ddddd ..... 101010", "slt d s t"),
    ("000000 sssss ttttt ddddd ..... 101011", "sltu d s t"),
    ("000000 sssss ..... ..... ..... 001000", "jr s"),
    ("000000 sssss ..... ddddd ..... 001001", "jalr d s"),
    ("000000 ..... ..... ..... ..... 001100", "sysc"),
    ("000000 sssss ttttt ddddd ..... 111111", "cas d s t"),
    ("000000 ..... ..... ..... ..... 111110", "mfence"),
    ("000000 ..... ..... ..... ..... 111101", "flush"),
    ("000000 sssss ..... ddddd ..... 111100", "invlpg d s"),
    ("011100 sssss ttttt ..... ..... 000000", "madd s t"),
    ("011100 sssss ttttt ..... ..... 000001", "maddu s t"),
    ("011100 sssss ttttt ddddd ..... 000010", "mul d s t"),
    ("011100 sssss ttttt ..... ..... 000100", "msub s t"),
    ("011100 sssss ttttt ..... ..... 000101", "msubu s t"),
    ("010000 10000 ..... ..... ..... 011000", "eret"),
    ("010000 00100 ttttt ddddd ..... ......", "movg2s d t"),
    ("010000 00000 ttttt ddddd ..... ......", "movs2g d t"),
];

/// The letters of a pattern, highest bit first.
fn bits(pattern: &str) -> impl Iterator<Item = (u32, char)> + '_ {
    (0..32).rev().zip(pattern.chars().filter(|c| *c != ' '))
}

/// The text by the patterns.
fn by_pattern(word: u32) -> String {
    let bit = |n: u32| word >> n & 1;
    let fits = |pattern: &str| bits(pattern).all(|(n, c)| c.to_digit(2).is_none_or(|code| code == bit(n)));
    let rows: Vec<_> = PATTERNS.iter().filter(|(pattern, _)| fits(pattern)).collect();
    assert!(rows.len() <= 1, "{word:08X}");
    let Some((pattern, syntax)) = rows.first() else {
        return "ill".into();
    };
    let (name, operands) = syntax.split_once(' ').unwrap_or((syntax, ""));
    let mut text = name.to_string();
    for letter in operands.split_whitespace() {
        let field = bits(pattern).filter(|(_, c)| letter.starts_with(*c));
        let value = field.fold(0i64, |value, (n, _)| 2 * value + bit(n) as i64);
        text += &match letter {
            "s" | "t" | "d" => format!(" r{value}"),
            "i" if value >= 32768 => format!(" {}", value - 65536),
            _ => format!(" {value}"),
        };
    }
    text
}

/// Words of each row, such words with a bit turned, and any words: `count` in all.
fn each_kind(seed: u64, count: usize, mut look: impl FnMut(&mut Rng, u32)) {
    let mut rng = Rng::new(seed);
    let forms = forms();
    for n in 0..count {
        let form = &forms[n % forms.len()];
        let any = rng.word();
        let word = match n / forms.len() % 4 {
            0 | 1 => any & !form.codes | form.value,
            2 => (any & !form.codes | form.value) ^ 1 << rng.below(32),
            _ => any,
        };
        look(&mut rng, word);
    }
}

#[test]
fn texts_by_hand() {
    for (i, (word, expected)) in BY_HAND.iter().enumerate() {
        assert_eq!(text(*word), *expected, "{word:08X}");
        // Each is of its row, and all are there.
        assert_eq!(expected.split(' ').next(), Some(ROWS[i].name));
        assert_eq!(isa::decode(*word), Some(ROWS[i].op));
    }
}

#[test]
fn edges_by_hand() {
    // addi r1 r2, ori r1 r2, beq r1 r2, lui r1.
    for (imm, signed, unsigned) in [
        (0x0000, "0", "0"),
        (0x0001, "1", "1"),
        (0x0009, "9", "9"),
        (0x000A, "10", "10"),
        (0x03E8, "1000", "1000"),
        (0x2710, "10000", "10000"),
        (0x7FFE, "32766", "32766"),
        (0x7FFF, "32767", "32767"),
        (0x8000, "-32768", "32768"),
        (0x8001, "-32767", "32769"),
        (0xD8F0, "-10000", "55536"),
        (0xFF9C, "-100", "65436"),
        (0xFFF7, "-9", "65527"),
        (0xFFFE, "-2", "65534"),
        (0xFFFF, "-1", "65535"),
    ] {
        assert_eq!(text(0x2041_0000 | imm), format!("addi r1 r2 {signed}"));
        assert_eq!(text(0x3441_0000 | imm), format!("ori r1 r2 {unsigned}"));
        assert_eq!(text(0x1022_0000 | imm), format!("beq r1 r2 {signed}"));
        assert_eq!(text(0x3C01_0000 | imm), format!("lui r1 {unsigned}"));
    }
    for (iindex, shown) in [
        (0x000_0000, "0"),
        (0x000_0001, "1"),
        (0x098_967F, "9999999"),
        (0x098_9680, "10000000"),
        (0x1FF_FFFF, "33554431"),
        (0x200_0000, "33554432"),
        (0x3FF_FFFF, "67108863"),
    ] {
        assert_eq!(text(0x0800_0000 | iindex), format!("j {shown}"));
        assert_eq!(text(0x0C00_0000 | iindex), format!("jal {shown}"));
    }
    for (sa, shown) in [(0, "0"), (1, "1"), (9, "9"), (10, "10"), (15, "15"), (16, "16"), (31, "31")] {
        assert_eq!(text(0x0002_0800 | sa << 6), format!("sll r1 r2 {shown}"));
    }
    // The word 0 is a shift; the special registers have no names.
    assert_eq!(text(0), "sll r0 r0 0");
    assert_eq!(text(0x4080_0000), "movg2s r0 r0");
    assert_eq!(text(0x4080_3800), "movg2s r7 r0");
    assert_eq!(text(0x4000_F800), "movs2g r31 r0");
}

#[test]
fn illegal_by_hand() {
    for word in [
        0xFFFF_FFFF,
        0x0000_0001, // function code 000001
        0x0000_0005,
        0x0000_000A,
        0x0000_000D, // 001101, which others call break
        0x0000_001A, // 011010, which others call div
        0x0000_0028,
        0x0000_003B,
        0x0402_0000, // rt 00010
        0x0410_0000, // rt 10000, which others call bltzal
        0x041F_0000,
        0x1801_0000, // blez with rt 1
        0x1C1F_0000, // bgtz with rt 31
        0x4020_0000, // rs 00001
        0x4060_0000, // rs 00011
        0x40A0_0000, // rs 00101
        0x4200_0000, // eret's rs, function code 000000
        0x4200_0019,
        0x4220_0018, // rs 10001
        0x7000_0003,
        0x7000_0006,
        0x7000_0020,
        0x5000_0000, // opcode 010100
        0x8800_0000, // opcode 100010
        0x9800_0000, // opcode 100110
        0xA800_0000, // opcode 101010
        0xB000_0000,
        0xC000_0000,
    ] {
        assert_eq!(text(word), "ill", "{word:08X}");
    }
}

/// 17 comes for every length but 32, whatever the word; then nothing is
/// written.
#[test]
fn other_buffers_are_refused() {
    for length in (0..200).chain([255, 256, 1024, 65568]).filter(|length| *length != 32) {
        for (word, fill) in [(0, 0xEE), (0xFFFF_FFFF, 0xEE), (0x0800_0000, b'x'), (0x27FF_8000, 0)] {
            let mut buffer = vec![fill; length];
            assert_eq!(disassemble(word, &mut buffer), Err(17));
            assert!(buffer.iter().all(|byte| *byte == fill));
        }
    }
}

/// The whole buffer is told, whatever it held: the text, then zeros.
#[test]
fn the_rest_is_zero() {
    let words = BY_HAND.iter().map(|(word, text)| (*word, *text)).chain([(0xFFFF_FFFF, "ill"), (0x0800_0000, "j 0")]);
    for (word, expected) in words {
        for fill in [0, 0xEE, 0xFF, b' ', b'9'] {
            let mut buffer = [fill; 32];
            assert_eq!(disassemble(word, &mut buffer), Ok(expected.len()));
            assert_eq!(&buffer[..expected.len()], expected.as_bytes());
            assert!(buffer[expected.len()..].iter().all(|byte| *byte == 0));
        }
    }
}

#[test]
fn as_the_patterns_say() {
    each_kind(1, 400_000, |_, word| assert_eq!(text(word), by_pattern(word), "{word:08X}"));
    // Every opcode with every rs and rt; where rows print a function code, with every one.
    for opcode in 0..64 {
        for rs in 0..32 {
            for rt in 0..32 {
                let word = opcode << 26 | rs << 21 | rt << 16 | 0x2D40;
                for fun in if [0, 16, 28].contains(&opcode) { 0..64 } else { 0..2 } {
                    assert_eq!(text(word | fun), by_pattern(word | fun), "{word:08X}");
                }
            }
        }
    }
}

/// A row's place, and the numbers of its operands as they stand in the text.
fn parsed(text: &str) -> Option<(usize, Vec<i64>)> {
    let mut parts = text.split(' ');
    let name = parts.next().unwrap();
    let row = SYNTAX.iter().position(|syntax| syntax.split(' ').next() == Some(name))?;
    let number = |part: &str| {
        let digits = part.trim_start_matches(['r', '-']);
        assert!(digits == "0" || !digits.starts_with('0') && !digits.is_empty(), "{text}");
        assert!(digits.bytes().all(|byte| byte.is_ascii_digit()), "{text}");
        part.trim_start_matches('r').parse().expect("a number")
    };
    Some((row, parts.map(number).collect()))
}

/// What the text has to say of a legal word.
fn named(form: &Form, word: u32) -> Vec<i64> {
    let value = |field: &oracle::texts::Field| match field.name {
        "imm" if form.signed() => field.of(word) as u16 as i16 as i64,
        _ => field.of(word) as i64,
    };
    form.named.iter().map(value).collect()
}

/// A text read back gives the row and the fields that it names, so words with
/// one text are of one row and alike in these.
#[test]
fn texts_read_back() {
    let forms = forms();
    each_kind(2, 400_000, |_, word| {
        let text = text(word);
        match isa::decode(word) {
            None => assert_eq!(text, "ill"),
            Some(op) => assert_eq!(parsed(&text), Some((op as usize, named(&forms[op as usize], word))), "{word:08X}"),
        }
    });
}

/// Two words that differ in one bit have one text exactly if both are illegal
/// or the bit is one that their row neither names nor prints.
#[test]
fn one_bit_tells() {
    let forms = forms();
    each_kind(3, 20_000, |_, word| {
        for bit in 0..32 {
            let other = word ^ 1 << bit;
            let free = match (isa::decode(word), isa::decode(other)) {
                (None, None) => true,
                (Some(a), Some(b)) if a == b => forms[a as usize].free >> bit & 1 == 1,
                _ => false,
            };
            assert_eq!(text(word) == text(other), free, "{word:08X} {bit}");
        }
    });
}

/// Any two words with one text, among few registers and immediates.
#[test]
fn same_text_same_fields() {
    let forms = forms();
    let mut met: BTreeMap<String, Option<(usize, Vec<i64>)>> = BTreeMap::new();
    let mut again = 0;
    each_kind(4, 300_000, |rng, word| {
        // Fields of few values, so that texts come twice; free ones of any.
        let mask = rng.pick(&[0xFC21_083F, 0xFC42_003F, 0xFC00_F0FF, 0xFFFF_FFFF]);
        let word = match isa::decode(word) {
            Some(op) => word & (mask | forms[op as usize].codes | forms[op as usize].free),
            None => word,
        };
        let said = isa::decode(word).map(|op| (op as usize, named(&forms[op as usize], word)));
        if let Some(before) = met.insert(text(word), said.clone()) {
            assert_eq!(before, said, "{word:08X}");
            again += 1;
        }
    });
    assert!(again > 50_000, "{again}");
}

/// Every value of every field that a row names gives a text of its own, of at
/// most 20 bytes: for an index those up to 65535 and those with other high
/// bits.
#[test]
fn every_value_of_a_field() {
    let mut longest = 0;
    for form in forms() {
        let rest = form.named.iter().fold(form.value, |word, field| word | field.mask());
        for field in &form.named {
            let mut met = std::collections::HashSet::new();
            let values = (0..=field.largest().min(0xFFFF)).chain(match field.bits {
                26 => (1..=1023).map(|high| high << 16 | 0xFFFF).collect(),
                _ => vec![],
            });
            for value in values {
                let text = text(field.put(rest, value));
                longest = longest.max(text.len());
                assert!(met.insert(text), "{} {} {value}", form.name, field.name);
            }
        }
    }
    assert_eq!(longest, 20);
}

/// The syntax column's mnemonics are those of the rows.
#[test]
fn names() {
    for (syntax, row) in SYNTAX.iter().zip(&ROWS) {
        assert_eq!(syntax.split(' ').next(), Some(row.name));
        assert!(row.name.bytes().all(|byte| byte.is_ascii_lowercase() || byte == b'2'));
    }
}
