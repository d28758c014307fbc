//! The text of instruction words: every row of tables 1 to 4 and the edges by hand, and words made at random held
//! against a plain reading of the rows.

use mips86::{disassemble, disassemble_into, disassembled, TEXT_BYTES};

/// A row of tables 1 to 4.
struct Row {
    /// The printed codes, zeros elsewhere.
    code: u32,
    /// The operands of the assembler syntax.
    syntax: &'static str,
    /// The text of the word with FIELDS where no code is printed.
    text: &'static str,
}

/// rs 1, rt 2, rd 3, sa 4 and the low six bits 5; so imm is 6405 and iindex 2234629.
const FIELDS: u32 = 1 << 21 | 2 << 16 | 3 << 11 | 4 << 6 | 5;

const fn op(opcode: u32, syntax: &'static str, text: &'static str) -> Row {
    Row { code: opcode << 26, syntax, text }
}

const fn op_rt(opcode: u32, rt: u32, syntax: &'static str, text: &'static str) -> Row {
    Row { code: opcode << 26 | rt << 16, syntax, text }
}

const fn op_fun(opcode: u32, fun: u32, syntax: &'static str, text: &'static str) -> Row {
    Row { code: opcode << 26 | fun, syntax, text }
}

const fn op_rs_fun(opcode: u32, rs: u32, fun: u32, syntax: &'static str, text: &'static str) -> Row {
    Row { code: opcode << 26 | rs << 21 | fun, syntax, text }
}

#[rustfmt::skip]
const ROWS: [Row; 61] = [
    op(0b100_000, "rt rs imm", "lb r2 r1 6405"),
    op(0b100_001, "rt rs imm", "lh r2 r1 6405"),
    op(0b100_011, "rt rs imm", "lw r2 r1 6405"),
    op(0b100_100, "rt rs imm", "lbu r2 r1 6405"),
    op(0b100_101, "rt rs imm", "lhu r2 r1 6405"),
    op(0b101_000, "rt rs imm", "sb r2 r1 6405"),
    op(0b101_001, "rt rs imm", "sh r2 r1 6405"),
    op(0b101_011, "rt rs imm", "sw r2 r1 6405"),
    op(0b001_000, "rt rs imm", "addi r2 r1 6405"),
    op(0b001_001, "rt rs imm", "addiu r2 r1 6405"),
    op(0b001_010, "rt rs imm", "slti r2 r1 6405"),
    op(0b001_011, "rt rs imm", "sltiu r2 r1 6405"),
    op(0b001_100, "rt rs imm", "andi r2 r1 6405"),
    op(0b001_101, "rt rs imm", "ori r2 r1 6405"),
    op(0b001_110, "rt rs imm", "xori r2 r1 6405"),
    op(0b001_111, "rt imm", "lui r2 6405"),
    op_rt(0b000_001, 0b00000, "rs imm", "bltz r1 6405"),
    op_rt(0b000_001, 0b00001, "rs imm", "bgez r1 6405"),
    op(0b000_100, "rs rt imm", "beq r1 r2 6405"),
    op(0b000_101, "rs rt imm", "bne r1 r2 6405"),
    op_rt(0b000_110, 0b00000, "rs imm", "blez r1 6405"),
    op_rt(0b000_111, 0b00000, "rs imm", "bgtz r1 6405"),
    op(0b000_010, "iindex", "j 2234629"),
    op(0b000_011, "iindex", "jal 2234629"),
    op_fun(0b000_000, 0b000_000, "rd rt sa", "sll r3 r2 4"),
    op_fun(0b000_000, 0b000_010, "rd rt sa", "srl r3 r2 4"),
    op_fun(0b000_000, 0b000_011, "rd rt sa", "sra r3 r2 4"),
    op_fun(0b000_000, 0b000_100, "rd rt rs", "sllv r3 r2 r1"),
    op_fun(0b000_000, 0b000_110, "rd rt rs", "srlv r3 r2 r1"),
    op_fun(0b000_000, 0b000_111, "rd rt rs", "srav r3 r2 r1"),
    op_fun(0b000_000, 0b010_000, "rd", "mfhi r3"),
    op_fun(0b000_000, 0b010_001, "rs", "mthi r1"),
    op_fun(0b000_000, 0b010_010, "rd", "mflo r3"),
    op_fun(0b000_000, 0b010_011, "rs", "mtlo r1"),
    op_fun(0b000_000, 0b011_000, "rs rt", "mult r1 r2"),
    op_fun(0b000_000, 0b011_001, "rs rt", "multu r1 r2"),
    op_fun(0b000_000, 0b100_000, "rd rs rt", "add r3 r1 r2"),
    op_fun(0b000_000, 0b100_001, "rd rs rt", "addu r3 r1 r2"),
    op_fun(0b000_000, 0b100_010, "rd rs rt", "sub r3 r1 r2"),
    op_fun(0b000_000, 0b100_011, "rd rs rt", "subu r3 r1 r2"),
    op_fun(0b000_000, 0b100_100, "rd rs rt", "and r3 r1 r2"),
    op_fun(0b000_000, 0b100_101, "rd rs rt", "or r3 r1 r2"),
    op_fun(0b000_000, 0b100_110, "rd rs rt", "xor r3 r1 r2"),
    op_fun(0b000_000, 0b100_111, "rd rs rt", "nor r3 r1 r2"),
    op_fun(0b000_000, 0b101_010, "rd rs rt", "slt r3 r1 r2"),
    op_fun(0b000_000, 0b101_011, "rd rs rt", "sltu r3 r1 r2"),
    op_fun(0b000_000, 0b001_000, "rs", "jr r1"),
    op_fun(0b000_000, 0b001_001, "rd rs", "jalr r3 r1"),
    op_fun(0b000_000, 0b001_100, "", "sysc"),
    op_fun(0b000_000, 0b111_111, "rd rs rt", "cas r3 r1 r2"),
    op_fun(0b000_000, 0b111_110, "", "mfence"),
    op_fun(0b000_000, 0b111_101, "", "flush"),
    op_fun(0b000_000, 0b111_100, "rd rs", "invlpg r3 r1"),
    op_fun(0b011_100, 0b000_000, "rs rt", "madd r1 r2"),
    op_fun(0b011_100, 0b000_001, "rs rt", "maddu r1 r2"),
    op_fun(0b011_100, 0b000_010, "rd rs rt", "mul r3 r1 r2"),
    op_fun(0b011_100, 0b000_100, "rs rt", "msub r1 r2"),
    op_fun(0b011_100, 0b000_101, "rs rt", "msubu r1 r2"),
    op_rs_fun(0b010_000, 0b10000, 0b011_000, "", "eret"),
    op_rs_fun(0b010_000, 0b00100, 0, "rd rt", "movg2s r3 r2"),
    op_rs_fun(0b010_000, 0b00000, 0, "rd rt", "movs2g r3 r2"),
];

/// A field: its lowest bit and how many it has.
fn field(name: &str) -> (u32, u32) {
    match name {
        "rs" => (21, 5),
        "rt" => (16, 5),
        "rd" => (11, 5),
        "sa" => (6, 5),
        "fun" => (0, 6),
        "imm" => (0, 16),
        "iindex" => (0, 26),
        _ => panic!("a field {name}"),
    }
}

fn bits(name: &str) -> u32 {
    let (low, width) = field(name);
    ((1 << width) - 1) << low
}

impl Row {
    fn mnemonic(&self) -> &'static str {
        self.text.split(' ').next().expect("a mnemonic")
    }

    fn operands(&self) -> impl Iterator<Item = &'static str> {
        self.syntax.split_whitespace()
    }

    /// The bits of a word for which the row prints a code.
    fn printed(&self) -> u32 {
        let columns: &[&str] = match (self.code >> 26, self.mnemonic()) {
            (0b000_000 | 0b011_100, _) => &["fun"],
            (0b000_001 | 0b000_110 | 0b000_111, _) => &["rt"],
            (0b010_000, "eret") => &["rs", "fun"],
            (0b010_000, _) => &["rs"],
            _ => &[],
        };
        0b111_111 << 26 | columns.iter().map(|name| bits(name)).sum::<u32>()
    }

    fn word(&self, rest: u32) -> u32 {
        self.code | rest & !self.printed()
    }
}

/// A text by the rows, and by how an operand is written.
fn plain(word: u32) -> String {
    let Some(row) = ROWS.iter().find(|row| word & row.printed() == row.code) else {
        return "ill".to_owned();
    };
    let mut text = row.mnemonic().to_owned();
    for name in row.operands() {
        let (low, width) = field(name);
        let value = word >> low & ((1 << width) - 1);
        text += &match name {
            "imm" if !["andi", "ori", "xori", "lui"].contains(&row.mnemonic()) => format!(" {}", value as u16 as i16),
            "imm" | "sa" | "iindex" => format!(" {value}"),
            _ => format!(" r{value}"),
        };
    }
    text
}

/// The text of a word by each of the calls, in a buffer with something in it, and every byte of that.
fn text_of(word: u32) -> String {
    let mut text = [0xEE; TEXT_BYTES];
    let found = disassemble(word, &mut text).to_owned();
    assert!((3..=20).contains(&found.len()) && found.is_ascii(), "{word:08x}: {found}");
    let mut expected = [0; TEXT_BYTES];
    expected[..found.len()].copy_from_slice(found.as_bytes());
    assert_eq!(text, expected, "{word:08x}: {found}");
    let mut around = [0xEE; TEXT_BYTES + 2];
    assert_eq!(disassemble_into(word, &mut around[1..=TEXT_BYTES]), Ok(found.as_str()));
    assert_eq!((around[0], &around[1..=TEXT_BYTES], around[TEXT_BYTES + 1]), (0xEE, &expected[..], 0xEE));
    assert_eq!(disassembled(word), found);
    found
}

struct Random(u64);

impl Random {
    fn word(&mut self) -> u32 {
        self.0 = self.0.wrapping_mul(6364136223846793005).wrapping_add(1442695040888963407);
        (self.0 >> 32) as u32
    }
}

#[test]
fn every_row_of_the_tables() {
    for row in &ROWS {
        assert_eq!(text_of(row.word(FIELDS)), row.text);
    }
}

#[test]
fn edges() {
    for (word, text) in [
        (0x0000_0000, "sll r0 r0 0"),
        (0x001f_ffc0, "sll r31 r31 31"),
        (0x03e0_f807, "srav r31 r0 r31"),
        (0x0000_f810, "mfhi r31"),
        (0x03e0_0008, "jr r31"),
        (0x03e0_f809, "jalr r31 r31"),
        (0x0000_000c, "sysc"),
        (0x03ff_ffcc, "sysc"),
        (0x03ff_fffe, "mfence"),
        (0x03ff_fffd, "flush"),
        (0x03ff_fffc, "invlpg r31 r31"),
        (0x03ff_ffff, "cas r31 r31 r31"),
        (0x0420_8000, "bltz r1 -32768"),
        (0x07e1_7fff, "bgez r31 32767"),
        (0x0800_0000, "j 0"),
        (0x0bff_ffff, "j 67108863"),
        (0x0e00_0000, "jal 33554432"),
        (0x0fff_ffff, "jal 67108863"),
        (0x1022_ffff, "beq r1 r2 -1"),
        (0x1400_8000, "bne r0 r0 -32768"),
        (0x1be0_0000, "blez r31 0"),
        (0x1fe0_ffff, "bgtz r31 -1"),
        (0x2000_7fff, "addi r0 r0 32767"),
        (0x27ff_8000, "addiu r31 r31 -32768"),
        (0x2fff_8000, "sltiu r31 r31 -32768"),
        (0x3022_ffff, "andi r2 r1 65535"),
        (0x37ff_8000, "ori r31 r31 32768"),
        (0x3800_ffff, "xori r0 r0 65535"),
        (0x3c1f_ffff, "lui r31 65535"),
        (0x3fe0_8000, "lui r0 32768"),
        (0x401f_ffff, "movs2g r31 r31"),
        (0x4080_0000, "movg2s r0 r0"),
        (0x409f_ffff, "movg2s r31 r31"),
        (0x4200_0018, "eret"),
        (0x421f_ffd8, "eret"),
        (0x73ff_ffc5, "msubu r31 r31"),
        (0x8c22_fffc, "lw r2 r1 -4"),
        (0xafff_8000, "sw r31 r31 -32768"),
        // next to a row
        (0x0000_0001, "ill"),
        (0x0402_0000, "ill"),
        (0x1801_0000, "ill"),
        (0x1c1f_0000, "ill"),
        (0x4020_0018, "ill"),
        (0x4200_0000, "ill"),
        (0x4200_0019, "ill"),
        (0x7000_0003, "ill"),
        (0x8800_0000, "ill"),
        (0xffff_ffff, "ill"),
    ] {
        assert_eq!(text_of(word), text, "{word:08x}");
    }
}

/// A text names the row and each named field, and nothing else: a bit of such a field makes another text, and a bit that
/// neither a code nor the syntax names does not.
#[test]
fn named_fields() {
    let mut r = Random(3);
    for row in &ROWS {
        let named: u32 = row.operands().map(bits).sum();
        for _ in 0..40 {
            let word = row.word(r.word());
            let text = text_of(word);
            assert_eq!(text, plain(word), "{word:08x}");
            for bit in 0..32 {
                let other = word ^ 1 << bit;
                let changes = (named | row.printed()) >> bit & 1 == 1;
                assert_eq!(text_of(other) != text, changes, "{word:08x} and {other:08x}");
            }
        }
    }
}

/// All opcodes and function codes with all codes of rs, of rt and of both alike, and other bits at random; and any words.
#[test]
fn words_by_a_plain_reading() {
    let mut r = Random(17);
    let mut illegal = 0;
    for code in 0..1 << 17 {
        // opcode, rs or rt, function code
        let (high, low) = (code >> 11 << 26, code & 0b11_1111);
        let register = code >> 6 & 0b1_1111;
        let rest = r.word() & (bits("rd") | bits("sa"));
        for register in [register << 21, register << 16, register << 21 | register << 16] {
            let word = high | register | rest | low;
            assert_eq!(text_of(word), plain(word), "{word:08x}");
        }
        let word = r.word();
        assert_eq!(text_of(word), plain(word), "{word:08x}");
        illegal += (plain(word) == "ill") as u32;
    }
    assert!((40_000..100_000).contains(&illegal), "{illegal}");
}

#[test]
fn another_length_is_refused() {
    for length in [0, 1, 3, 4, 11, 16, 20, 21, 31, 33, 64, 4096] {
        for word in [0, 0x27ff_8000, 0xffff_ffff] {
            let mut text = vec![0xEE; length];
            assert_eq!(disassemble_into(word, &mut text), Err(17), "{length} bytes");
            assert_eq!(text, vec![0xEE; length]);
        }
    }
}
