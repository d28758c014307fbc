//! Disassemble (02, request 3): the text of one instruction word, such as
//! `addi r1 r2 -1`.

use crate::isa::{self, Op};

/// The length of a buffer for a text.
pub const LENGTH: usize = 32;

/// The text of a word that matches no row.
pub const ILLEGAL: &str = "ill";

/// The column Assembler-Syntax of tables 1 to 4, row by row from the top.
#[rustfmt::skip]
pub const SYNTAX: [&str; 61] = [
    // Table 1
    "lb rt rs imm", "lh rt rs imm", "lw rt rs imm", "lbu rt rs imm", "lhu rt rs imm",
    "sb rt rs imm", "sh rt rs imm", "sw rt rs imm",
    "addi rt rs imm", "addiu rt rs imm", "slti rt rs imm", "sltiu rt rs imm",
    "andi rt rs imm", "ori rt rs imm", "xori rt rs imm", "lui rt imm",
    "bltz rs imm", "bgez rs imm", "beq rs rt imm", "bne rs rt imm", "blez rs imm", "bgtz rs imm",
    // Table 2
    "j iindex", "jal iindex",
    // Table 3
    "sll rd rt sa", "srl rd rt sa", "sra rd rt sa", "sllv rd rt rs", "srlv rd rt rs", "srav rd rt rs",
    "mfhi rd", "mthi rs", "mflo rd", "mtlo rs", "mult rs rt", "multu rs rt",
    "add rd rs rt", "addu rd rs rt", "sub rd rs rt", "subu rd rs rt",
    "and rd rs rt", "or rd rs rt", "xor rd rs rt", "nor rd rs rt",
    "slt rd rs rt", "sltu rd rs rt",
    "jr rs", "jalr rd rs", "sysc",
    "cas rd rs rt", "mfence",
    "flush", "invlpg rd rs",
    // Table 4
    "madd rs rt", "maddu rs rt", "mul rd rs rt", "msub rs rt", "msubu rs rt",
    "eret", "movg2s rd rt", "movs2g rd rt",
];

/// Immediates are signed but for these.
pub fn unsigned(op: Op) -> bool {
    matches!(op, Op::Andi | Op::Ori | Op::Xori | Op::Lui)
}

/// Puts the text at the front of the buffer and zeros behind it; Ok is the
/// text's length. Err is 17, and then nothing is written. Nothing is
/// allocated.
pub fn disassemble(word: u32, text: &mut [u8]) -> Result<usize, u32> {
    if text.len() != LENGTH {
        return Err(17);
    }
    text.fill(0);
    let mut writer = Writer { text, at: 0 };
    match isa::decode(word) {
        None => writer.put(ILLEGAL.as_bytes()),
        Some(op) => writer.instruction(op, word),
    }
    Ok(writer.at)
}

/// A text so far.
struct Writer<'a> {
    text: &'a mut [u8],
    at: usize,
}

impl Writer<'_> {
    fn put(&mut self, bytes: &[u8]) {
        self.text[self.at..self.at + bytes.len()].copy_from_slice(bytes);
        self.at += bytes.len();
    }

    fn instruction(&mut self, op: Op, word: u32) {
        let mut parts = SYNTAX[op as usize].split(' ');
        self.put(parts.next().unwrap_or_default().as_bytes());
        for part in parts {
            self.put(b" ");
            match part {
                "rs" => self.register(isa::rs(word)),
                "rt" => self.register(isa::rt(word)),
                "rd" => self.register(isa::rd(word)),
                "sa" => self.number(isa::sa(word)),
                "iindex" => self.number(isa::iindex(word)),
                "imm" if unsigned(op) => self.number(isa::imm(word)),
                "imm" => self.signed(isa::simm(word) as i32),
                _ => unreachable!("the column names nothing else"),
            }
        }
    }

    fn register(&mut self, number: usize) {
        self.put(b"r");
        self.number(number as u32);
    }

    fn signed(&mut self, number: i32) {
        if number < 0 {
            self.put(b"-");
        }
        self.number(number.unsigned_abs());
    }

    /// In decimal, with no zeros before it.
    fn number(&mut self, number: u32) {
        if number > 9 {
            self.number(number / 10);
        }
        self.put(&[b'0' + (number % 10) as u8]);
    }
}

/// The text of a word for people.
pub fn text(word: u32) -> String {
    let mut buffer = [0; LENGTH];
    let length = disassemble(word, &mut buffer).expect("of the right length");
    buffer[..length].iter().map(|&byte| byte as char).collect()
}
