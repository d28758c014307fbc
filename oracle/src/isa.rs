//! Instructions: the rows of tables 1 to 4, their fields, and the arithmetic
//! of 6.1. Nothing here touches memory or the tables.

use Op::*;

/// One name for each row of tables 1 to 4.
#[derive(Clone, Copy, PartialEq, Eq, Debug, PartialOrd, Ord)]
#[rustfmt::skip]
pub enum Op {
    // Table 1
    Lb, Lh, Lw, Lbu, Lhu, Sb, Sh, Sw,
    Addi, Addiu, Slti, Sltiu, Andi, Ori, Xori, Lui,
    Bltz, Bgez, Beq, Bne, Blez, Bgtz,
    // Table 2
    J, Jal,
    // Table 3
    Sll, Srl, Sra, Sllv, Srlv, Srav,
    Mfhi, Mthi, Mflo, Mtlo, Mult, Multu,
    Add, Addu, Sub, Subu, And, Or, Xor, Nor, Slt, Sltu,
    Jr, Jalr, Sysc, Cas, Mfence, Flush, Invlpg,
    // Table 4
    Madd, Maddu, Mul, Msub, Msubu, Eret, Movg2s, Movs2g,
}

/// A row: the codes that the table prints; None where the column is blank.
pub struct Row {
    pub op: Op,
    pub name: &'static str,
    pub opcode: u32,
    pub fun: Option<u32>,
    pub rs: Option<u32>,
    pub rt: Option<u32>,
}

const fn i(op: Op, name: &'static str, opcode: u32) -> Row {
    Row { op, name, opcode, fun: None, rs: None, rt: None }
}
const fn b(op: Op, name: &'static str, opcode: u32, rt: u32) -> Row {
    Row { op, name, opcode, fun: None, rs: None, rt: Some(rt) }
}
const fn r(op: Op, name: &'static str, opcode: u32, fun: u32) -> Row {
    Row { op, name, opcode, fun: Some(fun), rs: None, rt: None }
}

/// Tables 1 to 4 as printed. `decode` says the same by cases; a test holds
/// the two against each other.
pub const ROWS: [Row; 61] = [
    i(Lb, "lb", 0b100000),
    i(Lh, "lh", 0b100001),
    i(Lw, "lw", 0b100011),
    i(Lbu, "lbu", 0b100100),
    i(Lhu, "lhu", 0b100101),
    i(Sb, "sb", 0b101000),
    i(Sh, "sh", 0b101001),
    i(Sw, "sw", 0b101011),
    i(Addi, "addi", 0b001000),
    i(Addiu, "addiu", 0b001001),
    i(Slti, "slti", 0b001010),
    i(Sltiu, "sltiu", 0b001011),
    i(Andi, "andi", 0b001100),
    i(Ori, "ori", 0b001101),
    i(Xori, "xori", 0b001110),
    i(Lui, "lui", 0b001111),
    b(Bltz, "bltz", 0b000001, 0b00000),
    b(Bgez, "bgez", 0b000001, 0b00001),
    i(Beq, "beq", 0b000100),
    i(Bne, "bne", 0b000101),
    b(Blez, "blez", 0b000110, 0b00000),
    b(Bgtz, "bgtz", 0b000111, 0b00000),
    i(J, "j", 0b000010),
    i(Jal, "jal", 0b000011),
    r(Sll, "sll", 0, 0b000000),
    r(Srl, "srl", 0, 0b000010),
    r(Sra, "sra", 0, 0b000011),
    r(Sllv, "sllv", 0, 0b000100),
    r(Srlv, "srlv", 0, 0b000110),
    r(Srav, "srav", 0, 0b000111),
    r(Mfhi, "mfhi", 0, 0b010000),
    r(Mthi, "mthi", 0, 0b010001),
    r(Mflo, "mflo", 0, 0b010010),
    r(Mtlo, "mtlo", 0, 0b010011),
    r(Mult, "mult", 0, 0b011000),
    r(Multu, "multu", 0, 0b011001),
    r(Add, "add", 0, 0b100000),
    r(Addu, "addu", 0, 0b100001),
    r(Sub, "sub", 0, 0b100010),
    r(Subu, "subu", 0, 0b100011),
    r(And, "and", 0, 0b100100),
    r(Or, "or", 0, 0b100101),
    r(Xor, "xor", 0, 0b100110),
    r(Nor, "nor", 0, 0b100111),
    r(Slt, "slt", 0, 0b101010),
    r(Sltu, "sltu", 0, 0b101011),
    r(Jr, "jr", 0, 0b001000),
    r(Jalr, "jalr", 0, 0b001001),
    r(Sysc, "sysc", 0, 0b001100),
    r(Cas, "cas", 0, 0b111111),
    r(Mfence, "mfence", 0, 0b111110),
    r(Flush, "flush", 0, 0b111101),
    r(Invlpg, "invlpg", 0, 0b111100),
    r(Madd, "madd", 0b011100, 0b000000),
    r(Maddu, "maddu", 0b011100, 0b000001),
    r(Mul, "mul", 0b011100, 0b000010),
    r(Msub, "msub", 0b011100, 0b000100),
    r(Msubu, "msubu", 0b011100, 0b000101),
    Row { op: Eret, name: "eret", opcode: 0b010000, fun: Some(0b011000), rs: Some(0b10000), rt: None },
    Row { op: Movg2s, name: "movg2s", opcode: 0b010000, fun: None, rs: Some(0b00100), rt: None },
    Row { op: Movs2g, name: "movs2g", opcode: 0b010000, fun: None, rs: Some(0b00000), rt: None },
];

// Definition 23: fields of the instruction word.
pub fn opc(i: u32) -> u32 {
    i >> 26
}
pub fn rs(i: u32) -> usize {
    (i >> 21 & 31) as usize
}
pub fn rt(i: u32) -> usize {
    (i >> 16 & 31) as usize
}
pub fn rd(i: u32) -> usize {
    (i >> 11 & 31) as usize
}
pub fn sa(i: u32) -> u32 {
    i >> 6 & 31
}
pub fn fun(i: u32) -> u32 {
    i & 63
}
pub fn imm(i: u32) -> u32 {
    i & 0xFFFF
}
pub fn iindex(i: u32) -> u32 {
    i & 0x03FF_FFFF
}
/// sxt32 of the immediate.
pub fn simm(i: u32) -> u32 {
    i as u16 as i16 as i32 as u32
}

/// Definitions 24 and 25: the row whose printed codes all match;
/// None is an illegal word.
#[rustfmt::skip]
pub fn decode(i: u32) -> Option<Op> {
    Some(match opc(i) {
        0b000000 => match fun(i) {
            0b000000 => Sll, 0b000010 => Srl, 0b000011 => Sra,
            0b000100 => Sllv, 0b000110 => Srlv, 0b000111 => Srav,
            0b001000 => Jr, 0b001001 => Jalr, 0b001100 => Sysc,
            0b010000 => Mfhi, 0b010001 => Mthi, 0b010010 => Mflo, 0b010011 => Mtlo,
            0b011000 => Mult, 0b011001 => Multu,
            0b100000 => Add, 0b100001 => Addu, 0b100010 => Sub, 0b100011 => Subu,
            0b100100 => And, 0b100101 => Or, 0b100110 => Xor, 0b100111 => Nor,
            0b101010 => Slt, 0b101011 => Sltu,
            0b111100 => Invlpg, 0b111101 => Flush, 0b111110 => Mfence, 0b111111 => Cas,
            _ => return None,
        },
        0b000001 => match rt(i) { 0 => Bltz, 1 => Bgez, _ => return None },
        0b000010 => J,
        0b000011 => Jal,
        0b000100 => Beq,
        0b000101 => Bne,
        0b000110 if rt(i) == 0 => Blez,
        0b000111 if rt(i) == 0 => Bgtz,
        0b001000 => Addi, 0b001001 => Addiu, 0b001010 => Slti, 0b001011 => Sltiu,
        0b001100 => Andi, 0b001101 => Ori, 0b001110 => Xori, 0b001111 => Lui,
        0b010000 => match rs(i) {
            0b00000 => Movs2g,
            0b00100 => Movg2s,
            0b10000 if fun(i) == 0b011000 => Eret,
            _ => return None,
        },
        0b011100 => match fun(i) {
            0b000000 => Madd, 0b000001 => Maddu, 0b000010 => Mul,
            0b000100 => Msub, 0b000101 => Msubu,
            _ => return None,
        },
        0b100000 => Lb, 0b100001 => Lh, 0b100011 => Lw, 0b100100 => Lbu, 0b100101 => Lhu,
        0b101000 => Sb, 0b101001 => Sh, 0b101011 => Sw,
        _ => return None,
    })
}

/// Definition 42.
pub fn load(op: Op) -> bool {
    matches!(op, Lb | Lh | Lw | Lbu | Lhu)
}
/// Definition 42.
pub fn store(op: Op) -> bool {
    matches!(op, Sb | Sh | Sw)
}

/// Definition 40: access width in bytes, of a load, store or cas.
pub fn width(op: Op) -> u32 {
    match op {
        Lb | Lbu | Sb => 1,
        Lh | Lhu | Sh => 2,
        _ => 4,
    }
}

/// 01: the instructions that raise illegal in user mode.
pub fn privileged(op: Op) -> bool {
    matches!(op, Eret | Movg2s | Movs2g | Flush | Invlpg)
}

/// Definition 26, through the row that matched.
pub fn alu(op: Op) -> bool {
    compi(op) || compr(op)
}
pub fn compi(op: Op) -> bool {
    matches!(op, Addi | Addiu | Slti | Sltiu | Andi | Ori | Xori | Lui)
}
pub fn compr(op: Op) -> bool {
    matches!(op, Add | Addu | Sub | Subu | And | Or | Xor | Nor | Slt | Sltu)
}

/// Definition 28, for an ALU instruction; `rtype` tells compr from compi.
pub fn alucon(i: u32, rtype: bool) -> u32 {
    let low = if rtype { i & 7 } else { i >> 26 & 7 };
    let i28 = i >> 28 & 1 == 1;
    let i27 = i >> 27 & 1 == 1;
    let i3 = i >> 3 & 1 == 1;
    let high = rtype && i3 || !i28 && i27;
    (high as u32) << 3 | low
}

/// Definition 27: the right operand of an immediate ALU instruction.
pub fn rop_immediate(i: u32) -> u32 {
    if i >> 28 & 1 == 0 {
        simm(i)
    } else {
        imm(i)
    }
}

/// The results of the ALU table of 6.1.2. `itype` is its column i. Its column
/// ovf is not followed: see `overflows`.
pub fn alures(a: u32, b: u32, alucon: u32, itype: bool) -> u32 {
    match alucon {
        0b0000 | 0b0001 => a.wrapping_add(b),
        0b0010 | 0b0011 => a.wrapping_sub(b),
        0b0100 => a & b,
        0b0101 => a | b,
        0b0110 => a ^ b,
        0b0111 if !itype => !(a | b),
        0b0111 => b << 16,
        0b1010 => ((a as i32) < (b as i32)) as u32,
        0b1011 => (a < b) as u32,
        _ => unreachable!("no row of tables 1 and 3 has these control bits"),
    }
}

/// 02: add, addi and sub overflow, where the signed sum or difference of the
/// operands is not a 32-bit number; addu, addiu and subu never do, nor does
/// any other instruction.
pub fn overflows(op: Op, a: u32, b: u32) -> bool {
    match op {
        Add | Addi => (a as i32).overflowing_add(b as i32).1,
        Sub => (a as i32).overflowing_sub(b as i32).1,
        _ => false,
    }
}

/// Definition 30.
pub fn mulcon(i: u32) -> u32 {
    let opc2 = opc(i) >> 2 & 1;
    let f = fun(i);
    (opc2 ^ f >> 1 & 1) << 2 | (f >> 2 & 1) << 1 | f & 1
}

/// The multiplication table of 6.1.3; c and d are HI and LO.
pub fn mures(a: u32, b: u32, c: u32, d: u32, mulcon: u32) -> u64 {
    let cd = (c as u64) << 32 | d as u64;
    let signed = (a as i32 as i64).wrapping_mul(b as i32 as i64) as u64;
    let unsigned = (a as u64) * (b as u64);
    match mulcon {
        0b000 => signed,
        0b001 => unsigned,
        0b100 => cd.wrapping_add(signed),
        0b101 => cd.wrapping_add(unsigned),
        0b110 => cd.wrapping_sub(signed),
        0b111 => cd.wrapping_sub(unsigned),
        _ => unreachable!("no row of tables 3 and 4 has these control bits"),
    }
}

/// The branch table of 6.1.4.
pub fn taken(op: Op, a: u32, b: u32) -> bool {
    match op {
        Bltz => (a as i32) < 0,
        Bgez => (a as i32) >= 0,
        Beq => a == b,
        Bne => a != b,
        Blez => (a as i32) <= 0,
        Bgtz => (a as i32) > 0,
        _ => false,
    }
}

/// Definition 34, first line.
pub fn branch_target(pc: u32, i: u32) -> u32 {
    pc.wrapping_add(simm(i) << 2)
}

/// Definition 34, last line.
pub fn jump_target(pc: u32, i: u32) -> u32 {
    pc.wrapping_add(4) & 0xF000_0000 | iindex(i) << 2
}

/// The row of an instruction.
pub fn row(op: Op) -> &'static Row {
    &ROWS[op as usize]
}

/// The name of an instruction word.
pub fn name(i: u32) -> &'static str {
    match decode(i) {
        Some(op) => row(op).name,
        None => "ill",
    }
}
