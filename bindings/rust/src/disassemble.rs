//! The text of an instruction word.

use crate::{c, REFUSED, TEXT_BYTES};

/// The text of an instruction word, in a lent slice; see [`disassemble`]. The error is the number of the
/// refusal, 17 where the buffer is not of 32 bytes, which leaves it.
///
/// ```
/// use mips86::disassemble_into;
///
/// let mut pane = [0xEE; 40];
/// assert_eq!(disassemble_into(0x8c22_fffc, &mut pane[4..36]), Ok("lw r2 r1 -4"));
/// assert_eq!(disassemble_into(0x8c22_fffc, &mut pane), Err(17));
/// ```
pub fn disassemble_into(word: u32, text: &mut [u8]) -> Result<&str, u32> {
    // SAFETY: as in `make`; `text` is all that is given.
    let n = unsafe { c::mips86_disassemble(word, text.as_mut_ptr(), text.len()) };
    match n.checked_sub(REFUSED) {
        None => Ok(std::str::from_utf8(&text[..n as usize]).expect("a text is ASCII")),
        Some(number) => Err(number),
    }
}

/// The text of an instruction word, as in tables 1 to 4 of the report: the mnemonic in lower case, then the operands in
/// the order of the assembler syntax, one blank before each. Registers are `r0` to `r31`, a special one too (rd of
/// movg2s and movs2g). imm is in signed decimal, but unsigned for andi, ori, xori and lui; sa and iindex are unsigned.
/// imm of a branch and iindex of a jump are the fields themselves, not times four. Fields that the syntax does not name
/// are not shown. An illegal word is `ill`. The buffer has the text, at most 20 bytes, and zeros behind it. Nothing is
/// allocated.
///
/// ```
/// use mips86::{disassemble, TEXT_BYTES};
///
/// let mut text = [0; TEXT_BYTES];
/// assert_eq!(disassemble(0x0000_0000, &mut text), "sll r0 r0 0");
/// assert_eq!(disassemble(0x1022_ffff, &mut text), "beq r1 r2 -1");
/// assert_eq!(disassemble(0x3022_ffff, &mut text), "andi r2 r1 65535");
/// assert_eq!(disassemble(0xffff_ffff, &mut text), "ill");
/// ```
pub fn disassemble(word: u32, text: &mut [u8; TEXT_BYTES]) -> &str {
    disassemble_into(word, text).expect("32 bytes are not refused")
}

/// The text of an instruction word, as a string of its own; see [`disassemble`].
///
/// ```
/// let listing: Vec<String> = [0x2001_0005, 0x0000_000c].into_iter().map(mips86::disassembled).collect();
/// assert_eq!(listing, ["addi r1 r0 5", "sysc"]);
/// ```
pub fn disassembled(word: u32) -> String {
    disassemble(word, &mut [0; TEXT_BYTES]).to_owned()
}
