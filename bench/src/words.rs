//! The words whose texts are timed and compared: those of a stride over all of them.

use std::hint::black_box;
use std::time::Instant;

/// The stride, a prime, so that all fields vary.
const STRIDE: usize = 4099;

const REPEATS: usize = 50;

type Text = [u8; mips86::TEXT_BYTES];

/// A way to put the text of a word into a buffer: its length.
type Way = fn(u32, &mut Text) -> usize;

fn proved(word: u32, text: &mut Text) -> usize {
    mips86::disassemble(word, text).len()
}

fn plain(word: u32, text: &mut Text) -> usize {
    oracle::disassemble::disassemble(word, text).expect("32 bytes")
}

/// Each word of a stride by both ways into buffers with something else in them, which must be left alike: how many.
fn compare(stride: usize) -> u64 {
    let mut texts = [[0xEE; mips86::TEXT_BYTES], [0x11; mips86::TEXT_BYTES]];
    let mut words = 0;
    for word in (0..=u32::MAX).step_by(stride) {
        let lengths = [proved(word, &mut texts[0]), plain(word, &mut texts[1])];
        assert!(lengths[0] == lengths[1] && texts[0] == texts[1], "the texts of {word:08x} differ");
        words += 1;
    }
    words
}

/// Nanoseconds a word, for each repeat.
fn nanos(way: Way, words: u64) -> f64 {
    let mut text = [0; mips86::TEXT_BYTES];
    let start = Instant::now();
    for word in (0..=u32::MAX).step_by(STRIDE) {
        black_box(way(black_box(word), black_box(&mut text)));
    }
    start.elapsed().as_nanos() as f64 / words as f64
}

/// Times both ways, in turns, on words that they agree on: for each the nanoseconds a word of all repeats.
pub fn times() -> (u64, Vec<f64>, Vec<f64>) {
    let words = compare(STRIDE);
    let both = (0..REPEATS).map(|_| (nanos(proved, words), nanos(plain, words)));
    let (proved, plain) = both.unzip();
    (words, proved, plain)
}

/// All words by both ways.
pub fn compare_all() -> u64 {
    compare(1)
}
