//! The call Sizes and the sizes program of 01.

use crate::codeword::segmentation_of;
use crate::segmentation::Segmentation;

/// The program looks at this many bytes of its input and at nothing past them.
pub const INPUT_LIMIT: usize = 65_536;

/// Refusal 15 of 01: a line that can't be read.
pub const UNREADABLE: u8 = 15;

pub const HEADER: &str = "size\tblocks\tlongs\tlong\tshorts\tshort\tfiller\n";

/// Sizes (A): the segmentation, or refusal 1.
pub fn sizes(a: usize) -> Result<Segmentation, u8> {
    segmentation_of(a)
}

/// The sizes program, from the bytes of its input to the bytes of its output.
pub fn program(input: &[u8]) -> Vec<u8> {
    let seen = &input[..input.len().min(INPUT_LIMIT)];
    let mut output = HEADER.to_string();
    for line in lines(seen) {
        output.push_str(&answer(line));
    }
    output.into_bytes()
}

/// The lines of the input without their newlines. A newline ends a line, so none begins
/// after the last one; a last line may lack it.
fn lines(input: &[u8]) -> impl Iterator<Item = &[u8]> {
    input.split_inclusive(|byte| *byte == b'\n').map(|line| line.strip_suffix(b"\n").unwrap_or(line))
}

/// The answer to one line.
fn answer(line: &[u8]) -> String {
    match number(line) {
        Some(a) => size_line(a),
        None => format!("-\trefused\t{UNREADABLE}\n"),
    }
}

/// The line printed for the number A.
pub fn size_line(a: usize) -> String {
    match sizes(a) {
        Ok(s) => format!(
            "{a}\t{}\t{}\t{}\t{}\t{}\t{}\n",
            s.blocks, s.longs, s.long, s.shorts, s.short, s.filler
        ),
        Err(refusal) => format!("{a}\trefused\t{refusal}\n"),
    }
}

/// A decimal number of 1 to 5 digits with no leading zero, 0 itself allowed.
fn number(line: &[u8]) -> Option<usize> {
    let well_formed = (1..=5).contains(&line.len())
        && line.iter().all(u8::is_ascii_digit)
        && (line[0] != b'0' || line.len() == 1);
    well_formed.then(|| line.iter().fold(0, |value, digit| 10 * value + usize::from(digit - b'0')))
}
