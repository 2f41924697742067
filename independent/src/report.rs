//! Clauses 5.2.2.6.4 and 5.2.2.7 as far as E3 of 02 asks: a channel report of 1 to 11 bits
//! by the (32, O) code, repeated circularly, ahead of the data; and the way back.

use crate::codeword::{self, BAD_ALLOCATION, BAD_BIT, SHORT_OUTPUT};

/// The refusal numbers of E3.
pub const BAD_REPORT: u8 = 17;
pub const BAD_CONTROL: u8 = 18;
pub const TIED: u8 = 19;

/// The longest report, and the most control bits a layer.
pub const O_MAX: usize = 11;
pub const CONTROL_MAX: usize = 4_096;

/// Table 5.2.2.6.4-1: M_i,n.
#[rustfmt::skip]
pub const M: [[u8; 11]; 32] = [
    [1, 1, 0, 0, 0, 0, 0, 0, 0, 0, 1],
    [1, 1, 1, 0, 0, 0, 0, 0, 0, 1, 1],
    [1, 0, 0, 1, 0, 0, 1, 0, 1, 1, 1],
    [1, 0, 1, 1, 0, 0, 0, 0, 1, 0, 1],
    [1, 1, 1, 1, 0, 0, 0, 1, 0, 0, 1],
    [1, 1, 0, 0, 1, 0, 1, 1, 1, 0, 1],
    [1, 0, 1, 0, 1, 0, 1, 0, 1, 1, 1],
    [1, 0, 0, 1, 1, 0, 0, 1, 1, 0, 1],
    [1, 1, 0, 1, 1, 0, 0, 1, 0, 1, 1],
    [1, 0, 1, 1, 1, 0, 1, 0, 0, 1, 1],
    [1, 0, 1, 0, 0, 1, 1, 1, 0, 1, 1],
    [1, 1, 1, 0, 0, 1, 1, 0, 1, 0, 1],
    [1, 0, 0, 1, 0, 1, 0, 1, 1, 1, 1],
    [1, 1, 0, 1, 0, 1, 0, 1, 0, 1, 1],
    [1, 0, 0, 0, 1, 1, 0, 1, 0, 0, 1],
    [1, 1, 0, 0, 1, 1, 1, 1, 0, 1, 1],
    [1, 1, 1, 0, 1, 1, 1, 0, 0, 1, 0],
    [1, 0, 0, 1, 1, 1, 0, 0, 1, 0, 0],
    [1, 1, 0, 1, 1, 1, 1, 1, 0, 0, 0],
    [1, 0, 0, 0, 0, 1, 1, 0, 0, 0, 0],
    [1, 0, 1, 0, 0, 0, 1, 0, 0, 0, 1],
    [1, 1, 0, 1, 0, 0, 0, 0, 0, 1, 1],
    [1, 0, 0, 0, 1, 0, 0, 1, 1, 0, 1],
    [1, 1, 1, 0, 1, 0, 0, 0, 1, 1, 1],
    [1, 1, 1, 1, 1, 0, 1, 1, 1, 1, 0],
    [1, 1, 0, 0, 0, 1, 1, 1, 0, 0, 1],
    [1, 0, 1, 1, 0, 1, 0, 0, 1, 1, 0],
    [1, 1, 1, 1, 0, 1, 0, 1, 1, 1, 0],
    [1, 0, 1, 0, 1, 1, 1, 0, 1, 0, 0],
    [1, 0, 1, 1, 1, 1, 1, 1, 1, 0, 0],
    [1, 1, 1, 1, 1, 1, 1, 1, 1, 1, 1],
    [1, 0, 0, 0, 0, 0, 0, 0, 0, 0, 0],
];

/// b_i, the sum of o_n * M_i,n modulo 2, for i from 0 to 31.
pub fn encode(o: &[u8]) -> Vec<u8> {
    M.iter().map(|row| o.iter().zip(row).map(|(bit, m)| bit * m).sum::<u8>() % 2).collect()
}

/// q_i = b_(i mod 32), for i below `length`.
pub fn control_bits(o: &[u8], length: usize) -> Vec<u8> {
    let b = encode(o);
    (0..length).map(|i| b[i % b.len()]).collect()
}

/// Message number m of O bits: o_n is its bit n.
pub fn message(m: usize, length: usize) -> Vec<u8> {
    (0..length).map(|n| (m >> n & 1) as u8).collect()
}

/// Refusals 1, 3 (Q, N), 17, 18, 3 (G), in this order.
pub fn check(a: usize, q: usize, n: usize, o: usize, control: usize, g: impl Fn() -> usize) -> Result<(), u8> {
    let blocks = codeword::segmentation_of(a)?.blocks;
    if ![2, 4, 6].contains(&q) || !(1..=4).contains(&n) {
        return Err(BAD_ALLOCATION);
    }
    if !(1..=O_MAX).contains(&o) {
        return Err(BAD_REPORT);
    }
    if control == 0 || control > CONTROL_MAX || control % q != 0 {
        return Err(BAD_CONTROL);
    }
    if !codeword::allocation_fits(q, n, g(), blocks) {
        return Err(BAD_ALLOCATION);
    }
    Ok(())
}

/// First place the control information, then place the data. Refusals 1, 3 (Q, N), 17, 18,
/// 3 (G), 4, 5, 2; a refusal writes nothing.
#[allow(clippy::too_many_arguments)]
pub fn build_into(
    report: &[u8],
    control: usize,
    block: &[u8],
    q: usize,
    n: usize,
    version: usize,
    g: usize,
    output: &mut [u8],
) -> Result<(), u8> {
    check(block.len(), q, n, report.len(), control, || g)?;
    let ahead = n * control;
    // A short output is 5 wherever it ends, so the data's part may be empty here.
    let room = output.len().saturating_sub(ahead);
    match codeword::check(block, q, n, version, g, room) {
        Err(BAD_BIT) | Ok(()) if report.iter().any(|bit| *bit > 1) => return Err(BAD_BIT),
        checked => checked?,
    }
    output[..ahead].copy_from_slice(&control_bits(report, ahead));
    codeword::build_into(block, q, n, version, g, &mut output[ahead..])
}

/// The places in which the received control bits differ from those of a message.
fn distance(control: &[u8], o: &[u8]) -> usize {
    let b = encode(o);
    control.iter().enumerate().filter(|(i, bit)| **bit != b[i % 32]).count()
}

/// The message of O bits whose repeated code differs from the received control bits in the
/// fewest places, if only one does.
pub fn nearest(o: usize, control: &[u8]) -> Result<Vec<u8>, u8> {
    let distances: Vec<usize> = (0..1 << o).map(|m| distance(control, &message(m, o))).collect();
    let least = distances.iter().min().expect("there is a message");
    let nearest: Vec<usize> = (0..1 << o).filter(|m| distances[*m] == *least).collect();
    match nearest[..] {
        [only] => Ok(message(only, o)),
        _ => Err(TIED),
    }
}

/// The report of a received run, and its data. Refusals 1, 3 (Q, N), 17, 18, 3 (G, also
/// where the run leaves no data), 5, 2, 19.
pub fn part(
    a: usize,
    q: usize,
    n: usize,
    o: usize,
    control: usize,
    received: &[u8],
    room: usize,
) -> Result<(Vec<u8>, &[u8]), u8> {
    check(a, q, n, o, control, || received.len().saturating_sub(n * control))?;
    if room < o {
        return Err(SHORT_OUTPUT);
    }
    if received.iter().any(|bit| *bit > 1) {
        return Err(BAD_BIT);
    }
    let (ahead, data) = received.split_at(n * control);
    Ok((nearest(o, ahead)?, data))
}

/// The report into the front of a lent output; a refusal writes nothing.
pub fn part_into(
    a: usize,
    q: usize,
    n: usize,
    o: usize,
    control: usize,
    received: &[u8],
    output: &mut [u8],
) -> Result<(), u8> {
    let (report, _) = part(a, q, n, o, control, received, output.len())?;
    output[..o].copy_from_slice(&report);
    Ok(())
}
