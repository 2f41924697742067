//! Clause 5.3.3: downlink control information, from the attached check onward, and the two
//! calls of request E5 on it.
//!
//! As in the other modules a bit is one byte and the loops are the standard's own. `<NULL>`
//! is `None`.

use crate::crc;
use crate::rate;

/// Numbers given back, beside those of `codeword`.
pub const BAD_PAYLOAD: u8 = 20;
pub const BAD_LENGTH: u8 = 3;
pub const SHORT_OUTPUT: u8 = 5;
pub const BAD_BIT: u8 = 2;

pub const PAYLOAD_MAX: usize = 64;
pub const E_MAX: usize = 4_096;

/// L, the number of parity bits of a message.
pub const PARITY: usize = 16;

/// P(j) of table 5.1.4-2.
pub const P: [usize; rate::COLUMNS] = [
    1, 17, 9, 25, 5, 21, 13, 29, 3, 19, 11, 27, 7, 23, 15, 31, //
    0, 16, 8, 24, 4, 20, 12, 28, 2, 18, 10, 26, 6, 22, 14, 30,
];

/// G_0, G_1 and G_2 of figure 5.1.3-1: the leftmost digit is the tap of the newest bit.
pub const GENERATORS: [u32; 3] = [0o133, 0o171, 0o165];

/// 5.3.3.2: b with its parity bits scrambled by x_rnti, whose first is the highest bit.
pub fn attach(payload: &[u8], terminal: u16) -> Vec<u8> {
    let a = payload.len();
    let b = crc::attach(payload, &crc::CRC16);
    let x = |k: usize| ((terminal >> (PARITY - 1 - k)) & 1) as u8;
    (0..b.len()).map(|k| if k < a { b[k] } else { (b[k] + x(k - a)) % 2 }).collect()
}

/// 5.1.3.1: the three parity streams. The register starts with s_i = c_(K - 1 - i).
pub fn encode(c: &[u8]) -> [Vec<u8>; 3] {
    let mut s: Vec<u8> = (0..6).map(|i| c[c.len() - 1 - i]).collect();
    let mut d = [Vec::new(), Vec::new(), Vec::new()];
    for &bit in c {
        for (stream, generator) in d.iter_mut().zip(GENERATORS) {
            let tap = |place: usize| ((generator >> (6 - place)) & 1) as u8;
            let mut sum = tap(0) * bit;
            for (i, held) in s.iter().enumerate() {
                sum += tap(i + 1) * held;
            }
            stream.push(sum % 2);
        }
        s.rotate_right(1);
        s[0] = bit;
    }
    d
}

/// 5.1.4.2.1: dummies in front, written row by row, columns permuted, read column by column.
pub fn sub_block(stream: &[u8]) -> Vec<Option<u8>> {
    let rows = rate::rows(stream.len());
    let mut y = vec![None; rows * rate::COLUMNS - stream.len()];
    y.extend(stream.iter().map(|bit| Some(*bit)));
    let matrix: Vec<&[Option<u8>]> = y.chunks(rate::COLUMNS).collect();
    P.iter().flat_map(|column| matrix.iter().map(move |row| row[*column])).collect()
}

/// 5.1.4.2.2: w, the three one behind another, walked from place 0.
pub fn match_streams(d: &[Vec<u8>; 3], e: usize) -> Vec<u8> {
    let w: Vec<Option<u8>> = d.iter().flat_map(|stream| sub_block(stream)).collect();
    rate::walk(&w, 0, e)
}

/// The message of a payload for a terminal, E bits.
pub fn message(payload: &[u8], terminal: u16, e: usize) -> Vec<u8> {
    match_streams(&encode(&attach(payload, terminal)), e)
}

fn above_one(bits: &[u8]) -> bool {
    bits.iter().any(|bit| *bit > 1)
}

/// The call: 20, 3, 5, 2, or the message over the first E bytes of the output.
pub fn build_into(payload: &[u8], terminal: u16, e: usize, output: &mut [u8]) -> Result<(), u8> {
    if payload.is_empty() || payload.len() > PAYLOAD_MAX {
        return Err(BAD_PAYLOAD);
    }
    if e == 0 || e > E_MAX {
        return Err(BAD_LENGTH);
    }
    if output.len() < e {
        return Err(SHORT_OUTPUT);
    }
    if above_one(payload) {
        return Err(BAD_BIT);
    }
    output[..e].copy_from_slice(&message(payload, terminal, e));
    Ok(())
}

/// The way back: 20, 2, or the terminal whose number makes the check fit. All 65,536 are
/// told apart bit by bit: each bit of the number shows in one bit of the check.
pub fn whose(run: &[u8]) -> Result<u16, u8> {
    if run.len() < 1 + PARITY || run.len() > PAYLOAD_MAX + PARITY {
        return Err(BAD_PAYLOAD);
    }
    if above_one(run) {
        return Err(BAD_BIT);
    }
    let (payload, check) = run.split_at(run.len() - PARITY);
    let own = crc::parity(payload, &crc::CRC16);
    Ok(own.iter().zip(check).fold(0, |number, (p, c)| number * 2 + u16::from(p != c)))
}
