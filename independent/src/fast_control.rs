//! A control message for speed: what `control` gives, the bits of a message in one word of
//! 128, the check by a table of 256 entries, the code by rotations of the whole word, and
//! the columns by places found once a call.

use crate::control::{BAD_BIT, BAD_LENGTH, BAD_PAYLOAD, E_MAX, P, PAYLOAD_MAX, SHORT_OUTPUT};
use crate::older::{Arrays, Upwards};

const GENERATOR: u16 = 0x1021;

/// What a byte leaves of the generator.
const TABLE: [u16; 256] = {
    let mut table = [0; 256];
    let mut byte = 0;
    while byte < 256 {
        let mut left = (byte as u16) << 8;
        let mut bit = 0;
        while bit < 8 {
            left = if left & 0x8000 != 0 { left << 1 ^ GENERATOR } else { left << 1 };
            bit += 1;
        }
        table[byte] = left;
        byte += 1;
    }
    table
};

/// Eight bytes of 0 or 1 as one byte, the first highest.
fn packed(bytes: [u8; 8]) -> u8 {
    (u64::from_le_bytes(bytes).wrapping_mul(0x8040_2010_0804_0201) >> 56) as u8
}

/// The check of up to 64 bits, right-aligned in `word`: zeros in front change nothing.
fn check(word: u64) -> u16 {
    word.to_be_bytes().iter().fold(0, |left: u16, byte| left << 8 ^ TABLE[usize::from((left >> 8) as u8 ^ byte)])
}

/// Bits as a number, the first highest; none where a byte is no bit.
fn word(bits: &[u8]) -> Option<u64> {
    let mut padded = [0u8; 64];
    padded[64 - bits.len()..].copy_from_slice(bits);
    let eights = padded.arrays::<8>().0;
    if eights.iter().any(|eight| u64::from_le_bytes(*eight) & 0xFEFE_FEFE_FEFE_FEFE != 0) {
        return None;
    }
    Some(u64::from_be_bytes(std::array::from_fn(|at| packed(eights[at]))))
}

pub fn build_into(payload: &[u8], terminal: u16, e: usize, output: &mut [u8]) -> Result<(), u8> {
    if payload.is_empty() || payload.len() > PAYLOAD_MAX {
        return Err(BAD_PAYLOAD);
    }
    if e == 0 || e > E_MAX {
        return Err(BAD_LENGTH);
    }
    let out = output.get_mut(..e).ok_or(SHORT_OUTPUT)?;
    let word = word(payload).ok_or(BAD_BIT)?;
    let d = payload.len() + 16;
    let c = u128::from(word) << 16 | u128::from(check(word) ^ terminal);
    let streams = encode(c, d);
    let mut turn = [0u8; 240];
    put_turn(&streams, d, &mut turn);
    let turn = &turn[..3 * d];
    for part in out.chunks_mut(turn.len()) {
        part.copy_from_slice(&turn[..part.len()]);
    }
    Ok(())
}

/// The three streams as words of d bits, the first highest: c turned round by the taps.
fn encode(c: u128, d: usize) -> [u128; 3] {
    let mask = (1u128 << d) - 1;
    let turned = |by: usize| (c >> by | c << (d - by)) & mask;
    let [c1, c2, c3] = [turned(1), turned(2), turned(3)];
    let both = c ^ c2 ^ turned(6);
    [both ^ c3 ^ turned(5), both ^ c1 ^ c3, both ^ c1 ^ turned(4)]
}

/// Stream after stream in the order of the columns.
fn put_turn(streams: &[u128; 3], d: usize, turn: &mut [u8; 240]) {
    let rows = d.div_up(32);
    let dummies = 32 * rows - d;
    let [d0, d1, d2] = streams;
    let mut at = 0;
    for column in P {
        for y in (column..32 * rows).step_by(32) {
            if y >= dummies {
                let power = d - 1 - (y - dummies);
                turn[at] = (d0 >> power) as u8 & 1;
                turn[d + at] = (d1 >> power) as u8 & 1;
                turn[2 * d + at] = (d2 >> power) as u8 & 1;
                at += 1;
            }
        }
    }
}

pub fn whose(run: &[u8]) -> Result<u16, u8> {
    if run.len() < 17 || run.len() > 80 {
        return Err(BAD_PAYLOAD);
    }
    let (payload, carried) = run.split_at(run.len() - 16);
    let own = check(word(payload).ok_or(BAD_BIT)?);
    Ok(own ^ word(carried).ok_or(BAD_BIT)? as u16)
}
