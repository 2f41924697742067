//! Build with a report and the way back with speed in mind: whole words of the code, and
//! distances by counts of ones. `report` is the literal form; the tests hold the two together.

use crate::codeword::BAD_BIT;
use crate::fast::Workspace;
use crate::older::{Arrays, Upwards};
use crate::report::{self, M, TIED};

/// The rows of the table as masks: bit n is M_i,n.
const fn masks() -> [u32; 32] {
    let mut masks = [0; 32];
    let mut i = 0;
    while i < 32 {
        let mut n = 0;
        while n < 11 {
            masks[i] |= (M[i][n] as u32) << n;
            n += 1;
        }
        i += 1;
    }
    masks
}

const MASKS: [u32; 32] = masks();

/// The coded block of a message, a byte a bit and as a word.
fn block(message: u32) -> [u8; 32] {
    MASKS.map(|mask| ((message & mask).count_ones() % 2) as u8)
}

fn word(message: u32) -> u32 {
    block(message).iter().rev().fold(0, |word, bit| word << 1 | u32::from(*bit))
}

fn number(report: &[u8]) -> u32 {
    report.iter().rev().fold(0, |number, bit| number << 1 | u32::from(*bit))
}

/// Build with a report into a lent output.
#[allow(clippy::too_many_arguments)]
pub fn build_into(
    workspace: &mut Workspace,
    report: &[u8],
    control: usize,
    data: &[u8],
    q: usize,
    n: usize,
    version: usize,
    g: usize,
    output: &mut [u8],
) -> Result<(), u8> {
    report::check(data.len(), q, n, report.len(), control, || g)?;
    let ahead = n * control;
    let damaged = report.iter().any(|bit| *bit > 1);
    if version <= 3 && ahead + g <= output.len() && damaged {
        return Err(BAD_BIT);
    }
    // The data first: it is refused with the output untouched.
    let room = output.get_mut(ahead..).unwrap_or_default();
    workspace.build_into(data, q, n, version, g, room)?;
    let bits = block(number(report));
    for turn in output[..ahead].chunks_mut(32) {
        turn.copy_from_slice(&bits[..turn.len()]);
    }
    Ok(())
}

/// Plane p of the counts.
fn plane(counts: &[u16; 32], p: u32) -> u32 {
    counts.iter().rev().fold(0, |word, count| word << 1 | u32::from(count >> p & 1))
}

/// The nearest message, or 19.
fn nearest(o: usize, control: &[u8]) -> Result<u32, u8> {
    let (mut ones, mut zeros) = ([0u16; 32], [0u16; 32]);
    let (turns, rest) = control.arrays::<32>();
    for turn in turns {
        for i in 0..32 {
            ones[i] += u16::from(turn[i]);
            zeros[i] += 1 - u16::from(turn[i]);
        }
    }
    for (i, bit) in rest.iter().enumerate() {
        ones[i] += u16::from(*bit);
        zeros[i] += 1 - u16::from(*bit);
    }
    let count = usize::BITS - control.len().div_up(32).leading_zeros();
    let planes: Vec<(u32, u32)> = (0..count).map(|p| (plane(&ones, p), plane(&zeros, p))).collect();
    let distance = |word: u32| {
        let heard = planes.iter().rev();
        heard.fold(0, |above, (ones, zeros)| 2 * above + (zeros & word).count_ones() + (ones & !word).count_ones())
    };
    let steps: Vec<u32> = (0..o).map(|k| word((2 << k) - 1)).collect();
    let (mut least, mut found, mut tied, mut at) = (distance(0), 0, false, 0);
    for m in 1..1u32 << o {
        at ^= steps[m.trailing_zeros() as usize];
        let far = distance(at);
        if far < least {
            (least, found, tied) = (far, m, false);
        } else if far == least {
            tied = true;
        }
    }
    if tied { Err(TIED) } else { Ok(found) }
}

/// The report of a received run into the front of a lent output.
pub fn part_into(
    a: usize,
    q: usize,
    n: usize,
    o: usize,
    control: usize,
    received: &[u8],
    output: &mut [u8],
) -> Result<(), u8> {
    report::check(a, q, n, o, control, || received.len().saturating_sub(n * control))?;
    let lent = output.get_mut(..o).ok_or(crate::codeword::SHORT_OUTPUT)?;
    if received.iter().fold(0, |seen, bit| seen | bit) > 1 {
        return Err(BAD_BIT);
    }
    let found = nearest(o, &received[..n * control])?;
    for (place, bit) in lent.iter_mut().enumerate() {
        *bit = (found >> place & 1) as u8;
    }
    Ok(())
}
