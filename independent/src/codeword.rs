//! Clause 5.1.5: code block concatenation, and the call Build: the whole chain with the
//! refusals of 01.

use crate::crc;
use crate::rate;
use crate::segmentation::{self, Segmentation};
use crate::soft_buffer::{n_cb, Receiver};
use crate::turbo::{self, Streams};

/// The largest block and the largest codeword of 01.
pub const A_MAX: usize = 30_576;
pub const G_MAX: usize = 172_800;

/// The refusal numbers of 01 that Build can answer.
pub const BAD_A: u8 = 1;
pub const BAD_BIT: u8 = 2;
pub const BAD_ALLOCATION: u8 = 3;
pub const BAD_VERSION: u8 = 4;
pub const SHORT_OUTPUT: u8 = 5;

/// The segmentation of a block of A bits with its CRC24A, or refusal 1.
pub fn segmentation_of(a: usize) -> Result<Segmentation, u8> {
    if (1..=A_MAX).contains(&a) {
        Ok(Segmentation::of(a + 24))
    } else {
        Err(BAD_A)
    }
}

/// Whether Q, N and G are as 01 asks, for C code blocks. Q and N are looked at first, so
/// that nothing is divided by 0.
pub fn allocation_fits(q: usize, n: usize, g: usize, blocks: usize) -> bool {
    [2, 4, 6].contains(&q)
        && (1..=4).contains(&n)
        && g <= G_MAX
        && g % (n * q) == 0
        && g / (n * q) >= blocks
}

/// The first refusal that applies, in 01's order 1, 3, 4, 5, 2.
pub fn check(
    block: &[u8],
    q: usize,
    n: usize,
    version: usize,
    g: usize,
    output_length: usize,
) -> Result<(), u8> {
    let segmentation = segmentation_of(block.len())?;
    if !allocation_fits(q, n, g, segmentation.blocks) {
        return Err(BAD_ALLOCATION);
    }
    if version > 3 {
        return Err(BAD_VERSION);
    }
    if output_length < g {
        return Err(SHORT_OUTPUT);
    }
    if block.iter().any(|bit| *bit > 1) {
        return Err(BAD_BIT);
    }
    Ok(())
}

/// The code blocks of an accepted block: CRC24A, segmentation, CRC24B.
pub fn code_blocks(block: &[u8]) -> Vec<Vec<u8>> {
    let b = crc::attach(block, &crc::CRC24A);
    segmentation::code_blocks(&b, &Segmentation::of(b.len()))
}

/// The streams of every code block of an accepted block.
pub fn streams(block: &[u8]) -> Vec<Streams> {
    let segmentation = Segmentation::of(block.len() + 24);
    let blocks = code_blocks(block);
    let numbered = blocks.iter().enumerate();
    numbered.map(|(r, c)| turbo::encode(c, segmentation.filler_in(r))).collect()
}

/// f of 5.1.5: the rate matched blocks one after another.
pub fn concatenate(matched: &[Vec<u8>]) -> Vec<u8> {
    let mut f = Vec::new();
    for e in matched {
        f.extend(e);
    }
    f
}

/// The codeword of G bits, or the refusal number. 5 cannot come: the output is made to
/// measure.
pub fn build(block: &[u8], q: usize, n: usize, version: usize, g: usize) -> Result<Vec<u8>, u8> {
    check(block, q, n, version, g, g)?;
    let streams = streams(block);
    let shares = rate::shares(g, n * q, streams.len());
    let pairs = streams.iter().zip(shares);
    let matched: Vec<Vec<u8>> =
        pairs.map(|(d, e_length)| rate::match_block(d, version, e_length)).collect();
    Ok(concatenate(&matched))
}

/// Build as 01 words it: the first G bytes of a lent output are written, the others stay,
/// and a refusal writes nothing.
pub fn build_into(
    block: &[u8],
    q: usize,
    n: usize,
    version: usize,
    g: usize,
    output: &mut [u8],
) -> Result<(), u8> {
    check(block, q, n, version, g, output.len())?;
    output[..g].copy_from_slice(&build(block, q, n, version, g)?);
    Ok(())
}

/// Build of a block that lies in two slices (02, E9): A is their total, and the codeword is
/// that of their bits one after another.
pub fn build_two_into(
    header: &[u8],
    payload: &[u8],
    q: usize,
    n: usize,
    version: usize,
    g: usize,
    output: &mut [u8],
) -> Result<(), u8> {
    build_into(&[header, payload].concat(), q, n, version, g, output)
}

/// The rows R of each code block of a block of A bits, A in range.
pub fn rows_of(segmentation: &Segmentation) -> Vec<usize> {
    (0..segmentation.blocks).map(|r| rate::rows(segmentation.size(r) + 4)).collect()
}

/// Build for a downlink (02): 21 stands between 1 and the other refusals of Build.
pub fn build_down_into(
    block: &[u8],
    receiver: &Receiver,
    q: usize,
    n: usize,
    version: usize,
    g: usize,
    output: &mut [u8],
) -> Result<(), u8> {
    let rows = rows_of(&segmentation_of(block.len())?);
    let share = receiver.share(&rows)?;
    check(block, q, n, version, g, output.len())?;
    output[..g].copy_from_slice(&build_in(share, block, q, n, version, g)?);
    Ok(())
}

/// The codeword where each code block has this share of a soft buffer, which is long enough.
pub fn build_in(
    share: usize,
    block: &[u8],
    q: usize,
    n: usize,
    version: usize,
    g: usize,
) -> Result<Vec<u8>, u8> {
    check(block, q, n, version, g, g)?;
    let rows = rows_of(&segmentation_of(block.len())?);
    let shares = rate::shares(g, n * q, rows.len());
    let mut matched = Vec::new();
    for ((d, r), e_length) in streams(block).iter().zip(rows).zip(shares) {
        matched.push(rate::match_cut(d, n_cb(share, r), version, e_length));
    }
    Ok(concatenate(&matched))
}
