//! Clause 5.1.2: code block segmentation and code block CRC attachment.

use crate::crc;
use crate::older::Upwards;
use crate::table::TABLE;

/// Z, the maximum code block size.
pub const Z: usize = 6144;

/// The numbers clause 5.1.2 derives from B.
#[derive(Clone, Copy, Debug, PartialEq, Eq)]
pub struct Segmentation {
    /// L, parity bits in each code block: 24 if there is more than one block, else 0.
    pub parity: usize,
    /// C, number of code blocks.
    pub blocks: usize,
    /// C+, number of long blocks.
    pub longs: usize,
    /// K+, the long size.
    pub long: usize,
    /// C-, number of short blocks.
    pub shorts: usize,
    /// K-, the short size; 0 for C = 1.
    pub short: usize,
    /// F, number of filler bits.
    pub filler: usize,
}

impl Segmentation {
    /// The segmentation of B bits, B from 1 to what the largest C of this project takes.
    pub fn of(b: usize) -> Segmentation {
        let (parity, blocks) = if b <= Z { (0, 1) } else { (24, b.div_up(Z - 24)) };
        let b_prime = b + blocks * parity;
        let long = first_size(blocks, b_prime);
        let (short, shorts) = if blocks == 1 {
            (0, 0)
        } else {
            let short = second_size(long);
            (short, (blocks * long - b_prime) / (long - short))
        };
        let longs = blocks - shorts;
        let filler = longs * long + shorts * short - b_prime;
        Segmentation { parity, blocks, longs, long, shorts, short, filler }
    }

    /// K_r: short blocks come first.
    pub fn size(&self, r: usize) -> usize {
        if r < self.shorts {
            self.short
        } else {
            self.long
        }
    }

    /// How many filler bits stand at the front of block r: all of them in block 0.
    pub fn filler_in(&self, r: usize) -> usize {
        if r == 0 {
            self.filler
        } else {
            0
        }
    }
}

/// K+: the minimum K of table 5.1.3-3 with C * K >= B'.
fn first_size(blocks: usize, b_prime: usize) -> usize {
    let fitting = TABLE.iter().map(|row| row.k).filter(|k| blocks * k >= b_prime);
    fitting.min().expect("C is chosen so that C blocks of Z bits hold B'")
}

/// K-: the maximum K of table 5.1.3-3 below K+.
fn second_size(long: usize) -> usize {
    let smaller = TABLE.iter().map(|row| row.k).filter(|k| *k < long);
    smaller.max().expect("with C > 1 the long size is far above the smallest row")
}

/// The code blocks c_r, filler standing as 0.
///
/// The standard writes `<NULL>` for filler here, then asks for 0 both in CRC24B and at
/// the encoder's input. So 0 is kept, and the encoder is told how many bits are filler.
pub fn code_blocks(b: &[u8], segmentation: &Segmentation) -> Vec<Vec<u8>> {
    let mut s = 0;
    let mut blocks = Vec::new();
    for r in 0..segmentation.blocks {
        let mut c = vec![0; segmentation.filler_in(r)];
        while c.len() < segmentation.size(r) - segmentation.parity {
            c.push(b[s]);
            s += 1;
        }
        if segmentation.blocks > 1 {
            c = crc::attach(&c, &crc::CRC24B);
        }
        blocks.push(c);
    }
    blocks
}
