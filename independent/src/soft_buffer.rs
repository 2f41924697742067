//! Clause 5.1.4.1.2, the soft buffer of a downlink: N_IR and N_cb, and what 02 takes.

use crate::rate::COLUMNS;

/// 02's refusal number for a receiver.
pub const BAD_BUFFER: u8 = 21;

/// The share of an uplink's code blocks: no circle has more places, K_w of the largest K.
pub const WHOLE_SHARE: usize = 18_528;

/// M_limit.
const M_LIMIT: usize = 8;

/// What the caller tells of the receiver.
#[derive(Clone, Copy, Debug, PartialEq, Eq)]
pub struct Receiver {
    /// 8 or 11.
    pub release: usize,
    /// K_MIMO.
    pub mimo: usize,
    /// M_DL_HARQ.
    pub processes: usize,
    /// N_soft.
    pub soft: usize,
    /// The most spatial layers that it supports.
    pub layers: usize,
}

impl Receiver {
    /// K_C, which Release 8 does not have.
    fn k_c(&self) -> usize {
        if self.release == 8 {
            return 1;
        }
        if self.soft == 35_982_720 {
            5
        } else if self.soft == 3_654_144 && self.layers <= 2 {
            2
        } else {
            1
        }
    }

    /// N_IR, the soft buffer of a transport block.
    pub fn n_ir(&self) -> usize {
        self.soft / (self.k_c() * self.mimo * self.processes.min(M_LIMIT))
    }

    /// N_IR / C, rounded down, for code blocks of so many rows; or refusal 21.
    pub fn share(&self, rows: &[usize]) -> Result<usize, u8> {
        if ![8, 11].contains(&self.release) || ![1, 2].contains(&self.mimo) || self.processes == 0 {
            return Err(BAD_BUFFER);
        }
        let share = self.n_ir() / rows.len();
        match rows.iter().any(|r| n_cb(share, *r) < COLUMNS * r) {
            true => Err(BAD_BUFFER),
            false => Ok(share),
        }
    }
}

/// N_cb of a code block of R rows, K_w being 3 * 32 * R.
pub fn n_cb(share: usize, rows: usize) -> usize {
    share.min(3 * COLUMNS * rows)
}
