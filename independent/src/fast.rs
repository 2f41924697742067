//! Build once more, written for speed. The literal modules say what is right; the tests
//! hold this one to them.
//!
//! - Bits are packed 64 to a word for check bits and encoders, the earlier bit lower.
//! - Check bits: eight table look-ups a word.
//! - Encoders: division by g_0 as five shifts and xors a word.
//! - Interleaver: eight places at a time, each stepped by additions.
//! - Sub-blocks: column by column, first kept row known, no place looked at twice.
//! - The walk: a turn's kept bits once, as far as they are wanted, then copies.

use crate::codeword::{self, allocation_fits, A_MAX};
use crate::codeword::{BAD_A, BAD_ALLOCATION, BAD_BIT, BAD_VERSION, SHORT_OUTPUT};
use crate::older::{Arrays, Upwards};
use crate::rate::{rows, COLUMNS, P};
use crate::segmentation::Z;
use crate::soft_buffer::{n_cb, Receiver};
use crate::table::{Row, TABLE};
use std::ops::Range;

/// L of clause 5.1.1, for both generators used here.
pub(crate) const PARITY: usize = 24;

/// Build with a workspace of its own.
pub fn build_into(
    block: &[u8],
    q: usize,
    n: usize,
    version: usize,
    g: usize,
    output: &mut [u8],
) -> Result<(), u8> {
    Workspace::default().build_into(block, q, n, version, g, output)
}

/// The buffers of one code block. They grow to the largest block seen and are used again;
/// what an earlier call left in them is never read.
#[derive(Default)]
pub struct Workspace {
    /// The padded streams y of 5.1.4.1.1, stream 2 one place early: see `Layout`.
    y: [Vec<u8>; 3],
    /// The code block in the second encoder's order.
    swapped: Vec<u8>,
    /// The kept bits of the circle in the order of the walk.
    turn: Vec<u8>,
}

impl Workspace {
    /// Build as `codeword::build_into`: the same answers, refusals and bytes.
    pub fn build_into(
        &mut self,
        block: &[u8],
        q: usize,
        n: usize,
        version: usize,
        g: usize,
        output: &mut [u8],
    ) -> Result<(), u8> {
        if !(1..=A_MAX).contains(&block.len()) {
            return Err(BAD_A);
        }
        let plan = Plan::of(block.len() + PARITY);
        if !allocation_fits(q, n, g, plan.blocks) {
            return Err(BAD_ALLOCATION);
        }
        if version > 3 {
            return Err(BAD_VERSION);
        }
        if output.len() < g {
            return Err(SHORT_OUTPUT);
        }
        if block.iter().fold(0, |all, bit| all | bit) > 1 {
            return Err(BAD_BIT);
        }
        self.build(block, &plan, usize::MAX, n * q, version, &mut output[..g]);
        Ok(())
    }

    /// Build for a downlink as `codeword::build_down_into`: the same answers, refusals and bytes.
    #[allow(clippy::too_many_arguments)]
    pub fn build_down_into(
        &mut self,
        block: &[u8],
        receiver: &Receiver,
        q: usize,
        n: usize,
        version: usize,
        g: usize,
        output: &mut [u8],
    ) -> Result<(), u8> {
        if !(1..=A_MAX).contains(&block.len()) {
            return Err(BAD_A);
        }
        let plan = Plan::of(block.len() + PARITY);
        let rows: [usize; 5] = std::array::from_fn(|r| rows(plan.row(r).k + 4));
        let share = receiver.share(&rows[..plan.blocks])?;
        codeword::check(block, q, n, version, g, output.len())?;
        self.build(block, &plan, share, n * q, version, &mut output[..g]);
        Ok(())
    }

    /// The codeword of an accepted call, which fills `output`, each circle cut at the share.
    fn build(&mut self, block: &[u8], plan: &Plan, cut: usize, symbol: usize, version: usize, output: &mut [u8]) {
        let symbols = output.len() / symbol;
        let (share, larger) = (symbols / plan.blocks, symbols % plan.blocks);
        let transport_parity = crc(&CRC24A, block);
        let (mut data, mut rest) = (block, output);
        for r in 0..plan.blocks {
            let layout = plan.layout(r);
            self.fit(layout.rows);
            let c = &mut self.y[0][layout.dummies..][..layout.k];
            let is_last = r + 1 == plan.blocks;
            data = gather(c, layout.filler, data, is_last.then_some(transport_parity), plan.blocks > 1);
            self.encode(&layout);
            let e_length = symbol * (share + usize::from(r + larger >= plan.blocks));
            let (stretch, later) = rest.split_at_mut(e_length);
            self.walk(&layout, n_cb(cut, layout.rows), version, stretch);
            rest = later;
        }
    }

    /// Makes room for a code block of so many rows.
    fn fit(&mut self, rows: usize) {
        let full = COLUMNS * rows;
        if self.swapped.len() < full {
            self.y.iter_mut().for_each(|y| y.resize(full, 0));
            self.swapped.resize(full, 0);
            self.turn.resize(3 * full, 0);
        }
    }

    /// Streams 1 and 2 and all tails, from the code block that stands in stream 0.
    fn encode(&mut self, layout: &Layout) {
        let Layout { k, dummies, .. } = *layout;
        let [y0, y1, y2] = &mut self.y;
        let (d0, d1, d2) = (&mut y0[dummies..], &mut y1[dummies..], &mut y2[dummies - 1..]);
        let swapped = &mut self.swapped[..k];
        interleave(&d0[..k], layout.row, swapped);
        let first = parity_stream(&d0[..k], &mut d1[..k]);
        let second = parity_stream(swapped, &mut d2[..k]);
        for (at, register) in [(k, first), (k + 2, second)] {
            let [x, z] = tail(register);
            d0[at..at + 2].copy_from_slice(&[x[0], z[1]]);
            d1[at..at + 2].copy_from_slice(&[z[0], x[2]]);
            d2[at..at + 2].copy_from_slice(&[x[1], z[2]]);
        }
    }

    /// e_0 .. e_{E-1}, which fill `e`: the whole units from the start to the cut, what is left of
    /// the one that is cut, and the units before the start.
    fn walk(&mut self, layout: &Layout, n_cb: usize, version: usize, e: &mut [u8]) {
        let start = start_unit(n_cb, layout.rows, version);
        let whole = COLUMNS + (n_cb - COLUMNS * layout.rows) / (2 * layout.rows);
        let rest = (n_cb - COLUMNS * layout.rows) % (2 * layout.rows);
        let mut kept = self.units(layout, start..whole, 0, e.len());
        if rest > 0 && kept < e.len() {
            self.unit(layout, whole, kept);
            kept += layout.kept_before(P[whole % COLUMNS], rest);
        }
        kept = self.units(layout, 0..start, kept, e.len());
        for once in e.chunks_mut(kept) {
            once.copy_from_slice(&self.turn[..once.len()]);
        }
    }

    /// Puts unit after unit, until there are as many bits as wanted; gives how many there are.
    fn units(&mut self, layout: &Layout, units: Range<usize>, mut kept: usize, wanted: usize) -> usize {
        for unit in units {
            if kept >= wanted {
                break;
            }
            kept += self.unit(layout, unit, kept);
        }
        kept
    }

    /// Puts the kept bits of one unit of the circle into the turn, and says how many.
    ///
    /// The circle falls into 64 units: 32 columns of stream 0, then 32 columns of
    /// streams 1 and 2 by turns.
    fn unit(&mut self, layout: &Layout, unit: usize, at: usize) -> usize {
        let full = COLUMNS * layout.rows;
        let [y0, y1, y2] = &self.y;
        let [y0, y1, y2] = [y0, y1, y2].map(|y| y[..full].arrays::<COLUMNS>().0);
        let turn = &mut self.turn[at..];
        let column = P[unit % COLUMNS];
        let first = first_row(layout.dummies + layout.filler, column);
        if unit < COLUMNS {
            column_bits(turn, &y0[first..], column);
            return layout.rows - first;
        }
        let first_of_2 = first_row(layout.dummies - 1, column);
        let alone = first - first_of_2;
        column_bits(turn, &y2[first_of_2..first], column);
        let pairs = turn[alone..].arrays_mut::<2>().0;
        for (pair, (row1, row2)) in pairs.iter_mut().zip(y1[first..].iter().zip(&y2[first..])) {
            *pair = [row1[column], row2[column]];
        }
        // The last place of all is the dummy that the wrap brings to stream 2.
        let wrapped = usize::from(unit == 2 * COLUMNS - 1);
        alone + 2 * (layout.rows - first) - wrapped
    }
}

/// The unit that k_0 of a circle cut at N_cb is the head of.
pub(crate) fn start_unit(n_cb: usize, rows: usize, version: usize) -> usize {
    let columns = 2 * n_cb.div_up(8 * rows) * version + 2;
    if columns < COLUMNS {
        columns
    } else {
        COLUMNS / 2 + columns / 2
    }
}

/// The first row of a column that lies behind the first `absent` places.
pub(crate) fn first_row(absent: usize, column: usize) -> usize {
    absent.saturating_sub(column).div_up(COLUMNS)
}

fn column_bits(turn: &mut [u8], rows: &[[u8; COLUMNS]], column: usize) {
    for (bit, row) in turn.iter_mut().zip(rows) {
        *bit = row[column];
    }
}

/// The table at one place in memory, so that its rows can be pointed at.
static ROWS: [Row; TABLE.len()] = TABLE;

/// Clause 5.1.2 in numbers, K as rows of the table.
pub(crate) struct Plan {
    pub(crate) blocks: usize,
    shorts: usize,
    long: &'static Row,
    short: &'static Row,
    filler: usize,
}

impl Plan {
    pub(crate) fn of(b: usize) -> Plan {
        let blocks = if b <= Z { 1 } else { b.div_up(Z - PARITY) };
        let b_prime = if blocks == 1 { b } else { b + PARITY * blocks };
        let above = ROWS.partition_point(|row| blocks * row.k < b_prime);
        let long = &ROWS[above];
        let spare = blocks * long.k - b_prime;
        if blocks == 1 {
            return Plan { blocks, shorts: 0, long, short: long, filler: spare };
        }
        let short = &ROWS[above - 1];
        let step = long.k - short.k;
        Plan { blocks, shorts: spare / step, long, short, filler: spare % step }
    }

    fn row(&self, r: usize) -> &'static Row {
        if r < self.shorts {
            self.short
        } else {
            self.long
        }
    }

    /// How code block r lies.
    pub(crate) fn layout(&self, r: usize) -> Layout {
        Layout::of(self.row(r), if r == 0 { self.filler } else { 0 })
    }
}

/// How one code block lies in the padded streams: place i of streams 0 and 1 at
/// `dummies + i`, of stream 2 one earlier. So the + 1 of its rule is already made, and
/// all three streams are read alike.
pub(crate) struct Layout {
    row: &'static Row,
    pub(crate) k: usize,
    pub(crate) rows: usize,
    pub(crate) dummies: usize,
    pub(crate) filler: usize,
}

impl Layout {
    fn of(row: &'static Row, filler: usize) -> Layout {
        let d = row.k + 4;
        let rows = rows(d);
        Layout { row, k: row.k, rows, dummies: COLUMNS * rows - d, filler }
    }

    /// How many of the first `places` of a column of streams 1 and 2 are kept, not all of them.
    pub(crate) fn kept_before(&self, column: usize, places: usize) -> usize {
        let of_1 = places.div_up(2).saturating_sub(first_row(self.dummies + self.filler, column));
        let of_2 = (places / 2).saturating_sub(first_row(self.dummies - 1, column));
        of_1 + of_2
    }
}

/// Fills a code block: filler, data, in the last block the transport parity, and with
/// several blocks its own parity. Gives the data that is left.
fn gather<'a>(
    c: &mut [u8],
    filler: usize,
    data: &'a [u8],
    transport_parity: Option<u64>,
    several: bool,
) -> &'a [u8] {
    let (checked, own_parity) = c.split_at_mut(if several { c.len() - PARITY } else { c.len() });
    let end = checked.len() - if transport_parity.is_some() { PARITY } else { 0 };
    let (mine, left) = data.split_at(end - filler);
    checked[..filler].fill(0);
    checked[filler..end].copy_from_slice(mine);
    if let Some(parity) = transport_parity {
        unpack_some(parity, &mut checked[end..]);
    }
    if several {
        unpack_some(crc(&CRC24B, checked), own_parity);
    }
    left
}

// Words of 64 bits, the earlier bit lower.

const WORD: usize = 64;

/// 64 bytes of 0 or 1 as one word. The factor moves the lowest bit of byte i to place
/// 56 + i, and no two of its products meet.
fn pack(bits: &[u8; WORD]) -> u64 {
    let eights = bits.arrays::<8>().0.iter().rev();
    eights.fold(0, |word, eight| {
        word << 8 | u64::from_le_bytes(*eight).wrapping_mul(0x0102_0408_1020_4080) >> 56
    })
}

/// At most 64 bytes as the low bits of a word.
fn pack_some(bits: &[u8]) -> u64 {
    let mut padded = [0; WORD];
    padded[..bits.len()].copy_from_slice(bits);
    pack(&padded)
}

/// The word as 64 bytes: in byte i of each eight only bit i is let stand, then made 1.
fn unpack(word: u64, bits: &mut [u8; WORD]) {
    for (eight, byte) in bits.arrays_mut::<8>().0.iter_mut().zip(word.to_le_bytes()) {
        let chosen = (u64::from(byte) * 0x0101_0101_0101_0101) & 0x8040_2010_0804_0201;
        let ones = (chosen + 0x7F7F_7F7F_7F7F_7F7F) >> 7 & 0x0101_0101_0101_0101;
        *eight = ones.to_le_bytes();
    }
}

/// The low bits of a word as at most 64 bytes.
fn unpack_some(word: u64, bits: &mut [u8]) {
    let mut all = [0; WORD];
    unpack(word, &mut all);
    bits.copy_from_slice(&all[..bits.len()]);
}

// Check bits.

/// Table n gives the remainder of a byte with n bytes of zeros behind it.
pub(crate) type CrcTables = [[u32; 256]; 8];

pub(crate) static CRC24A: CrcTables = crc_tables(0x86_4CFB);
pub(crate) static CRC24B: CrcTables = crc_tables(0x80_0063);

/// From the generator, highest power first, to tables with the highest power lowest.
const fn crc_tables(generator: u32) -> CrcTables {
    let reversed = generator.reverse_bits() >> (32 - PARITY);
    let mut tables = [[0; 256]; 8];
    let mut byte = 0;
    while byte < 256 {
        let mut remainder = byte as u32;
        let mut bit = 0;
        while bit < 8 {
            remainder = (remainder >> 1) ^ ((remainder & 1) * reversed);
            bit += 1;
        }
        tables[0][byte] = remainder;
        byte += 1;
    }
    let mut table = 1;
    while table < 8 {
        let mut byte = 0;
        while byte < 256 {
            let shorter = tables[table - 1][byte];
            tables[table][byte] = shorter >> 8 ^ tables[0][(shorter & 0xFF) as usize];
            byte += 1;
        }
        table += 1;
    }
    tables
}

/// The 24 parity bits, p_0 lowest. Zeros in front change no remainder, so the odd bits
/// come first, at the end of a word.
pub(crate) fn crc(tables: &CrcTables, bits: &[u8]) -> u64 {
    let (odd, words) = bits.split_at(bits.len() % WORD);
    let step = |remainder: u64, word: u64| {
        let bytes = (word ^ remainder).to_le_bytes();
        let parts = bytes.iter().zip(tables.iter().rev());
        u64::from(parts.fold(0, |sum, (byte, table)| sum ^ table[usize::from(*byte)]))
    };
    let start = if odd.is_empty() { 0 } else { step(0, pack_some(odd) << (WORD - odd.len())) };
    words.arrays::<WORD>().0.iter().fold(start, |remainder, word| step(remainder, pack(word)))
}

// The turbo code.

/// Eight places of the second encoder at a time, from c into `swapped`.
///
/// Pi(i + 8) - Pi(i) = 8 * f1 + (16 * i + 64) * f2, which itself grows by 128 * f2 with
/// each eight: two additions modulo K a place.
fn interleave(c: &[u8], row: &Row, swapped: &mut [u8]) {
    const LANES: usize = 8;
    let modulo_k = |number: usize| (number % row.k) as u32;
    let k = row.k as u32;
    let sum = |one: u32, other: u32| (one + other).min((one + other).wrapping_sub(k));
    let mut place: [u32; LANES] = std::array::from_fn(|i| modulo_k(i * row.f1 + i * i * row.f2));
    let mut step: [u32; LANES] =
        std::array::from_fn(|i| modulo_k(8 * row.f1 + (16 * i + 64) * row.f2));
    let growth = modulo_k(128 * row.f2);
    for eight in swapped.arrays_mut::<LANES>().0 {
        for lane in 0..LANES {
            eight[lane] = c[place[lane] as usize];
            place[lane] = sum(place[lane], step[lane]);
            step[lane] = sum(step[lane], growth);
        }
    }
}

/// The parity bits z of one constituent encoder, a word at a time. Gives what its
/// register holds at the end: the three last bits that entered it, the last one highest.
///
/// With a for what enters the register, a * g_0 = c and z = a * g_1. In polynomials of 64
/// places g_0 has the inverse g_0^(1 + 2 + 4 + 8 + 16), as g_0^32 = 1 + D^64 + D^96.
fn parity_stream(c: &[u8], z: &mut [u8]) -> u64 {
    let mut before = 0;
    let (words, odd) = c.arrays::<WORD>();
    let (z_words, z_odd) = z.arrays_mut::<WORD>();
    for (c, z) in words.iter().zip(z_words) {
        let a = entering(pack(c), before);
        unpack(parity(a, before), z);
        before = a;
    }
    if !odd.is_empty() {
        // At least eight bits, as K is a multiple of eight.
        let a = entering(pack_some(odd), before);
        unpack_some(parity(a, before), z_odd);
        before = a << (WORD - odd.len());
    }
    before >> (WORD - 3)
}

/// c / g_0, `before` being the 64 bits that entered earlier, the last one highest.
fn entering(c: u64, before: u64) -> u64 {
    let mut a = c ^ before >> (WORD - 2) ^ before >> (WORD - 3);
    for power in [1, 2, 4, 8, 16] {
        a ^= a << (2 * power) ^ a << (3 * power);
    }
    a
}

/// a * g_1, likewise.
fn parity(a: u64, before: u64) -> u64 {
    a ^ (a << 1 | before >> (WORD - 1)) ^ (a << 3 | before >> (WORD - 3))
}

/// x_K .. x_{K+2} and z_K .. z_{K+2}: the three steps with zeros entering the register.
fn tail(register: u64) -> [[u8; 3]; 2] {
    let [d3, d2, d1] = [0, 1, 2].map(|place| (register >> place & 1) as u8);
    [[d2 ^ d3, d1 ^ d2, d1], [d1 ^ d3, d2, d1]]
}
