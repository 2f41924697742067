//! Receive and Read once more, on rooms of either form, written for speed. `slots` says what is right; the tests
//! hold this one to it.
//!
//! - A column of the circle is one run of kept places, or a few single ones and a run: a run
//!   meets its bits without a branch, many at a time.
//! - Of many turns the bits of one place meet each other first, and one turn is put.
//! - Lacking places are counted run by run, in bytes.
//! - The block is put together column by column, its checks taken 64 bits a step; the check
//!   bits of a code block are overwritten by the next.

use crate::codeword::{allocation_fits, A_MAX};
use crate::codeword::{BAD_ALLOCATION, BAD_BIT, BAD_VERSION, SHORT_OUTPUT};
use crate::fast::{crc, first_row, start_unit, Layout, Plan, CRC24A, CRC24B, PARITY};
use crate::packing::PACKED_OF_BLOCK;
use crate::older::Arrays;
use crate::rate::{COLUMNS, P};
use crate::slots::{Answer, Head, Refusal, State, BLOCKS_MAX, DISPUTED, ROOM_OF_BLOCK, SLOTS_MAX, UNHEARD};
use crate::slots::{BAD_SLOT, BAD_STATE, CHECK_WRONG, CLOSED, OTHER_TERMINAL, SHORT_STORE};
use crate::soft_buffer::n_cb;
use std::ops::Range;

/// The columns of the last row where the four tails of stream 0 stand: no data places.
const TAILS: usize = COLUMNS - 4;

/// Receive as `slots::receive`: the same answers, refusals and bytes. The state stays.
#[allow(clippy::too_many_arguments)]
pub fn receive(
    state: &State,
    store: &mut [u8],
    slot: usize,
    terminal: u16,
    q: usize,
    n: usize,
    version: usize,
    bits: &[u8],
) -> Result<usize, Refusal> {
    let grant = Grant::of(state, store.len(), (slot, terminal), (q, n, version), bits)?;
    let room = state.m * ROOM_OF_BLOCK;
    let parts = store[slot * room..][..room].chunks_mut(ROOM_OF_BLOCK);
    let mut lacking = 0;
    let mut rest = bits;
    for (r, part) in parts.take(grant.plan.blocks).enumerate() {
        let (stretch, later) = rest.split_at(grant.length(r));
        lacking += grant.put(r, stretch, part);
        rest = later;
    }
    Ok(lacking)
}

/// The same for packed rooms: each code block's circle is unpacked, heard and packed again.
#[allow(clippy::too_many_arguments)]
pub fn receive_packed(
    state: &State,
    store: &mut [u8],
    slot: usize,
    terminal: u16,
    q: usize,
    n: usize,
    version: usize,
    bits: &[u8],
) -> Result<usize, Refusal> {
    let grant = Grant::of(state, 4 * store.len(), (slot, terminal), (q, n, version), bits)?;
    let room = state.m * PACKED_OF_BLOCK;
    let parts = store[slot * room..][..room].chunks_mut(PACKED_OF_BLOCK);
    let mut circle = [0; ROOM_OF_BLOCK];
    let mut lacking = 0;
    let mut rest = bits;
    for (r, part) in parts.take(grant.plan.blocks).enumerate() {
        let (stretch, later) = rest.split_at(grant.length(r));
        let part = &mut part[..3 * COLUMNS / 4 * grant.plan.layout(r).rows];
        unpack(part, &mut circle);
        lacking += grant.put(r, stretch, &mut circle);
        pack(&circle, part);
        rest = later;
    }
    Ok(lacking)
}

/// An accepted reception.
struct Grant {
    plan: Plan,
    /// Each code block's share of the soft buffer.
    soft: usize,
    version: usize,
    /// N * Q.
    symbol: usize,
    /// The smaller share of the symbols, and how many code blocks have one more.
    symbols: usize,
    larger: usize,
}

impl Grant {
    fn of(
        state: &State,
        places: usize,
        (slot, terminal): (usize, u16),
        (q, n, version): (usize, usize, usize),
        bits: &[u8],
    ) -> Result<Grant, Refusal> {
        let head = own_head(state, places, slot, terminal)?;
        let plan = Plan::of(head.a + PARITY);
        if !allocation_fits(q, n, bits.len(), plan.blocks) {
            return Err(BAD_ALLOCATION.into());
        }
        if version > 3 {
            return Err(BAD_VERSION.into());
        }
        if bits.iter().fold(0, |all, bit| all | bit) > 1 {
            return Err(BAD_BIT.into());
        }
        let symbols = bits.len() / (n * q);
        let (symbols, larger) = (symbols / plan.blocks, symbols % plan.blocks);
        Ok(Grant { plan, soft: head.share, version, symbol: n * q, symbols, larger })
    }

    /// E of code block r.
    fn length(&self, r: usize) -> usize {
        self.symbol * (self.symbols + usize::from(r + self.larger >= self.plan.blocks))
    }

    /// Puts the bits of code block r on its circle; gives how many data places then lack one.
    fn put(&self, r: usize, bits: &[u8], part: &mut [u8]) -> usize {
        let layout = self.plan.layout(r);
        put(&Circle::of(&layout, n_cb(self.soft, layout.rows), self.version), bits, part);
        lacking_on(&layout, part)
    }
}

/// The buffer of Read. It grows to the largest block seen; what an earlier call left in it
/// is never read.
#[derive(Default)]
pub struct Workspace {
    /// The block with its check, as it was heard, and room for the last code block's check.
    sequence: Vec<u8>,
    /// The first streams of packed rooms, unpacked.
    places: Vec<u8>,
}

impl Workspace {
    /// Read as `slots::read`: the same answers, refusals and bytes. The state stays.
    pub fn read(
        &mut self,
        state: &State,
        store: &[u8],
        slot: usize,
        terminal: u16,
        output: &mut [u8],
    ) -> Answer {
        let a = own_head(state, store.len(), slot, terminal)?.a;
        let room = state.m * ROOM_OF_BLOCK;
        read_parts(&mut self.sequence, a, &store[slot * room..][..room], ROOM_OF_BLOCK, output)
    }

    /// The same for packed rooms: of each code block the places of stream 0 are unpacked.
    pub fn read_packed(
        &mut self,
        state: &State,
        store: &[u8],
        slot: usize,
        terminal: u16,
        output: &mut [u8],
    ) -> Answer {
        let a = own_head(state, 4 * store.len(), slot, terminal)?.a;
        let room = state.m * PACKED_OF_BLOCK;
        let plan = Plan::of(a + PARITY);
        let longest = ROOM_OF_BLOCK / 3;
        if self.places.len() < plan.blocks * longest {
            self.places.resize(plan.blocks * longest, 0);
        }
        let parts = store[slot * room..][..room].chunks(PACKED_OF_BLOCK).take(plan.blocks);
        for ((r, part), places) in parts.enumerate().zip(self.places.chunks_mut(longest)) {
            unpack(&part[..COLUMNS / 4 * plan.layout(r).rows], places);
        }
        read_parts(&mut self.sequence, a, &self.places, longest, output)
    }
}

/// Read of a room of parts that each begin with the places of stream 0.
fn read_parts(sequence: &mut Vec<u8>, a: usize, room: &[u8], part: usize, output: &mut [u8]) -> Answer {
    if output.len() < a {
        return Err(SHORT_OUTPUT.into());
    }
    let plan = Plan::of(a + PARITY);
    let parts = || room.chunks(part).take(plan.blocks).enumerate();
    match parts().map(|(r, part)| lacking_on(&plan.layout(r), part)).sum() {
        0 => {}
        count => return Err(Refusal::Lacking(count)),
    }
    if sequence.len() < a + 2 * PARITY {
        sequence.resize(a + 2 * PARITY, 0);
    }
    let several = plan.blocks > 1;
    let mut rest = &mut sequence[..];
    for (r, part) in parts() {
        let layout = plan.layout(r);
        let mine = &mut rest[..layout.k - layout.filler];
        gather(&layout, part, mine);
        // Filler is zeros in front, which change no remainder.
        if several && crc(&CRC24B, mine) != 0 {
            return Err(Refusal::CodeBlockWrong(r));
        }
        rest = &mut rest[layout.k - layout.filler - if several { PARITY } else { 0 }..];
    }
    if crc(&CRC24A, &sequence[..a + PARITY]) != 0 {
        return Err(CHECK_WRONG.into());
    }
    output[..a].copy_from_slice(&sequence[..a]);
    Ok(())
}

/// The places of packed bytes.
fn unpack(bytes: &[u8], places: &mut [u8]) {
    for (four, &byte) in places.chunks_exact_mut(4).zip(bytes) {
        four.copy_from_slice(&[byte >> 6, byte >> 4 & 3, byte >> 2 & 3, byte & 3]);
    }
}

/// Places, none of them above 3, packed.
fn pack(places: &[u8], bytes: &mut [u8]) {
    for (byte, four) in bytes.iter_mut().zip(places.chunks_exact(4)) {
        *byte = four[0] << 6 | four[1] << 4 | four[2] << 2 | four[3];
    }
}

/// 13, 5, 6, 8, 9: the slot is open for this terminal. Gives its head.
fn own_head(state: &State, places: usize, slot: usize, terminal: u16) -> Result<&Head, u8> {
    let in_range = (1..=SLOTS_MAX).contains(&state.s) && (1..=BLOCKS_MAX).contains(&state.m);
    if !in_range || state.heads[..state.s].iter().any(|head| head.open && !fits(head, state.m)) {
        return Err(BAD_STATE);
    }
    if places < state.s * state.m * ROOM_OF_BLOCK {
        return Err(SHORT_STORE);
    }
    if slot >= state.s {
        return Err(BAD_SLOT);
    }
    let head = &state.heads[slot];
    if !head.open {
        return Err(CLOSED);
    }
    if head.terminal != terminal {
        return Err(OTHER_TERMINAL);
    }
    Ok(head)
}

/// A is in range and needs at most M code blocks: one up to 6,120, then one for each 6,120
/// of A + 24; and the share has the 32 * R places of the longest code block, the last.
fn fits(head: &Head, m: usize) -> bool {
    let Head { a, share, .. } = *head;
    let in_range = (1..=A_MAX).contains(&a) && (a <= 6_120 || a + PARITY <= 6_120 * m);
    in_range && (share >= ROOM_OF_BLOCK / 3 || share >= COLUMNS * longest_rows(a))
}

fn longest_rows(a: usize) -> usize {
    let plan = Plan::of(a + PARITY);
    plan.layout(plan.blocks - 1).rows
}

/// A code block's circle as one version walks round it: units as in `fast`, 32 columns of
/// stream 0, then 32 of streams 1 and 2, of which the cut leaves the first `whole` and some places
/// of the next.
struct Circle<'a> {
    layout: &'a Layout,
    start: usize,
    whole: usize,
    rest: usize,
}

impl Circle<'_> {
    fn of(layout: &Layout, n_cb: usize, version: usize) -> Circle<'_> {
        let paired = n_cb - COLUMNS * layout.rows;
        let (whole, rest) = (COLUMNS + paired / (2 * layout.rows), paired % (2 * layout.rows));
        Circle { layout, start: start_unit(n_cb, layout.rows, version), whole, rest }
    }

    /// The bits of one turn.
    fn turn(&self) -> usize {
        let Layout { k, filler, rows, dummies, .. } = *self.layout;
        let all = 3 * (k + 4) - 2 * filler;
        if self.whole == 2 * COLUMNS {
            return all;
        }
        let kept = |unit: usize| {
            let column = P[unit % COLUMNS];
            let ends = 2 * rows - usize::from(unit == 2 * COLUMNS - 1);
            ends - first_row(dummies + filler, column) - first_row(dummies - 1, column)
        };
        let cut = (self.whole..2 * COLUMNS).map(kept).sum::<usize>();
        all - cut + self.layout.kept_before(P[self.whole % COLUMNS], self.rest)
    }
}

/// Puts the bits of one code block in its part of the room.
fn put(circle: &Circle, bits: &[u8], part: &mut [u8]) {
    let turn = circle.turn();
    if bits.len() <= 2 * turn {
        return put_turns(circle, bits, part);
    }
    let (first, later) = bits.split_at(turn);
    let mut ring = first.to_vec();
    for bits in later.chunks(turn) {
        for (kept, &bit) in ring.iter_mut().zip(bits) {
            *kept = if *kept == bit { bit } else { DISPUTED };
        }
    }
    put_turns(circle, &ring, part);
}

/// Puts them turn after turn.
fn put_turns(circle: &Circle, bits: &[u8], part: &mut [u8]) {
    let mut rest = bits;
    while !rest.is_empty() {
        rest = put_units(circle, circle.start..circle.whole, rest, part);
        if circle.rest > 0 {
            rest = put_unit(circle.layout, circle.whole, circle.rest, rest, part);
        }
        rest = put_units(circle, 0..circle.start, rest, part);
    }
}

fn put_units<'a>(circle: &Circle, units: Range<usize>, bits: &'a [u8], part: &mut [u8]) -> &'a [u8] {
    let mut rest = bits;
    for unit in units {
        if rest.is_empty() {
            break;
        }
        rest = put_unit(circle.layout, unit, 2 * circle.layout.rows, rest, part);
    }
    rest
}

/// Puts the bits of one unit of the circle, as far as there are any, and gives the rest. Of a
/// pair of columns only the first `limit` places are before the cut.
fn put_unit<'a>(layout: &Layout, unit: usize, limit: usize, bits: &'a [u8], part: &mut [u8]) -> &'a [u8] {
    let rows = layout.rows;
    let column = P[unit % COLUMNS];
    let first = first_row(layout.dummies + layout.filler, column);
    if unit < COLUMNS {
        return put_run(bits, &mut part[unit * rows..][first..rows]);
    }
    let pairs = &mut part[2 * rows * (unit - COLUMNS / 2)..][..limit];
    // The rows where stream 2 has a bit and stream 1 has none.
    let mut rest = bits;
    for row in first_row(layout.dummies - 1, column)..first.min(limit / 2) {
        rest = put_run(rest, &mut pairs[2 * row + 1..][..1]);
    }
    // The last place of all is the dummy that the wrap brings to stream 2.
    let end = limit.min(2 * rows - usize::from(unit == 2 * COLUMNS - 1));
    put_run(rest, &mut pairs[end.min(2 * first)..end])
}

fn put_run<'a>(bits: &'a [u8], run: &mut [u8]) -> &'a [u8] {
    let (mine, later) = bits.split_at(run.len().min(bits.len()));
    for (kept, &bit) in run.iter_mut().zip(mine) {
        let bare = *kept == UNHEARD || *kept > DISPUTED;
        *kept = if bare | (*kept == bit) { bit } else { DISPUTED };
    }
    later
}

/// How many data places of a code block lack a bit. A column has at most 193 rows, so its
/// count is a byte.
fn lacking_on(layout: &Layout, part: &[u8]) -> usize {
    let rows = layout.rows;
    let columns = P.iter().zip(part.chunks(rows));
    let lacking = columns.map(|(&column, places)| {
        let data = first_row(layout.dummies + layout.filler, column)..rows - usize::from(column >= TAILS);
        places[data].iter().map(|byte| u8::from(*byte > 1)).sum::<u8>()
    });
    lacking.map(usize::from).sum()
}

/// The data places of a code block from its first on, as many as `out` has: row by row,
/// each row one place of every column.
fn gather(layout: &Layout, part: &[u8], out: &mut [u8]) {
    let absent = layout.dummies + layout.filler;
    let (mut row, column) = (absent / COLUMNS, absent % COLUMNS);
    // P is its own inverse.
    let heads = P.map(|column| column * layout.rows);
    let mut rest = out;
    if column > 0 {
        let (first, later) = rest.split_at_mut((COLUMNS - column).min(rest.len()));
        gather_row(&heads[column..], &part[row..], first);
        (row, rest) = (row + 1, later);
    }
    let (whole, last) = rest.arrays_mut::<COLUMNS>();
    for bits in whole {
        gather_row(&heads, &part[row..], bits);
        row += 1;
    }
    gather_row(&heads, &part[row..], last);
}

fn gather_row(heads: &[usize], part: &[u8], bits: &mut [u8]) {
    for (bit, head) in bits.iter_mut().zip(heads) {
        *bit = part[*head];
    }
}
