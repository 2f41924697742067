//! The slots of 01: New, Open, Receive, Read, Streams and Close on a state by value and a
//! lent store.
//!
//! Every call gives back the state beside its answer. A room's byte r * 18,528 + j is
//! circle place j of code block r; which stream place that is comes from the rate
//! matcher itself, run on labels in the bits' stead.

use crate::codeword::{allocation_fits, rows_of, segmentation_of};
use crate::codeword::{BAD_ALLOCATION, BAD_BIT, BAD_VERSION, SHORT_OUTPUT};
use crate::crc;
use crate::rate;
use crate::segmentation::Segmentation;
use crate::soft_buffer::{n_cb, Receiver, WHOLE_SHARE};

/// S and M are at most these, and so many heads are in a state.
pub const SLOTS_MAX: usize = 8;
pub const BLOCKS_MAX: usize = 5;

/// Bytes of a room for each code block: the circle of the largest K.
pub const ROOM_OF_BLOCK: usize = 18_528;

/// What Open writes; every value above `DISPUTED` means the same.
pub const UNHEARD: u8 = 2;

/// A place that has heard both a 0 and a 1 since the slot was opened.
pub const DISPUTED: u8 = 3;

/// The refusal numbers of 01 beyond those of Build.
pub const SHORT_STORE: u8 = 5;
pub const BAD_SLOT: u8 = 6;
pub const ALREADY_OPEN: u8 = 7;
pub const CLOSED: u8 = 8;
pub const OTHER_TERMINAL: u8 = 9;
pub const TOO_MANY_BLOCKS: u8 = 10;
pub const LACKING: u8 = 11;
pub const CHECK_WRONG: u8 = 12;
pub const BAD_STATE: u8 = 13;
pub const BAD_CODE_BLOCK: u8 = 14;

/// The refusal number of 02, E1.
pub const CODE_BLOCK_WRONG: u8 = 16;

/// One slot's head: closed, or open with a terminal number, A and each code block's share of the
/// soft buffer (02, E6).
#[derive(Clone, Copy, Debug, Default, PartialEq, Eq)]
pub struct Head {
    pub open: bool,
    pub terminal: u16,
    pub a: usize,
    pub share: usize,
}

/// S, M and eight heads. Heads from S upward are ignored.
#[derive(Clone, Copy, Debug, Default, PartialEq, Eq)]
pub struct State {
    pub s: usize,
    pub m: usize,
    pub heads: [Head; SLOTS_MAX],
}

/// What a call refuses with.
#[derive(Clone, Copy, Debug, PartialEq, Eq)]
pub enum Refusal {
    /// Any number but 11 and 16.
    Number(u8),
    /// Number 11, with how many data places lack a bit.
    Lacking(usize),
    /// Number 16, with the first code block whose check is wrong.
    CodeBlockWrong(usize),
}

impl Refusal {
    pub fn number(self) -> u8 {
        match self {
            Refusal::Number(number) => number,
            Refusal::Lacking(_) => LACKING,
            Refusal::CodeBlockWrong(_) => CODE_BLOCK_WRONG,
        }
    }
}

impl From<u8> for Refusal {
    fn from(number: u8) -> Refusal {
        Refusal::Number(number)
    }
}

/// The answer of a call that has nothing to say but yes.
pub type Answer = Result<(), Refusal>;

fn refuse(number: u8) -> Answer {
    Err(Refusal::Number(number))
}

/// New: all slots closed. Refused, it gives a state that every call refuses.
pub fn new(s: usize, m: usize) -> (State, Answer) {
    let state = State { s, m, ..State::default() };
    match state.check() {
        Ok(()) => (state, Ok(())),
        refused => (State::default(), refused),
    }
}

/// Open: the whole room is cleared, then the slot is open.
pub fn open(state: State, store: &mut [u8], slot: usize, terminal: u16, a: usize) -> (State, Answer) {
    let share = may_open(&state, store, slot, a).map(|_| WHOLE_SHARE);
    opened(state, store, slot, terminal, a, share)
}

/// Open for a downlink (02, E6): 21 comes last. The head keeps the share as it was divided.
pub fn open_down(
    state: State,
    store: &mut [u8],
    slot: usize,
    terminal: u16,
    a: usize,
    receiver: &Receiver,
) -> (State, Answer) {
    let share = may_open(&state, store, slot, a).and_then(|rows| Ok(receiver.share(&rows)?));
    opened(state, store, slot, terminal, a, share)
}

/// The room cleared and the head open, where there is a share.
fn opened(
    state: State,
    store: &mut [u8],
    slot: usize,
    terminal: u16,
    a: usize,
    share: Result<usize, Refusal>,
) -> (State, Answer) {
    let mut after = state;
    let answer = share.map(|share| {
        state.room_mut(store, slot).fill(UNHEARD);
        after.heads[slot] = Head { open: true, terminal, a, share };
    });
    (after, answer)
}

/// What every Open asks. Gives the rows of each code block.
fn may_open(state: &State, store: &[u8], slot: usize, a: usize) -> Result<Vec<usize>, Refusal> {
    state.check_with(store)?;
    state.check_slot(slot)?;
    if state.heads[slot].open {
        return Err(ALREADY_OPEN.into());
    }
    let segmentation = segmentation_of(a)?;
    if segmentation.blocks > state.m {
        return Err(TOO_MANY_BLOCKS.into());
    }
    Ok(rows_of(&segmentation))
}

/// Receive: the bits go one by one to the places Build would have taken them from. Gives how
/// many data places lack a bit afterwards, disputed ones among them.
#[allow(clippy::too_many_arguments)]
pub fn receive(
    state: State,
    store: &mut [u8],
    slot: usize,
    terminal: u16,
    q: usize,
    n: usize,
    version: usize,
    bits: &[u8],
) -> (State, Result<usize, Refusal>) {
    let answer = may_receive(&state, store, slot, terminal, (q, n, version), bits);
    let answer = answer.map(|segmentation| {
        let room = state.room_mut(store, slot);
        let share = state.heads[slot].share;
        let shares = rate::shares(bits.len(), n * q, segmentation.blocks);
        let mut rest = bits;
        for (r, e_length) in shares.into_iter().enumerate() {
            let (stretch, later) = rest.split_at(e_length);
            let part = &mut room[r * ROOM_OF_BLOCK..][..ROOM_OF_BLOCK];
            for (place, bit) in walked(&segmentation, r, share, version, e_length).into_iter().zip(stretch) {
                part[place] = met(part[place], *bit);
            }
            rest = later;
        }
        lacking(&segmentation, room)
    });
    (state, answer)
}

/// What a place that kept `old` keeps after a bit, 02 E2.
fn met(old: u8, bit: u8) -> u8 {
    match old {
        0 | 1 if old == bit => bit,
        0 | 1 => DISPUTED,
        DISPUTED => DISPUTED,
        _ => bit,
    }
}

fn may_receive(
    state: &State,
    store: &[u8],
    slot: usize,
    terminal: u16,
    (q, n, version): (usize, usize, usize),
    bits: &[u8],
) -> Result<Segmentation, Refusal> {
    state.check_with(store)?;
    let segmentation = state.own_slot(slot, terminal)?;
    if !allocation_fits(q, n, bits.len(), segmentation.blocks) {
        return Err(BAD_ALLOCATION.into());
    }
    if version > 3 {
        return Err(BAD_VERSION.into());
    }
    if bits.iter().any(|bit| *bit > 1) {
        return Err(BAD_BIT.into());
    }
    Ok(segmentation)
}

/// Read: A bits into the first A bytes of the output, on the checks of the code blocks, where
/// there are several, and on the transport check.
pub fn read(state: State, store: &[u8], slot: usize, terminal: u16, output: &mut [u8]) -> (State, Answer) {
    let block = released(&state, store, slot, terminal, output.len());
    (state, block.map(|block| output[..block.len()].copy_from_slice(&block)))
}

/// The block that Read may give.
fn released(
    state: &State,
    store: &[u8],
    slot: usize,
    terminal: u16,
    output_length: usize,
) -> Result<Vec<u8>, Refusal> {
    state.check_with(store)?;
    let segmentation = state.own_slot(slot, terminal)?;
    let a = state.heads[slot].a;
    if output_length < a {
        return Err(SHORT_OUTPUT.into());
    }
    let room = state.room(store, slot);
    match lacking(&segmentation, room) {
        0 => {}
        count => return Err(Refusal::Lacking(count)),
    }
    let mut b = Vec::new();
    for r in 0..segmentation.blocks {
        let heard = data_places(&segmentation, r).into_iter().map(|place| room[place]);
        let mut c = vec![0; segmentation.filler_in(r)];
        c.extend(heard);
        let parity = c.split_off(c.len() - segmentation.parity);
        if segmentation.blocks > 1 && parity != crc::parity(&c, &crc::CRC24B) {
            return Err(Refusal::CodeBlockWrong(r));
        }
        b.extend(&c[segmentation.filler_in(r)..]);
    }
    let parity = b.split_off(a);
    if parity != crc::parity(&b, &crc::CRC24A) {
        return Err(CHECK_WRONG.into());
    }
    Ok(b)
}

/// Streams: three runs of D bytes, 2 where nothing was heard or the place is disputed, 0 for
/// absent filler.
pub fn streams(
    state: State,
    store: &[u8],
    slot: usize,
    terminal: u16,
    code_block: usize,
    output: &mut [u8],
) -> (State, Answer) {
    let runs = heard_streams(&state, store, slot, terminal, code_block, output.len());
    (state, runs.map(|runs| output[..runs.len()].copy_from_slice(&runs)))
}

fn heard_streams(
    state: &State,
    store: &[u8],
    slot: usize,
    terminal: u16,
    code_block: usize,
    output_length: usize,
) -> Result<Vec<u8>, Refusal> {
    state.check_with(store)?;
    let segmentation = state.own_slot(slot, terminal)?;
    if code_block >= segmentation.blocks {
        return Err(BAD_CODE_BLOCK.into());
    }
    let d = segmentation.size(code_block) + 4;
    if output_length < 3 * d {
        return Err(SHORT_OUTPUT.into());
    }
    let part = &state.room(store, slot)[code_block * ROOM_OF_BLOCK..];
    let mut runs = vec![0; 3 * d];
    for (place, label) in labelled_circle(&segmentation, code_block).into_iter().enumerate() {
        if let Some((stream, stream_place)) = label {
            runs[stream * d + stream_place] = part[place].min(UNHEARD);
        }
    }
    Ok(runs)
}

/// Close: the head becomes closed. There is no store to write.
pub fn close(state: State, slot: usize, terminal: u16) -> (State, Answer) {
    let answer = state.check().and_then(|()| state.own_slot(slot, terminal).map(|_| ()));
    let mut after = state;
    if answer.is_ok() {
        after.heads[slot] = Head::default();
    }
    (after, answer)
}

impl State {
    /// 13: S or M out of range, or a broken head below S.
    fn check(&self) -> Answer {
        let in_range = (1..=SLOTS_MAX).contains(&self.s) && (1..=BLOCKS_MAX).contains(&self.m);
        if !in_range || self.heads[..self.s].iter().any(|head| self.is_broken(head)) {
            return refuse(BAD_STATE);
        }
        Ok(())
    }

    fn is_broken(&self, head: &Head) -> bool {
        let fits = |segmentation: Segmentation| {
            let long_enough = |rows: &usize| n_cb(head.share, *rows) >= rate::COLUMNS * rows;
            segmentation.blocks <= self.m && rows_of(&segmentation).iter().all(long_enough)
        };
        head.open && !segmentation_of(head.a).map_or(false, fits)
    }

    /// 13, then 5 for the store.
    fn check_with(&self, store: &[u8]) -> Answer {
        self.check()?;
        if store.len() < self.s * self.m * ROOM_OF_BLOCK {
            return refuse(SHORT_STORE);
        }
        Ok(())
    }

    /// 6.
    fn check_slot(&self, slot: usize) -> Answer {
        if slot >= self.s {
            return refuse(BAD_SLOT);
        }
        Ok(())
    }

    /// 6, 8, 9: the slot is open for this terminal. Gives what its A is cut into.
    fn own_slot(&self, slot: usize, terminal: u16) -> Result<Segmentation, Refusal> {
        self.check_slot(slot)?;
        let head = &self.heads[slot];
        if !head.open {
            return Err(CLOSED.into());
        }
        if head.terminal != terminal {
            return Err(OTHER_TERMINAL.into());
        }
        Ok(segmentation_of(head.a)?)
    }

    fn room<'a>(&self, store: &'a [u8], slot: usize) -> &'a [u8] {
        let length = self.m * ROOM_OF_BLOCK;
        &store[slot * length..][..length]
    }

    fn room_mut<'a>(&self, store: &'a mut [u8], slot: usize) -> &'a mut [u8] {
        let length = self.m * ROOM_OF_BLOCK;
        &mut store[slot * length..][..length]
    }
}

/// A stream's number and a place in it.
type Label = (usize, usize);

/// The circle of code block r, each place with the stream place it holds, if any.
fn labelled_circle(segmentation: &Segmentation, r: usize) -> Vec<Option<Label>> {
    let d = segmentation.size(r) + 4;
    let filler = segmentation.filler_in(r);
    let present = |stream, place| stream == 2 || place >= filler;
    let stream = |i| (0..d).map(|place| present(i, place).then_some((i, place))).collect();
    rate::circle(&[0, 1, 2].map(stream))
}

/// The circle places of code block r in the order of the walk, the circle being cut where the
/// code block's share of the soft buffer ends.
pub fn walked(
    segmentation: &Segmentation,
    r: usize,
    share: usize,
    version: usize,
    e_length: usize,
) -> Vec<usize> {
    let circle = cut_circle(segmentation, r, share);
    let rows = rate::rows(segmentation.size(r) + 4);
    rate::walk(&circle, rate::start_in(circle.len(), rows, version), e_length)
}

/// The bits that one turn round the circle of code block r sends.
pub fn turn(segmentation: &Segmentation, r: usize, share: usize) -> usize {
    cut_circle(segmentation, r, share).iter().flatten().count()
}

/// The places of code block r before its cut, those without a bit left empty.
fn cut_circle(segmentation: &Segmentation, r: usize, share: usize) -> Vec<Option<usize>> {
    let labels = labelled_circle(segmentation, r).into_iter().enumerate();
    let cut = n_cb(share, rate::rows(segmentation.size(r) + 4));
    labels.take(cut).map(|(place, label)| label.map(|_| place)).collect()
}

/// Where in the room the data places of code block r are, in the order of stream 0.
pub fn data_places(segmentation: &Segmentation, r: usize) -> Vec<usize> {
    let (filler, k) = (segmentation.filler_in(r), segmentation.size(r));
    let mut places = vec![0; k];
    for (place, label) in labelled_circle(segmentation, r).into_iter().enumerate() {
        if let Some((0, data)) = label {
            if data < k {
                places[data] = r * ROOM_OF_BLOCK + place;
            }
        }
    }
    places.split_off(filler)
}

/// How many data places lack a bit.
fn lacking(segmentation: &Segmentation, room: &[u8]) -> usize {
    let places = (0..segmentation.blocks).flat_map(|r| data_places(segmentation, r));
    places.filter(|place| room[*place] > 1).count()
}
