//! The slots that hear the cars, with their state and their rooms.

use crate::calls::{pack, sizes, unpack, Receiver};
use crate::library;
use crate::{Refusal, PACKED_PER_BLOCK, ROOM_PER_BLOCK, STATE_LEN};
use std::fmt::{self, Debug, Formatter};

/// The slots of a cell, each with its room. A slot is opened for one terminal with the length of its block, receives,
/// is read, and is closed; see the crate's example.
///
/// The yard owns the state and the rooms, and every call is lent both as the last one left them. Calls that change
/// neither, [`Yard::read`] and [`Yard::streams`], may run on several threads at once.
///
/// The rooms have a place a byte, or, for a unit with less memory, four ([`Yard::new_packed`], [`Yard::pack`]): the
/// answers are the same.
#[derive(Clone)]
pub struct Yard {
    state: [u8; STATE_LEN],
    rooms: Vec<u8>,
    packed: bool,
}

/// Where the numbers of the state stand: S and M, and the four of a slot's head behind them.
const SLOTS: usize = 0;
const BLOCKS: usize = 1;
const HEADS: usize = 2;
const HEAD: usize = 4;
const LENGTH: usize = 2;
const SHARE: usize = 3;

impl Yard {
    /// A yard of `slots` slots, 1 to 8, all closed, with room for `blocks` code blocks each, 1 to 5.
    /// Refused with 13 out of that range.
    ///
    /// ```
    /// use zemrukste::{Refusal, Yard};
    /// assert!(Yard::new(8, 5).is_ok());
    /// assert_eq!(Yard::new(9, 1).err(), Some(Refusal::BadShape));
    /// ```
    pub fn new(slots: usize, blocks: usize) -> Result<Yard, Refusal> {
        Yard::in_form(slots, blocks, false)
    }

    /// The same with packed rooms, a quarter the size.
    pub fn new_packed(slots: usize, blocks: usize) -> Result<Yard, Refusal> {
        Yard::in_form(slots, blocks, true)
    }

    fn in_form(slots: usize, blocks: usize, packed: bool) -> Result<Yard, Refusal> {
        let mut state = [0; STATE_LEN];
        let number = unsafe { library::zemrukste_new(state.as_mut_ptr(), state.len(), slots, blocks) };
        Refusal::answer(number, 0)?;
        Ok(Yard { state, rooms: vec![0; slots * blocks * bytes_per_block(packed)], packed })
    }

    /// Changes every room into its packed form; where they are packed already nothing changes. What was heard stays.
    ///
    /// ```
    /// # let mut yard = zemrukste::Yard::new(2, 1)?;
    /// yard.open(0, 7, 16)?;
    /// yard.pack();
    /// assert!(yard.is_packed());
    /// assert_eq!(yard.read(0, 7, &mut [0; 16]), Err(zemrukste::Refusal::Lacking(40)));
    /// # Ok::<(), zemrukste::Refusal>(())
    /// ```
    pub fn pack(&mut self) {
        self.change(true);
    }

    /// Changes every room back from its packed form.
    pub fn unpack(&mut self) {
        self.change(false);
    }

    /// Whether the rooms are packed.
    pub fn is_packed(&self) -> bool {
        self.packed
    }

    /// The rooms as they stand, slot after slot, for a look at them alone.
    pub fn rooms(&self) -> &[u8] {
        &self.rooms
    }

    fn change(&mut self, packed: bool) {
        if packed == self.packed {
            return;
        }
        let (slots, blocks) = (self.number(SLOTS), self.number(BLOCKS));
        let (before, after) = (blocks * bytes_per_block(self.packed), blocks * bytes_per_block(packed));
        let mut rooms = vec![0; slots * after];
        let change = if packed { pack } else { unpack };
        for (from, to) in self.rooms.chunks_exact(before).zip(rooms.chunks_exact_mut(after)) {
            change(blocks, from, to).expect("a yard's rooms are whole");
        }
        (self.rooms, self.packed) = (rooms, packed);
    }

    /// Opens a slot for a terminal with a block of `a` bits; its room is cleared.
    /// Refusals in their order: 6, 7, 1, 10.
    ///
    /// ```
    /// # let mut yard = zemrukste::Yard::new(1, 1)?;
    /// yard.open(0, 7, 16)?;
    /// assert_eq!(yard.open(0, 9, 16), Err(zemrukste::Refusal::OpenAlready));
    /// # Ok::<(), zemrukste::Refusal>(())
    /// ```
    pub fn open(&mut self, slot: usize, terminal: u16, a: usize) -> Result<(), Refusal> {
        let open = if self.packed { library::zemrukste_open_packed } else { library::zemrukste_open };
        let (state, rooms) = (&mut self.state, &mut self.rooms);
        let number = unsafe {
            let (at, to) = (state.as_mut_ptr(), rooms.as_mut_ptr());
            open(at, state.len(), slot, terminal, a, to, rooms.len())
        };
        Refusal::answer(number, 0)
    }

    /// The same for a downlink, for a receiver whose soft buffer is limited; gives each code block's share of that
    /// buffer, at which its circle is cut where it is not shorter already.
    /// Refusals in their order: 6, 7, 1, 10, 21.
    ///
    /// ```
    /// # let mut yard = zemrukste::Yard::new(1, 1)?;
    /// let unit = zemrukste::Receiver { release: 8, mimo: 1, processes: 8, soft: 512, layers: 1 };
    /// assert_eq!(yard.open_down(0, 7, 16, &unit), Ok(64));
    /// # Ok::<(), zemrukste::Refusal>(())
    /// ```
    pub fn open_down(&mut self, slot: usize, terminal: u16, a: usize, receiver: &Receiver) -> Result<usize, Refusal> {
        let open_down = if self.packed { library::zemrukste_open_down_packed } else { library::zemrukste_open_down };
        let Receiver { release, mimo, processes, soft, layers } = *receiver;
        let (state, rooms) = (&mut self.state, &mut self.rooms);
        let number = unsafe {
            let (at, to) = (state.as_mut_ptr(), rooms.as_mut_ptr());
            let length = state.len();
            open_down(at, length, slot, terminal, a, release, mimo, processes, soft, layers, to, rooms.len())
        };
        Refusal::answer(number, 0).map(|()| self.head(slot, SHARE))
    }

    /// Puts the bits of one transmission where [`build`](crate::build) ([`build_down`](crate::build_down)) of the
    /// opened block would have taken them from; gives how many data places lack a bit now. A place that has heard
    /// both a 0 and a 1 since the opening is disputed and lacks one.
    /// Refusals in their order: 6, 8, 9, 3, 4, 2.
    ///
    /// ```
    /// # let mut yard = zemrukste::Yard::new(1, 1)?;
    /// yard.open(0, 7, 1)?;
    /// assert_eq!(yard.receive(0, 7, 2, 1, 2, &[0, 1]), Ok(25));
    /// assert_eq!(yard.receive(0, 7, 2, 1, 2, &[0, 2]), Err(zemrukste::Refusal::BadBit));
    /// # Ok::<(), zemrukste::Refusal>(())
    /// ```
    pub fn receive(
        &mut self,
        slot: usize,
        terminal: u16,
        q: usize,
        n: usize,
        version: usize,
        bits: &[u8],
    ) -> Result<usize, Refusal> {
        let receive = if self.packed { library::zemrukste_receive_packed } else { library::zemrukste_receive };
        let (state, rooms) = (&self.state, &mut self.rooms);
        let (from, g) = (bits.as_ptr(), bits.len());
        let mut count = 0;
        let number = unsafe {
            let (at, to) = (state.as_ptr(), rooms.as_mut_ptr());
            let (length, room) = (state.len(), rooms.len());
            receive(at, length, slot, terminal, q, n, version, from, g, to, room, &mut count)
        };
        Refusal::answer(number, count).map(|()| count)
    }

    /// The block of an open slot, over the first A bytes of `out`; the slot stays open.
    /// Refusals in their order: 6, 8, 9, 5, 11, 16, 12.
    ///
    /// ```
    /// # let mut yard = zemrukste::Yard::new(1, 1)?;
    /// yard.open(0, 7, 1)?;
    /// assert_eq!(yard.read(0, 7, &mut [0; 1]), Err(zemrukste::Refusal::Lacking(25)));
    /// # Ok::<(), zemrukste::Refusal>(())
    /// ```
    pub fn read<'o>(&self, slot: usize, terminal: u16, out: &'o mut [u8]) -> Result<&'o [u8], Refusal> {
        let read = if self.packed { library::zemrukste_read_packed } else { library::zemrukste_read };
        let (state, rooms) = (&self.state, &self.rooms);
        let mut count = 0;
        let number = unsafe {
            let (at, from, to) = (state.as_ptr(), rooms.as_ptr(), out.as_mut_ptr());
            let (length, room) = (state.len(), rooms.len());
            read(at, length, slot, terminal, from, room, to, out.len(), &mut count)
        };
        Refusal::answer(number, count).map(|()| &out[..self.head(slot, LENGTH)])
    }

    /// The three streams of code block `block`, counted from 0, as they were heard, for a decoder: 0 or 1 for a bit
    /// that was heard, 2 for a place that lacks one, 0 for filler. They lie over the front of `out`; at most
    /// [`STREAMS_MAX`](crate::STREAMS_MAX) bytes are needed.
    /// Refusals in their order: 6, 8, 9, 14, 5.
    ///
    /// ```
    /// # let mut yard = zemrukste::Yard::new(1, 1)?;
    /// yard.open(0, 7, 16)?;
    /// let mut out = [0; zemrukste::STREAMS_MAX];
    /// assert_eq!(yard.streams(0, 7, 0, &mut out)?, [[2; 44]; 3]);
    /// assert_eq!(yard.streams(0, 7, 1, &mut out), Err(zemrukste::Refusal::NoCodeBlock));
    /// # Ok::<(), zemrukste::Refusal>(())
    /// ```
    pub fn streams<'o>(
        &self,
        slot: usize,
        terminal: u16,
        block: usize,
        out: &'o mut [u8],
    ) -> Result<[&'o [u8]; 3], Refusal> {
        let streams = if self.packed { library::zemrukste_streams_packed } else { library::zemrukste_streams };
        let (state, rooms) = (&self.state, &self.rooms);
        let number = unsafe {
            let (at, from, to) = (state.as_ptr(), rooms.as_ptr(), out.as_mut_ptr());
            let (length, room) = (state.len(), rooms.len());
            streams(at, length, slot, terminal, block, from, room, to, out.len())
        };
        Refusal::answer(number, 0)?;
        let d = sizes(self.head(slot, LENGTH))?.size(block) + 4;
        Ok([&out[..d], &out[d..2 * d], &out[2 * d..3 * d]])
    }

    /// Closes a slot for its terminal. Refusals in their order: 6, 8, 9.
    ///
    /// ```
    /// # let mut yard = zemrukste::Yard::new(1, 1)?;
    /// yard.open(0, 7, 16)?;
    /// yard.close(0, 7)?;
    /// assert_eq!(yard.close(0, 7), Err(zemrukste::Refusal::Closed));
    /// # Ok::<(), zemrukste::Refusal>(())
    /// ```
    pub fn close(&mut self, slot: usize, terminal: u16) -> Result<(), Refusal> {
        let state = &mut self.state;
        let number = unsafe { library::zemrukste_close(state.as_mut_ptr(), state.len(), slot, terminal) };
        Refusal::answer(number, 0)
    }

    /// A number of a slot's head.
    fn head(&self, slot: usize, field: usize) -> usize {
        self.number(HEADS + HEAD * slot + field)
    }

    /// A number of the state: eight bytes, the lowest first.
    fn number(&self, at: usize) -> usize {
        self.state[8 * at..8 * at + 8].iter().rev().fold(0, |value, byte| 256 * value + usize::from(*byte))
    }
}

/// Bytes of a room for each code block, in either form.
fn bytes_per_block(packed: bool) -> usize {
    if packed {
        PACKED_PER_BLOCK
    } else {
        ROOM_PER_BLOCK
    }
}

/// S, M and the form: the rooms are long.
impl Debug for Yard {
    fn fmt(&self, f: &mut Formatter) -> fmt::Result {
        let (slots, blocks) = (self.number(SLOTS), self.number(BLOCKS));
        let mut shown = f.debug_struct("Yard");
        shown.field("slots", &slots).field("blocks", &blocks).field("packed", &self.packed).finish_non_exhaustive()
    }
}
