//! Rooms a quarter the size (02, E7): four places in a byte, the first in the top two
//! bits; and the change of form of one room, both ways.

use crate::codeword::SHORT_OUTPUT;
use crate::older::Arrays;
use crate::slots::{BAD_STATE, BLOCKS_MAX, ROOM_OF_BLOCK, UNHEARD};

/// Bytes of a packed room for each code block.
pub const PACKED_OF_BLOCK: usize = ROOM_OF_BLOCK / 4;

/// Four places in a byte: v0 * 64 + v1 * 16 + v2 * 4 + v3. A value above 3 becomes 2.
pub fn packed(places: [u8; 4]) -> u8 {
    let [v0, v1, v2, v3] = places.map(|value| if value > 3 { UNHEARD } else { value });
    v0 * 64 + v1 * 16 + v2 * 4 + v3
}

/// The four places of a byte, the first from its top two bits.
pub fn unpacked(byte: u8) -> [u8; 4] {
    [byte >> 6, byte >> 4 & 3, byte >> 2 & 3, byte & 3]
}

/// From a room of M code blocks to its packed form.
pub fn pack(m: usize, from: &[u8], to: &mut [u8]) -> Result<(), u8> {
    let (from, to) = lent(m, from, to, ROOM_OF_BLOCK, PACKED_OF_BLOCK)?;
    for (byte, places) in to.iter_mut().zip(from.arrays::<4>().0) {
        *byte = packed(*places);
    }
    Ok(())
}

/// From a packed room of M code blocks to the room.
pub fn unpack(m: usize, from: &[u8], to: &mut [u8]) -> Result<(), u8> {
    let (from, to) = lent(m, from, to, PACKED_OF_BLOCK, ROOM_OF_BLOCK)?;
    for (byte, places) in from.iter().zip(to.arrays_mut::<4>().0) {
        *places = unpacked(*byte);
    }
    Ok(())
}

/// The room and the room to be of two buffers: M out of range is 13, then a short buffer 5.
fn lent<'a>(
    m: usize,
    from: &'a [u8],
    to: &'a mut [u8],
    read: usize,
    written: usize,
) -> Result<(&'a [u8], &'a mut [u8]), u8> {
    if !(1..=BLOCKS_MAX).contains(&m) {
        return Err(BAD_STATE);
    }
    let from = from.get(..m * read).ok_or(SHORT_OUTPUT)?;
    let to = to.get_mut(..m * written).ok_or(SHORT_OUTPUT)?;
    Ok((from, to))
}
