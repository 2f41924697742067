//! The proved coding core for Rust: codewords of the uplink shared channel (3GPP TS 36.212 V11.5.1), channel reports
//! ahead of them, codewords for a downlink's receiver with a limited soft buffer, control messages, and the slots
//! that hear the cars. `include/zemrukste.h` says the same to C, in more words.
//!
//! A bit is one byte, 0 or 1. What a call writes it writes over the front of a slice that the caller lends, and gives
//! that front back; what does not fit is a [`Refusal`], and then nothing was written. None panics, and none
//! allocates but those that make a [`Yard`] or change its form.
//!
//! A [`Yard`] keeps the slots' state and their rooms, and lends both to each call. So what is proved of a history of
//! calls holds for every yard: a block is released exactly when every data bit of it was heard since its slot was
//! opened for that terminal, and none of another's.
//!
//! ```
//! use zemrukste::{build, Refusal, Yard};
//!
//! // One slot for one code block; car 7 has it, with a limit of 16 bits.
//! let mut yard = Yard::new(1, 1)?;
//! yard.open(0, 7, 16)?;
//!
//! // A repeat cut short brings parity alone: nothing is released.
//! let limit = [0, 0, 0, 0, 0, 0, 0, 0, 0, 1, 0, 1, 0, 0, 0, 0];
//! let mut sent = [0; 132];
//! assert_eq!(yard.receive(0, 7, 2, 1, 2, build(&limit, 2, 1, 2, 64, &mut sent)?), Ok(40));
//! let mut out = [0; 16];
//! assert_eq!(yard.read(0, 7, &mut out), Err(Refusal::Lacking(40)));
//!
//! // A whole transmission does, for car 7 alone.
//! assert_eq!(yard.receive(0, 7, 2, 1, 0, build(&limit, 2, 1, 0, 132, &mut sent)?), Ok(0));
//! assert_eq!(yard.read(0, 9, &mut out), Err(Refusal::OtherTerminal));
//! assert_eq!(yard.read(0, 7, &mut out)?, limit);
//! yard.close(0, 7)?;
//! # Ok::<(), Refusal>(())
//! ```

mod calls;
mod library;
mod refusal;
mod yard;

pub use calls::{
    build, build_down, build_two, control_build, control_whose, pack, report_build, report_part, sizes, unpack,
    Receiver, Sizes,
};
pub use refusal::Refusal;
pub use yard::Yard;

/// The largest block, in bits; a block has at least one.
pub const BLOCK_MAX: usize = 30_576;

/// The largest codeword, in bits.
pub const CODEWORD_MAX: usize = 172_800;

/// Bytes that a room has for each of its code blocks.
pub const ROOM_PER_BLOCK: usize = 18_528;

/// Bytes that a packed room has for each of its code blocks.
pub const PACKED_PER_BLOCK: usize = 4_632;

/// The most bytes that [`Yard::streams`] writes.
pub const STREAMS_MAX: usize = 3 * (6_144 + 4);

/// Bytes in which the library tells the sizes.
const SIZES_LEN: usize = 24;

/// Bytes of the slots' state.
const STATE_LEN: usize = 272;
