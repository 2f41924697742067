//! The calls that keep nothing between them.

use crate::library;
use crate::{Refusal, PACKED_PER_BLOCK, ROOM_PER_BLOCK, SIZES_LEN};

/// The receiver of a downlink, whose soft buffer is limited (clause 5.1.4.1.2).
#[derive(Clone, Copy, Debug, PartialEq, Eq)]
pub struct Receiver {
    /// 11: N_IR is divided by K_C; 8: it is not.
    pub release: usize,
    /// K_MIMO: 2 for transmission modes 3, 4, 8, 9 and 10, else 1.
    pub mimo: usize,
    /// M_DL_HARQ, at least 1; those past 8 do not count.
    pub processes: usize,
    /// N_soft, the receiver's soft channel bits.
    pub soft: usize,
    /// The most spatial layers that the receiver supports.
    pub layers: usize,
}

/// How a block is cut into code blocks.
#[derive(Clone, Copy, Debug, PartialEq, Eq)]
pub struct Sizes {
    /// C, the number of code blocks.
    pub blocks: usize,
    /// C+, the number of long ones; they come last.
    pub longs: usize,
    /// K+, the size of a long one.
    pub long: usize,
    /// C-, the number of short ones.
    pub shorts: usize,
    /// K-, the size of a short one, 0 where C is 1.
    pub short: usize,
    /// F, the number of filler bits.
    pub filler: usize,
}

impl Sizes {
    /// The size of code block `block`, counted from 0.
    pub fn size(&self, block: usize) -> usize {
        if block < self.shorts {
            self.short
        } else {
            self.long
        }
    }
}

/// The codeword of one transport block: CRC24A, code blocks with CRC24B, turbo code, rate matching, concatenation.
/// `block` has the A bits, one a byte; `q` is 2, 4 or 6 bits a symbol, `n` 1 to 4 layers, `version` 0 to 3, `g` the
/// codeword's bits. The codeword is written over the first `g` bytes of `out` and given back; the others stay.
///
/// ```
/// let mut out = [9; 30];
/// let codeword = zemrukste::build(&[1], 2, 1, 0, 24, &mut out)?;
/// assert_eq!(codeword, [0, 1, 1, 1, 0, 1, 0, 1, 1, 0, 1, 0, 0, 1, 1, 0, 0, 1, 1, 1, 1, 0, 0, 1]);
/// assert_eq!(out[24..], [9; 6]);
/// assert_eq!(zemrukste::build(&[1], 2, 1, 4, 24, &mut out), Err(zemrukste::Refusal::BadVersion));
/// # Ok::<(), zemrukste::Refusal>(())
/// ```
pub fn build<'o>(
    block: &[u8],
    q: usize,
    n: usize,
    version: usize,
    g: usize,
    out: &'o mut [u8],
) -> Result<&'o [u8], Refusal> {
    let (to, room) = (out.as_mut_ptr(), out.len());
    let number = unsafe { library::zemrukste_build(block.as_ptr(), block.len(), q, n, version, g, to, room) };
    written(number, g, out)
}

/// The codeword of a block that lies in two slices, either of which may be empty: that of the header's bits followed
/// by the payload's. No joined copy is made.
///
/// ```
/// let (mut apart, mut joined) = ([0; 24], [0; 24]);
/// let in_two = zemrukste::build_two(&[1, 0, 1], &[1, 1, 0, 0, 1], 2, 1, 0, 24, &mut apart)?;
/// assert_eq!(in_two, zemrukste::build(&[1, 0, 1, 1, 1, 0, 0, 1], 2, 1, 0, 24, &mut joined)?);
/// # Ok::<(), zemrukste::Refusal>(())
/// ```
pub fn build_two<'o>(
    header: &[u8],
    payload: &[u8],
    q: usize,
    n: usize,
    version: usize,
    g: usize,
    out: &'o mut [u8],
) -> Result<&'o [u8], Refusal> {
    let (to, room) = (out.as_mut_ptr(), out.len());
    let (first, second) = (header.as_ptr(), payload.as_ptr());
    let number =
        unsafe { library::zemrukste_build_two(first, header.len(), second, payload.len(), q, n, version, g, to, room) };
    written(number, g, out)
}

/// The codeword of one block of the downlink shared channel, for a receiver whose soft buffer is limited: each code
/// block's circle is cut at N_cb places.
///
/// ```
/// use zemrukste::{build_down, Receiver, Refusal};
/// let unit = Receiver { release: 8, mimo: 1, processes: 8, soft: 512, layers: 1 };
/// let mut out = [0; 24];
/// assert_eq!(build_down(&[1], &unit, 2, 1, 1, 24, &mut out)?[..8], [1, 1, 0, 1, 0, 0, 1, 1]);
/// let smaller = Receiver { soft: 511, ..unit };
/// assert_eq!(build_down(&[1], &smaller, 2, 1, 1, 24, &mut out), Err(Refusal::BadBuffer));
/// # Ok::<(), Refusal>(())
/// ```
pub fn build_down<'o>(
    block: &[u8],
    receiver: &Receiver,
    q: usize,
    n: usize,
    version: usize,
    g: usize,
    out: &'o mut [u8],
) -> Result<&'o [u8], Refusal> {
    let Receiver { release, mimo, processes, soft, layers } = *receiver;
    let (from, a) = (block.as_ptr(), block.len());
    let (to, room) = (out.as_mut_ptr(), out.len());
    let number = unsafe {
        library::zemrukste_build_down(from, a, release, mimo, processes, soft, layers, q, n, version, g, to, room)
    };
    written(number, g, out)
}

/// How a block of `a` bits is cut into code blocks.
///
/// ```
/// let sizes = zemrukste::sizes(6121)?;
/// assert_eq!((sizes.blocks, sizes.long, sizes.short, sizes.filler), (2, 3136, 3072, 15));
/// assert_eq!(zemrukste::sizes(30577), Err(zemrukste::Refusal::BadLength));
/// # Ok::<(), zemrukste::Refusal>(())
/// ```
pub fn sizes(a: usize) -> Result<Sizes, Refusal> {
    let mut out = [0; SIZES_LEN];
    Refusal::answer(unsafe { library::zemrukste_sizes(a, out.as_mut_ptr(), out.len()) }, 0)?;
    let number =
        |at: usize| out[4 * at..4 * at + 4].iter().rev().fold(0, |value, byte| 256 * value + usize::from(*byte));
    Ok(Sizes {
        blocks: number(0),
        longs: number(1),
        long: number(2),
        shorts: number(3),
        short: number(4),
        filler: number(5),
    })
}

/// A channel report of 1 to 11 bits ahead of a block: `n * control` control bits, then the block's codeword of `g`
/// bits as [`build`] gives it, over the front of `out`.
///
/// ```
/// let (mut out, mut alone) = ([0; 32 + 132], [0; 132]);
/// let limit = [0, 0, 0, 0, 0, 0, 0, 0, 0, 1, 0, 1, 0, 0, 0, 0];
/// let mut run = zemrukste::report_build(&[1, 0, 1, 1], 32, &limit, 2, 1, 0, 132, &mut out)?.to_vec();
/// assert_eq!(run[32..], *zemrukste::build(&limit, 2, 1, 0, 132, &mut alone)?);
///
/// run[7] ^= 1;
/// let mut report = [0; 4];
/// assert_eq!(zemrukste::report_part(16, 2, 1, 4, 32, &run, &mut report)?, [1, 0, 1, 1]);
/// # Ok::<(), zemrukste::Refusal>(())
/// ```
#[allow(clippy::too_many_arguments)]
pub fn report_build<'o>(
    report: &[u8],
    control: usize,
    block: &[u8],
    q: usize,
    n: usize,
    version: usize,
    g: usize,
    out: &'o mut [u8],
) -> Result<&'o [u8], Refusal> {
    let (told, o) = (report.as_ptr(), report.len());
    let (from, a) = (block.as_ptr(), block.len());
    let (to, room) = (out.as_mut_ptr(), out.len());
    let number = unsafe { library::zemrukste_report_build(told, o, control, from, a, q, n, version, g, to, room) };
    Refusal::answer(number, 0)?;
    Ok(&out[..n * control + g])
}

/// The report of `o` bits of a received run that carries a block of `a` bits: the one whose control bits differ from
/// the received ones in the fewest places, if only one is nearest. The data is `received[n * control..]`.
/// [`report_build`] has an example.
pub fn report_part<'o>(
    a: usize,
    q: usize,
    n: usize,
    o: usize,
    control: usize,
    received: &[u8],
    out: &'o mut [u8],
) -> Result<&'o [u8], Refusal> {
    let (from, length) = (received.as_ptr(), received.len());
    let (to, room) = (out.as_mut_ptr(), out.len());
    let number = unsafe { library::zemrukste_report_part(a, q, n, o, control, from, length, to, room) };
    written(number, o, out)
}

/// A downlink control message of `e` bits, 1 to 4,096, from a payload of 1 to 64 bits: CRC16 mixed with the terminal
/// number, tail biting convolutional code, rate matching.
///
/// ```
/// let mut out = [0; 72];
/// let message = zemrukste::control_build(&[1, 0, 1, 1, 0, 0, 1, 0], 9, 72, &mut out)?;
/// assert_eq!(message[..8], [0, 1, 0, 0, 1, 1, 0, 0]);
/// assert_eq!(zemrukste::control_build(&[], 9, 72, &mut out), Err(zemrukste::Refusal::BadPayload));
/// # Ok::<(), zemrukste::Refusal>(())
/// ```
pub fn control_build<'o>(payload: &[u8], terminal: u16, e: usize, out: &'o mut [u8]) -> Result<&'o [u8], Refusal> {
    let (from, length) = (payload.as_ptr(), payload.len());
    let number = unsafe { library::zemrukste_control_build(from, length, terminal, e, out.as_mut_ptr(), out.len()) };
    written(number, e, out)
}

/// Whose a received control message is: `run` is payload and check bits as the decoder gives them, 17 to 80. Every
/// run of that length fits one terminal, a damaged one as well: act on it only if the number is the car's own.
///
/// ```
/// let run = [1, 0, 1, 1, 0, 0, 1, 0, 1, 0, 0, 0, 0, 1, 1, 1, 1, 0, 0, 1, 0, 0, 0, 0];
/// assert_eq!(zemrukste::control_whose(&run), Ok(9));
/// assert_eq!(zemrukste::control_whose(&run[..16]), Err(zemrukste::Refusal::BadPayload));
/// ```
pub fn control_whose(run: &[u8]) -> Result<u16, Refusal> {
    let mut terminal = 0;
    let number = unsafe { library::zemrukste_control_whose(run.as_ptr(), run.len(), &mut terminal) };
    Refusal::answer(number, 0).map(|()| terminal)
}

/// The packed form of a room of `m` code blocks, four places a byte, the first in the top two bits: at least
/// `m * ROOM_PER_BLOCK` bytes become `m * PACKED_PER_BLOCK`.
///
/// ```
/// use zemrukste::{pack, unpack, PACKED_PER_BLOCK, ROOM_PER_BLOCK};
/// let mut room = [2; ROOM_PER_BLOCK];
/// room[..4].copy_from_slice(&[0, 1, 2, 3]);
/// let (mut small, mut back) = ([0; PACKED_PER_BLOCK], [0; ROOM_PER_BLOCK]);
/// let packed = pack(1, &room, &mut small)?;
/// assert_eq!(packed[..2], [27, 170]);
/// assert_eq!(unpack(1, packed, &mut back)?, room);
/// # Ok::<(), zemrukste::Refusal>(())
/// ```
pub fn pack<'o>(m: usize, room: &[u8], out: &'o mut [u8]) -> Result<&'o [u8], Refusal> {
    let (to, length) = (out.as_mut_ptr(), out.len());
    let number = unsafe { library::zemrukste_pack(m, room.as_ptr(), room.len(), to, length) };
    Refusal::answer(number, 0)?;
    Ok(&out[..m * PACKED_PER_BLOCK])
}

/// The room back from its packed form. [`pack`] has an example.
pub fn unpack<'o>(m: usize, packed: &[u8], out: &'o mut [u8]) -> Result<&'o [u8], Refusal> {
    let (to, length) = (out.as_mut_ptr(), out.len());
    let number = unsafe { library::zemrukste_unpack(m, packed.as_ptr(), packed.len(), to, length) };
    Refusal::answer(number, 0)?;
    Ok(&out[..m * ROOM_PER_BLOCK])
}

/// What an accepted call wrote over the front of its output.
fn written(number: u32, length: usize, out: &[u8]) -> Result<&[u8], Refusal> {
    Refusal::answer(number, 0).map(|()| &out[..length])
}
