//! The binary form in which a bridge is asked and answers, the same as at the top of
//! `face/bridge.c`. Numbers are lowest byte first.
//!
//! A request is 56 bytes: its kind (1 Build, 2 Sizes, 3 Build of two slices, 4 Build with a
//! report, 5 the report of a run, 6 a control message, 7 whose it is, 8 Pack, 9 Unpack, 10
//! Build for a downlink), null pointers (1 block, header, run or room, 2 output, 4 payload), the fill, a zero, the header's length as 4 bytes (0 but
//! for the third kind), then block length (or A), Q, N, version, G and output length as 8 bytes
//! each; kind 5 has the run's length, Q, N, A, O and output length there. Kinds 4 and 5 have two
//! more numbers behind it, the report's length (0 for kind 5) and the control bits a layer. Kind 10
//! has five: release, K_MIMO, processes, soft bits and layers. Then come the block or run, of two slices the header first, and the report. A control message's
//! block is the payload or the run, its Q the terminal, its G the E; whose a run is lies in an
//! output of two bytes. A room to change is the block, and M its Q. An answer is 8 bytes: the number given back
//! as 4, then 1 if the block is unchanged, three zeros; the output comes behind it between
//! two guards. Before the call every byte of output and guards is the fill.

use crate::soft_buffer::Receiver;
use std::io::{self, ErrorKind, Read, Write};

/// Bytes on each side of an output.
pub const GUARD: usize = 64;

/// The most a bridge takes.
pub const BLOCK_MAX: usize = 65_536;
pub const OUTPUT_MAX: usize = 262_144;
pub const RUN_MAX: usize = 262_144;
pub const REPORT_MAX: usize = 4_096;

const REQUEST: usize = 56;
const ANSWER: usize = 8;
const BUILD: u8 = 1;
const SIZES: u8 = 2;
const BUILD_TWO: u8 = 3;
const REPORT_BUILD: u8 = 4;
const REPORT_PART: u8 = 5;
const CONTROL: u8 = 6;
const WHOSE: u8 = 7;
const PACK: u8 = 8;
const UNPACK: u8 = 9;
const BUILD_DOWN: u8 = 10;
const NULL_BLOCK: u8 = 1;
const NULL_OUTPUT: u8 = 2;
const NULL_PAYLOAD: u8 = 4;

/// What a bridge is asked to call.
#[derive(Debug, PartialEq, Eq)]
pub enum Call {
    Build { block: Vec<u8>, q: usize, n: usize, version: usize, g: usize },
    /// The header is the first `cut` bytes of the block, the payload the others.
    BuildTwo { block: Vec<u8>, cut: usize, q: usize, n: usize, version: usize, g: usize },
    BuildDown { block: Vec<u8>, receiver: Receiver, q: usize, n: usize, version: usize, g: usize },
    Sizes { a: usize },
    ReportBuild { report: Vec<u8>, control: usize, block: Vec<u8>, q: usize, n: usize, version: usize, g: usize },
    ReportPart { a: usize, q: usize, n: usize, o: usize, control: usize, received: Vec<u8> },
    Control { payload: Vec<u8>, terminal: u16, e: usize },
    Whose { run: Vec<u8> },
    Pack { m: usize, from: Vec<u8> },
    Unpack { m: usize, from: Vec<u8> },
}

#[derive(Debug, PartialEq, Eq)]
pub struct Request {
    pub call: Call,
    pub output_length: usize,
    pub fill: u8,
    /// Lent as null pointers, with length 0 alone.
    pub null_block: bool,
    pub null_output: bool,
    pub null_payload: bool,
}

#[derive(Debug, PartialEq, Eq)]
pub struct Answer {
    /// 0 for accepted, else 01's number.
    pub number: u32,
    pub block_kept: bool,
    /// The output between its guards.
    pub output: Vec<u8>,
}

impl Request {
    pub fn write(&self, to: &mut impl Write) -> io::Result<()> {
        let none: &[u8] = &[];
        type Further<'a> = Option<(&'a [u8], usize)>;
        let (kind, block, cut, numbers, more): (u8, &[u8], usize, [usize; 5], Further) = match &self.call {
            Call::Build { block, q, n, version, g } => (BUILD, block, 0, [block.len(), *q, *n, *version, *g], None),
            Call::BuildTwo { block, cut, q, n, version, g } => {
                (BUILD_TWO, block, *cut, [block.len(), *q, *n, *version, *g], None)
            }
            Call::BuildDown { block, q, n, version, g, .. } => {
                (BUILD_DOWN, block, 0, [block.len(), *q, *n, *version, *g], None)
            }
            Call::Sizes { a } => (SIZES, none, 0, [*a, 0, 0, 0, 0], None),
            Call::Pack { m, from } => (PACK, from, 0, [from.len(), *m, 0, 0, 0], None),
            Call::Unpack { m, from } => (UNPACK, from, 0, [from.len(), *m, 0, 0, 0], None),
            Call::ReportBuild { report, control, block, q, n, version, g } => {
                (REPORT_BUILD, block, 0, [block.len(), *q, *n, *version, *g], Some((report, *control)))
            }
            Call::ReportPart { a, q, n, o, control, received } => {
                (REPORT_PART, received, 0, [received.len(), *q, *n, *a, *o], Some((none, *control)))
            }
            Call::Control { payload, terminal, e } => {
                (CONTROL, payload, 0, [payload.len(), usize::from(*terminal), 0, 0, *e], None)
            }
            Call::Whose { run } => (WHOSE, run, 0, [run.len(), 0, 0, 0, 0], None),
        };
        let lent = [(self.null_block, NULL_BLOCK), (self.null_output, NULL_OUTPUT), (self.null_payload, NULL_PAYLOAD)];
        let nulls = lent.into_iter().map(|(null, bit)| u8::from(null) * bit).sum();
        to.write_all(&[kind, nulls, self.fill, 0])?;
        to.write_all(&(cut as u32).to_le_bytes())?;
        let (report, control) = more.unwrap_or((none, 0));
        let further = if more.is_some() { vec![report.len(), control] } else { Vec::new() };
        for number in numbers.into_iter().chain([self.output_length]).chain(further) {
            to.write_all(&(number as u64).to_le_bytes())?;
        }
        if let Call::BuildDown { receiver, .. } = &self.call {
            let Receiver { release, mimo, processes, soft, layers } = *receiver;
            for number in [release, mimo, processes, soft, layers] {
                to.write_all(&(number as u64).to_le_bytes())?;
            }
        }
        to.write_all(block)?;
        to.write_all(report)
    }

    /// The next request, or none at the end of the input.
    pub fn read(from: &mut impl Read) -> io::Result<Option<Request>> {
        let mut head = [0; REQUEST];
        if from.read(&mut head[..1])? == 0 {
            return Ok(None);
        }
        from.read_exact(&mut head[1..])?;
        let number = |place: usize| number_at(&head[8 + 8 * place..]);
        let output_length = limited(number(5), OUTPUT_MAX)?;
        let mut told = [0; 5 * 8];
        if head[0] == BUILD_DOWN {
            from.read_exact(&mut told)?;
        }
        let mut block = Vec::new();
        if [BUILD, BUILD_TWO, BUILD_DOWN, CONTROL, WHOSE, PACK, UNPACK].contains(&head[0]) {
            let most = if [PACK, UNPACK].contains(&head[0]) { RUN_MAX } else { BLOCK_MAX };
            block.resize(limited(number(0), most)?, 0);
            from.read_exact(&mut block)?;
        }
        let [q, n, version, g] = [1, 2, 3, 4].map(number);
        let call = match head[0] {
            BUILD => Call::Build { block, q, n, version, g },
            BUILD_TWO => {
                let [_, _, _, _, c0, c1, c2, c3, ..] = head;
                let cut = limited(u32::from_le_bytes([c0, c1, c2, c3]) as usize, block.len())?;
                Call::BuildTwo { block, cut, q, n, version, g }
            }
            BUILD_DOWN => {
                let [release, mimo, processes, soft, layers] = [0, 1, 2, 3, 4].map(|place| number_at(&told[8 * place..]));
                let receiver = Receiver { release, mimo, processes, soft, layers };
                Call::BuildDown { block, receiver, q, n, version, g }
            }
            SIZES => Call::Sizes { a: number(0) },
            PACK => Call::Pack { m: q, from: block },
            UNPACK => Call::Unpack { m: q, from: block },
            REPORT_BUILD | REPORT_PART => {
                let mut further = [0; 16];
                from.read_exact(&mut further)?;
                let [length, control] = [0, 1].map(|place| number_at(&further[8 * place..]));
                let most = if head[0] == REPORT_BUILD { BLOCK_MAX } else { RUN_MAX };
                let mut block = vec![0; limited(number(0), most)?];
                from.read_exact(&mut block)?;
                let mut report = vec![0; limited(length, REPORT_MAX)?];
                from.read_exact(&mut report)?;
                let [q, n, third, fourth] = [1, 2, 3, 4].map(number);
                if head[0] == REPORT_BUILD {
                    Call::ReportBuild { report, control, block, q, n, version: third, g: fourth }
                } else {
                    Call::ReportPart { a: third, q, n, o: fourth, control, received: block }
                }
            }
            CONTROL => {
                let terminal = limited(number(1), usize::from(u16::MAX))? as u16;
                Call::Control { payload: block, terminal, e: number(4) }
            }
            WHOSE => Call::Whose { run: block },
            _ => return Err(ErrorKind::InvalidData.into()),
        };
        let [null_block, null_output, null_payload] =
            [NULL_BLOCK, NULL_OUTPUT, NULL_PAYLOAD].map(|null| head[1] & null != 0);
        Ok(Some(Request { call, output_length, fill: head[2], null_block, null_output, null_payload }))
    }
}

impl Answer {
    pub fn write(&self, to: &mut impl Write) -> io::Result<()> {
        to.write_all(&self.number.to_le_bytes())?;
        to.write_all(&[self.block_kept.into(), 0, 0, 0])?;
        to.write_all(&self.output)
    }

    /// The answer to a request with an output of this length.
    pub fn read(from: &mut impl Read, output_length: usize) -> io::Result<Answer> {
        let mut head = [0; ANSWER];
        from.read_exact(&mut head)?;
        let mut output = vec![0; GUARD + output_length + GUARD];
        from.read_exact(&mut output)?;
        let [n0, n1, n2, n3, kept, zeros @ ..] = head;
        if kept > 1 || zeros != [0; 3] {
            return Err(ErrorKind::InvalidData.into());
        }
        Ok(Answer { number: u32::from_le_bytes([n0, n1, n2, n3]), block_kept: kept == 1, output })
    }
}

/// The number that eight bytes hold, the lowest first.
fn number_at(bytes: &[u8]) -> usize {
    u64::from_le_bytes(bytes[..8].try_into().expect("eight bytes")) as usize
}

fn limited(length: usize, most: usize) -> io::Result<usize> {
    if length <= most {
        Ok(length)
    } else {
        Err(ErrorKind::InvalidData.into())
    }
}
