//! What a call can be refused with.

use std::error::Error;
use std::fmt::{self, Display, Formatter};

/// Why a call was refused: the numbers of the project's rules, each a case. A refused call has written nothing. Where
/// several apply, the first in the order that `include/zemrukste.h` lists with the call is given.
#[derive(Clone, Copy, Debug, PartialEq, Eq, Hash)]
pub enum Refusal {
    /// 1: the block's length A is not 1 to 30,576. Choose a transport block size in that range.
    BadLength,
    /// 2: a byte among the bits is neither 0 nor 1. Hand over one bit a byte, first bit first.
    BadBit,
    /// 3: Q is not 2, 4 or 6, N not 1 to 4, or G (a control message's E) does not fit. Correct the allocation.
    BadAllocation,
    /// 4: the redundancy version is above 3.
    BadVersion,
    /// 5: what was lent is too short. Lend as many bytes as the call says.
    TooShort,
    /// 6: there is no such slot.
    NoSlot,
    /// 7: the slot is open already. Close it for its terminal first.
    OpenAlready,
    /// 8: the slot is closed. Open it for the terminal.
    Closed,
    /// 9: the slot is another terminal's. Find this one's slot, and never act on the answer.
    OtherTerminal,
    /// 10: A needs more code blocks than a slot has room for. Make a yard with a larger M.
    TooManyBlocks,
    /// 11: so many data places lack a bit: none was heard, or both a 0 and a 1. Wait for the next repeat; if the
    /// number stays when all was sent again, the rest is disputed: close the slot and open it again.
    Lacking(usize),
    /// 12: all was heard, and the transport check is wrong. Close the slot and open it again.
    WrongCheck,
    /// 13: S is not 1 to 8 or M not 1 to 5.
    BadShape,
    /// 14: there is no such code block.
    NoCodeBlock,
    /// 15: a line can't be read. No call gives it; it is that of a program that reads lines.
    Unreadable,
    /// 16: all was heard, and the check of a code block is wrong, counted from 0; of several, the first. As for 12.
    WrongCodeBlock(usize),
    /// 17: a report has 1 to 11 bits.
    BadReport,
    /// 18: the control bits a layer are not a positive multiple of Q, or above 4,096. Correct the grant.
    BadControl,
    /// 19: two or more reports are as near to the received control bits as each other. Keep the last report, or ask
    /// for another.
    Tied,
    /// 20: the payload of a control message is not 1 to 64 bits, or a run of payload and check not 17 to 80.
    BadPayload,
    /// 21: the receiver of a downlink does not fit. Correct what is told of it, or send a smaller block.
    BadBuffer,
}

use Refusal::*;

impl Refusal {
    /// The number by which the rules and `include/zemrukste.h` know it.
    pub fn number(self) -> u32 {
        match self {
            BadLength => 1,
            BadBit => 2,
            BadAllocation => 3,
            BadVersion => 4,
            TooShort => 5,
            NoSlot => 6,
            OpenAlready => 7,
            Closed => 8,
            OtherTerminal => 9,
            TooManyBlocks => 10,
            Lacking(_) => 11,
            WrongCheck => 12,
            BadShape => 13,
            NoCodeBlock => 14,
            Unreadable => 15,
            WrongCodeBlock(_) => 16,
            BadReport => 17,
            BadControl => 18,
            Tied => 19,
            BadPayload => 20,
            BadBuffer => 21,
        }
    }

    /// The answer that an export gave as a number, and in `count` what comes with 11 and 16.
    pub(crate) fn answer(number: u32, count: usize) -> Result<(), Refusal> {
        Err(match number {
            0 => return Ok(()),
            1 => BadLength,
            2 => BadBit,
            3 => BadAllocation,
            4 => BadVersion,
            5 => TooShort,
            6 => NoSlot,
            7 => OpenAlready,
            8 => Closed,
            9 => OtherTerminal,
            10 => TooManyBlocks,
            11 => Lacking(count),
            12 => WrongCheck,
            13 => BadShape,
            14 => NoCodeBlock,
            16 => WrongCodeBlock(count),
            17 => BadReport,
            18 => BadControl,
            19 => Tied,
            20 => BadPayload,
            21 => BadBuffer,
            _ => unreachable!("no export gives {number}"),
        })
    }

    fn meaning(self) -> &'static str {
        match self {
            BadLength => "a block has 1 to 30,576 bits",
            BadBit => "a byte among the bits is neither 0 nor 1",
            BadAllocation => "the allocation does not fit",
            BadVersion => "the redundancy version is above 3",
            TooShort => "what was lent is too short",
            NoSlot => "no such slot",
            OpenAlready => "the slot is open already",
            Closed => "the slot is closed",
            OtherTerminal => "the slot is another terminal's",
            TooManyBlocks => "the block has more code blocks than the slot",
            Lacking(_) => "data places that lack a bit",
            WrongCheck => "the transport check is wrong",
            BadShape => "1 to 8 slots of 1 to 5 code blocks each",
            NoCodeBlock => "no such code block",
            Unreadable => "the line can't be read",
            WrongCodeBlock(_) => "the code block whose check is wrong",
            BadReport => "a report has 1 to 11 bits",
            BadControl => "the control bits a layer do not fit",
            Tied => "two or more reports are nearest",
            BadPayload => "the payload does not fit",
            BadBuffer => "the receiver does not fit",
        }
    }
}

impl Display for Refusal {
    fn fmt(&self, f: &mut Formatter) -> fmt::Result {
        write!(f, "refused with {}: {}", self.number(), self.meaning())?;
        match self {
            Lacking(count) | WrongCodeBlock(count) => write!(f, ": {count}"),
            _ => Ok(()),
        }
    }
}

impl Error for Refusal {}
