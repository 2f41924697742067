//! Uplink shared channel coding (UL-SCH data), written from 3GPP TS 36.212 V11.5.1 and
//! from the rules papers 01 and 02 alone, as a second opinion on the project's main program.
//!
//! One module a clause, in the order of the clauses. Each transcribes the loops of the
//! standard as they stand there; nothing is made fast at the cost of that likeness. The
//! slots of 01 stand on them. `fast` is Build again with speed in mind and `fast_slots` Receive
//! and Read, held to the literal ones by the tests; the modules after them compare another
//! program with this one.
//!
//! A bit is one byte, 0 or 1. A place that carries no bit (`<NULL>` in the standard:
//! filler and dummies) is `None`.

pub mod older; // for the compiler of Debian 12
pub mod crc; // 5.1.1
pub mod segmentation; // 5.1.2
pub mod table; // 5.1.3, table 5.1.3-3
pub mod turbo; // 5.1.3.2
pub mod rate; // 5.1.4.1
pub mod soft_buffer; // 5.1.4.1.2, N_IR and N_cb
pub mod codeword; // 5.1.5, and the whole chain
pub mod report; // 5.2.2.6.4 and 5.2.2.7, E3 of 02
pub mod control; // 5.3.3, with 5.1.3.1 and 5.1.4.2
pub mod slots; // New, Open, Receive, Read, Streams and Close of 01
pub mod packing; // the packed form of a room, 02 E7
pub mod sizes; // the call Sizes and the sizes program of 01
pub mod worst; // how many repeats at worst, E8 of 02
pub mod stage; // every stage as readable text
pub mod xorshift; // repeatable blocks to try
pub mod fast; // Build for speed
pub mod fast_report; // Build with a report and the way back for speed
pub mod fast_slots; // Receive and Read for speed
pub mod fast_control; // control messages for speed
pub mod protocol; // how a bridge to another program is asked and answers
pub mod cases; // what it is asked
mod cases_two; // and of a block in two slices
pub mod cases_control; // of that, the control calls
pub mod cases_down; // of Build for a downlink
pub mod compare; // asks it and compares
pub mod slots_c; // histories of the calls on slots as C has them
pub mod stub; // a bridge to this program, sound or with a planted fault
pub mod replay; // the calls of 01 as lines with answers
pub mod replay_faults; // the same as a program, sound or with a planted fault
pub mod history; // runs of such lines
pub mod histories; // sends them to another program and compares
pub mod figures; // the numbers of the pictures
#[cfg(feature = "linked")]
pub mod bench; // Build timed beside the proved library
