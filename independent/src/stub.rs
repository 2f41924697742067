//! A bridge to this program itself, so that the comparison can be tried: sound, or with a
//! fault planted that the comparison must find.

use crate::codeword;
use crate::control;
use crate::compare::sizes_into;
use crate::crc;
use crate::fast::Workspace;
use crate::packing;
use crate::fast_control;
use crate::protocol::{Answer, Call, Request, GUARD};
use crate::rate;
use crate::report;
use crate::segmentation::{self, Segmentation};
use crate::soft_buffer::{n_cb, Receiver};
use crate::turbo;
use std::io::{self, BufReader, Read, Write};

#[derive(Clone, Copy, Debug, PartialEq, Eq)]
pub enum Fault {
    LongFirst,
    EarlyShares,
    StartAtZero,
    NoShift,
    DummiesSent,
    FillerAbsent,
    TransportCrcTwice,
    TailOrder,
    WritesPastG,
    WritesBeforeOutput,
    WritesOnRefusal,
    WritesBlock,
    VersionWraps,
    LateVersion,
    LateBits,
    OneSymbolTooMany,
    NoShortSize,
    SizesOrder,
    SecondFromZero,
    SlicesExchanged,
    RegisterFromZero,
    LowestBitFirst,
    TurboColumns,
    LateEnd,
    WhoseOnRefusal,
    LowFirst,
    NoChange,
    LastGroup,
    NoCeiling,
    LongCut,
    NoLimit,
    FirstRows,
    LateBuffer,
    EndsEarly,
    Garbles,
    ControlLate,
    TieAnswered,
}

use Fault::*;

/// The faults by their names.
pub const FAULTS: [(&str, Fault); 37] = [
    ("long-first", LongFirst),                  // long code blocks come first
    ("early-shares", EarlyShares),              // the early code blocks have the larger share
    ("start-at-zero", StartAtZero),             // the walk starts at place 0
    ("no-shift", NoShift),                      // stream 2 is read like the others
    ("dummies-sent", DummiesSent),              // absent places are sent as 0
    ("filler-absent", FillerAbsent),            // the filler's places in stream 2 are absent
    ("transport-crc-twice", TransportCrcTwice), // CRC24A in CRC24B's stead
    ("tail-order", TailOrder),                  // tails of streams 1 and 2 swapped
    ("writes-past-g", WritesPastG),             // one byte more than the codeword
    ("writes-before-output", WritesBeforeOutput), // one byte in front of it
    ("writes-on-refusal", WritesOnRefusal),     // refusal 2 after the first byte
    ("writes-block", WritesBlock),              // the block is changed
    ("version-wraps", VersionWraps),            // the version's low byte alone is looked at
    ("late-version", LateVersion),              // 5 before 4
    ("late-bits", LateBits),                    // the last byte of the block is not looked at
    ("one-symbol-too-many", OneSymbolTooMany),  // G just above 172,800 is refused with 5
    ("no-short-size", NoShortSize),             // K- is 0 wherever there are no short blocks
    ("sizes-order", SizesOrder),                // 5 before 1
    ("second-from-zero", SecondFromZero),       // CRC24A is that of the second slice alone
    ("slices-exchanged", SlicesExchanged),      // the payload's bits before the header's
    ("register-from-zero", RegisterFromZero),  // the control encoder's register starts empty
    ("lowest-bit-first", LowestBitFirst),      // the terminal number is mixed in backwards
    ("turbo-columns", TurboColumns),           // table 5.1.4-1 for 5.1.4-2
    ("late-end", LateEnd),                     // 5 before 3
    ("whose-on-refusal", WhoseOnRefusal),      // a refused run names terminal 0
    ("low-first", LowFirst),                    // the first place in the low bits
    ("no-change", NoChange),                    // 3 becomes 2
    ("last-group", LastGroup),                  // the last four places are left out
    ("no-ceiling", NoCeiling),                  // the start of a cut circle is rounded down
    ("long-cut", LongCut),                      // the circle is cut one place too late
    ("no-limit", NoLimit),                      // more than 8 processes share the soft buffer
    ("first-rows", FirstRows),                  // 21 by the first code block's rows
    ("late-buffer", LateBuffer),                // 3 before 21
    ("ends-early", EndsEarly),                  // ends after 1,000 answers
    ("garbles", Garbles),                       // answers out of form
    ("control-late", ControlLate),              // 17 after 18
    ("tie-answered", TieAnswered),              // the first of two nearest reports is given
];

pub fn fault(name: &str) -> Option<Fault> {
    FAULTS.iter().find(|(known, _)| *known == name).map(|(_, fault)| *fault)
}

/// Answers requests until the input ends.
pub fn run(input: impl Read, mut output: impl Write, fault: Option<Fault>) -> io::Result<()> {
    let mut input = BufReader::with_capacity(1 << 16, input);
    let mut stub = Stub { fault, workspace: Workspace::default() };
    let mut answers = 0;
    let mut bytes = Vec::new();
    while let Some(request) = Request::read(&mut input)? {
        if fault == Some(EndsEarly) && answers == 1_000 {
            break;
        }
        bytes.clear();
        stub.answer(request).write(&mut bytes)?;
        if fault == Some(Garbles) && answers == 1_000 {
            bytes[7] = 1;
        }
        output.write_all(&bytes)?;
        output.flush()?;
        answers += 1;
    }
    Ok(())
}

struct Stub {
    fault: Option<Fault>,
    workspace: Workspace,
}

impl Stub {
    fn has(&self, fault: Fault) -> bool {
        self.fault == Some(fault)
    }

    fn answer(&mut self, request: Request) -> Answer {
        let length = request.output_length;
        let mut output = vec![request.fill; GUARD + length + GUARD];
        let lent = &mut output[GUARD..GUARD + length];
        let answer = match request.call {
            Call::Build { block, q, n, version, g } => self.build(&block, 0, q, n, version, g, lent),
            Call::BuildTwo { mut block, cut, q, n, version, g } => {
                if self.has(SlicesExchanged) {
                    block.rotate_left(cut);
                }
                let unseen = if self.has(SecondFromZero) { cut } else { 0 };
                self.build(&block, unseen, q, n, version, g, lent)
            }
            Call::BuildDown { block, receiver, q, n, version, g } => {
                self.build_down(&block, receiver, (q, n, version, g), lent)
            }
            Call::Sizes { a } => self.sizes(a, lent),
            Call::Pack { m, from } => self.pack(m, from, lent),
            Call::Unpack { m, from } => packing::unpack(m, &from, lent),
            Call::ReportBuild { report, control, block, q, n, version, g } => {
                self.report_build(&report, control, &block, q, n, version, g, lent)
            }
            Call::ReportPart { a, q, n, o, control, received } => self.report_part(a, q, n, o, control, &received, lent),
            Call::Control { payload, terminal, e } => self.control(&payload, terminal, e, lent),
            Call::Whose { run } => self.whose(&run, lent),
        };
        if self.has(WritesBeforeOutput) && answer.is_ok() {
            output[GUARD - 1] = 0;
        }
        let number = answer.map_or_else(u32::from, |()| 0);
        Answer { number, block_kept: !(self.has(WritesBlock) && number == 0), output }
    }

    fn pack(&self, m: usize, mut from: Vec<u8>, output: &mut [u8]) -> Result<(), u8> {
        if self.has(NoChange) {
            from.iter_mut().for_each(|value| *value = if *value == 3 { 2 } else { *value });
        }
        if self.has(LowFirst) {
            from.chunks_exact_mut(4).for_each(|places| places.reverse());
        }
        let last = output.get(m.wrapping_mul(packing::PACKED_OF_BLOCK).wrapping_sub(1)).copied();
        packing::pack(m, &from, output)?;
        if let (true, Some(byte)) = (self.has(LastGroup), last) {
            output[m * packing::PACKED_OF_BLOCK - 1] = byte;
        }
        Ok(())
    }

    fn sizes(&self, a: usize, output: &mut [u8]) -> Result<(), u8> {
        if self.has(SizesOrder) && output.len() < 24 {
            return Err(codeword::SHORT_OUTPUT);
        }
        sizes_into(a, output)?;
        if self.has(NoShortSize) && output[12] == 0 {
            output[16..20].fill(0);
        }
        Ok(())
    }

    /// The literal call with the refusals in another order, if that fault is planted.
    #[allow(clippy::too_many_arguments)]
    fn report_build(
        &self,
        report: &[u8],
        control: usize,
        block: &[u8],
        q: usize,
        n: usize,
        version: usize,
        g: usize,
        output: &mut [u8],
    ) -> Result<(), u8> {
        let answer = report::build_into(report, control, block, q, n, version, g, output);
        let late = answer == Err(report::BAD_REPORT) && self.has(ControlLate);
        if late && (control == 0 || control > report::CONTROL_MAX || control % q != 0) {
            return Err(report::BAD_CONTROL);
        }
        answer
    }

    #[allow(clippy::too_many_arguments)]
    fn report_part(
        &self,
        a: usize,
        q: usize,
        n: usize,
        o: usize,
        control: usize,
        received: &[u8],
        output: &mut [u8],
    ) -> Result<(), u8> {
        let answer = report::part_into(a, q, n, o, control, received, output);
        if answer == Err(report::TIED) && self.has(TieAnswered) {
            output[..o].fill(0);
            return Ok(());
        }
        answer
    }

    fn control(&self, payload: &[u8], terminal: u16, e: usize, output: &mut [u8]) -> Result<(), u8> {
        if self.has(LateEnd) && (1..=64).contains(&payload.len()) && output.len() < e {
            return Err(control::SHORT_OUTPUT);
        }
        let terminal = if self.has(LowestBitFirst) { terminal.reverse_bits() } else { terminal };
        fast_control::build_into(payload, terminal, e, output)?;
        let c = control::attach(payload, terminal);
        if self.has(RegisterFromZero) {
            let led = [vec![0; 6], c.clone()].concat();
            let d = control::encode(&led).map(|stream| stream[6..].to_vec());
            output[..e].copy_from_slice(&control::match_streams(&d, e));
        }
        if self.has(TurboColumns) {
            let streams = control::encode(&c).map(|stream| stream.into_iter().map(Some).collect::<Vec<_>>());
            let w: Vec<Option<u8>> = streams.iter().flat_map(|stream| rate::sub_block_01(stream)).collect();
            output[..e].copy_from_slice(&rate::walk(&w, 0, e));
        }
        Ok(())
    }

    fn whose(&self, run: &[u8], output: &mut [u8]) -> Result<(), u8> {
        let owner = fast_control::whose(run);
        if self.has(WhoseOnRefusal) && owner.is_err() {
            output.fill(0);
        }
        owner.map(|owner| output.copy_from_slice(&owner.to_le_bytes()))
    }

    /// Build for a downlink for speed, unless a fault is planted.
    fn build_down(
        &mut self,
        block: &[u8],
        receiver: Receiver,
        (q, n, version, g): (usize, usize, usize, usize),
        output: &mut [u8],
    ) -> Result<(), u8> {
        let s = codeword::segmentation_of(block.len())?;
        let rows = codeword::rows_of(&s);
        if self.has(LateBuffer) && !codeword::allocation_fits(q, n, g, s.blocks) {
            return Err(codeword::BAD_ALLOCATION);
        }
        let seen = if self.has(FirstRows) { vec![rows[0]; rows.len()] } else { rows.clone() };
        let mut share = receiver.share(&seen)?;
        if self.has(NoLimit) {
            share = (share as u128 * receiver.processes.min(8) as u128 / receiver.processes as u128) as usize;
        }
        if !matches!(self.fault, Some(NoCeiling | LongCut | NoLimit | FirstRows)) {
            return self.workspace.build_down_into(block, &receiver, q, n, version, g, output);
        }
        codeword::check(block, q, n, version, g, output.len())?;
        let mut matched = Vec::new();
        for ((d, r), e_length) in codeword::streams(block).iter().zip(rows).zip(rate::shares(g, n * q, s.blocks)) {
            let w = rate::circle(d);
            let n_cb = n_cb(share, r).max(32 * r);
            let end = if self.has(LongCut) { (n_cb + 1).min(w.len()) } else { n_cb };
            let start = match self.has(NoCeiling) {
                true => r * (2 * (n_cb / (8 * r)) * version + 2),
                false => rate::start_in(n_cb, r, version),
            };
            matched.push(rate::walk(&w[..end], start, e_length));
        }
        output[..g].copy_from_slice(&codeword::concatenate(&matched));
        Ok(())
    }

    /// Build for speed, unless a fault is planted; the transport check does not see so many
    /// bits at the front.
    fn build(
        &mut self,
        block: &[u8],
        unseen: usize,
        q: usize,
        n: usize,
        version: usize,
        g: usize,
        output: &mut [u8],
    ) -> Result<(), u8> {
        let fault = match self.fault {
            Some(fault) => fault,
            None => return self.workspace.build_into(block, q, n, version, g, output),
        };
        let version = if fault == VersionWraps { version & 0xFF } else { version };
        let mut checked = block.to_vec();
        if fault == LateBits && !block.is_empty() {
            checked[block.len() - 1] &= 1;
        }
        let sound = codeword::check(&checked, q, n, version, g, output.len());
        match sound {
            Err(codeword::BAD_ALLOCATION) if fault == OneSymbolTooMany && g == codeword::G_MAX + q.wrapping_mul(n) => {
                return Err(codeword::SHORT_OUTPUT);
            }
            Err(codeword::BAD_VERSION) if fault == LateVersion && output.len() < g => {
                return Err(codeword::SHORT_OUTPUT);
            }
            Err(codeword::BAD_BIT) if fault == WritesOnRefusal => output[0] = block[0] & 1,
            _ => {}
        }
        sound?;
        output[..g].copy_from_slice(&chain(fault, &checked, unseen, q * n, version, g));
        if fault == WritesPastG && output.len() > g {
            output[g] = 0;
        }
        Ok(())
    }
}

/// The literal chain with a fault.
fn chain(fault: Fault, block: &[u8], unseen: usize, symbol: usize, version: usize, g: usize) -> Vec<u8> {
    let b = [block, &crc::parity(&block[unseen..], &crc::CRC24A)].concat();
    let mut s = Segmentation::of(b.len());
    if fault == LongFirst {
        s = Segmentation { longs: s.shorts, long: s.short, shorts: s.longs, short: s.long, ..s };
    }
    let mut shares = rate::shares(g, symbol, s.blocks);
    if fault == EarlyShares {
        shares.reverse();
    }
    let mut codeword = Vec::new();
    for (r, mut c) in segmentation::code_blocks(&b, &s).into_iter().enumerate() {
        if fault == TransportCrcTwice && s.blocks > 1 {
            c.truncate(c.len() - s.parity);
            c = crc::attach(&c, &crc::CRC24A);
        }
        codeword.extend(rate_matched(fault, &c, s.filler_in(r), version, shares[r]));
    }
    codeword
}

fn rate_matched(fault: Fault, c: &[u8], filler: usize, version: usize, e_length: usize) -> Vec<u8> {
    let mut d = turbo::encode(c, filler);
    match fault {
        FillerAbsent => d[2][..filler].fill(None),
        TailOrder => {
            let [_, d1, d2] = &mut d;
            d1[c.len()..].swap_with_slice(&mut d2[c.len()..]);
        }
        _ => {}
    }
    let mut w = rate::circle(&d);
    match fault {
        NoShift => {
            let v2 = rate::sub_block_01(&d[2]);
            let from = v2.len();
            v2.into_iter().enumerate().for_each(|(k, bit)| w[from + 2 * k + 1] = bit);
        }
        DummiesSent => w.iter_mut().for_each(|place| *place = place.or(Some(0))),
        _ => {}
    }
    let start = if fault == StartAtZero { 0 } else { rate::start(w.len(), version) };
    rate::walk(&w, start, e_length)
}
