//! `independent replay`: the line protocol on standard input and output, sound or with a
//! fault planted that the comparison of histories must find.

use crate::crc;
use crate::older::Upwards;
use crate::replay::{is_silent, next_line, text, Call, End, Outcome, Replay, LINE_MAX};
use crate::sizes::{sizes, UNREADABLE};
use crate::slots::{self, Head, Refusal, State, ROOM_OF_BLOCK, SLOTS_MAX};
use crate::soft_buffer::WHOLE_SHARE;
use std::io::{self, BufReader, Read, Write};

#[derive(Clone, Copy, Debug, PartialEq, Eq)]
pub enum Fault {
    OpenKeeps,
    OpenClearsOneBlock,
    FirstBitStays,
    LaterBitWins,
    ThirdBitHeals,
    DisputedHeard,
    FirstTurnAlone,
    RepeatsCounted,
    TailsCounted,
    TerminalIgnored,
    OtherBeforeClosed,
    VersionBeforeAllocation,
    Reopens,
    CloseKeeps,
    NewKeepsHeads,
    RefusedNewKeeps,
    LargeStore,
    NextRoom,
    AlwaysVersion0,
    RefusedStores,
    CheckSkipped,
    BlockChecksSkipped,
    BlockChecksAlone,
    LastWrongBlock,
    TransportCheckFirst,
    TransportKindOnBlocks,
    SingleBlockCompared,
    FillerUnheard,
    FirstBlockAlone,
    NoShortSize,
    WorstByLongest,
    CutIgnored,
    Release8Divided,
    FirstRoomChanged,
    DisputeLost,
    LeadingZeros,
    TerminalWraps,
    BlanksJoined,
    ReturnDropped,
    LongLines,
    LongComments,
    LastLineLost,
    EndsEarly,
    Garbles,
}

use Fault::*;

/// The faults by their names.
pub const FAULTS: [(&str, Fault); 44] = [
    ("open_keeps", OpenKeeps),                     // open does not clear the room: June
    ("open_clears_one_block", OpenClearsOneBlock), // or its first code block alone
    ("first_bit_stays", FirstBitStays),            // of two different bits the earlier one is kept
    ("later_bit_wins", LaterBitWins),              // or the later one, as before 02 E2
    ("third_bit_heals", ThirdBitHeals),            // a disputed place takes the next bit
    ("disputed_heard", DisputedHeard),             // a disputed place does not count as lacking
    ("first_turn_alone", FirstTurnAlone),          // of a long reception the first turn is put
    ("repeats_counted", RepeatsCounted),           // a place heard in two receptions counts twice
    ("tails_counted", TailsCounted),               // tails of stream 0 count as lacking
    ("terminal_ignored", TerminalIgnored),         // every terminal is served
    ("other_before_closed", OtherBeforeClosed),    // 9 before 8
    ("version_before_allocation", VersionBeforeAllocation), // 4 before 3
    ("reopens", Reopens),                          // an open slot is opened again
    ("close_keeps", CloseKeeps),                   // a closed slot stays open
    ("new_keeps_heads", NewKeepsHeads),            // what was open is open in a new state
    ("refused_new_keeps", RefusedNewKeeps),        // a refused New leaves the state
    ("large_store", LargeStore),                   // room for S * M = 5
    ("next_room", NextRoom),                       // read looks into another slot's room
    ("always_version_0", AlwaysVersion0),          // every reception is taken as version 0
    ("refused_stores", RefusedStores),             // a reception refused with 2 is stored
    ("check_skipped", CheckSkipped),               // the transport check is not looked at
    ("block_checks_skipped", BlockChecksSkipped),  // CRC24B is not compared: the partner's unit
    ("block_checks_alone", BlockChecksAlone),      // CRC24B is compared in CRC24A's stead, for C above 1
    ("last_wrong_block", LastWrongBlock),          // 16 comes with the last wrong code block
    ("transport_check_first", TransportCheckFirst), // 12 before 16
    ("transport_kind_on_blocks", TransportKindOnBlocks), // CRC24A is compared where CRC24B belongs
    ("single_block_compared", SingleBlockCompared), // CRC24B is compared for C = 1 too
    ("filler_unheard", FillerUnheard),             // streams gives 2 for absent filler
    ("first_block_alone", FirstBlockAlone),        // streams gives code block 0 whichever is asked
    ("no_short_size", NoShortSize),                // K- is 0 wherever there are no short blocks
    ("worst_by_longest", WorstByLongest),          // every code block counts as the longest for worst
    ("cut_ignored", CutIgnored),                   // a downlink is received as if no circle were cut
    ("release_8_divided", Release8Divided),        // K_C divides under Release 8 too
    ("first_room_changed", FirstRoomChanged),      // a change of form leaves the other rooms behind
    ("dispute_lost", DisputeLost),                 // a change of form makes disputed places unheard
    ("leading_zeros", LeadingZeros),               // numbers may begin with 0
    ("terminal_wraps", TerminalWraps),             // terminal 65,536 is 0
    ("blanks_joined", BlanksJoined),               // several blanks are one, outer ones none
    ("return_dropped", ReturnDropped),             // a carriage return at the end is no matter
    ("long_lines", LongLines),                     // a line too long is cut
    ("long_comments", LongComments),               // a comment too long is answered
    ("last_line_lost", LastLineLost),              // a last line without newline is not answered
    ("ends_early", EndsEarly),                     // ends after 1,000 answers
    ("garbles", Garbles),                          // answers from the 1,001st on parted by a blank
];

pub fn fault(name: &str) -> Option<Fault> {
    FAULTS.iter().find(|(known, _)| *known == name).map(|(_, fault)| *fault)
}

/// Answers lines until the input ends.
pub fn run(input: impl Read, mut output: impl Write, fault: Option<Fault>) -> io::Result<()> {
    let mut input = BufReader::with_capacity(1 << 16, input);
    let mut replay = Replay::default();
    let mut spoiled = fault.map(Spoiled::new);
    let mut line = Vec::new();
    let mut answers = 0;
    while let Some(end) = next_line(&mut input, &mut line)? {
        if fault == Some(EndsEarly) && answers == 1_000 || fault == Some(LastLineLost) && end == End::Input {
            break;
        }
        let answer = match &mut spoiled {
            None => replay.answer(&line),
            Some(spoiled) => spoiled.answer(&line),
        };
        let mut answer = match answer {
            Some(answer) => answer,
            None => continue,
        };
        if fault == Some(Garbles) && answers >= 1_000 {
            answer = answer.replacen('\t', " ", 1);
        }
        output.write_all((answer + "\n").as_bytes())?;
        output.flush()?;
        answers += 1;
    }
    Ok(())
}

/// The sound program with a fault around it.
struct Spoiled {
    fault: Fault,
    sound: Replay,
    /// What `RepeatsCounted` believes to be lacking in each slot.
    lacking: [usize; SLOTS_MAX],
}

impl Spoiled {
    fn new(fault: Fault) -> Spoiled {
        let mut sound = Replay::default();
        if fault == LargeStore {
            sound.store = vec![0; 5 * ROOM_OF_BLOCK];
        }
        Spoiled { fault, sound, lacking: [0; SLOTS_MAX] }
    }

    fn answer(&mut self, line: &[u8]) -> Option<String> {
        let too_long = self.fault == LongComments && line.len() > LINE_MAX;
        if is_silent(line) && !too_long {
            return None;
        }
        Some(text(match Call::parse(&self.misread(line)) {
            Some(call) => self.call(call),
            None => Err(UNREADABLE.into()),
        }))
    }

    /// The line as a fault of reading takes it.
    fn misread(&self, line: &[u8]) -> Vec<u8> {
        let words: Vec<&[u8]> = line.split(|byte| *byte == b' ').collect();
        match self.fault {
            LongLines => line[..line.len().min(LINE_MAX)].to_vec(),
            ReturnDropped => line.strip_suffix(b"\r").unwrap_or(line).to_vec(),
            BlanksJoined => {
                let full: Vec<&[u8]> = words.into_iter().filter(|word| !word.is_empty()).collect();
                full.join(&b' ')
            }
            LeadingZeros => without_leading_zeros(&words),
            TerminalWraps if words.len() > 2 && words[2] == b"65536" => {
                let mut words = words;
                words[2] = b"0";
                words.join(&b' ')
            }
            _ => line.to_vec(),
        }
    }

    fn call(&mut self, call: Call) -> Outcome {
        let call = self.misheard(call);
        let before = self.sound.state;
        let store = match call {
            Call::Open { .. } | Call::Receive { .. } | Call::Read { .. } => self.sound.places(),
            _ => Vec::new(),
        };
        if let (NextRoom, Call::Read { slot, .. }) = (self.fault, &call) {
            self.lay_over(*slot);
        }
        match (self.fault, &call) {
            (ThirdBitHeals, Call::Receive { .. }) | (DisputeLost, Call::Pack | Call::Unpack) => {
                self.replace_disputed(slots::UNHEARD)
            }
            (FirstRoomChanged, Call::Pack | Call::Unpack) if before.s * before.m <= 3 => self.sound.state.s = before.s.min(1),
            _ => {}
        }
        let outcome = self.sound.call(&call);
        match call {
            Call::New { .. } => self.after_new(before, &outcome),
            Call::Open { .. } => return self.after_open(&call, &store, outcome),
            Call::Receive { .. } => return self.after_receive(&call, &store, outcome),
            Call::Read { slot, terminal } => return self.after_read(slot, terminal, store, outcome),
            Call::Streams { slot, terminal, code_block } => {
                return self.after_streams(slot, terminal, code_block, outcome)
            }
            Call::Close { terminal, .. } => {
                if self.fault == CloseKeeps {
                    self.sound.state = before;
                }
                return self.ownership(terminal, outcome);
            }
            Call::OpenDown { slot, .. } if self.fault == CutIgnored && outcome.is_ok() => {
                self.sound.state.heads[slot].share = WHOLE_SHARE;
            }
            Call::Build { version, .. } | Call::BuildDown { version, .. } => return self.late_allocation(version, outcome),
            Call::Sizes { .. } if self.fault == NoShortSize => return outcome.map(no_short_size),
            Call::Sizes { .. } => {}
            Call::Worst { a, q, n } if self.fault == WorstByLongest => return by_longest(a, q, n, outcome),
            Call::Pack | Call::Unpack if self.fault == FirstRoomChanged => self.sound.state = before,
            Call::Worst { .. } | Call::OpenDown { .. } | Call::Pack | Call::Unpack => {}
        }
        outcome
    }

    /// The call as a fault takes it.
    fn misheard(&self, mut call: Call) -> Call {
        match (&mut call, self.fault) {
            (Call::OpenDown { receiver, .. }, Release8Divided) if receiver.release == 8 => receiver.release = 11,
            (Call::Receive { version, .. }, AlwaysVersion0) if *version < 4 => *version = 0,
            (Call::Receive { slot, q, n, bits, .. }, FirstTurnAlone) => self.cut_to_a_turn(*slot, *q * *n, bits),
            (
                Call::Receive { slot, terminal, .. }
                | Call::Read { slot, terminal }
                | Call::Streams { slot, terminal, .. }
                | Call::Close { slot, terminal },
                TerminalIgnored,
            ) if *slot < SLOTS_MAX => *terminal = self.sound.state.heads[*slot].terminal,
            _ => {}
        }
        call
    }

    /// Lays the next slot's room over this slot's.
    fn lay_over(&mut self, slot: usize) {
        let State { s, m, .. } = self.sound.state;
        let length = m * ROOM_OF_BLOCK;
        if slot < s && s * length <= self.sound.store.len() {
            let next = (slot + 1) % s * length;
            let mut places = self.sound.places();
            places.copy_within(next..next + length, slot * length);
            self.sound.keep(&places);
        }
    }

    fn after_new(&mut self, before: State, outcome: &Outcome) {
        match self.fault {
            NewKeepsHeads if outcome.is_ok() => self.sound.state.heads = before.heads,
            RefusedNewKeeps if outcome.is_err() => self.sound.state = before,
            _ => {}
        }
    }

    fn after_open(&mut self, call: &Call, store: &[u8], outcome: Outcome) -> Outcome {
        let (slot, a) = match *call {
            Call::Open { slot, a, .. } => (slot, a),
            _ => return outcome,
        };
        if self.fault == Reopens && outcome == Err(Refusal::Number(slots::ALREADY_OPEN)) {
            self.sound.state.heads[slot] = Head::default();
            return self.sound.call(call);
        }
        if outcome.is_ok() {
            let room = slot * self.sound.state.m * ROOM_OF_BLOCK;
            let rest = room + ROOM_OF_BLOCK..room + self.sound.state.m * ROOM_OF_BLOCK;
            let mut places = self.sound.places();
            match self.fault {
                OpenKeeps => places.copy_from_slice(store),
                OpenClearsOneBlock => places[rest.clone()].copy_from_slice(&store[rest]),
                _ => self.lacking[slot] = data_places(a),
            }
            self.sound.keep(&places);
        }
        outcome
    }

    fn after_receive(&mut self, call: &Call, store: &[u8], outcome: Outcome) -> Outcome {
        let (slot, terminal, version, bits) = match call {
            Call::Receive { slot, terminal, version, bits, .. } => (slot, terminal, version, bits),
            _ => return outcome,
        };
        let mut places = self.sound.places();
        let bytes = places.iter_mut().zip(store);
        match (self.fault, &outcome) {
            (FirstBitStays, Ok(_)) => {
                bytes.filter(|(_, then)| **then < 2).for_each(|(now, then)| *now = *then);
                self.sound.keep(&places);
            }
            (LaterBitWins, Ok(_)) => {
                let contradicted = bytes.filter(|(now, then)| **now == slots::DISPUTED && **then < 2);
                contradicted.for_each(|(now, then)| *now = 1 - *then);
                self.sound.keep(&places);
            }
            (ThirdBitHeals, _) => {
                let untouched =
                    bytes.filter(|(now, then)| **now == slots::UNHEARD && **then == slots::DISPUTED);
                untouched.for_each(|(now, then)| *now = *then);
                self.sound.keep(&places);
            }
            (DisputedHeard, Ok(_)) => {
                let lacking = match self.undisputed(*slot, *terminal) {
                    Err(Refusal::Lacking(lacking)) => lacking,
                    _ => 0,
                };
                return Ok(vec![lacking.to_string()]);
            }
            (RepeatsCounted, Ok(_)) => {
                let alone = self.heard_alone(call, data_places(self.sound.state.heads[*slot].a));
                self.lacking[*slot] = self.lacking[*slot].saturating_sub(alone);
                return Ok(vec![self.lacking[*slot].to_string()]);
            }
            (TailsCounted, Ok(_)) => return Ok(vec![self.unheard(*slot, *terminal)?.to_string()]),
            (RefusedStores, Err(Refusal::Number(2))) => {
                let mut stored = call.clone();
                if let Call::Receive { bits: put, .. } = &mut stored {
                    *put = bits.iter().map(|bit| bit & 1).collect();
                }
                self.sound.call(&stored)?;
            }
            _ => {}
        }
        self.late_allocation(*version, self.ownership(*terminal, outcome))
    }

    fn after_read(&mut self, slot: usize, terminal: u16, store: Vec<u8>, outcome: Outcome) -> Outcome {
        self.sound.keep(&store);
        match (self.fault, &outcome) {
            (CheckSkipped, Err(Refusal::Number(slots::CHECK_WRONG))) => self.unchecked(slot, terminal),
            (BlockChecksSkipped, Err(Refusal::CodeBlockWrong(_))) => self.transport_checked(slot, terminal),
            (BlockChecksAlone, Err(Refusal::Number(slots::CHECK_WRONG)))
                if sizes(self.sound.state.heads[slot].a)?.blocks > 1 =>
            {
                self.unchecked(slot, terminal)
            }
            (LastWrongBlock, Err(Refusal::CodeBlockWrong(_))) => {
                let wrong = self.wrong_blocks(slot, terminal, &crc::CRC24B)?;
                Err(Refusal::CodeBlockWrong(wrong[wrong.len() - 1]))
            }
            (TransportCheckFirst, Err(Refusal::CodeBlockWrong(_))) => {
                self.transport_checked(slot, terminal).and(outcome)
            }
            (TransportKindOnBlocks, Ok(_) | Err(Refusal::CodeBlockWrong(_))) => {
                match self.wrong_blocks(slot, terminal, &crc::CRC24A)?[..] {
                    [first, ..] => Err(Refusal::CodeBlockWrong(first)),
                    [] => self.transport_checked(slot, terminal),
                }
            }
            (SingleBlockCompared, Ok(_)) if sizes(self.sound.state.heads[slot].a)?.blocks == 1 => {
                let block: Vec<u8> =
                    self.data_runs(slot, terminal)?.concat().bytes().map(|digit| digit - b'0').collect();
                let (data, parity) = block.split_at(block.len() - 4 - 24);
                match crc::parity(data, &crc::CRC24B) == parity[..24] {
                    true => outcome,
                    false => Err(Refusal::CodeBlockWrong(0)),
                }
            }
            (DisputedHeard, Err(Refusal::Lacking(_))) => self.undisputed(slot, terminal),
            (TailsCounted, Err(Refusal::Lacking(_))) => Err(Refusal::Lacking(self.unheard(slot, terminal)?)),
            _ => self.ownership(terminal, outcome),
        }
    }

    fn after_streams(&mut self, slot: usize, terminal: u16, code_block: usize, outcome: Outcome) -> Outcome {
        if outcome.is_err() {
            return self.ownership(terminal, outcome);
        }
        let filler = sizes(self.sound.state.heads[slot].a)?.filler_in(code_block);
        let mut runs = outcome?;
        match self.fault {
            FirstBlockAlone => return self.sound.call(&Call::Streams { slot, terminal, code_block: 0 }),
            FillerUnheard => {
                runs[..2].iter_mut().for_each(|run| run.replace_range(..filler, &"2".repeat(filler)))
            }
            _ => {}
        }
        Ok(runs)
    }

    /// Leaves the first turn of a longer reception for a slot of one code block.
    fn cut_to_a_turn(&self, slot: usize, symbol: usize, bits: &mut Vec<u8>) {
        let head = self.sound.state.heads.get(slot).filter(|head| head.open);
        let s = match head.map(|head| sizes(head.a)) {
            Some(Ok(s)) => s,
            _ => return,
        };
        let turn = (3 * (s.long + 4) - 2 * s.filler).up_to_multiple(symbol.max(1));
        if s.blocks == 1 && bits.len() % symbol.max(1) == 0 && bits.iter().all(|bit| *bit < 2) {
            bits.truncate(turn);
        }
    }

    fn replace_disputed(&mut self, by: u8) {
        let mut places = self.sound.places();
        places.iter_mut().filter(|byte| **byte == slots::DISPUTED).for_each(|byte| *byte = by);
        self.sound.keep(&places);
    }

    /// What a read gives where every disputed place has heard a 0.
    fn undisputed(&mut self, slot: usize, terminal: u16) -> Outcome {
        let places = self.sound.places();
        self.replace_disputed(0);
        let outcome = self.sound.call(&Call::Read { slot, terminal });
        self.sound.keep(&places);
        outcome
    }

    /// 9 before 8, a closed head's terminal being 0.
    fn ownership(&self, terminal: u16, outcome: Outcome) -> Outcome {
        match outcome {
            Err(Refusal::Number(slots::CLOSED)) if self.fault == OtherBeforeClosed && terminal != 0 => {
                Err(slots::OTHER_TERMINAL.into())
            }
            _ => outcome,
        }
    }

    /// 4 before 3.
    fn late_allocation(&self, version: usize, outcome: Outcome) -> Outcome {
        match outcome {
            Err(Refusal::Number(3)) if self.fault == VersionBeforeAllocation && version > 3 => Err(4.into()),
            _ => outcome,
        }
    }

    /// How many data places a reception hears in an empty store.
    fn heard_alone(&self, call: &Call, data_places: usize) -> usize {
        let mut empty = Replay { state: self.sound.state, ..Replay::default() };
        empty.store.fill(slots::UNHEARD);
        let lacking = empty.call(call).map(|fields| fields[0].parse().unwrap_or(0));
        data_places - lacking.unwrap_or(data_places)
    }

    /// Run 0 of the streams of every code block.
    fn data_runs(&mut self, slot: usize, terminal: u16) -> Result<Vec<String>, Refusal> {
        let blocks = sizes(self.sound.state.heads[slot].a)?.blocks;
        let calls = (0..blocks).map(|code_block| Call::Streams { slot, terminal, code_block });
        calls.map(|call| Ok(self.sound.call(&call)?.remove(0))).collect()
    }

    /// Unheard places of stream 0, tails among them.
    fn unheard(&mut self, slot: usize, terminal: u16) -> Result<usize, Refusal> {
        Ok(self.data_runs(slot, terminal)?.concat().matches('2').count())
    }

    /// The code blocks, if there are several, that do not end in a check of this kind.
    fn wrong_blocks(
        &mut self,
        slot: usize,
        terminal: u16,
        kind: &crc::Generator,
    ) -> Result<Vec<usize>, Refusal> {
        let s = sizes(self.sound.state.heads[slot].a)?;
        let wrong = |r: usize, run: &String| {
            let c: Vec<u8> = run.bytes().take(s.size(r)).map(|digit| digit - b'0').collect();
            let (data, parity) = c.split_at(c.len() - s.parity);
            s.parity > 0 && crc::parity(data, kind) != parity
        };
        let runs = self.data_runs(slot, terminal)?;
        Ok(runs.iter().enumerate().filter(|(r, run)| wrong(*r, run)).map(|(r, _)| r).collect())
    }

    /// The A bits on the transport check alone.
    fn transport_checked(&mut self, slot: usize, terminal: u16) -> Outcome {
        let a = self.sound.state.heads[slot].a;
        let bits: Vec<u8> = self.sequence(slot, terminal)?.bytes().map(|digit| digit - b'0').collect();
        match crc::parity(&bits[..a], &crc::CRC24A) == bits[a..] {
            true => self.unchecked(slot, terminal),
            false => Err(slots::CHECK_WRONG.into()),
        }
    }

    /// The block and its transport check as they were heard.
    fn sequence(&mut self, slot: usize, terminal: u16) -> Result<String, Refusal> {
        let s = sizes(self.sound.state.heads[slot].a)?;
        let runs = self.data_runs(slot, terminal)?;
        let parts = runs.iter().enumerate().map(|(r, run)| &run[s.filler_in(r)..s.size(r) - s.parity]);
        Ok(parts.collect())
    }

    /// The A bits whatever the check says.
    fn unchecked(&mut self, slot: usize, terminal: u16) -> Outcome {
        let a = self.sound.state.heads[slot].a;
        Ok(vec![self.sequence(slot, terminal)?[..a].to_string()])
    }
}

/// Data places of a block of A bits.
fn data_places(a: usize) -> usize {
    sizes(a).map_or(0, |s| (0..s.blocks).map(|r| s.size(r) - s.filler_in(r)).sum())
}

/// The line with its numbers, though not its BITS, as a lax reader takes them.
fn without_leading_zeros(words: &[&[u8]]) -> Vec<u8> {
    let has_bits = [&b"receive"[..], b"build", b"build-down"].contains(&words[0]);
    let numbers = 1..words.len() - usize::from(has_bits && words.len() > 1);
    let mut lax = words.to_vec();
    for word in &mut lax[numbers] {
        while word.len() > 1 && word[0] == b'0' {
            *word = &word[1..];
        }
    }
    lax.join(&b' ')
}

/// Worst as if every code block were as long as the longest.
fn by_longest(a: usize, q: usize, n: usize, outcome: Outcome) -> Outcome {
    outcome?;
    let s = sizes(a)?;
    let equal = |need: usize| (s.blocks * need.up_to_multiple(q * n)).to_string();
    Ok(vec![equal(24 * (s.long + 4).div_up(32)), equal(3 * (s.long + 4) - 2 * s.filler_in(s.blocks - 1))])
}

/// Sizes with 0 for K- where C- is 0.
fn no_short_size(mut fields: Vec<String>) -> Vec<String> {
    if fields[3] == "0" {
        fields[4] = "0".into();
    }
    fields
}
