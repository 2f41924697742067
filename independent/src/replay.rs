//! The line protocol `replay`: the calls of 01 as lines, each answered with one line.
//!
//! Words are parted by one blank, a line is ended by byte 10 alone; a last line may lack it.
//! Numbers are decimal, 1 to 6 digits with no leading zero (0 itself allowed), SOFT to 8 digits.
//! BITS is a run of at least one digit: 0 and 1 are bits, 2 to 9 bytes of that value.
//!
//! ```text
//! new S M                                    ok
//! open SLOT TERMINAL A                       ok
//! open-down SLOT TERMINAL A RECEIVER         ok, each code block's share of the soft buffer
//! receive SLOT TERMINAL Q N VERSION BITS     ok, how many data places lack a bit
//! read SLOT TERMINAL                         ok, the A bits
//! streams SLOT TERMINAL BLOCK                ok, the three runs of 0, 1 and 2
//! close SLOT TERMINAL                        ok
//! build Q N VERSION G BITS                   ok, the codeword
//! build-down RECEIVER Q N VERSION G BITS     ok, the codeword
//! sizes A                                    ok, C, longs, long, shorts, short, filler
//! worst A Q N                                ok, the least G of three, the least G of one
//! pack                                       ok: every room four places a byte from now on
//! unpack                                     ok: every room a place a byte from now on
//! ```
//!
//! RECEIVER is RELEASE MIMO PROCESSES SOFT LAYERS.
//! Fields of an answer are parted by one tab. A refusal is `refused`, the number, and the
//! count with 11 or the code block with 16; a line that can't be read is refused with 15 and
//! changes nothing. An empty line and one that begins with `#` have no answer. Before the
//! first `new` the state is that of a refused New. The store has room for S * M = 3, begins as zeros and is never cleared.
//! So has a second one for packed rooms. A change of form acts on the state's rooms, refused with
//! 13 where M is out of range and then with 5 where they do not fit; where the rooms have that form
//! already nothing changes.

use crate::codeword;
use crate::packing::{self, PACKED_OF_BLOCK};
use crate::sizes::{self, UNREADABLE};
use crate::slots::{self, Refusal, State, ROOM_OF_BLOCK};
use crate::soft_buffer::Receiver;
use crate::worst;
use std::io::{self, BufRead, ErrorKind};

/// Bytes of the store, and of that for packed rooms.
pub const STORE: usize = 3 * ROOM_OF_BLOCK;
pub const PACKED_STORE: usize = 3 * PACKED_OF_BLOCK;

/// The longest line that can be read, its newline not counted.
pub const LINE_MAX: usize = 200_000;

/// The most digits of a number, and of soft bits.
pub const DIGITS_MAX: usize = 6;
pub const SOFT_DIGITS_MAX: usize = 8;

/// A line that could be read.
#[derive(Clone, Debug, PartialEq, Eq)]
pub enum Call {
    New { s: usize, m: usize },
    Open { slot: usize, terminal: u16, a: usize },
    OpenDown { slot: usize, terminal: u16, a: usize, receiver: Receiver },
    Receive { slot: usize, terminal: u16, q: usize, n: usize, version: usize, bits: Vec<u8> },
    Read { slot: usize, terminal: u16 },
    Streams { slot: usize, terminal: u16, code_block: usize },
    Close { slot: usize, terminal: u16 },
    Build { q: usize, n: usize, version: usize, g: usize, block: Vec<u8> },
    BuildDown { receiver: Receiver, q: usize, n: usize, version: usize, g: usize, block: Vec<u8> },
    Sizes { a: usize },
    Worst { a: usize, q: usize, n: usize },
    Pack,
    Unpack,
}

impl Call {
    /// The call of a line without its newline, or none if the line can't be read.
    pub fn parse(line: &[u8]) -> Option<Call> {
        if line.len() > LINE_MAX {
            return None;
        }
        let words: Vec<&[u8]> = line.split(|byte| *byte == b' ').collect();
        Some(match words[..] {
            [b"new", s, m] => Call::New { s: number(s)?, m: number(m)? },
            [b"open", slot, car, a] => {
                Call::Open { slot: number(slot)?, terminal: terminal(car)?, a: number(a)? }
            }
            [b"open-down", slot, car, a, release, mimo, processes, soft, layers] => Call::OpenDown {
                slot: number(slot)?,
                terminal: terminal(car)?,
                a: number(a)?,
                receiver: receiver([release, mimo, processes, soft, layers])?,
            },
            [b"receive", slot, car, q, n, version, bits] => Call::Receive {
                slot: number(slot)?,
                terminal: terminal(car)?,
                q: number(q)?,
                n: number(n)?,
                version: number(version)?,
                bits: digits(bits)?,
            },
            [b"read", slot, car] => Call::Read { slot: number(slot)?, terminal: terminal(car)? },
            [b"streams", slot, car, block] => {
                Call::Streams { slot: number(slot)?, terminal: terminal(car)?, code_block: number(block)? }
            }
            [b"close", slot, car] => Call::Close { slot: number(slot)?, terminal: terminal(car)? },
            [b"build", q, n, version, g, bits] => Call::Build {
                q: number(q)?,
                n: number(n)?,
                version: number(version)?,
                g: number(g)?,
                block: digits(bits)?,
            },
            [b"build-down", release, mimo, processes, soft, layers, q, n, version, g, bits] => Call::BuildDown {
                receiver: receiver([release, mimo, processes, soft, layers])?,
                q: number(q)?,
                n: number(n)?,
                version: number(version)?,
                g: number(g)?,
                block: digits(bits)?,
            },
            [b"sizes", a] => Call::Sizes { a: number(a)? },
            [b"worst", a, q, n] => Call::Worst { a: number(a)?, q: number(q)?, n: number(n)? },
            [b"pack"] => Call::Pack,
            [b"unpack"] => Call::Unpack,
            _ => return None,
        })
    }
}

fn number(word: &[u8]) -> Option<usize> {
    number_to(DIGITS_MAX, word)
}

/// A number of at most so many digits.
fn number_to(most: usize, word: &[u8]) -> Option<usize> {
    let well_formed = (1..=most).contains(&word.len()) && (word[0] != b'0' || word.len() == 1);
    let values = digits(word).filter(|_| well_formed)?;
    Some(values.into_iter().fold(0, |value, digit| 10 * value + usize::from(digit)))
}

fn terminal(word: &[u8]) -> Option<u16> {
    number(word).and_then(|value| u16::try_from(value).ok())
}

fn receiver([release, mimo, processes, soft, layers]: [&[u8]; 5]) -> Option<Receiver> {
    Some(Receiver {
        release: number(release)?,
        mimo: number(mimo)?,
        processes: number(processes)?,
        soft: number_to(SOFT_DIGITS_MAX, soft)?,
        layers: number(layers)?,
    })
}

/// The values of a run of at least one digit.
fn digits(word: &[u8]) -> Option<Vec<u8>> {
    let all_digits = !word.is_empty() && word.iter().all(u8::is_ascii_digit);
    all_digits.then(|| word.iter().map(|digit| digit - b'0').collect())
}

/// What stands behind `ok`, or what the call is refused with.
pub type Outcome = Result<Vec<String>, Refusal>;

/// The state and the stores that a run of lines works on.
pub struct Replay {
    pub state: State,
    /// A place a byte.
    pub store: Vec<u8>,
    /// Four places a byte.
    pub packed_store: Vec<u8>,
    /// Whether the rooms are in the packed store.
    pub packed: bool,
}

impl Default for Replay {
    fn default() -> Replay {
        let (store, packed_store) = (vec![0; STORE], vec![0; PACKED_STORE]);
        Replay { state: State::default(), store, packed_store, packed: false }
    }
}

impl Replay {
    /// The answer to a line, both without their newline; none to an empty line and a comment.
    pub fn answer(&mut self, line: &[u8]) -> Option<String> {
        if is_silent(line) {
            return None;
        }
        let outcome = match Call::parse(line) {
            Some(call) => self.call(&call),
            None => Err(UNREADABLE.into()),
        };
        Some(text(outcome))
    }

    pub fn call(&mut self, call: &Call) -> Outcome {
        match call {
            Call::New { s, m } => self.go_on(slots::new(*s, *m)),
            Call::Open { slot, terminal, a } => {
                let opened = self.on_rooms(|state, store| slots::open(state, store, *slot, *terminal, *a));
                opened.map(|()| Vec::new())
            }
            Call::OpenDown { slot, terminal, a, receiver } => {
                self.on_rooms(|state, store| slots::open_down(state, store, *slot, *terminal, *a, receiver))?;
                Ok(vec![self.state.heads[*slot].share.to_string()])
            }
            Call::Receive { slot, terminal, q, n, version, bits } => {
                let lacking = self.on_rooms(|state, store| {
                    slots::receive(state, store, *slot, *terminal, *q, *n, *version, bits)
                });
                Ok(vec![lacking?.to_string()])
            }
            Call::Read { slot, terminal } => self.read(*slot, *terminal),
            Call::Streams { slot, terminal, code_block } => self.streams(*slot, *terminal, *code_block),
            Call::Close { slot, terminal } => self.go_on(slots::close(self.state, *slot, *terminal)),
            Call::Build { q, n, version, g, block } => {
                Ok(vec![run(&codeword::build(block, *q, *n, *version, *g)?)])
            }
            Call::BuildDown { receiver, q, n, version, g, block } => {
                let mut output = vec![0; codeword::G_MAX];
                codeword::build_down_into(block, receiver, *q, *n, *version, *g, &mut output)?;
                Ok(vec![run(&output[..*g])])
            }
            Call::Sizes { a } => {
                let s = sizes::sizes(*a)?;
                let numbers = [s.blocks, s.longs, s.long, s.shorts, s.short, s.filler];
                Ok(numbers.map(|number| number.to_string()).to_vec())
            }
            Call::Worst { a, q, n } => {
                let least = worst::worst(*a, *q, *n)?;
                Ok(vec![least.three.to_string(), least.one.to_string()])
            }
            Call::Pack => self.change(true),
            Call::Unpack => self.change(false),
        }
    }

    /// Takes over the state that a call gives back.
    fn go_on(&mut self, (state, answer): (State, slots::Answer)) -> Outcome {
        self.state = state;
        answer.map(|()| Vec::new())
    }

    /// A call on the rooms, whichever their form.
    fn on_rooms<T>(&mut self, call: impl FnOnce(State, &mut [u8]) -> (State, T)) -> T {
        let mut places = self.places();
        let (state, answer) = call(self.state, &mut places);
        self.state = state;
        self.keep(&places);
        answer
    }

    /// The places of the store in use, one a byte.
    pub fn places(&self) -> Vec<u8> {
        match self.packed {
            true => self.packed_store.iter().flat_map(|byte| packing::unpacked(*byte)).collect(),
            false => self.store.clone(),
        }
    }

    /// Keeps places in the store in use.
    pub fn keep(&mut self, places: &[u8]) {
        if !self.packed {
            return self.store.copy_from_slice(places);
        }
        for (byte, four) in self.packed_store.iter_mut().zip(places.chunks_exact(4)) {
            *byte = packing::packed([four[0], four[1], four[2], four[3]]);
        }
    }

    /// Every room of the state in the other form; where the rooms have that form already nothing
    /// changes.
    fn change(&mut self, packed: bool) -> Outcome {
        let State { s, m, .. } = self.state;
        if !(1..=slots::BLOCKS_MAX).contains(&m) {
            return Err(slots::BAD_STATE.into());
        }
        if s * m * ROOM_OF_BLOCK > self.store.len() || s * m * PACKED_OF_BLOCK > self.packed_store.len() {
            return Err(slots::SHORT_STORE.into());
        }
        let changed = if packed == self.packed { 0 } else { s };
        for slot in 0..changed {
            let room = &mut self.store[slot * m * ROOM_OF_BLOCK..];
            let packed_room = &mut self.packed_store[slot * m * PACKED_OF_BLOCK..];
            match packed {
                true => packing::pack(m, room, packed_room)?,
                false => packing::unpack(m, packed_room, room)?,
            }
        }
        self.packed = packed;
        Ok(Vec::new())
    }

    fn read(&mut self, slot: usize, terminal: u16) -> Outcome {
        let mut output = vec![0; codeword::A_MAX];
        let (state, answer) = slots::read(self.state, &self.places(), slot, terminal, &mut output);
        self.state = state;
        answer?;
        Ok(vec![run(&output[..state.heads[slot].a])])
    }

    fn streams(&mut self, slot: usize, terminal: u16, code_block: usize) -> Outcome {
        let mut output = vec![0; ROOM_OF_BLOCK];
        let (state, answer) =
            slots::streams(self.state, &self.places(), slot, terminal, code_block, &mut output);
        self.state = state;
        answer?;
        let d = sizes::sizes(state.heads[slot].a)?.size(code_block) + 4;
        Ok(output[..3 * d].chunks(d).map(run).collect())
    }
}

/// Whether a line has no answer.
pub fn is_silent(line: &[u8]) -> bool {
    line.is_empty() || line[0] == b'#'
}

/// The answer's line without its newline.
pub fn text(outcome: Outcome) -> String {
    match outcome {
        Ok(fields) => fields.into_iter().fold("ok".to_string(), |line, field| line + "\t" + &field),
        Err(Refusal::Lacking(count)) => format!("refused\t{}\t{count}", slots::LACKING),
        Err(Refusal::CodeBlockWrong(r)) => format!("refused\t{}\t{r}", slots::CODE_BLOCK_WRONG),
        Err(Refusal::Number(number)) => format!("refused\t{number}"),
    }
}

/// Bytes below 10 as a run of digits.
pub fn run(bytes: &[u8]) -> String {
    bytes.iter().map(|byte| char::from(b'0' + byte)).collect()
}

/// How a line was ended.
#[derive(Clone, Copy, Debug, PartialEq, Eq)]
pub enum End {
    Newline,
    Input,
}

/// Puts the next line into `line`, without its newline; none if the input has ended. Of a
/// line that is too long no more is kept than shows it.
pub fn next_line(input: &mut impl BufRead, line: &mut Vec<u8>) -> io::Result<Option<End>> {
    line.clear();
    loop {
        let seen = match input.fill_buf() {
            Err(error) if error.kind() == ErrorKind::Interrupted => continue,
            seen => seen?,
        };
        if seen.is_empty() {
            return Ok((!line.is_empty()).then_some(End::Input));
        }
        let newline = seen.iter().position(|byte| *byte == b'\n');
        let part = &seen[..newline.unwrap_or(seen.len())];
        line.extend_from_slice(&part[..part.len().min(LINE_MAX + 1 - line.len())]);
        let used = part.len() + usize::from(newline.is_some());
        input.consume(used);
        if newline.is_some() {
            return Ok(Some(End::Newline));
        }
    }
}
