//! The calls on slots as C has them (`face/slots_bridge.c` says the binary form): whole histories
//! on a state that is kept as bytes, in either form of store, each step compared with the literal
//! slots: the number, the count, every byte of the state, the store and the output.

use crate::codeword::{self, SHORT_OUTPUT};
use crate::packing;
use crate::slots::{self, Head, Refusal, State, BAD_STATE, ROOM_OF_BLOCK, SLOTS_MAX};
use crate::soft_buffer::Receiver;
use crate::xorshift::{self, Generator};
use std::io::{self, BufReader, BufWriter, Read, Write};
use std::process::{Child, ChildStdin, ChildStdout, Command, Stdio};

/// ZEMRUKSTE_STATE_LEN, and what is kept of it with bytes past the end.
const STATE_LEN: usize = 272;
const STATE_KEPT: usize = STATE_LEN + 16;
const GUARD: usize = 64;
/// What stands in the numbers of a call that has no such number.
const NONE: usize = 0;
/// The steps of a history behind New.
const STEPS: usize = 30;

/// A call with its arguments; what is lent beside them stands in `Step`.
#[derive(Clone, Debug)]
pub enum Call {
    New { s: usize, m: usize },
    Open { slot: usize, terminal: u16, a: usize },
    OpenDown { slot: usize, terminal: u16, a: usize, receiver: Receiver },
    Receive { slot: usize, terminal: u16, q: usize, n: usize, version: usize, bits: Vec<u8> },
    Read { slot: usize, terminal: u16, length: usize },
    Streams { slot: usize, terminal: u16, block: usize, length: usize },
    Close { slot: usize, terminal: u16 },
}

/// A call, how many bytes of state and store are lent to it, and what count and output hold before.
#[derive(Clone, Debug)]
pub struct Step {
    pub call: Call,
    pub state_len: usize,
    pub store_len: usize,
    pub fill: u8,
}

/// What a call gave back, and everything that it could have written, afterwards.
#[derive(Clone, Debug, PartialEq, Eq)]
pub struct Left {
    pub number: u64,
    pub count: u64,
    pub store: u64,
    pub state: Vec<u8>,
    pub output: Vec<u8>,
}

/// The caller's bytes: the state and the store, a place a byte or packed.
#[derive(Clone)]
pub struct Kept {
    pub state: Vec<u8>,
    pub store: Vec<u8>,
    pub four: bool,
}

// ---- a state as bytes

/// The number in eight bytes, the lowest first.
fn number_at(bytes: &[u8], at: usize) -> usize {
    (0..8).map(|k| (bytes[at + k] as usize) << (8 * k)).sum()
}

/// The bytes of a head: 1 if open, else 0, terminal, A, share.
fn head_bytes(head: &Head) -> Vec<u8> {
    let numbers = [usize::from(head.open), usize::from(head.terminal), head.a, head.share];
    numbers.iter().flat_map(|number| (*number as u64).to_le_bytes()).collect()
}

/// S, M and the heads.
pub fn state_bytes(state: &State) -> Vec<u8> {
    let front = [state.s, state.m].into_iter().flat_map(|number| (number as u64).to_le_bytes());
    front.chain(state.heads.iter().flat_map(head_bytes)).collect()
}

/// The state of bytes, or 13 where they are none: too few, or in a head below S a flag above 1 or a
/// terminal above 65,535. Heads from S upward are ignored.
fn state_of(bytes: &[u8]) -> Result<State, u8> {
    if bytes.len() < STATE_LEN {
        return Err(BAD_STATE);
    }
    let mut state = State { s: number_at(bytes, 0), m: number_at(bytes, 8), ..State::default() };
    for slot in 0..state.s.min(SLOTS_MAX) {
        let [flag, terminal, a, share] = [0, 8, 16, 24].map(|at| number_at(bytes, 16 + 32 * slot + at));
        if flag > 1 || terminal > 65_535 {
            return Err(BAD_STATE);
        }
        state.heads[slot] = Head { open: flag == 1, terminal: terminal as u16, a, share };
    }
    Ok(state)
}

// ---- what a call leaves

impl Kept {
    /// The call by the literal slots.
    pub fn call(&mut self, step: &Step) -> Left {
        let mut output = vec![step.fill; step.call.output_length()];
        let answer = self.answer(step, &mut output);
        let (number, told) = match answer {
            Ok(told) => (0, told),
            Err(Refusal::Lacking(count)) => (u64::from(slots::LACKING), Some(count)),
            Err(Refusal::CodeBlockWrong(block)) => (u64::from(slots::CODE_BLOCK_WRONG), Some(block)),
            Err(Refusal::Number(number)) => (u64::from(number), None),
        };
        let count = told.map_or(u64::from(step.fill), |count| count as u64);
        let guard = vec![step.fill; if step.call.writes() { GUARD } else { 0 }];
        let output = [&guard[..], &output, &guard].concat();
        Left { number, count, store: sum(&self.store), state: self.state.clone(), output }
    }

    fn answer(&mut self, step: &Step, output: &mut [u8]) -> Result<Option<usize>, Refusal> {
        if let Call::New { s, m } = step.call {
            return self.new_state(step.state_len, s, m).map(|()| None);
        }
        let state = state_of(&self.state[..step.state_len])?;
        let mut places = self.places(step.store_len);
        let (after, answer) = on_slots(state, &mut places, &step.call, output);
        self.keep(step.store_len, &places);
        if let (Ok(_), Some(slot)) = (&answer, step.call.writes_head()) {
            self.state[16 + 32 * slot..][..32].copy_from_slice(&head_bytes(&after.heads[slot]));
        }
        answer
    }

    /// 5 where the bytes are too few; else all 272 are written, also with 13.
    fn new_state(&mut self, state_len: usize, s: usize, m: usize) -> Result<(), Refusal> {
        if state_len < STATE_LEN {
            return Err(Refusal::Number(SHORT_OUTPUT));
        }
        let (state, answer) = slots::new(s, m);
        self.state[..STATE_LEN].copy_from_slice(&state_bytes(&state));
        answer
    }

    /// The places that the first bytes of the store keep.
    fn places(&self, length: usize) -> Vec<u8> {
        let lent = &self.store[..length];
        match self.four {
            true => lent.iter().flat_map(|byte| packing::unpacked(*byte)).collect(),
            false => lent.to_vec(),
        }
    }

    fn keep(&mut self, length: usize, places: &[u8]) {
        let bytes: Vec<u8> = match self.four {
            true => places.chunks(4).map(|four| packing::packed([four[0], four[1], four[2], four[3]])).collect(),
            false => places.to_vec(),
        };
        self.store[..length].copy_from_slice(&bytes);
    }
}

/// A call but New on a state by value and places.
fn on_slots(
    state: State,
    places: &mut [u8],
    call: &Call,
    output: &mut [u8],
) -> (State, Result<Option<usize>, Refusal>) {
    let none = |(state, answer): (State, slots::Answer)| (state, answer.map(|()| None));
    match call {
        Call::New { .. } => (state, Ok(None)),
        Call::Open { slot, terminal, a } => none(slots::open(state, places, *slot, *terminal, *a)),
        Call::OpenDown { slot, terminal, a, receiver } => {
            none(slots::open_down(state, places, *slot, *terminal, *a, receiver))
        }
        Call::Receive { slot, terminal, q, n, version, bits } => {
            let (state, answer) = slots::receive(state, places, *slot, *terminal, *q, *n, *version, bits);
            (state, answer.map(Some))
        }
        Call::Read { slot, terminal, .. } => none(slots::read(state, places, *slot, *terminal, output)),
        Call::Streams { slot, terminal, block, .. } => {
            none(slots::streams(state, places, *slot, *terminal, *block, output))
        }
        Call::Close { slot, terminal } => none(slots::close(state, *slot, *terminal)),
    }
}

/// FNV-1a over 64 bits.
fn sum(bytes: &[u8]) -> u64 {
    let next = |sum: u64, byte: &u8| (sum ^ u64::from(*byte)).wrapping_mul(0x100_0000_01B3);
    bytes.iter().fold(0xCBF2_9CE4_8422_2325, next)
}

// ---- the binary form

impl Call {
    fn writes(&self) -> bool {
        matches!(self, Call::Read { .. } | Call::Streams { .. })
    }

    fn output_length(&self) -> usize {
        match self {
            Call::Read { length, .. } | Call::Streams { length, .. } => *length,
            _ => 0,
        }
    }

    /// The slot whose head an accepted call writes.
    fn writes_head(&self) -> Option<usize> {
        match self {
            Call::Open { slot, .. } | Call::OpenDown { slot, .. } | Call::Close { slot, .. } => Some(*slot),
            _ => None,
        }
    }

    pub fn name(&self) -> &'static str {
        match self {
            Call::New { .. } => "new",
            Call::Open { .. } => "open",
            Call::OpenDown { .. } => "open_down",
            Call::Receive { .. } => "receive",
            Call::Read { .. } => "read",
            Call::Streams { .. } => "streams",
            Call::Close { .. } => "close",
        }
    }

    /// The kind and the numbers 3 to 10 of the request.
    fn numbers(&self) -> (usize, [usize; 8]) {
        match self {
            Call::New { s, m } => (1, [*s, *m, NONE, NONE, NONE, NONE, NONE, NONE]),
            Call::Open { slot, terminal, a } => (2, [*slot, usize::from(*terminal), *a, NONE, NONE, NONE, NONE, NONE]),
            Call::OpenDown { slot, terminal, a, receiver: r } => {
                (3, [*slot, usize::from(*terminal), *a, r.release, r.mimo, r.processes, r.soft, r.layers])
            }
            Call::Receive { slot, terminal, q, n, version, bits } => {
                (4, [*slot, usize::from(*terminal), *q, *n, *version, NONE, NONE, bits.len()])
            }
            Call::Read { slot, terminal, length } => {
                (5, [*slot, usize::from(*terminal), NONE, NONE, NONE, NONE, NONE, *length])
            }
            Call::Streams { slot, terminal, block, length } => {
                (6, [*slot, usize::from(*terminal), *block, NONE, NONE, NONE, NONE, *length])
            }
            Call::Close { slot, terminal } => (7, [*slot, usize::from(*terminal), NONE, NONE, NONE, NONE, NONE, NONE]),
        }
    }
}

/// The bridge, asked one step after another.
struct Bridge {
    child: Child,
    input: BufWriter<ChildStdin>,
    output: BufReader<ChildStdout>,
}

impl Bridge {
    fn start(command: &[String]) -> Result<Bridge, String> {
        let (name, arguments) = command.split_first().ok_or("slots needs a command")?;
        let spawned = Command::new(name).args(arguments).stdin(Stdio::piped()).stdout(Stdio::piped()).spawn();
        let mut child = spawned.map_err(|error| format!("{name}: {error}"))?;
        let input = BufWriter::with_capacity(1 << 16, child.stdin.take().expect("the input is a pipe"));
        let output = BufReader::with_capacity(1 << 16, child.stdout.take().expect("the output is a pipe"));
        Ok(Bridge { child, input, output })
    }

    fn send(&mut self, numbers: &[usize]) -> io::Result<()> {
        let bytes: Vec<u8> = numbers.iter().flat_map(|number| (*number as u64).to_le_bytes()).collect();
        self.input.write_all(&bytes)
    }

    /// From here on these are the bytes that the bridge keeps.
    fn begin(&mut self, kept: &Kept) -> io::Result<()> {
        self.send(&[0, kept.state.len(), kept.store.len(), 0, 0, 0, 0, 0, 0, 0, 0, 0])?;
        self.input.write_all(&kept.state)?;
        self.input.write_all(&kept.store)
    }

    fn ask(&mut self, step: &Step, four: bool) -> io::Result<Left> {
        let (kind, numbers) = step.call.numbers();
        let kind = if four && (2..=6).contains(&kind) { kind + 6 } else { kind };
        let all = [&[kind, step.state_len, step.store_len][..], &numbers, &[usize::from(step.fill)]].concat();
        self.send(&all)?;
        if let Call::Receive { bits, .. } = &step.call {
            self.input.write_all(bits)?;
        }
        self.input.flush()?;
        let guards = if step.call.writes() { 2 * GUARD } else { 0 };
        let mut bytes = vec![0; 32 + STATE_KEPT + guards + step.call.output_length()];
        self.output.read_exact(&mut bytes)?;
        let [number, count, store, kept] = [0, 8, 16, 24].map(|at| number_at(&bytes, at) as u64);
        if kept != 1 {
            return Err(io::ErrorKind::InvalidData.into());
        }
        let output = bytes.split_off(32 + STATE_KEPT);
        Ok(Left { number, count, store, state: bytes.split_off(32), output })
    }
}

// ---- histories

/// What a car in a slot sends.
#[derive(Clone)]
struct Car {
    terminal: u16,
    block: Vec<u8>,
    receiver: Option<Receiver>,
}

/// Makes the steps of a history; a pseudo-random yard that remembers which car has which slot.
struct Maker {
    random: Generator,
    s: usize,
    m: usize,
    cars: Vec<Option<Car>>,
}

impl Maker {
    fn one_in(&mut self, n: usize) -> bool {
        self.random.below(n) == 0
    }

    /// A block length: mostly short ones, now and then one of several code blocks.
    fn length(&mut self) -> usize {
        let long = if self.m > 1 { 8 } else { 1 };
        match self.random.below(40) {
            0 => self.random.choose(&[0, 30_577, usize::MAX]),
            low if low <= long => 6_121 + self.random.below(200),
            low if low <= long + 2 => 1 + self.random.below(2_000),
            _ => 1 + self.random.below(120),
        }
    }

    fn receiver(&mut self, a: usize) -> Receiver {
        let release = self.random.choose(&[8, 8, 11, 11, 11, 9]);
        let soft = match self.random.below(3) {
            0 => self.random.choose(&[3_654_144, 35_982_720, 250_368, 0, usize::MAX]),
            _ => 8 * (64 + self.random.below(4 * (a.min(40_000) + 60))),
        };
        let processes = self.random.choose(&[0, 1, 8, 8, 8, 15]);
        Receiver { release, mimo: self.random.choose(&[1, 1, 2, 3]), processes, soft, layers: 1 + self.random.below(4) }
    }

    fn slot(&mut self) -> usize {
        if self.one_in(25) {
            self.random.choose(&[self.s, 8, usize::MAX])
        } else {
            self.random.below(self.s.max(1))
        }
    }

    /// The terminal of the slot, now and then another.
    fn terminal(&mut self, slot: usize) -> u16 {
        let own = self.cars.get(slot).cloned().flatten().map_or(7, |car| car.terminal);
        if self.one_in(15) {
            own ^ (1 << self.random.below(16))
        } else {
            own
        }
    }

    fn call(&mut self) -> Call {
        let slot = self.slot();
        let terminal = self.terminal(slot);
        let closed = self.cars.get(slot).map_or(true, |car| car.is_none());
        match self.random.below(if closed { 14 } else { 10 }) {
            0 => Call::Close { slot, terminal },
            1 => Call::Streams { slot, terminal, block: self.random.below(3), length: self.output(slot, 3) },
            2 | 3 => Call::Read { slot, terminal, length: self.output(slot, 1) },
            4..=9 if !closed || self.one_in(3) => self.reception(slot, terminal),
            4 => self.opening(0),
            _ => self.opening(slot),
        }
    }

    /// Long enough, but for one in twelve.
    fn output(&mut self, slot: usize, streams: usize) -> usize {
        let a = self.cars.get(slot).cloned().flatten().map_or(16, |car| car.block.len());
        if self.one_in(12) {
            a.min(6_000) - 1
        } else {
            streams * (a + 100)
        }
    }

    fn opening(&mut self, slot: usize) -> Call {
        let (a, terminal) = (self.length(), self.random.choose(&[0, 7, 9, 65_535]));
        if self.one_in(2) {
            return Call::Open { slot, terminal, a };
        }
        let receiver = self.receiver(a);
        Call::OpenDown { slot, terminal, a, receiver }
    }

    /// A transmission of the slot's block, sometimes with wrong bits or wrong numbers.
    fn reception(&mut self, slot: usize, terminal: u16) -> Call {
        let (mut q, n) = (self.random.choose(&[2, 4, 6]), 1 + self.random.below(4));
        let mut version = self.random.below(4);
        let car = self.cars.get(slot).cloned().flatten();
        let a = car.as_ref().map_or(16, |car| car.block.len());
        let g = q * n * (1 + self.random.below(4 * (a + 24) / (q * n) + 8));
        let mut bits = vec![0; g];
        let built = car.map(|Car { block, receiver, .. }| match receiver {
            None => codeword::build_into(&block, q, n, version, g, &mut bits),
            Some(receiver) => codeword::build_down_into(&block, &receiver, q, n, version, g, &mut bits),
        });
        if built != Some(Ok(())) || self.one_in(10) {
            let place = self.random.below(g);
            bits[place] ^= 1;
        }
        match self.random.below(40) {
            0 => bits[g / 2] = 2 + self.random.below(254) as u8,
            1 => version = 4 + self.random.below(3),
            2 => q = self.random.choose(&[0, 1, 3, 8, usize::MAX]),
            3 => bits.push(0),
            _ => {}
        }
        Call::Receive { slot, terminal, q, n, version, bits }
    }

    /// What an accepted call changed in the yard.
    fn heed(&mut self, call: &Call, seed: u64) {
        let (slot, car) = match *call {
            Call::Open { slot, terminal, a } => {
                (slot, Some(Car { terminal, block: xorshift::block(a, seed), receiver: None }))
            }
            Call::OpenDown { slot, terminal, a, receiver } => {
                (slot, Some(Car { terminal, block: xorshift::block(a, seed), receiver: Some(receiver) }))
            }
            Call::Close { slot, .. } => (slot, None),
            _ => return,
        };
        self.cars[slot] = car;
    }

    /// Bytes of the state that no call wrote: one byte anywhere, or a number of a head out of range.
    fn damage(&mut self, state: &mut [u8]) {
        let head = 16 + 32 * self.random.below(8);
        match self.random.below(4) {
            0 => state[head] = 2 + self.random.below(200) as u8,
            1 => state[head + 10] = 1,
            2 => state[head + 16 + self.random.below(16)] ^= 1 << self.random.below(8),
            _ => state[self.random.below(STATE_LEN)] = self.random.below(256) as u8,
        }
    }
}

/// How the comparison went.
#[derive(Default)]
pub struct Outcome {
    pub passed: usize,
    pub failed: usize,
    /// How often each call answered each number.
    pub answers: std::collections::BTreeMap<(&'static str, u64), usize>,
}

/// Compares so many histories; the first difference goes to standard output.
pub fn run(seed: u64, histories: usize, command: &[String]) -> Result<Outcome, String> {
    let mut bridge = Bridge::start(command)?;
    let mut outcome = Outcome::default();
    for history in 0..histories {
        let told = compare(&mut bridge, seed.wrapping_add(history as u64 * 7_919), &mut outcome);
        if let Err(what) = told {
            outcome.failed += 1;
            println!("first difference: history {history}, seed {seed}: {what}");
            let _ = bridge.child.kill();
            let _ = bridge.child.wait();
            return Ok(outcome);
        }
    }
    let Bridge { mut child, input, .. } = bridge;
    drop(input);
    let status = child.wait().map_err(|error| format!("the bridge: {error}"))?;
    if !status.success() {
        outcome.failed += 1;
        println!("the bridge ended with {status}");
    }
    Ok(outcome)
}

/// One history: New over bytes of any kind, then calls, some of them on damaged states.
fn compare(bridge: &mut Bridge, seed: u64, outcome: &mut Outcome) -> Result<(), String> {
    let mut random = Generator::new(seed);
    let (s, m) = match random.below(20) {
        0 => random.choose(&[(0, 1), (9, 1), (1, 6), (1, 0)]),
        _ => random.choose(&[(1, 1), (1, 1), (2, 1), (3, 1), (1, 2), (8, 1)]),
    };
    let four = random.below(2) == 1;
    let room = if four { packing::PACKED_OF_BLOCK } else { ROOM_OF_BLOCK };
    let bytes = |random: &mut Generator, count: usize| (0..count).map(|_| random.below(256) as u8).collect();
    let length = s.min(SLOTS_MAX) * m.min(2) * room + random.below(9);
    let mut kept = Kept { state: bytes(&mut random, STATE_KEPT), store: bytes(&mut random, length), four };
    let mut maker = Maker { random, s, m, cars: vec![None; SLOTS_MAX] };
    bridge.begin(&kept).map_err(|error| error.to_string())?;
    let state_len = if maker.one_in(20) { maker.random.below(STATE_LEN) } else { STATE_LEN };
    let first = Step { call: Call::New { s: maker.s, m: maker.m }, state_len, store_len: 0, fill: 165 };
    step(bridge, &mut kept, &first, outcome)?;
    for _ in 0..STEPS {
        let sound = kept.clone();
        let damaged = maker.one_in(12);
        if damaged {
            maker.damage(&mut kept.state);
            bridge.begin(&kept).map_err(|error| error.to_string())?;
        }
        let asked = one_step(&mut maker, &kept);
        let number = step(bridge, &mut kept, &asked, outcome)?;
        if damaged {
            kept = sound;
            bridge.begin(&kept).map_err(|error| error.to_string())?;
        } else if number == 0 {
            let seed = maker.random.number();
            maker.heed(&asked.call, seed);
        }
    }
    Ok(())
}

/// The next call, now and then with too little state or store.
fn one_step(maker: &mut Maker, kept: &Kept) -> Step {
    let call = maker.call();
    let state_len = match maker.random.below(30) {
        0 => maker.random.below(STATE_LEN),
        1 => STATE_LEN - 1,
        2 => STATE_KEPT,
        _ => STATE_LEN,
    };
    let store_len = match maker.random.below(30) {
        0 => maker.random.below(kept.store.len() + 1),
        _ => kept.store.len(),
    };
    Step { call, state_len, store_len, fill: 4 + maker.random.below(250) as u8 }
}

/// Asks both; gives the number that both answered.
fn step(bridge: &mut Bridge, kept: &mut Kept, asked: &Step, outcome: &mut Outcome) -> Result<u64, String> {
    let given = bridge.ask(asked, kept.four).map_err(|error| format!("{asked:?}: {error}"))?;
    let expected = kept.call(asked);
    if given != expected {
        let form = if kept.four { "packed" } else { "plain" };
        return Err(format!("{form} {asked:?}\n{}", difference(&expected, &given)));
    }
    outcome.passed += 1;
    *outcome.answers.entry((asked.call.name(), expected.number)).or_insert(0) += 1;
    Ok(expected.number)
}

fn difference(expected: &Left, given: &Left) -> String {
    let at = |a: &[u8], b: &[u8]| a.iter().zip(b).position(|(x, y)| x != y);
    format!(
        "number {} and {}, count {} and {}, store {} and {}, state from byte {:?}, output from byte {:?}",
        expected.number,
        given.number,
        expected.count,
        given.count,
        expected.store,
        given.store,
        at(&expected.state, &given.state),
        at(&expected.output, &given.output)
    )
}
