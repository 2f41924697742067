//! Whole histories of calls on slots of both links and in both forms, made by the independent program and answered by
//! it and through the wrapper: every answer, every byte of every output and of every room.

use independent::codeword::{self, A_MAX, G_MAX};
use independent::history;
use independent::packing::PACKED_OF_BLOCK;
use independent::replay::{run, Call, Outcome, Replay};
use independent::sizes::sizes;
use independent::slots::{self, Refusal, BAD_STATE, ROOM_OF_BLOCK};
use independent::soft_buffer::Receiver;
use independent::xorshift::Generator;
use std::collections::BTreeMap;
use zemrukste::Yard;

const HISTORIES: usize = 800;

/// The least steps that are compared.
const STEPS: usize = 20_000;

/// What an output holds before a call: never a bit.
const FILL: u8 = 9;

/// What a call gave, and its output.
type Told = (Outcome, Vec<u8>);

#[test]
fn histories_go_as_the_independent_program_says() {
    let mut twin = Twin { sound: Replay::default(), yard: None, random: Generator::new(5), seen: BTreeMap::new() };
    for (number, lines) in history::all(7, HISTORIES).iter().enumerate() {
        for line in lines {
            if let Some(call) = Call::parse(line) {
                twin.step(number, &call);
            }
        }
    }
    twin.report();
}

/// The independent program's state and stores, and the wrapper's yard.
struct Twin {
    sound: Replay,
    /// None where there is no state: before the first New and behind a refused one.
    yard: Option<Yard>,
    random: Generator,
    /// How often each answer was given.
    seen: BTreeMap<String, usize>,
}

impl Twin {
    fn step(&mut self, history: usize, call: &Call) {
        let length = self.output_length(call);
        let given = match call {
            Call::Worst { .. } => return, // no call of the library
            Call::New { s, m } => self.new_yard(*s, *m),
            Call::Build { q, n, version, g, block } => {
                lent(length, |out| Ok(vec![run(zemrukste::build(block, *q, *n, *version, *g, out)?)]))
            }
            Call::BuildDown { receiver, q, n, version, g, block } => lent(length, |out| {
                Ok(vec![run(zemrukste::build_down(block, &wrapped(receiver), *q, *n, *version, *g, out)?)])
            }),
            Call::Sizes { a } => lent(length, |_| {
                let s = zemrukste::sizes(*a)?;
                Ok([s.blocks, s.longs, s.long, s.shorts, s.short, s.filler].map(|number| number.to_string()).to_vec())
            }),
            _ => match &mut self.yard {
                Some(yard) => lent(length, |out| on_slots(yard, call, out)),
                None => return assert_eq!(self.expected(call, length).0, Err(BAD_STATE.into())),
            },
        };
        let expected = self.expected(call, length);
        assert!(
            given == expected,
            "history {history}, {call:?}, output of {length}: {:?} and {:?}",
            given.0,
            expected.0
        );
        if let Some(yard) = &self.yard {
            let rooms = if self.sound.packed { &self.sound.packed_store } else { &self.sound.store };
            assert!(yard.rooms() == rooms, "history {history}, {call:?}: the rooms");
        }
        let what = match &given.0 {
            Ok(_) => format!("{call:?}").split(' ').next().unwrap().to_string(),
            Err(refusal) => format!("{:2}", refusal.number()),
        };
        *self.seen.entry(what).or_default() += 1;
    }

    /// A new yard, in the form of the old one.
    fn new_yard(&mut self, s: usize, m: usize) -> Told {
        let packed = self.sound.packed;
        // A yard's rooms are as many as its state has, and new.
        let rooms = if s <= slots::SLOTS_MAX && m <= slots::BLOCKS_MAX { s * m } else { 0 };
        self.sound.store = vec![0; rooms * ROOM_OF_BLOCK];
        self.sound.packed_store = vec![0; rooms * PACKED_OF_BLOCK];
        let made = if packed { Yard::new_packed(s, m) } else { Yard::new(s, m) };
        let outcome = made.as_ref().map(|_| Vec::new()).map_err(|refusal| told(*refusal));
        self.yard = made.ok();
        (outcome, Vec::new())
    }

    /// Mostly long enough; now and then just not, or just so.
    fn output_length(&mut self, call: &Call) -> usize {
        let head = |slot: &usize| self.sound.state.heads.get(*slot).map_or(0, |head| head.a);
        let (needed, most) = match call {
            Call::Build { g, .. } | Call::BuildDown { g, .. } => (*g, G_MAX),
            Call::Read { slot, .. } => (head(slot), A_MAX),
            Call::Streams { slot, code_block, .. } => {
                (sizes(head(slot)).map_or(0, |s| 3 * (s.size(*code_block) + 4)), ROOM_OF_BLOCK)
            }
            _ => return 0,
        };
        let most = most + self.random.below(3);
        match self.random.below(8) {
            0 => needed.saturating_sub(1).min(most),
            1 => needed.min(most),
            _ => most,
        }
    }

    /// What the independent program says.
    fn expected(&mut self, call: &Call, length: usize) -> Told {
        let sound = &mut self.sound;
        let mut out = vec![FILL; length];
        let outcome = match call {
            Call::Build { q, n, version, g, block } => codeword::build_into(block, *q, *n, *version, *g, &mut out)
                .map(|()| vec![run(&out[..*g])])
                .map_err(Refusal::from),
            Call::BuildDown { receiver, q, n, version, g, block } => {
                codeword::build_down_into(block, receiver, *q, *n, *version, *g, &mut out)
                    .map(|()| vec![run(&out[..*g])])
                    .map_err(Refusal::from)
            }
            Call::Read { slot, terminal } => {
                let (state, answer) = slots::read(sound.state, &sound.places(), *slot, *terminal, &mut out);
                answer.map(|()| vec![run(&out[..state.heads[*slot].a])])
            }
            Call::Streams { slot, terminal, code_block } => {
                let (state, answer) =
                    slots::streams(sound.state, &sound.places(), *slot, *terminal, *code_block, &mut out);
                answer.map(|()| {
                    let d = sizes(state.heads[*slot].a).expect("an open slot").size(*code_block) + 4;
                    out[..3 * d].chunks(d).map(run).collect()
                })
            }
            _ => sound.call(call),
        };
        (outcome, out)
    }

    /// Every call and every refusal that it can meet must have been among the steps.
    fn report(&self) {
        let steps: usize = self.seen.values().sum();
        println!("{steps} steps: {:?}", self.seen);
        assert!(steps >= STEPS);
        let calls = [
            "New",
            "Open",
            "OpenDown",
            "Receive",
            "Read",
            "Streams",
            "Close",
            "Build",
            "BuildDown",
            "Sizes",
            "Pack",
            "Unpack",
        ];
        let numbers = (1..=14).chain([16, 21]).map(|number| format!("{number:2}"));
        let never: Vec<String> =
            calls.map(String::from).into_iter().chain(numbers).filter(|what| !self.seen.contains_key(what)).collect();
        assert!(never.is_empty(), "never occurred: {never:?}");
    }
}

/// A call on the slots through the wrapper.
fn on_slots(yard: &mut Yard, call: &Call, out: &mut [u8]) -> Result<Vec<String>, zemrukste::Refusal> {
    Ok(match call {
        Call::Open { slot, terminal, a } => {
            yard.open(*slot, *terminal, *a)?;
            Vec::new()
        }
        Call::OpenDown { slot, terminal, a, receiver } => {
            vec![yard.open_down(*slot, *terminal, *a, &wrapped(receiver))?.to_string()]
        }
        Call::Receive { slot, terminal, q, n, version, bits } => {
            vec![yard.receive(*slot, *terminal, *q, *n, *version, bits)?.to_string()]
        }
        Call::Read { slot, terminal } => vec![run(yard.read(*slot, *terminal, out)?)],
        Call::Streams { slot, terminal, code_block } => {
            yard.streams(*slot, *terminal, *code_block, out)?.map(run).to_vec()
        }
        Call::Close { slot, terminal } => {
            yard.close(*slot, *terminal)?;
            Vec::new()
        }
        Call::Pack => {
            yard.pack();
            Vec::new()
        }
        Call::Unpack => {
            yard.unpack();
            Vec::new()
        }
        _ => unreachable!("no call on slots: {call:?}"),
    })
}

/// A call that is lent an output.
fn lent(length: usize, call: impl FnOnce(&mut [u8]) -> Result<Vec<String>, zemrukste::Refusal>) -> Told {
    let mut out = vec![FILL; length];
    let outcome = call(&mut out).map_err(told);
    (outcome, out)
}

fn wrapped(receiver: &Receiver) -> zemrukste::Receiver {
    let Receiver { release, mimo, processes, soft, layers } = *receiver;
    zemrukste::Receiver { release, mimo, processes, soft, layers }
}

fn told(refusal: zemrukste::Refusal) -> Refusal {
    match refusal {
        zemrukste::Refusal::Lacking(count) => Refusal::Lacking(count),
        zemrukste::Refusal::WrongCodeBlock(block) => Refusal::CodeBlockWrong(block),
        other => Refusal::Number(other.number() as u8),
    }
}
