//! Build, of one slice, of two and for a downlink, Receive, Read, the calls with a report and control messages timed: the proved library beside the fast and the literal
//! program, all three linked into one process and called by turns, the library through its Rust
//! wrapper. Feature `linked` alone, since the library must be installed for it: `scripts/bench`
//! does both.
//!
//! A row is a block and a G. Each of the three has its own output (for Receive that is its
//! store, which the wrapper keeps itself); outputs and the fast programs' workspaces are not
//! cleared between calls. In each round each of the three makes enough calls to fill `BATCH`,
//! another one first each time; the least time a call stands.

use crate::segmentation::Segmentation;
use crate::packing::{self, PACKED_OF_BLOCK};
use crate::slots::{self, Head, Refusal, State, ROOM_OF_BLOCK};
use crate::soft_buffer::{Receiver, WHOLE_SHARE};
use crate::older::black_box;
use crate::{codeword, control, fast, fast_control, fast_report, fast_slots, report, xorshift};
use std::cell::RefCell;
use std::rc::Rc;
use std::time::{Duration, Instant};
use zemrukste::Yard;

/// What is timed, as `--only` names it and in the order of the table.
pub const NAMES: [&str; 3] = ["rattle", "fast", "literal"];

/// How long the calls of one round go on, for each of the three.
const BATCH: Duration = Duration::from_micros(500);

/// One layer, two bits a symbol, version 0.
const Q: usize = 2;
const N: usize = 1;
const VERSION: usize = 0;

/// Slot 0 is open for this terminal.
const TERMINAL: u16 = 0;

/// The calls that are timed.
#[derive(Clone, Copy)]
pub enum Timed {
    Build,
    BuildTwo,
    /// For a downlink whose circles are cut at N_cb = 50 * R, and at the least, 32 * R.
    BuildDown50,
    BuildDown32,
    Receive,
    /// For the same downlinks.
    ReceiveDown50,
    ReceiveDown32,
    Read,
    /// On rooms of four places a byte.
    ReceivePacked,
    ReadPacked,
    Control,
}

pub const ALL: [Timed; 11] = [
    Timed::Build,
    Timed::BuildTwo,
    Timed::BuildDown50,
    Timed::BuildDown32,
    Timed::Receive,
    Timed::ReceiveDown50,
    Timed::ReceiveDown32,
    Timed::Read,
    Timed::ReceivePacked,
    Timed::ReadPacked,
    Timed::Control,
];

impl Timed {
    pub fn name(self) -> &'static str {
        match self {
            Timed::Build => "build",
            Timed::BuildTwo => "build-two",
            Timed::BuildDown50 => "build-down-50",
            Timed::BuildDown32 => "build-down-32",
            Timed::Receive => "receive",
            Timed::ReceiveDown50 => "receive-down-50",
            Timed::ReceiveDown32 => "receive-down-32",
            Timed::Read => "read",
            Timed::ReceivePacked => "receive-packed",
            Timed::ReadPacked => "read-packed",
            Timed::Control => "control",
        }
    }

    /// Five blocks without filler (one code block of 40, 64, 1,024 and 6,144, and five of
    /// 6,144), each with the whole mother code once and, but for the first, with the largest G;
    /// the two short ones, which are what cars send, also with G up to 300; Build also with the
    /// least G, and Read after the mother code alone, since it does not see G. For control
    /// messages A is the payload and G is E: one, four and eight elements, and the most.
    pub fn usual_rows(self) -> Vec<Row> {
        if let Timed::Control = self {
            return [1, 40, 64].into_iter().flat_map(|a| [72, 288, 576, control::E_MAX].map(|g| Row { a, g })).collect();
        }
        let least = |a| Row { a, g: N * Q * Segmentation::of(a + 24).blocks };
        let short = |a, g| if a <= 40 { vec![Row { a, g }] } else { vec![] };
        let most = |a| if a > 16 { vec![Row { a, g: codeword::G_MAX }] } else { vec![] };
        let rows = |a| match self {
            Timed::Build | Timed::BuildTwo | Timed::BuildDown50 | Timed::BuildDown32 => {
                [vec![least(a)], short(a, 72), vec![mother_code(a)], short(a, 300), most(a)].concat()
            }
            Timed::Receive | Timed::ReceiveDown50 | Timed::ReceiveDown32 | Timed::ReceivePacked => {
                [vec![mother_code(a)], short(a, 300), most(a)].concat()
            }
            Timed::Read | Timed::ReadPacked | Timed::Control => vec![mother_code(a)],
        };
        [16, 40, 1_000, 6_120, codeword::A_MAX].into_iter().flat_map(rows).collect()
    }

    fn runners(self, row: Row) -> Result<[Runner; 3], String> {
        let block = xorshift::block(row.a, 1);
        if let Timed::Control = self {
            return Ok(control_runners(block, row.g));
        }
        let rows = codeword::rows_of(&Segmentation::of(row.a + 24));
        let share = match self {
            Timed::ReceiveDown50 => 50 * rows[rows.len() - 1],
            Timed::ReceiveDown32 => 32 * rows[rows.len() - 1],
            _ => WHOLE_SHARE,
        };
        let built = codeword::build_in(share, &block, Q, N, VERSION, row.g);
        let bits = built.map_err(|number| format!("A {}, G {}: refused with {number}", row.a, row.g))?;
        Ok(match self {
            Timed::Build => build_runners(block, row.g),
            Timed::BuildTwo => build_two_runners(block, row.g),
            Timed::BuildDown50 => build_down_runners(block, 50, row.g),
            Timed::BuildDown32 => build_down_runners(block, 32, row.g),
            Timed::Receive | Timed::ReceiveDown50 | Timed::ReceiveDown32 => receive_runners(row.a, share, bits),
            Timed::ReceivePacked => receive_packed_runners(row.a, bits),
            Timed::Read | Timed::Control => read_runners(row.a, bits),
            Timed::ReadPacked => read_packed_runners(row.a, bits),
        })
    }
}

/// The lengths of a call: A and G.
#[derive(Clone, Copy)]
pub struct Row {
    pub a: usize,
    pub g: usize,
}

/// Every place of every code block sent once.
fn mother_code(a: usize) -> Row {
    let segmentation = Segmentation::of(a + 24);
    let places: usize = (0..segmentation.blocks).map(|r| 3 * (segmentation.size(r) + 4)).sum();
    Row { a, g: (places - 2 * segmentation.filler) / (N * Q) * (N * Q) }
}

/// 0 or the number of a refusal, and the number that comes with the answer where one does.
type Answer = (u32, usize);

/// One of the three: a call, and what it writes.
struct Runner {
    call: Box<dyn FnMut(&mut [u8]) -> Answer>,
    output: Vec<u8>,
    /// What stands in the output before the first call.
    fill: u8,
    /// The yard whose rooms are written in the output's stead.
    yard: Option<Rc<RefCell<Yard>>>,
}

impl Runner {
    fn of(length: usize, call: impl FnMut(&mut [u8]) -> Answer + 'static) -> Runner {
        Runner { call: Box::new(call), output: vec![0; length], fill: 7, yard: None }
    }

    /// Receive through the wrapper.
    fn receiving(yard: Yard, bits: Vec<u8>) -> Runner {
        let yard = Rc::new(RefCell::new(yard));
        let called = Rc::clone(&yard);
        let call = move |_: &mut [u8]| given(called.borrow_mut().receive(0, TERMINAL, Q, N, VERSION, black_box(&bits)));
        Runner { yard: Some(yard), ..Runner::of(0, call) }
    }

    fn call(&mut self) -> Answer {
        (self.call)(black_box(&mut self.output))
    }

    /// The time of so many calls.
    fn time(&mut self, calls: u32) -> Duration {
        let start = Instant::now();
        for _ in 0..calls {
            black_box(self.call());
        }
        start.elapsed()
    }
}

/// What the wrapper gives.
fn given(answer: Result<usize, zemrukste::Refusal>) -> Answer {
    match answer {
        Ok(lacking) => (0, lacking),
        Err(zemrukste::Refusal::Lacking(lacking)) => (slots::LACKING.into(), lacking),
        Err(zemrukste::Refusal::WrongCodeBlock(r)) => (slots::CODE_BLOCK_WRONG.into(), r),
        Err(refusal) => (refusal.number(), 0),
    }
}

fn told(answer: Result<usize, Refusal>) -> Answer {
    match answer {
        Ok(lacking) => (0, lacking),
        Err(Refusal::Lacking(lacking)) => (slots::LACKING.into(), lacking),
        Err(Refusal::CodeBlockWrong(r)) => (slots::CODE_BLOCK_WRONG.into(), r),
        Err(Refusal::Number(number)) => (number.into(), 0),
    }
}

fn build_runners(block: Vec<u8>, g: usize) -> [Runner; 3] {
    let mut workspace = fast::Workspace::default();
    let blocks = [block.clone(), block.clone(), block];
    let number = |answer: Result<(), u8>| (answer.map_or_else(u32::from, |()| 0), 0);
    let [rattle, fast, literal] = blocks;
    [
        Runner::of(codeword::G_MAX, move |out| {
            given(zemrukste::build(black_box(&rattle), Q, N, VERSION, g, out).map(|_| 0))
        }),
        Runner::of(codeword::G_MAX, move |out| number(workspace.build_into(black_box(&fast), Q, N, VERSION, g, out))),
        Runner::of(codeword::G_MAX, move |out| number(codeword::build_into(black_box(&literal), Q, N, VERSION, g, out))),
    ]
}

/// The first third of the block is the header. The fast program joins the two in a buffer that
/// it keeps.
fn build_two_runners(block: Vec<u8>, g: usize) -> [Runner; 3] {
    let mut workspace = fast::Workspace::default();
    let mut joined = Vec::with_capacity(block.len());
    let parts = block.split_at(block.len() / 3);
    let [rattle, fast, literal] = [parts; 3].map(|(header, payload)| (header.to_vec(), payload.to_vec()));
    let number = |answer: Result<(), u8>| (answer.map_or_else(u32::from, |()| 0), 0);
    [
        Runner::of(codeword::G_MAX, move |out| {
            let (header, payload) = black_box(&rattle);
            given(zemrukste::build_two(header, payload, Q, N, VERSION, g, out).map(|_| 0))
        }),
        Runner::of(codeword::G_MAX, move |out| {
            let (header, payload) = black_box(&fast);
            joined.clear();
            joined.extend_from_slice(header);
            joined.extend_from_slice(payload);
            number(workspace.build_into(&joined, Q, N, VERSION, g, out))
        }),
        Runner::of(codeword::G_MAX, move |out| {
            let (header, payload) = black_box(&literal);
            number(codeword::build_two_into(header, payload, Q, N, VERSION, g, out))
        }),
    ]
}

/// A message for terminal 9.
fn control_runners(payload: Vec<u8>, e: usize) -> [Runner; 3] {
    let number = |answer: Result<(), u8>| (answer.map_or_else(u32::from, |()| 0), 0);
    let [rattle, fast, literal] = [payload.clone(), payload.clone(), payload];
    [
        Runner::of(control::E_MAX, move |out| {
            given(zemrukste::control_build(black_box(&rattle), 9, e, out).map(|_| 0))
        }),
        Runner::of(control::E_MAX, move |out| number(fast_control::build_into(black_box(&fast), 9, e, out))),
        Runner::of(control::E_MAX, move |out| number(control::build_into(black_box(&literal), 9, e, out))),
    ]
}

/// The receiver's soft buffer has so many places a row for each code block.
fn build_down_runners(block: Vec<u8>, places: usize, g: usize) -> [Runner; 3] {
    let mut workspace = fast::Workspace::default();
    let rows = codeword::rows_of(&Segmentation::of(block.len() + 24));
    let soft = places * rows.iter().max().expect("there is a code block") * rows.len();
    let receiver = Receiver { release: 11, mimo: 1, processes: 1, soft, layers: 1 };
    let [rattle, fast, literal] = [block.clone(), block.clone(), block];
    let number = |answer: Result<(), u8>| (answer.map_or_else(u32::from, |()| 0), 0);
    [
        Runner::of(codeword::G_MAX, move |out| {
            given(zemrukste::build_down(black_box(&rattle), &wrapped(black_box(receiver)), Q, N, VERSION, g, out).map(|_| 0))
        }),
        Runner::of(codeword::G_MAX, move |out| {
            number(workspace.build_down_into(black_box(&fast), &black_box(receiver), Q, N, VERSION, g, out))
        }),
        Runner::of(codeword::G_MAX, move |out| {
            number(codeword::build_down_into(black_box(&literal), &black_box(receiver), Q, N, VERSION, g, out))
        }),
    ]
}

/// A slot for the code blocks of A, open.
fn open_slot(a: usize, share: usize) -> State {
    let m = Segmentation::of(a + 24).blocks;
    let (mut state, _) = slots::new(1, m);
    state.heads[0] = Head { open: true, terminal: TERMINAL, a, share };
    state
}

/// The same in a yard of the wrapper.
fn open_yard(a: usize, share: usize) -> Yard {
    let m = Segmentation::of(a + 24).blocks;
    let mut yard = Yard::new(1, m).expect("M is in range");
    let receiver = zemrukste::Receiver { release: 8, mimo: 1, processes: 1, soft: share * m, layers: 1 };
    let opened = match share {
        WHOLE_SHARE => yard.open(0, TERMINAL, a).map(|()| share),
        _ => yard.open_down(0, TERMINAL, a, &receiver),
    };
    assert_eq!(opened, Ok(share));
    yard
}

/// A receiver as the wrapper has it.
fn wrapped(Receiver { release, mimo, processes, soft, layers }: Receiver) -> zemrukste::Receiver {
    zemrukste::Receiver { release, mimo, processes, soft, layers }
}

/// Opening is in no one's time.
fn receive_runners(a: usize, share: usize, bits: Vec<u8>) -> [Runner; 3] {
    let state = open_slot(a, share);
    let [rattle, fast, literal] = [bits.clone(), bits.clone(), bits];
    let length = state.m * ROOM_OF_BLOCK;
    let runners = [
        Runner::receiving(open_yard(a, share), rattle),
        Runner::of(length, move |store| {
            told(fast_slots::receive(black_box(&state), store, 0, TERMINAL, Q, N, VERSION, black_box(&fast)))
        }),
        Runner::of(length, move |store| {
            told(slots::receive(*black_box(&state), store, 0, TERMINAL, Q, N, VERSION, black_box(&literal)).1)
        }),
    ];
    // A store that has heard nothing.
    runners.map(|runner| Runner { fill: slots::UNHEARD, ..runner })
}

/// The literal program unpacks the whole store, receives and packs it again.
fn receive_packed_runners(a: usize, bits: Vec<u8>) -> [Runner; 3] {
    let state = open_slot(a, WHOLE_SHARE);
    let mut yard = open_yard(a, WHOLE_SHARE);
    yard.pack();
    let [rattle, fast, literal] = [bits.clone(), bits.clone(), bits];
    let length = state.m * PACKED_OF_BLOCK;
    let mut room = vec![0; state.m * ROOM_OF_BLOCK];
    let runners = [
        Runner::receiving(yard, rattle),
        Runner::of(length, move |store| {
            told(fast_slots::receive_packed(black_box(&state), store, 0, TERMINAL, Q, N, VERSION, black_box(&fast)))
        }),
        Runner::of(length, move |store| {
            packing::unpack(state.m, store, &mut room).expect("the rooms fit");
            let heard = slots::receive(state, &mut room, 0, TERMINAL, Q, N, VERSION, black_box(&literal)).1;
            packing::pack(state.m, &room, store).expect("the rooms fit");
            told(heard)
        }),
    ];
    // A packed store that has heard nothing.
    runners.map(|runner| Runner { fill: packing::packed([slots::UNHEARD; 4]), ..runner })
}

fn read_packed_runners(a: usize, bits: Vec<u8>) -> [Runner; 3] {
    let state = open_slot(a, WHOLE_SHARE);
    let mut yard = open_yard(a, WHOLE_SHARE);
    let _ = yard.receive(0, TERMINAL, Q, N, VERSION, &bits);
    yard.pack();
    let mut room = vec![slots::UNHEARD; state.m * ROOM_OF_BLOCK];
    let _ = slots::receive(state, &mut room, 0, TERMINAL, Q, N, VERSION, &bits);
    let mut store = vec![0; state.m * PACKED_OF_BLOCK];
    packing::pack(state.m, &room, &mut store).expect("the rooms fit");
    let mut workspace = fast_slots::Workspace::default();
    let [fast, literal] = [store.clone(), store];
    let done = |answer: slots::Answer| told(answer.map(|()| 0));
    [
        Runner::of(codeword::A_MAX, move |out| given(black_box(&yard).read(0, TERMINAL, out).map(|_| 0))),
        Runner::of(codeword::A_MAX, move |out| {
            done(workspace.read_packed(black_box(&state), black_box(&fast), 0, TERMINAL, out))
        }),
        Runner::of(codeword::A_MAX, move |out| {
            packing::unpack(state.m, black_box(&literal), &mut room).expect("the rooms fit");
            done(slots::read(state, &room, 0, TERMINAL, out).1)
        }),
    ]
}

fn read_runners(a: usize, bits: Vec<u8>) -> [Runner; 3] {
    let state = open_slot(a, WHOLE_SHARE);
    let mut yard = open_yard(a, WHOLE_SHARE);
    let _ = yard.receive(0, TERMINAL, Q, N, VERSION, &bits);
    let mut store = vec![slots::UNHEARD; state.m * ROOM_OF_BLOCK];
    let _ = slots::receive(state, &mut store, 0, TERMINAL, Q, N, VERSION, &bits);
    let mut workspace = fast_slots::Workspace::default();
    let [fast, literal] = [store.clone(), store];
    let done = |answer: slots::Answer| told(answer.map(|()| 0));
    [
        Runner::of(codeword::A_MAX, move |out| given(black_box(&yard).read(0, TERMINAL, out).map(|_| 0))),
        Runner::of(codeword::A_MAX, move |out| {
            done(workspace.read(black_box(&state), black_box(&fast), 0, TERMINAL, out))
        }),
        Runner::of(codeword::A_MAX, move |out| {
            done(slots::read(*black_box(&state), black_box(&literal), 0, TERMINAL, out).1)
        }),
    ]
}

/// The table over the rows. An error if one refuses or two leave other bytes.
pub fn table(timed: Timed, rows: &[Row], rounds: u32) -> Result<String, String> {
    let mut text = format!(
        "{}\n\
         |      A |       G |  Rattle ns |    fast ns | literal ns | Rattle/fast | literal/Rattle |\n\
         |-------:|--------:|-----------:|-----------:|-----------:|------------:|---------------:|\n",
        timed.name()
    );
    for &row in rows {
        let name = format!("{}, A {}, G {}", timed.name(), row.a, row.g);
        let [rattle, fast, literal] = least_times(&name, timed.runners(row)?, rounds)?;
        let (slower, faster) = (rattle / fast, literal / rattle);
        let Row { a, g } = row;
        text += &format!(
            "| {a:6} | {g:7} | {rattle:10.0} | {fast:10.0} | {literal:10.0} | {slower:11.2} | {faster:14.2} |\n"
        );
    }
    Ok(text + "The three gave the same answers and bytes in every row, before and after the timing.\n")
}

/// A report of O bits in so many control bits a layer, ahead of a block of 40 bits with its
/// whole mother code.
struct ReportRow {
    o: usize,
    n: usize,
    control: usize,
}

/// The fewest control bits that give every report back at each length, and the most.
const REPORT_ROWS: [ReportRow; 6] = [
    ReportRow { o: 1, n: 1, control: 2 },
    ReportRow { o: 4, n: 1, control: 6 },
    ReportRow { o: 11, n: 1, control: 18 },
    ReportRow { o: 1, n: 4, control: 4_096 },
    ReportRow { o: 4, n: 4, control: 4_096 },
    ReportRow { o: 11, n: 4, control: 4_096 },
];

const REPORT_A: usize = 40;
const REPORT_G: usize = 208;

fn number_of(answer: Result<(), u8>) -> Answer {
    (answer.map_or_else(u32::from, |()| 0), 0)
}

impl ReportRow {
    /// Some report that is not all zeros.
    fn report(&self) -> Vec<u8> {
        report::message((1 << self.o) * 2 / 3 + 1, self.o)
    }

    fn run(&self) -> Vec<u8> {
        let mut run = vec![0; self.n * self.control + REPORT_G];
        let block = xorshift::block(REPORT_A, 1);
        report::build_into(&self.report(), self.control, &block, Q, self.n, VERSION, REPORT_G, &mut run)
            .expect("the row is accepted");
        run
    }

    fn build_runners(&self) -> [Runner; 3] {
        let ReportRow { n, control, .. } = *self;
        let mut workspace = fast::Workspace::default();
        let inputs = || (self.report(), xorshift::block(REPORT_A, 1));
        let [rattle, fast, literal] = [inputs(), inputs(), inputs()];
        let length = n * control + REPORT_G;
        [
            Runner::of(length, move |out| {
                let (report, block) = black_box(&rattle);
                given(zemrukste::report_build(report, control, block, Q, n, VERSION, REPORT_G, out).map(|_| 0))
            }),
            Runner::of(length, move |out| {
                let (report, block) = black_box(&fast);
                number_of(fast_report::build_into(&mut workspace, report, control, block, Q, n, VERSION, REPORT_G, out))
            }),
            Runner::of(length, move |out| {
                let (report, block) = black_box(&literal);
                number_of(report::build_into(report, control, block, Q, n, VERSION, REPORT_G, out))
            }),
        ]
    }

    fn part_runners(&self) -> [Runner; 3] {
        let ReportRow { o, n, control } = *self;
        let [rattle, fast, literal] = [self.run(), self.run(), self.run()];
        [
            Runner::of(o, move |out| {
                given(zemrukste::report_part(REPORT_A, Q, n, o, control, black_box(&rattle), out).map(|_| 0))
            }),
            Runner::of(o, move |out| number_of(fast_report::part_into(REPORT_A, Q, n, o, control, black_box(&fast), out))),
            Runner::of(o, move |out| number_of(report::part_into(REPORT_A, Q, n, o, control, black_box(&literal), out))),
        ]
    }
}

/// The tables of the two calls with a report.
pub fn report_tables(rounds: u32) -> Result<String, String> {
    let mut text = String::new();
    for (name, runners) in [
        ("report build", ReportRow::build_runners as fn(&ReportRow) -> [Runner; 3]),
        ("report part", ReportRow::part_runners),
    ] {
        text += &format!(
            "{name}\n\
             |  O | control bits |  Rattle ns |    fast ns | literal ns | Rattle/fast | literal/Rattle |\n\
             |---:|-------------:|-----------:|-----------:|-----------:|------------:|---------------:|\n"
        );
        for row in &REPORT_ROWS {
            let bits = row.n * row.control;
            let called = format!("{name}, O {}, {bits} control bits", row.o);
            let [rattle, fast, literal] = least_times(&called, runners(row), rounds)?;
            let (slower, faster, o) = (rattle / fast, literal / rattle, row.o);
            text += &format!(
                "| {o:2} | {bits:12} | {rattle:10.0} | {fast:10.0} | {literal:10.0} | {slower:11.2} | {faster:14.2} |\n"
            );
        }
    }
    Ok(text + "The three gave the same answers and bytes in every row, before and after the timing.\n")
}

/// The least nanoseconds a call of each of the three.
fn least_times(name: &str, mut runners: [Runner; 3], rounds: u32) -> Result<[f64; 3], String> {
    let failed = |why: String| format!("{name}: {why}");
    called_alike(&mut runners).map_err(failed)?;
    let [first, second, third] = &mut runners;
    let calls = [first, second, third].map(calls_in_a_batch);
    let mut least = [f64::INFINITY; 3];
    for round in 0..rounds as usize {
        for turn in 0..3 {
            let who = (round + turn) % 3;
            let nanoseconds = runners[who].time(calls[who]).as_nanos() as f64;
            least[who] = least[who].min(nanoseconds / f64::from(calls[who]));
        }
    }
    left_alike(&runners).map_err(failed)?;
    Ok(least)
}

/// Calls that fill a batch, judged by the quickest of three.
fn calls_in_a_batch(runner: &mut Runner) -> u32 {
    let once = (0..3).map(|_| runner.time(1)).min().unwrap_or(BATCH);
    (BATCH.as_nanos() / once.as_nanos().max(1)).max(1) as u32
}

/// Calls each once, on outputs full of what is no bit.
fn called_alike(runners: &mut [Runner; 3]) -> Result<(), String> {
    for (runner, name) in runners.iter_mut().zip(NAMES) {
        runner.output.fill(runner.fill);
        let answer = runner.call();
        if answer != (0, 0) {
            return Err(format!("{name} answers {} with {}", answer.0, answer.1));
        }
    }
    left_alike(runners)
}

/// The whole outputs, so also that nothing else is written.
fn left_alike(runners: &[Runner; 3]) -> Result<(), String> {
    let literal = &runners[2].output;
    let alike = |runner: &Runner| match &runner.yard {
        Some(yard) => yard.borrow().rooms() == literal,
        None => runner.output == *literal,
    };
    match runners.iter().zip(NAMES).find(|(runner, _)| !alike(runner)) {
        None => Ok(()),
        Some((_, name)) => Err(format!("{name} and literal differ")),
    }
}

/// So many calls of one of the three for each row, untimed: for a profiler to watch.
pub fn only(name: &str, timed: Timed, rows: &[Row], calls: u32) -> Result<(), String> {
    let who = NAMES.iter().position(|known| *known == name).ok_or(format!("no such program: {name}"))?;
    for &row in rows {
        let runner = &mut timed.runners(row)?[who];
        runner.output.fill(runner.fill);
        runner.time(calls);
    }
    Ok(())
}
