//! Compares another program, behind a bridge, with the literal modules: every answer, and
//! every byte of every output.

use crate::cases::{self, Asked, Block, Build, Case, Change, Content, Control, ReportBuild, ReportPart, Way};
use crate::codeword;
use crate::control;
use crate::packing;
use crate::rate;
use crate::report;
use crate::sizes;
use crate::protocol::{Answer, Call, Request, GUARD};
use std::io::{BufReader, BufWriter, ErrorKind, Write};
use std::os::unix::fs::FileTypeExt;
use std::process::{Child, ChildStdin, Command, Stdio};
use std::thread;
use std::time::{Duration, Instant};

/// Random builds if nothing else is said.
pub const RANDOM_BUILDS: usize = 20_000;

/// How long a progress line stands before the next: a log gets few of them.
fn between_progress() -> Duration {
    let on_terminal = std::fs::metadata("/dev/stderr").map_or(false, |of| of.file_type().is_char_device());
    Duration::from_millis(if on_terminal { 100 } else { 5_000 })
}


pub struct Options {
    pub seed: u64,
    /// How many builds are random; the other cases are always sent.
    pub random: usize,
    /// Only each so manieth case is sent.
    pub every: usize,
    /// Only this case is sent.
    pub only: Option<usize>,
    /// The bridge and its arguments.
    pub command: Vec<String>,
}

/// How a comparison went: the last line and what decides the exit status.
pub struct Outcome {
    pub passed: usize,
    pub failed: usize,
}

/// Runs a comparison: progress to standard error, the first difference to standard output.
pub fn run(options: &Options) -> Result<Outcome, String> {
    let (name, arguments) = options.command.split_first().ok_or("compare needs a command")?;
    let cases = cases::all(options.seed, options.random);
    let chosen: Vec<usize> = (0..cases.len())
        .filter(|number| options.only.map_or(number % options.every == 0, |only| *number == only))
        .collect();
    if chosen.is_empty() {
        return Err(format!("there are {} cases, counted from 0", cases.len()));
    }
    let mut command = Command::new(name);
    let spawned = command.args(arguments).stdin(Stdio::piped()).stdout(Stdio::piped()).spawn();
    let mut bridge = spawned.map_err(|error| format!("{name}: {error}"))?;
    let input = bridge.stdin.take().expect("the bridge's input is a pipe");
    let mut report = Report::new(options, chosen.len(), cases.len());
    thread::scope(|scope| {
        scope.spawn(|| send(input, &cases, &chosen));
        receive(&mut bridge, &cases, &chosen, &mut report);
    });
    report.end(&mut bridge)?;
    Ok(Outcome { passed: report.passed, failed: report.failed })
}

/// Sends the chosen cases. A bridge that ends early is noticed where its answers are read.
fn send(input: ChildStdin, cases: &[Case], chosen: &[usize]) {
    let mut input = BufWriter::with_capacity(1 << 16, input);
    for number in chosen {
        if request(&cases[*number]).write(&mut input).is_err() {
            return;
        }
    }
    let _ = input.flush();
}

fn receive(bridge: &mut Child, cases: &[Case], chosen: &[usize], report: &mut Report) {
    let output = bridge.stdout.take().expect("the bridge's output is a pipe");
    let mut output = BufReader::with_capacity(1 << 16, output);
    for number in chosen {
        let case = &cases[*number];
        match Answer::read(&mut output, case.output_length) {
            Ok(answer) => report.answered(*number, case, &answer),
            Err(error) => {
                let what = match error.kind() {
                    ErrorKind::UnexpectedEof => "the bridge ended without an answer".into(),
                    ErrorKind::InvalidData => "the bridge's answer is not in its form".into(),
                    _ => format!("the bridge's output: {error}"),
                };
                return report.broken(*number, case, what);
            }
        }
    }
    if std::io::Read::read(&mut output, &mut [0]).map_or(false, |count| count > 0) {
        report.fail("the bridge wrote more than its answers");
    }
}

fn request(case: &Case) -> Request {
    let call = match &case.asked {
        Asked::Build(Build { block, q, n, version, g }) => {
            Call::Build { block: block.bytes(), q: *q, n: *n, version: *version, g: *g }
        }
        Asked::BuildTwo(Build { block, q, n, version, g }, cut) => {
            Call::BuildTwo { block: block.bytes(), cut: *cut, q: *q, n: *n, version: *version, g: *g }
        }
        Asked::BuildDown(Build { block, q, n, version, g }, receiver) => {
            Call::BuildDown { block: block.bytes(), receiver: *receiver, q: *q, n: *n, version: *version, g: *g }
        }
        Asked::Sizes(a) => Call::Sizes { a: *a },
        Asked::Change(change @ Change { way: Way::Pack, m, .. }) => Call::Pack { m: *m, from: change.bytes() },
        Asked::Change(change @ Change { way: Way::Unpack, m, .. }) => Call::Unpack { m: *m, from: change.bytes() },
        Asked::ReportBuild(ReportBuild { report, control, data }) => Call::ReportBuild {
            report: report.bytes(),
            control: *control,
            block: data.block.bytes(),
            q: data.q,
            n: data.n,
            version: data.version,
            g: data.g,
        },
        Asked::ReportPart(ReportPart { a, q, n, o, control, run }) => {
            Call::ReportPart { a: *a, q: *q, n: *n, o: *o, control: *control, received: run.bytes() }
        }
        Asked::Control(Control { payload, terminal, e }) => {
            Call::Control { payload: payload.bytes(), terminal: *terminal, e: *e }
        }
        Asked::Whose(run) => Call::Whose { run: run.bytes() },
    };
    Request {
        call,
        output_length: case.output_length,
        fill: case.fill,
        null_block: case.null_block,
        null_output: case.null_output,
        null_payload: case.null_payload,
    }
}

/// What a sound bridge answers, by the literal modules.
pub fn expected(case: &Case) -> Answer {
    let mut output = vec![case.fill; GUARD + case.output_length + GUARD];
    let lent = &mut output[GUARD..GUARD + case.output_length];
    let answer = match &case.asked {
        Asked::Build(Build { block, q, n, version, g }) => {
            codeword::build_into(&block.bytes(), *q, *n, *version, *g, lent)
        }
        Asked::BuildTwo(Build { block, q, n, version, g }, cut) => {
            let bytes = block.bytes();
            let (header, payload) = bytes.split_at(*cut);
            codeword::build_two_into(header, payload, *q, *n, *version, *g, lent)
        }
        Asked::BuildDown(Build { block, q, n, version, g }, receiver) => {
            codeword::build_down_into(&block.bytes(), receiver, *q, *n, *version, *g, lent)
        }
        Asked::Sizes(a) => sizes_into(*a, lent),
        Asked::Change(change @ Change { way: Way::Pack, m, .. }) => packing::pack(*m, &change.bytes(), lent),
        Asked::Change(change @ Change { way: Way::Unpack, m, .. }) => packing::unpack(*m, &change.bytes(), lent),
        Asked::ReportBuild(ReportBuild { report, control, data }) => {
            let Build { block, q, n, version, g } = data;
            report::build_into(&report.bytes(), *control, &block.bytes(), *q, *n, *version, *g, lent)
        }
        Asked::ReportPart(ReportPart { a, q, n, o, control, run }) => {
            report::part_into(*a, *q, *n, *o, *control, &run.bytes(), lent)
        }
        Asked::Control(Control { payload, terminal, e }) => {
            control::build_into(&payload.bytes(), *terminal, *e, lent)
        }
        Asked::Whose(run) => control::whose(&run.bytes()).map(|owner| lent.copy_from_slice(&owner.to_le_bytes())),
    };
    Answer { number: answer.map_or_else(u32::from, |()| 0), block_kept: true, output }
}

/// Sizes as C sees it: six numbers as four bytes each, lowest first. Refusals 1, then 5.
pub fn sizes_into(a: usize, output: &mut [u8]) -> Result<(), u8> {
    let s = sizes::sizes(a)?;
    let numbers = [s.blocks, s.longs, s.long, s.shorts, s.short, s.filler];
    let bytes: Vec<u8> = numbers.iter().flat_map(|number| (*number as u32).to_le_bytes()).collect();
    let lent = output.get_mut(..bytes.len()).ok_or(codeword::SHORT_OUTPUT)?;
    lent.copy_from_slice(&bytes);
    Ok(())
}

struct Report<'a> {
    options: &'a Options,
    chosen: usize,
    all: usize,
    passed: usize,
    failed: usize,
    shown: Instant,
}

impl Report<'_> {
    fn new(options: &Options, chosen: usize, all: usize) -> Report<'_> {
        Report { options, chosen, all, passed: 0, failed: 0, shown: Instant::now() }
    }

    fn answered(&mut self, number: usize, case: &Case, answer: &Answer) {
        let expected = expected(case);
        if *answer == expected {
            self.passed += 1;
        } else {
            self.failed += 1;
            if self.failed == 1 {
                self.first(number, case, &difference(case, &expected, answer));
                self.stage(case, expected.number);
            }
        }
        if self.shown.elapsed() >= between_progress() {
            self.shown = Instant::now();
            self.progress();
        }
    }

    /// A case without an answer ends the comparison.
    fn broken(&mut self, number: usize, case: &Case, what: String) {
        self.failed += 1;
        self.first(number, case, &what);
    }

    fn fail(&mut self, what: &str) {
        self.failed += 1;
        self.clear();
        println!("{what}");
    }

    fn first(&self, number: usize, case: &Case, what: &str) {
        let Options { seed, random, command, .. } = self.options;
        self.clear();
        println!("first difference: case {number} of {} ({}), seed {seed}", self.all, case.group);
        println!("{}", description(case));
        println!("{what}");
        let repeat = format!("--seed {seed} --cases {random} --case {number}");
        println!("this case alone: independent compare {repeat} {}", command.join(" "));
    }

    /// How to see what this program gives, if it gives a codeword.
    fn stage(&self, case: &Case, number: u32) {
        if let (Asked::Build(build) | Asked::BuildTwo(build, _), 0) = (&case.asked, number) {
            let Build { block, q, n, version, g } = build;
            let bits = bits_argument(block);
            println!("this program's: independent stage codeword {bits} {q} {n} {version} {g}");
        }
    }

    fn progress(&self) {
        let done = self.passed + self.failed;
        eprint!("\r{done} of {} cases, {} failed", self.chosen, self.failed);
    }

    /// Empties the progress line.
    fn clear(&self) {
        eprint!("\r{:60}\r", "");
    }

    /// The bridge must end by itself, and well.
    fn end(&mut self, bridge: &mut Child) -> Result<(), String> {
        let status = bridge.wait().map_err(|error| format!("the bridge: {error}"))?;
        self.progress();
        eprintln!();
        if !status.success() {
            self.fail(&format!("the bridge ended with {status}"));
        }
        Ok(())
    }
}

fn description(case: &Case) -> String {
    let Case { output_length, fill, .. } = case;
    let lent = match case.null_output {
        true => "a null output".to_string(),
        false => format!("an output of {output_length} bytes of {fill}"),
    };
    match &case.asked {
        Asked::Sizes(a) => format!("Sizes: A = {a}, {lent}"),
        Asked::Change(Change { way, m, length, seed }) => {
            format!("{way:?}: M = {m}, {length} bytes of seed {seed}, {lent}")
        }
        Asked::Build(build) | Asked::BuildTwo(build, _) | Asked::BuildDown(build, _) => {
            let name = match case.asked {
                Asked::BuildTwo(_, cut) => format!("Build of two slices, cut behind {cut} bits"),
                Asked::BuildDown(_, receiver) => format!("Build for a downlink ({receiver:?})"),
                _ => "Build".to_string(),
            };
            format!("{name}: {}, {lent}", build_text(case, build))
        }
        Asked::ReportBuild(ReportBuild { report, control, data }) => {
            let bits = report.bytes();
            format!("Build with the report {bits:?}, {control} control bits a layer: {}, {lent}", build_text(case, data))
        }
        Asked::ReportPart(ReportPart { a, q, n, o, control, run }) => {
            format!("Report of a run: A = {a}, Q = {q}, N = {n}, O = {o}, {control} control bits a layer, {run:?}, {lent}")
        }
        Asked::Control(Control { payload, terminal, e }) => {
            let bits = block_text(case, payload);
            format!("control message: payload {bits}, terminal {terminal}, E = {e}, {lent}")
        }
        Asked::Whose(run) => format!("whose: run {}, {lent}", block_text(case, run)),
    }
}

fn build_text(case: &Case, Build { block, q, n, version, g }: &Build) -> String {
    format!("A = {}, Q = {q}, N = {n}, version = {version}, G = {g}", block_text(case, block))
}

/// A block's length and what it holds.
fn block_text(case: &Case, block: &Block) -> String {
    let content = match block.content {
        _ if case.null_block && block.length == 0 => "null".to_string(),
        Content::Random(seed) => format!("xorshift64* bits of seed {seed}"),
        Content::All(bit) => format!("all {bit}"),
        Content::Attached(seed, terminal) => format!("bits of seed {seed} and their check for terminal {terminal}"),
    };
    let damage = block.damage.map_or(String::new(), |(at, byte)| format!(", byte {at} being {byte}"));
    format!("{} ({content}{damage})", block.length)
}

/// The block of an accepted build as an argument of `independent stage`, in a shell.
fn bits_argument(block: &Block) -> String {
    match block.content {
        Content::Random(seed) => format!("@{}:{seed}", block.length),
        Content::All(0) => format!("$(printf '%0{}d' 0)", block.length),
        Content::All(_) => format!("$(printf '%0{}d' 0 | tr 0 1)", block.length),
        Content::Attached(..) => String::new(),
    }
}

/// What is different, the first of it with its place.
fn difference(case: &Case, expected: &Answer, answer: &Answer) -> String {
    let mut parts = Vec::new();
    if expected.number != answer.number {
        parts.push(format!("number: expected {}, given {}", expected.number, answer.number));
    } else {
        parts.push(format!("number: {} from both", expected.number));
    }
    if !answer.block_kept {
        parts.push("the block was written to".into());
    }
    let differs = |at: &usize| expected.output[*at] != answer.output[*at];
    let places: Vec<usize> = (0..expected.output.len()).filter(differs).collect();
    if let Some(at) = places.first() {
        let (wanted, given) = (expected.output[*at], answer.output[*at]);
        let place = place_name(case, expected.number, *at);
        let count = places.len();
        parts.push(format!("differing bytes: {count}, first {place}: expected {wanted}, given {given}"));
    }
    parts.join("; ")
}

/// A place of the guarded output in words.
fn place_name(case: &Case, number: u32, at: usize) -> String {
    if at < GUARD {
        return format!("{} before the output", GUARD - at);
    }
    let at = at - GUARD;
    if at >= case.output_length {
        return format!("{} past the output", at - case.output_length + 1);
    }
    match &case.asked {
        Asked::Build(build) | Asked::BuildTwo(build, _) | Asked::BuildDown(build, _) if number == 0 && at < build.g => {
            let s = codeword::segmentation_of(build.block.length).expect("the build was accepted");
            let mut from = at;
            for (r, share) in rate::shares(build.g, build.n * build.q, s.blocks).into_iter().enumerate() {
                if from < share {
                    return format!("byte {at} (code block {r}, bit {from} of its {share})");
                }
                from -= share;
            }
            format!("byte {at}")
        }
        Asked::Sizes(_) if number == 0 && at < 24 => {
            let name = ["C", "C+", "K+", "C-", "K-", "F"][at / 4];
            format!("byte {at} ({name})")
        }
        Asked::Control(asked) if number == 0 && at < asked.e => format!("bit {at} of {}", asked.e),
        Asked::Whose(_) if number == 0 => format!("byte {at} of the terminal"),
        _ => format!("byte {at}, which stays"),
    }
}
