//! Compares another program that speaks the protocol `replay` with this one: whole histories
//! of calls, every answer byte for byte. Both keep one store over all of them.

use crate::history::{self, History, CHANGES, RELEASED};
use crate::replay::Replay;
use std::io::{BufRead, BufReader, BufWriter, Read, Write};
use std::process::{Child, ChildStdin, Command, Stdio};
use std::thread;

/// Histories if nothing else is said.
pub const HISTORIES: usize = 2_000;

/// A line of progress after so many.
const PROGRESS: usize = 200;

/// Failed histories that are shown; the others are counted.
const SHOWN: usize = 5;

/// The words of the calls, in the order in which their counts are printed.
const WORDS: [&str; 13] = [
    "new", "open", "open-down", "receive", "read", "streams", "close", "build", "build-down", "sizes", "worst",
    "pack", "unpack",
];

/// The refusal numbers that a log can meet.
const NUMBERS: [usize; 17] = [1, 2, 3, 4, 5, 6, 7, 8, 9, 10, 11, 12, 13, 14, 15, 16, 21];

pub struct Options {
    pub seed: u64,
    pub histories: usize,
    /// Only this history is sent.
    pub only: Option<usize>,
    /// The other program and its arguments.
    pub command: Vec<String>,
}

/// How a comparison went: the last line and what decides the exit status.
pub struct Outcome {
    pub passed: usize,
    pub failed: usize,
}

/// A history with its number.
type Numbered = (usize, History);

/// Runs a comparison: progress to standard error, differences and counts to standard output.
pub fn run(options: &Options) -> Result<Outcome, String> {
    let (name, arguments) = options.command.split_first().ok_or("histories needs a command")?;
    let chosen = chosen(options)?;
    let mut command = Command::new(name);
    let spawned = command.args(arguments).stdin(Stdio::piped()).stdout(Stdio::piped()).spawn();
    let mut other = spawned.map_err(|error| format!("{name}: {error}"))?;
    let input = other.stdin.take().expect("the program's input is a pipe");
    let mut report = Report { options, all: chosen.len(), passed: 0, failed: 0, tally: Tally::default() };
    thread::scope(|scope| {
        scope.spawn(|| send(input, &chosen));
        receive(&mut other, &chosen, &mut report);
    });
    report.end(&mut other)?;
    Ok(Outcome { passed: report.passed, failed: report.failed })
}

fn chosen(options: &Options) -> Result<Vec<Numbered>, String> {
    let count = options.only.map_or(options.histories, |only| only.saturating_add(1));
    if count == 0 || count > 1_000_000 {
        return Err("there are 1 to 1000000 histories, counted from 0".into());
    }
    let numbered = history::all(options.seed, count).into_iter().enumerate();
    Ok(numbered.skip(options.only.unwrap_or(0)).collect())
}

/// Sends the lines, the very last without its newline. A program that ends early is noticed
/// where its answers are read.
fn send(input: ChildStdin, chosen: &[Numbered]) {
    let mut input = BufWriter::with_capacity(1 << 16, input);
    let lines = chosen.iter().flat_map(|(_, lines)| lines);
    for (at, line) in lines.enumerate() {
        let newline: &[u8] = if at == 0 { b"" } else { b"\n" };
        if input.write_all(newline).and_then(|()| input.write_all(line)).is_err() {
            return;
        }
    }
    let _ = input.flush();
}

fn receive(other: &mut Child, chosen: &[Numbered], report: &mut Report) {
    let output = other.stdout.take().expect("the program's output is a pipe");
    let mut output = BufReader::with_capacity(1 << 16, output);
    let mut sound = Twins { changing: Replay::default(), plain: Replay::default() };
    for (done, (number, lines)) in (1..).zip(chosen) {
        match hold(&mut output, lines, &mut sound, &mut report.tally) {
            Ok(None) => report.passed += 1,
            Ok(Some(difference)) => report.differs(*number, &difference),
            Err(what) => return report.broken(*number, &what),
        }
        if done % PROGRESS == 0 || done == report.all {
            eprintln!("histories: {done} of {}", report.all);
        }
    }
    if output.read(&mut [0]).map_or(false, |count| count > 0) {
        report.fail("the program wrote more than its answers");
    }
    report.reached();
}

/// Holds the answers of one history to this program's. Gives the first difference, or what
/// is wrong if an answer lacks.
fn hold(
    output: &mut impl BufRead,
    lines: &History,
    sound: &mut Twins,
    tally: &mut Tally,
) -> Result<Option<Difference>, String> {
    let mut first = None;
    for (at, line) in lines.iter().enumerate() {
        let answer = sound.answer(line)?;
        tally.note(line, answer.as_deref());
        if at > 0 && lines[at - 1] == RELEASED.as_bytes() {
            tally.promise(answer.as_deref());
        }
        let expected = match answer {
            Some(expected) => expected,
            None => continue,
        };
        let mut given = Vec::new();
        output.read_until(b'\n', &mut given).map_err(|error| format!("the program's output: {error}"))?;
        if given.is_empty() {
            return Err(format!("line {at}: {}\nthe program ended without an answer", shortened(line)));
        }
        let expected = (expected + "\n").into_bytes();
        if given != expected && first.is_none() {
            first = Some(Difference { at, line: line.clone(), expected, given });
        }
    }
    Ok(first)
}

/// This program on all lines, and on all but those that change the form of the rooms.
struct Twins {
    changing: Replay,
    plain: Replay,
}

impl Twins {
    /// The answer to a line, the same in either form.
    fn answer(&mut self, line: &[u8]) -> Result<Option<String>, String> {
        let answer = self.changing.answer(line);
        let change = CHANGES.iter().any(|change| change.as_bytes() == line);
        if !change && self.plain.answer(line) != answer {
            return Err(format!("{}: this program answers otherwise in another form", shortened(line)));
        }
        Ok(answer)
    }
}

/// Where a history first went another way.
struct Difference {
    at: usize,
    line: Vec<u8>,
    expected: Vec<u8>,
    given: Vec<u8>,
}

impl Difference {
    fn text(&self) -> String {
        let same = self.expected.iter().zip(&self.given).take_while(|(one, other)| one == other).count();
        let (expected, given) = (shortened(&self.expected), shortened(&self.given));
        let line = shortened(&self.line);
        format!(
            "line {}: {line}\nexpected {expected}\ngiven    {given}\nsame in the first {same} bytes",
            self.at
        )
    }
}

/// Bytes as text, the middle of many left out.
fn shortened(bytes: &[u8]) -> String {
    match bytes.len() {
        0..=120 => bytes.escape_ascii().to_string(),
        length => {
            let (front, back) = (bytes[..80].escape_ascii(), bytes[length - 20..].escape_ascii());
            format!("{front} ... {back} ({length} bytes)")
        }
    }
}

/// How often each kind of call was accepted and each number given, by this program.
#[derive(Default)]
struct Tally {
    accepted: [usize; WORDS.len()],
    refused: [usize; NUMBERS.len()],
    silent: usize,
    /// Reads that must give the block, and those of them that did not.
    promised: usize,
    late: usize,
}

impl Tally {
    /// A read that must give the block.
    fn promise(&mut self, answer: Option<&str>) {
        self.promised += 1;
        self.late += usize::from(!answer.map_or(false, |answer| answer.starts_with("ok\t")));
    }

    fn note(&mut self, line: &[u8], answer: Option<&str>) {
        let answer = match answer {
            Some(answer) => answer,
            None => {
                self.silent += 1;
                return;
            }
        };
        let mut fields = answer.split('\t');
        if fields.next() == Some("ok") {
            let called = line.split(|byte| *byte == b' ').next();
            let kind = WORDS.iter().position(|word| called == Some(word.as_bytes()));
            self.accepted[kind.expect("only a call is accepted")] += 1;
        } else {
            let number: usize =
                fields.next().and_then(|field| field.parse().ok()).expect("a refusal has its number");
            let kind = NUMBERS.iter().position(|known| *known == number);
            self.refused[kind.expect("no other number is met")] += 1;
        }
    }

    /// The counts in two lines and what never occurred.
    fn text(&self) -> (String, Vec<String>) {
        let accepted: Vec<(String, usize)> = WORDS.map(String::from).into_iter().zip(self.accepted).collect();
        let numbers = NUMBERS.map(|number| number.to_string());
        let refused: Vec<(String, usize)> = numbers.into_iter().zip(self.refused).collect();
        let list = |counts: &[(String, usize)]| {
            let parts = counts.iter().map(|(what, count)| format!("{what}: {count}"));
            parts.collect::<Vec<String>>().join(", ")
        };
        let never = |counts: &[(String, usize)]| {
            let missing = counts.iter().filter(|(_, count)| *count == 0);
            missing.map(|(what, _)| what.clone()).collect::<Vec<String>>()
        };
        let text = format!(
            "accepted: {}\nrefused: {}\nno answer: {}\nreads after enough repeats: {}, late: {}",
            list(&accepted),
            list(&refused),
            self.silent,
            self.promised,
            self.late
        );
        (text, [never(&accepted), never(&refused)].concat())
    }
}

struct Report<'a> {
    options: &'a Options,
    all: usize,
    passed: usize,
    failed: usize,
    tally: Tally,
}

impl Report<'_> {
    fn differs(&mut self, number: usize, difference: &Difference) {
        self.failed += 1;
        match self.failed {
            1..=SHOWN => self.show(number, &difference.text()),
            _ if self.failed == SHOWN + 1 => println!("further histories that differ are counted alone"),
            _ => {}
        }
    }

    /// A history without all its answers ends the comparison; those after it have failed too.
    fn broken(&mut self, number: usize, what: &str) {
        self.failed = self.all - self.passed;
        self.show(number, what);
    }

    fn fail(&mut self, what: &str) {
        self.failed += 1;
        println!("{what}");
    }

    fn show(&self, number: usize, what: &str) {
        let Options { seed, only, command, .. } = self.options;
        println!("history {number}, {what}");
        if only.is_none() {
            let again = format!("--seed {seed} --histories {}", number + 1);
            println!("again, with all before it: independent histories {again} {}", command.join(" "));
        }
    }

    /// What occurred how often. Every refusal and every kind of accepted call must have.
    fn reached(&mut self) {
        let (text, never) = self.tally.text();
        println!("{text}");
        if self.options.only.is_none() && !never.is_empty() {
            self.fail(&format!("never occurred: {}", never.join(", ")));
        }
        if self.tally.late > 0 {
            self.fail("a read came late after enough repeats");
        }
    }

    /// The program must end by itself, and well.
    fn end(&mut self, other: &mut Child) -> Result<(), String> {
        let status = other.wait().map_err(|error| format!("the program: {error}"))?;
        if !status.success() {
            self.fail(&format!("the program ended with {status}"));
        }
        Ok(())
    }
}
