//! The command line of the second program.

use independent::compare::{self, Options};
use independent::{figures, histories, replay_faults, sizes, slots_c, stage, stub, xorshift};
use std::fs::File;
use std::io::{self, Read, Write};
use std::os::unix::io::AsFd;
use std::process::ExitCode;

const HELP: &str = "\
independent sizes
    the sizes program: standard input to standard output
independent stage NAME BITS Q N VERSION G
    one stage of a build as text
    NAME     segmentation, blocks, streams, circle or codeword
    BITS     a run of 0 and 1, or @A:SEED for A (at most 65536) pseudo-random bits
             (xorshift64*, described in src/xorshift.rs)
    Q        bits a symbol: 2, 4 or 6
    N        layers: 1 to 4
    VERSION  redundancy version: 0 to 3
    G        length of the codeword
    what Build refuses prints: refused, tab, number
independent compare [--seed N] [--cases N] [--every N] [--case N] COMMAND...
    compares the program behind the bridge COMMAND with this one: exit status 0 if all
    cases pass, 1 if not
    --seed N   what the cases are made from, 1 if not given
    --cases N  how many builds are random, beside those always made; 20000 if not given
    --every N  send only each Nth case
    --case N   send only case N
independent bridge-stub [--fault NAME]
    a bridge to this program itself, to try compare; the faults are in src/stub.rs
independent replay [--fault NAME]
    calls of 01 as lines, each answered with one line: standard input to standard output;
    the protocol is in src/replay.rs, the faults are in src/replay_faults.rs
independent histories [--seed N] [--histories N] [--only N] COMMAND...
    compares whole histories of such lines between the program COMMAND and this one: exit
    status 0 if all histories pass, 1 if not
    --seed N       what the histories are made from, 1 if not given
    --histories N  how many, 2000 if not given
    --only N       send only history N, counted from 0; the rooms begin as zeros
independent slots [--seed N] [--histories N] COMMAND...
    the same for the calls on slots as C has them, behind the bridge COMMAND
    (face/slots_bridge.c), on a state that is kept as bytes; a step counts as a case
independent figures
    the numbers of the pictures, for scripts/pictures
independent bench [CALL] [--rounds N] [--only NAME --calls N] [A:G]...
    times the proved library, the fast program and the literal one, least of the rounds;
    needs the library linked, as scripts/bench does
    CALL         build, build-two, build-down-50, build-down-32, receive, receive-down-50,
                 receive-down-32, read, receive-packed, read-packed or control, or
                 reports alone, which has rows of its own; all if not given
    --rounds N   15 if not given
    --only NAME  only N untimed calls of rattle, fast or literal, for a profiler
    A:G          the rows, instead of the usual ones
independent bench --help
    the lines above
independent help
    this text
";

/// Longer than any block Build takes, so that refusal 1 can be seen too.
const LONGEST_RANDOM: usize = 65_536;

fn main() -> ExitCode {
    let arguments: Vec<String> =
        std::env::args_os().skip(1).map(|a| a.to_string_lossy().into_owned()).collect();
    let words: Vec<&str> = arguments.iter().map(String::as_str).collect();
    match run(&words) {
        Ok(status) => status,
        Err(message) => {
            eprintln!("independent: {message}");
            ExitCode::from(2)
        }
    }
}

/// Runs a command to its exit status, or says what is wrong with it.
fn run(words: &[&str]) -> Result<ExitCode, String> {
    match words {
        ["compare", rest @ ..] => return compare_status(rest),
        ["slots", rest @ ..] => return slots_status(rest),
        ["bridge-stub", rest @ ..] => bridge_stub(rest)?,
        ["replay", rest @ ..] => replay(rest)?,
        ["histories", rest @ ..] => return histories_status(rest),
        ["bench", "--help"] => print(help_of("bench").as_bytes())?,
        ["bench", rest @ ..] => bench(rest)?,
        _ => print(&answer(words)?)?,
    }
    Ok(ExitCode::SUCCESS)
}

fn compare_status(words: &[&str]) -> Result<ExitCode, String> {
    let outcome = compare::run(&compare_options(words)?)?;
    println!("{} passed, {} failed", outcome.passed, outcome.failed);
    Ok(ExitCode::from(u8::from(outcome.failed > 0)))
}

/// Options, then the bridge's command.
fn compare_options(words: &[&str]) -> Result<Options, String> {
    let mut options =
        Options { seed: 1, random: compare::RANDOM_BUILDS, every: 1, only: None, command: Vec::new() };
    let mut rest = words;
    while let [option, value, later @ ..] = rest {
        match *option {
            "--seed" => options.seed = number(value)?,
            "--cases" => options.random = number(value)?,
            "--every" => options.every = number::<usize>(value)?.max(1),
            "--case" => options.only = Some(number(value)?),
            _ => break,
        }
        rest = later;
    }
    match rest.first() {
        Some(name) if !name.starts_with("--") => options.command = rest.iter().map(|w| w.to_string()).collect(),
        _ => return Err("compare takes options, then the bridge's command".into()),
    }
    Ok(options)
}

fn bridge_stub(words: &[&str]) -> Result<(), String> {
    let fault = match words {
        [] => None,
        ["--fault", name] => Some(stub::fault(name).ok_or(format!("no such fault: {name}"))?),
        _ => return Err("bridge-stub takes --fault NAME or nothing".into()),
    };
    let ended = stub::run(io::stdin(), io::stdout(), fault);
    ended.map_err(|error| format!("bridge-stub: {error}"))
}

fn replay(words: &[&str]) -> Result<(), String> {
    let fault = match words {
        [] => None,
        ["--fault", name] => Some(replay_faults::fault(name).ok_or(format!("no such fault: {name}"))?),
        _ => return Err("replay takes --fault NAME or nothing".into()),
    };
    let ended = replay_faults::run(io::stdin(), io::stdout(), fault);
    ended.map_err(|error| format!("replay: {error}"))
}

fn histories_status(words: &[&str]) -> Result<ExitCode, String> {
    let outcome = histories::run(&histories_options(words)?)?;
    println!("{} passed, {} failed", outcome.passed, outcome.failed);
    Ok(ExitCode::from(u8::from(outcome.failed > 0)))
}

/// Histories of the calls on slots as C has them; tells how often each call answered each number.
fn slots_status(words: &[&str]) -> Result<ExitCode, String> {
    let histories::Options { seed, histories, command, .. } = histories_options(words)?;
    let outcome = slots_c::run(seed, histories, &command)?;
    for ((call, number), count) in &outcome.answers {
        println!("{call} answered {number}: {count}");
    }
    println!("{} passed, {} failed", outcome.passed, outcome.failed);
    Ok(ExitCode::from(u8::from(outcome.failed > 0)))
}

/// Options, then the other program's command.
fn histories_options(words: &[&str]) -> Result<histories::Options, String> {
    let mut options =
        histories::Options { seed: 1, histories: histories::HISTORIES, only: None, command: Vec::new() };
    let mut rest = words;
    while let [option, value, later @ ..] = rest {
        match *option {
            "--seed" => options.seed = number(value)?,
            "--histories" => options.histories = number(value)?,
            "--only" => options.only = Some(number(value)?),
            _ => break,
        }
        rest = later;
    }
    match rest.first() {
        Some(name) if !name.starts_with("--") => options.command = rest.iter().map(|w| w.to_string()).collect(),
        _ => return Err("histories takes options, then the other program's command".into()),
    }
    Ok(options)
}

#[cfg(not(feature = "linked"))]
fn bench(_: &[&str]) -> Result<(), String> {
    Err("bench needs the proved library linked: scripts/bench".into())
}

#[cfg(feature = "linked")]
fn bench(words: &[&str]) -> Result<(), String> {
    use independent::bench::{only, report_tables, table, Row, ALL};
    if let ["reports"] = words {
        return print(report_tables(15)?.as_bytes());
    }
    let named = words.first().and_then(|word| ALL.into_iter().find(|timed| timed.name() == *word));
    let mut rest = if named.is_some() { &words[1..] } else { words };
    let (mut rounds, mut calls, mut one) = (15, 1, None);
    while let [option, value, later @ ..] = rest {
        match *option {
            "--rounds" => rounds = number::<u32>(value)?.max(1),
            "--only" => one = Some(value),
            "--calls" => calls = number(value)?,
            _ => break,
        }
        rest = later;
    }
    let row = |text: &&str| {
        let (a, g) = text.split_once(':').ok_or(format!("a row is A:G, not {text:?}"))?;
        Ok(Row { a: number(a)?, g: number(g)? })
    };
    let given = rest.iter().map(row).collect::<Result<Vec<Row>, String>>()?;
    for timed in named.map_or(ALL.to_vec(), |timed| vec![timed]) {
        let rows = if given.is_empty() { timed.usual_rows() } else { given.clone() };
        match one {
            Some(name) => only(name, timed, &rows, calls)?,
            None => print(table(timed, &rows, rounds)?.as_bytes())?,
        }
    }
    if named.is_none() && given.is_empty() && one.is_none() {
        print(report_tables(rounds)?.as_bytes())?;
    }
    Ok(())
}

/// What the help says of one command: its line and those below it that are set in.
fn help_of(command: &str) -> String {
    let line = format!("independent {command}");
    let mut lines = HELP.split_inclusive('\n').skip_while(|text| !text.starts_with(&line));
    let first = lines.next().unwrap_or_default();
    lines.take_while(|text| text.starts_with(' ')).fold(first.into(), |all: String, text| all + text)
}

/// What a command prints, or what is wrong with it.
fn answer(words: &[&str]) -> Result<Vec<u8>, String> {
    match words {
        ["sizes"] => Ok(sizes::program(&read_input()?)),
        ["stage", name, bits, numbers @ ..] => stage_text(name, bits, numbers),
        ["figures"] => Ok(figures::text().into_bytes()),
        ["help"] => Ok(HELP.into()),
        _ => Err("no such command; try: independent help".into()),
    }
}

/// The first 65,536 bytes of standard input. The standard library's own handle reads
/// ahead; a plain file on the same input does not, so what follows stays unread.
fn read_input() -> Result<Vec<u8>, String> {
    let failed = |error: io::Error| format!("standard input: {error}");
    let input = File::from(io::stdin().as_fd().try_clone_to_owned().map_err(failed)?);
    let mut bytes = Vec::new();
    input.take(sizes::INPUT_LIMIT as u64).read_to_end(&mut bytes).map_err(failed)?;
    Ok(bytes)
}

fn print(output: &[u8]) -> Result<(), String> {
    let mut out = io::stdout();
    let written = out.write_all(output).and_then(|()| out.flush());
    written.map_err(|error| format!("standard output: {error}"))
}

fn stage_text(name: &str, bits: &str, numbers: &[&str]) -> Result<Vec<u8>, String> {
    let [q, n, version, g] = match *numbers {
        [q, n, version, g] => [q, n, version, g],
        _ => return Err("stage takes NAME BITS Q N VERSION G".into()),
    };
    let call = stage::Call {
        block: block(bits)?,
        q: number(q)?,
        n: number(n)?,
        version: number(version)?,
        g: number(g)?,
    };
    stage::text(name, &call).map(String::into_bytes).ok_or(format!("no such stage: {name}"))
}

/// The block meant by BITS.
fn block(text: &str) -> Result<Vec<u8>, String> {
    match text.strip_prefix('@') {
        Some(random) => random_block(random),
        None => text.chars().map(bit).collect(),
    }
}

fn bit(digit: char) -> Result<u8, String> {
    match digit {
        '0' => Ok(0),
        '1' => Ok(1),
        _ => Err(format!("not a bit: {digit:?}")),
    }
}

/// The block meant by A:SEED.
fn random_block(text: &str) -> Result<Vec<u8>, String> {
    let (length, seed) = text.split_once(':').ok_or("a pseudo-random block is @A:SEED")?;
    let length = number(length)?;
    if length > LONGEST_RANDOM {
        return Err(format!("A is at most {LONGEST_RANDOM}"));
    }
    Ok(xorshift::block(length, number(seed)?))
}

/// A decimal number: digits alone, no sign.
fn number<T: std::str::FromStr>(text: &str) -> Result<T, String> {
    let wrong = || format!("not a number in range: {text:?}");
    if text.bytes().all(|byte| byte.is_ascii_digit()) {
        text.parse().map_err(|_| wrong())
    } else {
        Err(wrong())
    }
}
