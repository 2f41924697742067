//! The comparison of whole histories: what it sends, that a sound program passes and that
//! planted faults do not.

use independent::histories::HISTORIES;
use independent::history::{all, History};
use independent::replay::{Call, Replay};
use independent::replay_faults::FAULTS;
use independent::sizes::sizes;
use std::collections::{HashMap, HashSet};
use std::process::{Command, Output};

const PROGRAM: &str = env!("CARGO_BIN_EXE_independent");

fn compare(options: &[&str], other: &[&str]) -> Output {
    Command::new(PROGRAM).arg("histories").args(options).args(other).output().unwrap()
}

fn lines(bytes: &[u8]) -> Vec<String> {
    String::from_utf8(bytes.to_vec()).unwrap().lines().map(String::from).collect()
}

/// The numbers of the last line.
fn passed_and_failed(output: &Output) -> (usize, usize) {
    let lines = lines(&output.stdout);
    let (passed, failed) = lines.last().unwrap().split_once(" passed, ").unwrap();
    (passed.parse().unwrap(), failed.strip_suffix(" failed").unwrap().parse().unwrap())
}

#[test]
fn a_sound_program_passes() {
    let output = compare(&["--histories", "450", "--seed", "3"], &[PROGRAM, "replay"]);
    assert_eq!((output.status.code(), passed_and_failed(&output)), (Some(0), (450, 0)));
    let progress = ["histories: 200 of 450", "histories: 400 of 450", "histories: 450 of 450"];
    assert_eq!(lines(&output.stderr), progress);
    let printed = lines(&output.stdout);
    let starts = [
        "accepted: new: ",
        "refused: 1: ",
        "no answer: ",
        "reads after enough repeats: 45, late: 0",
        "450 passed, 0 failed",
    ];
    assert_eq!(printed.len(), 5);
    assert!(printed.iter().zip(starts).all(|(line, start)| line.starts_with(start)), "{printed:?}");
}

/// Most are found at once; the longer run is for those that need blocks of several code blocks.
#[test]
fn every_planted_fault_is_found() {
    for (name, _) in FAULTS {
        let other = [PROGRAM, "replay", "--fault", name];
        let quick = compare(&["--histories", "130"], &other);
        let found = quick.status.code() == Some(1);
        let output = if found { quick } else { compare(&["--histories", "500"], &other) };
        assert_eq!(output.status.code(), Some(1), "{name}");
        let (passed, failed) = passed_and_failed(&output);
        assert!(passed > 0 && failed > 0 && passed + failed >= 130, "{name}");
        assert!(lines(&output.stdout)[0].starts_with("history "), "{name}");
    }
}

#[test]
fn a_difference_is_shown_with_both_answers() {
    let other = [PROGRAM, "replay", "--fault", "no_short_size"];
    let output = compare(&["--histories", "60"], &other);
    let printed = lines(&output.stdout);
    let number: usize =
        printed[0].strip_prefix("history ").unwrap().split(',').next().unwrap().parse().unwrap();
    assert!(printed[0].contains(": sizes "), "{printed:?}");
    assert!(
        printed[1].starts_with("expected ok\\t") && printed[2].starts_with("given    ok\\t"),
        "{printed:?}"
    );
    let alone = compare(&["--only", &number.to_string()], &other);
    assert_eq!(passed_and_failed(&alone), (0, 1));
    assert_eq!(lines(&alone.stdout)[..4], printed[..4]);
    let repeated = compare(&["--seed", "1", "--histories", &(number + 1).to_string()], &other);
    assert_eq!(passed_and_failed(&repeated), (number, 1));
}

#[test]
fn programs_that_are_none() {
    let nothing = compare(&[], &["/no/such/program"]);
    assert_eq!((nothing.status.code(), nothing.stdout), (Some(2), vec![]));
    let silent = compare(&["--histories", "30"], &["true"]);
    assert_eq!((silent.status.code(), passed_and_failed(&silent)), (Some(1), (0, 30)));
    let shell = |script: &str| {
        let output = compare(&["--histories", "30"], &["sh", "-c", &script.replace("PROGRAM", PROGRAM)]);
        (output.status.code(), passed_and_failed(&output))
    };
    assert_eq!(shell("PROGRAM replay"), (Some(0), (30, 0)));
    assert_eq!(shell("PROGRAM replay; echo more"), (Some(1), (30, 1)));
    assert_eq!(shell("PROGRAM replay; exit 3"), (Some(1), (30, 1)));
    // All answers held back until the input has ended.
    assert_eq!(shell("a=$(PROGRAM replay); printf '%s\\n' \"$a\""), (Some(0), (30, 0)));
    assert_eq!(shell("PROGRAM replay | tr '\\t' ' '").0, Some(1));
    assert_eq!(shell("PROGRAM replay | sed 's/$/ /'"), (Some(1), (0, 30)));
}

#[test]
fn bad_arguments() {
    let bad: [&[&str]; 10] = [
        &["histories"],
        &["histories", "--seed", "1"],
        &["histories", "--seed", "one", "true"],
        &["histories", "--sead", "1", "true"],
        &["histories", "--histories", "0", "true"],
        &["histories", "--only", "99999999", "true"],
        &["replay", "--fault"],
        &["replay", "--fault", "none"],
        &["replay", "me"],
        &["figures", "all"],
    ];
    for arguments in bad {
        let output = Command::new(PROGRAM).args(arguments).output().unwrap();
        assert_eq!((output.status.code(), output.stdout), (Some(2), vec![]), "{arguments:?}");
        assert!(output.stderr.starts_with(b"independent: "), "{arguments:?}");
    }
    let help = Command::new(PROGRAM).arg("help").output().unwrap().stdout;
    let help = String::from_utf8(help).unwrap();
    assert!(["replay", "histories", "figures"].iter().all(|c| help.contains(&format!("independent {c}"))));
}

#[test]
fn histories_come_from_seed_and_number_alone() {
    let many = all(1, 120);
    assert_eq!(many, all(1, 120));
    assert_eq!(many[..50], all(1, 50));
    assert_ne!(many[2..], all(2, 120)[2..]);
    assert!(many.iter().collect::<HashSet<&History>>().len() > 115);
}

#[test]
fn the_first_history_meets_every_refusal() {
    let mut replay = Replay::default();
    let answers = all(1, 1)[0].iter().filter_map(|line| replay.answer(line)).collect::<Vec<String>>();
    let numbers = answers.iter().filter_map(|answer| answer.strip_prefix("refused\t"));
    let expected =
        [
            "13", "13", "5", "6", "8", "1", "10", "7", "9", "11\t40", "3", "4", "2", "14", "12", "15", "11\t18", "11\t1",
            "11\t1", "16\t0", "16\t0", "5", "13", "13", "21",
        ];
    assert_eq!(numbers.collect::<Vec<&str>>(), expected);
    assert_eq!(answers.iter().filter(|answer| answer.starts_with("ok")).count(), answers.len() - 25);
}

/// What a comparison meets, by the answers of this program: a kind and C, counted.
fn met() -> HashMap<(String, usize), usize> {
    let mut met = HashMap::new();
    let mut replay = Replay::default();
    for history in &all(1, HISTORIES)[1..] {
        for line in history {
            let call = Call::parse(line);
            let answer = match replay.answer(line) {
                Some(answer) => answer,
                None => continue,
            };
            let slot = match call {
                Some(Call::Open { slot, .. } | Call::Receive { slot, .. } | Call::Read { slot, .. }) => slot,
                Some(Call::OpenDown { slot, .. }) => slot,
                Some(Call::Streams { slot, .. }) => slot,
                _ => usize::MAX,
            };
            let head = replay.state.heads.get(slot).filter(|head| head.open);
            let blocks = head.map_or(0, |head| sizes(head.a).unwrap().blocks);
            let word = line.split(|byte| *byte == b' ').next().unwrap();
            let outcome: Vec<&str> =
                answer.split('\t').take(if answer.starts_with('o') { 1 } else { 2 }).collect();
            let kind = match outcome[..] {
                ["refused", "15"] => "refused 15".to_string(),
                _ => format!("{} {}", String::from_utf8_lossy(word), outcome.join(" ")),
            };
            *met.entry((kind, blocks)).or_insert(0) += 1;
        }
    }
    met
}

/// Beyond the first history, every call gives every number that it can, and blocks of one,
/// two and three code blocks are opened, heard, released and found wrong.
#[test]
fn every_answer_is_met() {
    let met = met();
    let total =
        |kind: &str| met.iter().filter(|(key, _)| key.0 == kind).map(|(_, count)| count).sum::<usize>();
    let calls: [(&str, &[u8]); 13] = [
        ("new", &[13]),
        ("open", &[13, 5, 6, 7, 1, 10]),
        ("open-down", &[13, 5, 6, 7, 1, 10, 21]),
        ("receive", &[13, 5, 6, 8, 9, 3, 4, 2]),
        ("read", &[13, 5, 6, 8, 9, 11, 16, 12]),
        ("streams", &[13, 5, 8, 9, 14]),
        ("close", &[13, 6, 8, 9]),
        ("build", &[1, 3, 4, 2]),
        ("build-down", &[1, 21, 3, 4, 2]),
        ("pack", &[13, 5]),
        ("unpack", &[13, 5]),
        ("sizes", &[1]),
        ("worst", &[1, 3]),
    ];
    for (word, numbers) in calls {
        assert!(total(&format!("{word} ok")) > 300, "{word}");
        for number in numbers {
            assert!(total(&format!("{word} refused {number}")) > 0, "{word} {number}");
        }
    }
    assert!(total("refused 15") > 1_000);
    for blocks in 1..=3 {
        let count = |kind: &str| met.get(&(kind.to_string(), blocks)).copied().unwrap_or(0);
        for kind in ["open ok", "open-down ok", "receive ok", "read ok", "read refused 11", "read refused 12", "streams ok"] {
            assert!(count(kind) >= 10, "{kind} with C = {blocks}: {}", count(kind));
        }
        let wrong = count("read refused 16");
        assert!(if blocks == 1 { wrong == 0 } else { wrong >= 100 }, "16 with C = {blocks}: {wrong}");
    }
}

#[test]
fn lines_at_their_limit_are_sent() {
    let histories = all(1, 3);
    let lengths: HashSet<(u8, usize)> =
        histories.iter().flatten().map(|l| (*l.first().unwrap_or(&0), l.len())).collect();
    assert!([(b'b', 200_000), (b'b', 200_001), (b'x', 200_000), (b'x', 200_001), (b'#', 200_001)]
        .iter()
        .all(|key| lengths.contains(key)));
}

/// The very last line is sent without its newline, so it must have an answer.
#[test]
fn the_last_line_of_a_history_has_an_answer() {
    for history in all(1, 500) {
        let last = history.last().unwrap();
        assert!(!last.is_empty() && last[0] != b'#');
        assert!(history.iter().all(|line| !line.contains(&b'\n')));
    }
}
