//! The comparison: what it sends, that a sound bridge passes and that planted faults do not.

use independent::cases::{all, Asked, Build, Case, Content};
use independent::codeword::{G_MAX, A_MAX};
use independent::compare::{expected, RANDOM_BUILDS};
use independent::older::Upwards;
use independent::protocol::{Answer, Call, Request, GUARD};
use independent::sizes::sizes;
use independent::stub::FAULTS;
use std::collections::HashSet;
use std::process::{Command, Output};

const PROGRAM: &str = env!("CARGO_BIN_EXE_independent");

fn compare(options: &[&str], bridge: &[&str]) -> Output {
    let mut command = Command::new(PROGRAM);
    command.arg("compare").args(options).arg(PROGRAM).args(bridge);
    command.output().unwrap()
}

fn lines(output: &Output) -> Vec<String> {
    String::from_utf8(output.stdout.clone()).unwrap().lines().map(String::from).collect()
}

/// The numbers of the last line.
fn passed_and_failed(output: &Output) -> (usize, usize) {
    let lines = lines(output);
    let (passed, failed) = lines.last().unwrap().split_once(" passed, ").unwrap();
    (passed.parse().unwrap(), failed.strip_suffix(" failed").unwrap().parse().unwrap())
}

#[test]
fn a_sound_bridge_passes() {
    let output = compare(&["--cases", "900", "--every", "3", "--seed", "5"], &["bridge-stub"]);
    let (passed, failed) = passed_and_failed(&output);
    assert_eq!((output.status.code(), failed), (Some(0), 0));
    assert_eq!(passed, all(5, 900).len().div_up(3));
    assert_eq!(lines(&output).len(), 1);
    let progress = String::from_utf8(output.stderr).unwrap();
    assert!(progress.starts_with('\r') && progress.ends_with(&format!("{passed} cases, 0 failed\n")));
}

#[test]
fn every_planted_fault_is_found() {
    for (name, _) in FAULTS {
        let output = compare(&["--cases", "0", "--every", "7"], &["bridge-stub", "--fault", name]);
        assert_eq!(output.status.code(), Some(1), "{name}");
        assert!(passed_and_failed(&output).1 > 0, "{name}");
        assert!(lines(&output)[0].starts_with("first difference: case "), "{name}");
    }
}

#[test]
fn a_difference_can_be_had_alone() {
    let stub = ["bridge-stub", "--fault", "long-first"];
    let output = compare(&["--cases", "10", "--every", "7"], &stub);
    let first = lines(&output)[0].clone();
    let number = first.strip_prefix("first difference: case ").unwrap().split(' ').next().unwrap();
    let alone = compare(&["--cases", "10", "--case", number], &stub);
    assert_eq!(passed_and_failed(&alone), (0, 1));
    assert_eq!(lines(&alone)[..3], lines(&output)[..3]);
}

#[test]
fn a_bridge_that_is_none() {
    let nothing = Command::new(PROGRAM).args(["compare", "/no/such/bridge"]).output().unwrap();
    assert_eq!(nothing.status.code(), Some(2));
    let silent = compare(&["--cases", "0"], &["help"]);
    assert_eq!(silent.status.code(), Some(1));
}

fn builds(cases: &[Case]) -> impl Iterator<Item = (&Case, &Build)> {
    cases.iter().filter_map(|case| match &case.asked {
        Asked::Build(build) => Some((case, build)),
        _ => None,
    })
}

/// 3 * D - 2 * F over all code blocks.
fn turn(a: usize) -> usize {
    let s = sizes(a).unwrap();
    (0..s.blocks).map(|r| 3 * (s.size(r) + 4) - 2 * s.filler_in(r)).sum()
}

#[test]
fn the_cases_come_from_the_seed_alone() {
    let text = |seed| format!("{:?}", all(seed, 100));
    assert_eq!(text(1), text(1));
    assert_ne!(text(1), text(2));
}

#[test]
fn enough_builds_are_sent_and_no_length_is_too_long() {
    let cases = all(1, RANDOM_BUILDS);
    assert!(builds(&cases).count() >= 20_000);
    assert!(cases.iter().all(|case| case.fill > 1 && case.output_length <= 262_144));
    assert!(builds(&cases).all(|(_, build)| build.block.length <= 65_536));
    let nulls = |case: &&Case| case.null_output || case.null_block;
    assert!(cases.iter().filter(nulls).count() > 10);
    assert!(cases.iter().all(|case| !case.null_output || case.output_length == 0));
    assert!(builds(&cases).all(|(case, build)| !case.null_block || build.block.length == 0));
}

#[test]
fn every_kind_of_accepted_build_is_sent() {
    let cases = all(1, 0);
    let mut seen = HashSet::new();
    for (case, build) in builds(&cases) {
        let Build { block, q, n, version, g } = build;
        if !(1..=A_MAX).contains(&block.length) || expected_number(case) != 0 {
            continue;
        }
        let blocks = sizes(block.length).unwrap().blocks;
        let symbols = g / (q * n);
        let mut note = |kind| seen.insert((blocks, *q, *n, *version, kind));
        note(match block.content {
            Content::Random(_) => "random",
            Content::All(0) => "zeros",
            _ => "ones",
        });
        note(["remainder 0", "remainder 1", "remainder 2", "remainder 3", "remainder 4"][symbols % blocks]);
        if symbols == blocks {
            note("least");
        }
        if *g > turn(block.length) {
            note("over a turn");
        }
        if *g >= 2 * turn(block.length) {
            note("two turns");
        }
        if case.output_length > *g {
            note("longer output");
        }
        if *g == G_MAX {
            seen.insert((blocks, 0, 0, *version, "largest"));
            seen.insert((0, *q, *n, *version, "largest"));
        }
    }
    for blocks in 1..=5 {
        for (q, n) in [2, 4, 6].into_iter().flat_map(|q| [1, 2, 3, 4].map(|n| (q, n))) {
            for version in 0..4 {
                let has = |kind| seen.contains(&(blocks, q, n, version, kind));
                assert!(has("random") && has("least") && has("over a turn"));
                let remainders = ["remainder 0", "remainder 1", "remainder 2", "remainder 3", "remainder 4"];
                assert!(remainders[..blocks].iter().all(|kind| has(kind)));
                assert!(seen.contains(&(0, q, n, version, "largest")));
                assert!(seen.contains(&(blocks, 0, 0, version, "largest")));
            }
        }
        for kind in ["zeros", "ones", "two turns", "longer output"] {
            assert!(seen.iter().any(|key| key.0 == blocks && key.4 == kind), "{blocks} {kind}");
        }
    }
}

fn expected_number(case: &Case) -> u32 {
    match &case.asked {
        Asked::Build(Build { block, q, n, version, g }) => {
            let checked = independent::codeword::check(&block.bytes(), *q, *n, *version, *g, case.output_length);
            checked.map_or_else(u32::from, |()| 0)
        }
        _ => panic!(),
    }
}

#[test]
fn every_refusal_is_sent_for_every_number_of_blocks() {
    let cases = all(1, 0);
    let mut seen = HashSet::new();
    for (case, build) in builds(&cases) {
        let blocks = sizes(build.block.length).map_or(0, |s| s.blocks);
        seen.insert((blocks, expected_number(case)));
    }
    assert!(seen.contains(&(0, 1)));
    for blocks in 1..=5 {
        assert!([0, 2, 3, 4, 5].iter().all(|number| seen.contains(&(blocks, *number))));
    }
}

#[test]
fn every_length_is_asked_of_sizes() {
    let asked: HashSet<usize> = all(1, 0)
        .iter()
        .filter_map(|case| match case.asked {
            Asked::Sizes(a) => Some(a),
            _ => None,
        })
        .collect();
    assert!((0..=30_600).chain([usize::MAX, 1 << 32]).all(|a| asked.contains(&a)));
}

#[test]
fn sizes_as_bytes() {
    let case = |a, output_length| Case {
        group: "here",
        asked: Asked::Sizes(a),
        output_length,
        fill: 9,
        null_block: false,
        null_output: false,
        null_payload: false,
    };
    let answer = expected(&case(6_121, 26));
    let numbers = answer.output[GUARD..GUARD + 24].chunks(4).map(|four| u32::from_le_bytes(four.try_into().unwrap()));
    assert_eq!(numbers.collect::<Vec<u32>>(), [2, 1, 3_136, 1, 3_072, 15]);
    assert_eq!((answer.number, &answer.output[GUARD + 24..]), (0, &[9; 2 + GUARD][..]));
    assert_eq!(expected(&case(6_121, 23)).number, 5);
    assert_eq!(expected(&case(0, 23)).number, 1);
    assert_eq!(expected(&case(30_577, 24)).number, 1);
}

#[test]
fn requests_and_answers_in_bytes() {
    let call = Call::Build { block: vec![1, 0, 1], q: 2, n: 1, version: 3, g: 258 };
    let [null_block, null_output, null_payload] = [false; 3];
    let request = Request { call, output_length: 300, fill: 7, null_block, null_output, null_payload };
    let mut bytes = Vec::new();
    request.write(&mut bytes).unwrap();
    let numbers = [3u64, 2, 1, 3, 258, 300].iter().flat_map(|number| number.to_le_bytes());
    let written: Vec<u8> = [1, 0, 7, 0, 0, 0, 0, 0].into_iter().chain(numbers).chain([1, 0, 1]).collect();
    assert_eq!(bytes, written);
    assert_eq!(Request::read(&mut &bytes[..]).unwrap(), Some(request));
    assert!(Request::read(&mut &bytes[..58]).is_err());
    assert_eq!(Request::read(&mut &bytes[..0]).unwrap(), None);
    let call = Call::Sizes { a: 30_577 };
    let request = Request { call, output_length: 0, fill: 255, null_block, null_output: true, null_payload };
    let mut bytes = Vec::new();
    request.write(&mut bytes).unwrap();
    assert_eq!((bytes.len(), &bytes[..10]), (56, &[2, 2, 255, 0, 0, 0, 0, 0, 0x71, 0x77][..]));
    assert_eq!(Request::read(&mut &bytes[..]).unwrap(), Some(request));
    let call = Call::Unpack { m: 2, from: vec![170] };
    let request = Request { call, output_length: 4, fill: 3, null_block, null_output, null_payload };
    let mut bytes = Vec::new();
    request.write(&mut bytes).unwrap();
    assert_eq!((bytes.len(), bytes[0], bytes[16], bytes[56]), (57, 9, 2, 170));
    assert_eq!(Request::read(&mut &bytes[..]).unwrap(), Some(request));
    let answer = Answer { number: 0x0102_0304, block_kept: true, output: vec![9; 2 * GUARD + 1] };
    let mut bytes = Vec::new();
    answer.write(&mut bytes).unwrap();
    assert_eq!(bytes[..9], [4, 3, 2, 1, 1, 0, 0, 0, 9]);
    assert_eq!(Answer::read(&mut &bytes[..], 1).unwrap(), answer);
}
