//! The line protocol: which lines can be read, what is answered to those that can, and how
//! lines are parted.

use independent::codeword::build;
use independent::crc;
use independent::rate;
use independent::replay::{run as digits, Call, Replay, LINE_MAX, STORE};
use independent::replay_faults::run;
use independent::segmentation::{self, Segmentation};
use independent::turbo;
use independent::xorshift;
use std::io::{BufReader, Read};
use std::process::{Command, Stdio};

/// What the sound program writes.
fn written(input: &[u8]) -> String {
    let mut output = Vec::new();
    run(input, &mut output, None).unwrap();
    String::from_utf8(output).unwrap()
}

/// The answers to lines, one each.
fn answers<'a>(lines: impl IntoIterator<Item = &'a str>) -> Vec<String> {
    let mut replay = Replay::default();
    lines.into_iter().map(|line| replay.answer(line.as_bytes()).expect("an answer")).collect()
}

/// The last of the answers.
fn last(lines: &[&str]) -> String {
    answers(lines.iter().copied()).pop().unwrap()
}

/// Holds lines to their answers, in one history.
fn session(pairs: &[(&str, &str)]) {
    let mut replay = Replay::default();
    for (line, expected) in pairs {
        assert_eq!(replay.answer(line.as_bytes()).as_deref(), Some(*expected), "{line}");
    }
}

/// Slot 0 open for terminal 7 with A = 16.
const OPEN: [&str; 2] = ["new 1 1", "open 0 7 16"];

#[test]
fn a_history_as_01_has_it() {
    let block = xorshift::block(16, 1);
    let send = |g| format!("receive 0 7 2 1 0 {}", digits(&build(&block, 2, 1, 0, g).unwrap()));
    let (short, whole, block) = (send(130), send(132), digits(&block));
    session(&[
        ("new 1 1", "ok"),
        ("open 0 7 16", "ok"),
        ("read 0 7", "refused\t11\t40"),
        (&short, "ok\t2"),
        ("read 0 7", "refused\t11\t2"),
        (&whole, "ok\t0"),
        ("read 0 7", &format!("ok\t{block}")),
        ("open 0 7 16", "refused\t7"),
        ("close 0 8", "refused\t9"),
        ("close 0 7", "ok"),
        ("close 0 7", "refused\t8"),
        ("open 0 8 16", "ok"),
        ("read 0 8", "refused\t11\t40"),
        ("read 1 8", "refused\t6"),
        ("open 0 8 6121", "refused\t7"),
        ("close 0 8", "ok"),
        ("open 0 8 6121", "refused\t10"),
        ("open 0 8 0", "refused\t1"),
        ("open 0 8 999999", "refused\t1"),
    ]);
}

#[test]
fn streams_are_three_runs() {
    // The filler of A = 1 is absent in streams 0 and 1; version 0 begins at stream 0.
    let runs = last(&["new 1 1", "open 0 0 1", "streams 0 0 0"]);
    let absent = format!("{}{}", "0".repeat(15), "2".repeat(29));
    assert_eq!(runs, format!("ok\t{absent}\t{absent}\t{}", "2".repeat(44)));
    // 01: version 0 and G = 2 are stream 0's places 20 and 4, for A = 16.
    let runs = last(&[OPEN[0], OPEN[1], "receive 0 7 2 1 0 10", "streams 0 7 0"]);
    let mut first = "2".repeat(44);
    first.replace_range(20..21, "1");
    first.replace_range(4..5, "0");
    assert_eq!(runs, format!("ok\t{first}\t{}\t{}", "2".repeat(44), "2".repeat(44)));
    assert_eq!(last(&[OPEN[0], OPEN[1], "streams 0 7 1"]), "refused\t14");
}

#[test]
fn receptions_that_are_refused() {
    for (line, answer) in [
        ("receive 0 7 2 1 0 01", "ok\t38"),
        ("receive 0 7 2 1 0 0", "refused\t3"),
        ("receive 0 7 3 1 0 01", "refused\t3"),
        ("receive 0 7 2 5 0 01", "refused\t3"),
        ("receive 0 7 2 0 4 02", "refused\t3"),
        ("receive 0 7 2 1 4 02", "refused\t4"),
        ("receive 0 7 2 1 3 02", "refused\t2"),
        ("receive 0 7 2 1 3 91", "refused\t2"),
        ("receive 0 8 2 0 4 02", "refused\t9"),
        ("receive 1 8 2 0 4 02", "refused\t6"),
    ] {
        assert_eq!(last(&[OPEN[0], OPEN[1], line]), answer, "{line}");
    }
    // All heard, and the transport check of all ones is wrong.
    let ones = format!("receive 0 7 2 1 0 {}", "1".repeat(132));
    assert_eq!(last(&[OPEN[0], OPEN[1], &ones]), "ok\t0");
    assert_eq!(last(&[OPEN[0], OPEN[1], &ones, "read 0 7"]), "refused\t12");
    // Of two code blocks, both of all ones, the first is named.
    let ones = format!("receive 0 7 2 1 0 {}", "1".repeat(18_840));
    assert_eq!(last(&["new 1 2", "open 0 7 6121", &ones, "read 0 7"]), "refused\t16\t0");
}

#[test]
fn build_and_sizes_need_no_state() {
    let zeros = "0".repeat(24);
    session(&[
        ("build 2 1 0 24 0000000000000000", &format!("ok\t{zeros}")),
        ("build 2 1 0 24 1", "ok\t011101011010011001111001"),
        ("build 2 1 4 24 1", "refused\t4"),
        ("build 2 1 0 23 1", "refused\t3"),
        ("build 2 1 0 0 1", "refused\t3"),
        ("build 2 1 0 999999 1", "refused\t3"),
        ("build 2 1 0 24 12", "refused\t2"),
        ("sizes 16", "ok\t1\t1\t40\t0\t0\t0"),
        ("sizes 1", "ok\t1\t1\t40\t0\t0\t15"),
        ("sizes 6121", "ok\t2\t1\t3136\t1\t3072\t15"),
        ("sizes 12216", "ok\t2\t2\t6144\t0\t6080\t0"),
        ("sizes 0", "refused\t1"),
        ("sizes 30577", "refused\t1"),
        ("sizes 999999", "refused\t1"),
    ]);
    let block = |a: usize| format!("build 2 1 0 24 {}", "0".repeat(a));
    assert_eq!(last(&[&block(30_576)]), format!("ok\t{zeros}"));
    assert_eq!(last(&[&block(30_577)]), "refused\t1");
}

#[test]
fn before_the_first_new_and_after_a_refused_one() {
    let calls =
        ["open 0 0 16", "receive 0 0 2 1 0 01", "read 0 0", "streams 0 0 0", "close 0 0", "close 9 0"];
    assert!(answers(calls).iter().all(|answer| answer == "refused\t13"));
    for refused in ["new 0 1", "new 9 1", "new 1 0", "new 1 6", "new 0 0", "new 999999 1"] {
        assert_eq!(last(&[OPEN[0], OPEN[1], refused]), "refused\t13");
        for call in calls {
            assert_eq!(last(&[OPEN[0], OPEN[1], refused, call]), "refused\t13", "{refused} {call}");
        }
    }
}

#[test]
fn the_store_is_for_three_code_blocks_and_begins_as_zeros() {
    assert_eq!(STORE, 55_584);
    assert_eq!(Replay::default().store, vec![0; 55_584]);
    for (s, m) in [(1, 1), (3, 1), (1, 3), (2, 1), (1, 2)] {
        assert_eq!(last(&[&format!("new {s} {m}"), "open 0 7 16"]), "ok", "{s} {m}");
    }
    for (s, m) in [(4, 1), (1, 4), (2, 2), (8, 5)] {
        let new = format!("new {s} {m}");
        let short = ["open 0 7 16", "open 9 7 16", "receive 0 7 2 1 0 01", "read 9 7", "streams 0 7 0"];
        assert!(short.iter().all(|call| last(&[&new, call]) == "refused\t5"), "{new}");
        // Close is not lent the store.
        assert_eq!([last(&[&new, "close 0 7"]), last(&[&new, "close 9 7"])], ["refused\t8", "refused\t6"]);
    }
}

#[test]
fn a_new_closes_and_leaves_the_rooms() {
    let mut replay = Replay::default();
    for line in ["new 3 1", "open 1 7 16", "receive 1 7 2 1 0 01"] {
        replay.answer(line.as_bytes());
    }
    let before = replay.store.clone();
    assert!(before.contains(&2) && before[18_528..37_056].contains(&1));
    for line in ["new 3 1", "new 9 9", "new 1 3"] {
        replay.answer(line.as_bytes());
        assert_eq!(replay.store, before);
    }
    assert_eq!(replay.answer(b"read 0 7").unwrap(), "refused\t8");
}

#[test]
fn numbers_that_can_be_read() {
    assert_eq!(Call::parse(b"new 0 999999"), Some(Call::New { s: 0, m: 999_999 }));
    assert_eq!(Call::parse(b"sizes 100000"), Some(Call::Sizes { a: 100_000 }));
    let wrong = [
        "00", "01", "000001", "1000000", "0000000", "", "-1", "+1", "1.", "1a", "a", "0x1", "1_0", "1\t",
        "\t1", "1\r",
    ];
    for number in wrong {
        assert_eq!(Call::parse(format!("sizes {number}").as_bytes()), None, "{number:?}");
        assert_eq!(Call::parse(format!("new 1 {number}").as_bytes()), None, "{number:?}");
        assert_eq!(Call::parse(format!("new {number} 1").as_bytes()), None, "{number:?}");
    }
    for byte in (0..=255).filter(|byte| !u8::is_ascii_digit(byte)) {
        assert_eq!(Call::parse(&[b"sizes 1", &[byte][..]].concat()), None, "{byte}");
    }
}

/// Each line with its numbers and its BITS in the places of `S`, `T`, `Q`, `N`, `V`, `G` and `B`.
const FORMS: [&str; 8] = [
    "new S N",
    "open S T G",
    "receive S T Q N V B",
    "read S T",
    "streams S T N",
    "close S T",
    "build Q N V G B",
    "sizes G",
];

fn filled(form: &str, place: char, value: &str) -> String {
    let word = |letter: &str| match letter {
        _ if letter == place.to_string() => value.to_string(),
        "B" => "01".to_string(),
        "S" | "T" | "Q" | "N" | "V" | "G" => "1".to_string(),
        _ => letter.to_string(),
    };
    form.split(' ').map(word).collect::<Vec<String>>().join(" ")
}

#[test]
fn every_word_is_looked_at() {
    for form in FORMS {
        for place in form.chars().filter(char::is_ascii_uppercase) {
            assert!(Call::parse(filled(form, place, "0").as_bytes()).is_some(), "{form} {place}");
            for bad in ["", "x", "1x", "-1", "0 0"] {
                let line = filled(form, place, bad);
                assert_eq!(Call::parse(line.as_bytes()), None, "{line}");
            }
            // Numbers have no leading zero and 6 digits at most; BITS is a run of any length.
            for long in ["01", "1234567"] {
                let line = filled(form, place, long);
                assert_eq!(Call::parse(line.as_bytes()).is_some(), place == 'B', "{line}");
            }
        }
    }
}

#[test]
fn terminals_have_16_bits() {
    let with_terminal = FORMS.iter().filter(|form| form.contains('T'));
    for form in with_terminal {
        assert!(Call::parse(filled(form, 'T', "65535").as_bytes()).is_some(), "{form}");
        for far in ["65536", "65537", "131071", "999999", "00"] {
            assert_eq!(Call::parse(filled(form, 'T', far).as_bytes()), None, "{form} {far}");
        }
    }
    session(&[
        ("new 1 1", "ok"),
        ("open 0 65536 16", "refused\t15"),
        ("open 0 65535 16", "ok"),
        ("read 0 65536", "refused\t15"),
        ("read 0 65535", "refused\t11\t40"),
        ("close 0 0", "refused\t9"),
    ]);
    // The slot number and other numbers are not so bounded.
    assert_eq!(last(&["new 1 1", "read 65536 0"]), "refused\t6");
}

#[test]
fn blanks_part_words_one_at_a_time() {
    for form in FORMS {
        let line = filled(form, '-', "");
        assert!(Call::parse(line.as_bytes()).is_some(), "{line}");
        for at in (0..line.len()).filter(|at| line.as_bytes()[*at] == b' ') {
            let (front, back) = line.split_at(at);
            for between in [" ", "\t", "\r", "\u{a0}", "\0", ""] {
                let spoiled = format!("{front}{between}{}", if between == " " { back } else { &back[1..] });
                assert_eq!(Call::parse(spoiled.as_bytes()), None, "{spoiled:?}");
            }
            assert_eq!(Call::parse(front.as_bytes()), None, "{front}");
            assert_eq!(Call::parse(format!("{front} ").as_bytes()), None, "{front}");
        }
        for (front, back) in [(" ", ""), ("", " "), ("", " 0"), ("", "\r"), ("\t", ""), ("", "\0"), ("x", "")]
        {
            let spoiled = format!("{front}{line}{back}");
            assert_eq!(Call::parse(spoiled.as_bytes()), None, "{spoiled:?}");
        }
        assert_eq!(Call::parse(line.to_uppercase().as_bytes()), None, "{line}");
    }
    for line in [" ", "  ", "\t", "\r", "hello", "0", "refused", "\u{feff}sizes 16", "sizes"] {
        assert_eq!(answers([line]), ["refused\t15"], "{line:?}");
    }
}

#[test]
fn bits_are_digits() {
    let bits = |word: &[u8]| match Call::parse(&[b"receive 0 0 2 1 0 ", word].concat()) {
        Some(Call::Receive { bits, .. }) => Some(bits),
        None => None,
        Some(other) => panic!("{other:?}"),
    };
    assert_eq!(bits(b"0123456789"), Some(vec![0, 1, 2, 3, 4, 5, 6, 7, 8, 9]));
    assert_eq!(bits(b"00"), Some(vec![0, 0]));
    for byte in (0..=255).filter(|byte| !u8::is_ascii_digit(byte)) {
        assert_eq!(bits(&[b'0', byte]), None, "{byte}");
    }
}

#[test]
fn a_line_that_cannot_be_read_changes_nothing() {
    let mut replay = Replay::default();
    for line in [OPEN[0], OPEN[1], "receive 0 7 2 1 0 01"] {
        replay.answer(line.as_bytes());
    }
    let (state, store) = (replay.state, replay.store.clone());
    for line in
        ["close 0 7 ", "close 0  7", "new 1 1 1", "new 01 1", "receive 0 7 2 1 1 0a", "open 0 7 1000000"]
    {
        assert_eq!(replay.answer(line.as_bytes()).unwrap(), "refused\t15", "{line}");
        assert_eq!((replay.state, &replay.store), (state, &store), "{line}");
    }
}

#[test]
fn a_line_has_200_000_bytes_at_most() {
    assert_eq!(LINE_MAX, 200_000);
    let head = "build 2 1 0 24 ";
    for (length, answer) in
        [(200_000, "refused\t1\n"), (200_001, "refused\t15\n"), (400_001, "refused\t15\n")]
    {
        let line = format!("{head}{}", "0".repeat(length - head.len()));
        assert_eq!(written(line.as_bytes()), answer, "{length}");
        assert_eq!(
            written(format!("{line}\nsizes 0\n").as_bytes()),
            format!("{answer}refused\t1\n"),
            "{length}"
        );
    }
}

#[test]
fn comments_of_any_length_and_empty_lines_have_no_answer() {
    assert_eq!(written(b""), "");
    assert_eq!(written(b"\n"), "");
    assert_eq!(written(b"\n\n#\n# sizes 0\n#sizes 0\n##"), "");
    assert_eq!(written(b"\nsizes 0\n#\nsizes 0\n\n"), "refused\t1\nrefused\t1\n");
    for length in [199_999, 200_000, 200_001, 1_000_000] {
        let comment = "#".repeat(length);
        assert_eq!(written(format!("{comment}\nsizes 0\n{comment}").as_bytes()), "refused\t1\n", "{length}");
    }
    // Only at the front.
    assert_eq!(written(b" # remark\nsizes 0 #\n"), "refused\t15\nrefused\t15\n");
}

#[test]
fn a_last_line_without_newline_counts() {
    assert_eq!(written(b"sizes 0\nsizes 16"), "refused\t1\nok\t1\t1\t40\t0\t0\t0\n");
    assert_eq!(written(b"sizes 0\nsizes 16\n"), "refused\t1\nok\t1\t1\t40\t0\t0\t0\n");
    assert_eq!(written(b"sizes "), "refused\t15\n");
}

#[test]
fn only_byte_10_ends_a_line() {
    assert_eq!(written(b"sizes 16\rsizes 16\n"), "refused\t15\n");
    assert_eq!(written(b"sizes 16\r\n"), "refused\t15\n");
    assert_eq!(written(b"\r\n"), "refused\t15\n");
    assert_eq!(written(b"sizes 16\0\nsizes 0\x0b\n\x0c\n"), "refused\t15\n".repeat(3));
}

/// Gives its bytes a few at a time.
struct Trickle<'a>(&'a [u8], usize);

impl Read for Trickle<'_> {
    fn read(&mut self, room: &mut [u8]) -> std::io::Result<usize> {
        let few = self.1.min(room.len());
        Read::take(&mut self.0, few as u64).read(room)
    }
}

#[test]
fn lines_are_the_same_however_the_input_comes() {
    let long = format!("x{}\n", "0".repeat(200_000));
    let input = format!("sizes 16\n\n{long}#{long}new 1 1\nopen 0 7 16\nread 0 7");
    let expected = "ok\t1\t1\t40\t0\t0\t0\nrefused\t15\nok\nok\nrefused\t11\t40\n";
    for few in [1, 2, 3, 7, 4_096, 65_536, 1_000_000] {
        let mut output = Vec::new();
        run(BufReader::with_capacity(few, Trickle(input.as_bytes(), few)), &mut output, None).unwrap();
        assert_eq!(String::from_utf8(output).unwrap(), expected, "{few}");
    }
}

/// A user who types a line has its answer before typing the next.
#[test]
fn each_answer_comes_at_once() {
    let mut command = Command::new(env!("CARGO_BIN_EXE_independent"));
    let mut child = command.arg("replay").stdin(Stdio::piped()).stdout(Stdio::piped()).spawn().unwrap();
    let (mut input, mut output) = (child.stdin.take().unwrap(), child.stdout.take().unwrap());
    for _ in 0..3 {
        std::io::Write::write_all(&mut input, b"sizes 0\n").unwrap();
        let mut answer = [0; 10];
        output.read_exact(&mut answer).unwrap();
        assert_eq!(&answer, b"refused\t1\n");
    }
    drop(input);
    assert!(child.wait().unwrap().success());
}

fn example(name: &str) -> String {
    std::fs::read_to_string(format!("{}/../examples/{name}", env!("CARGO_MANIFEST_DIR"))).unwrap()
}

#[test]
fn the_stories_are_answered_as_they_say() {
    for name in ["june", "partner", "dispute", "downlink", "packed"] {
        let (log, answers) = (example(&format!("{name}.txt")), example(&format!("{name}-answers.txt")));
        let mut replay = Replay::default();
        let given: Vec<String> = log.lines().filter_map(|line| replay.answer(line.as_bytes())).collect();
        assert!(given == answers.lines().collect::<Vec<&str>>(), "{name}");
    }
}

/// The partner's first transmission is that of the block built later, with CRC24A on its code blocks.
#[test]
fn the_partner_s_unit_writes_the_other_check() {
    let log = example("partner.txt");
    let runs = |call: &str| {
        let lines = log.lines().filter(|line| line.starts_with(call));
        lines.map(|line| bits(line.rsplit(' ').next().unwrap())).collect::<Vec<_>>()
    };
    let (block, received) = (&runs("build")[0], runs("receive"));
    let b = crc::attach(block, &crc::CRC24A);
    let s = Segmentation::of(b.len());
    let shares = rate::shares(received[0].len(), 2, s.blocks);
    let mut sent = Vec::new();
    for (r, mut c) in segmentation::code_blocks(&b, &s).into_iter().enumerate() {
        let (data, parity) = c.split_at_mut(s.size(r) - s.parity);
        parity.copy_from_slice(&crc::parity(data, &crc::CRC24A));
        sent.extend(rate::match_block(&turbo::encode(&c, s.filler_in(r)), 0, shares[r]));
    }
    assert!(received == [sent, build(block, 2, 1, 0, received[0].len()).unwrap()]);
}

fn bits(run: &str) -> Vec<u8> {
    run.bytes().map(|digit| digit - b'0').collect()
}
