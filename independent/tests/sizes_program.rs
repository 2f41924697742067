//! The sizes program of 01 as a function from bytes to bytes.

use independent::sizes::program;

const HEADER: &str = "size\tblocks\tlongs\tlong\tshorts\tshort\tfiller\n";
const UNREADABLE: &str = "-\trefused\t15\n";

/// What the program prints after its header.
fn answers(input: &[u8]) -> String {
    let output = String::from_utf8(program(input)).unwrap();
    output.strip_prefix(HEADER).unwrap().to_string()
}

#[test]
fn example_of_01() {
    let expected = "size\tblocks\tlongs\tlong\tshorts\tshort\tfiller\n\
        16\t1\t1\t40\t0\t0\t0\n\
        1\t1\t1\t40\t0\t0\t15\n\
        6121\t2\t1\t3136\t1\t3072\t15\n\
        30577\trefused\t1\n";
    assert_eq!(program(b"16\n1\n6121\n30577\n"), expected.as_bytes());
    assert_eq!(program(b"16\n1\n6121\n30577"), expected.as_bytes());
}

#[test]
fn no_input_gives_the_header_alone() {
    assert_eq!(program(b""), HEADER.as_bytes());
}

#[test]
fn empty_lines() {
    assert_eq!(answers(b"\n"), UNREADABLE);
    assert_eq!(answers(b"\n\n"), UNREADABLE.repeat(2));
    assert_eq!(answers(b"0\n\n0"), format!("0\trefused\t1\n{UNREADABLE}0\trefused\t1\n"));
}

#[test]
fn smallest_and_largest_numbers() {
    assert_eq!(answers(b"0\n"), "0\trefused\t1\n");
    assert_eq!(answers(b"30576\n"), "30576\t5\t5\t6144\t0\t6080\t0\n");
    assert_eq!(answers(b"99999\n"), "99999\trefused\t1\n");
}

#[test]
fn lines_that_cannot_be_read() {
    let bad: [&[u8]; 14] = [
        b"00", b"016", b"01", b"100000", b"000016", b"16\r", b"\r", b"16\0", b"\0", b" 16", b"16 ",
        b"+16", b"-1", b"1.5",
    ];
    for line in bad {
        assert_eq!(answers(line), UNREADABLE, "{line:?}");
        assert_eq!(answers(&[line, b"\n"].concat()), UNREADABLE, "{line:?}");
    }
}

#[test]
fn only_ascii_digits_are_digits() {
    for byte in (0..=255u8).filter(|byte| *byte != b'\n') {
        assert_eq!(answers(&[b'1', byte]) == UNREADABLE, !byte.is_ascii_digit(), "{byte}");
    }
}

#[test]
fn a_limits_worth_of_newlines() {
    assert_eq!(answers(&[b'\n'; 65_536]), UNREADABLE.repeat(65_536));
    assert_eq!(answers(&[b'\n'; 65_537]), UNREADABLE.repeat(65_536));
}

#[test]
fn a_number_cut_at_the_limit_is_a_last_line() {
    let mut input = vec![b'\n'; 65_534];
    input.extend(b"1617\n17\n");
    assert_eq!(answers(&input), UNREADABLE.repeat(65_534) + "16\t1\t1\t40\t0\t0\t0\n");
}

#[test]
fn a_newline_at_the_limit_ends_the_last_line() {
    let mut input = vec![b'\n'; 65_533];
    input.extend(b"16\n17\n");
    assert_eq!(answers(&input), UNREADABLE.repeat(65_533) + "16\t1\t1\t40\t0\t0\t0\n");
}
