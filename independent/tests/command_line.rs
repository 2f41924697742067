//! The commands as a user runs them.

use std::io::{Read, Write};
use std::os::unix::{io::OwnedFd, net::UnixStream};
use std::process::{Command, Output, Stdio};
use std::thread::sleep;
use std::time::Duration;

fn command(arguments: &[&str], input: Stdio) -> Command {
    let mut command = Command::new(env!("CARGO_BIN_EXE_independent"));
    command.args(arguments).stdin(input).stdout(Stdio::piped()).stderr(Stdio::piped());
    command
}

fn run(arguments: &[&str], input: Stdio) -> Output {
    command(arguments, input).output().unwrap()
}

/// Standard output of a command that must succeed in silence.
fn printed(arguments: &[&str]) -> String {
    let output = run(arguments, Stdio::null());
    assert_eq!((output.status.code(), output.stderr), (Some(0), vec![]), "{arguments:?}");
    String::from_utf8(output.stdout).unwrap()
}

#[test]
fn sizes_of_no_input() {
    assert_eq!(printed(&["sizes"]), "size\tblocks\tlongs\tlong\tshorts\tshort\tfiller\n");
}

/// On a socket, as a short first read is what would tempt a buffering reader past the limit.
#[test]
fn sizes_leaves_what_lies_past_the_limit_unread() {
    let (mut reader, mut writer) = UnixStream::pair().unwrap();
    let child = command(&["sizes"], OwnedFd::from(reader.try_clone().unwrap()).into()).spawn().unwrap();
    writer.write_all(b"1\n").unwrap();
    sleep(Duration::from_millis(200));
    writer.write_all("1\n".repeat(33_000).as_bytes()).unwrap();
    let output = child.wait_with_output().unwrap();
    drop(writer);
    let mut unread = Vec::new();
    reader.read_to_end(&mut unread).unwrap();
    assert_eq!(unread.len(), 2 * 33_001 - 65_536);
    let lines = output.stdout.iter().filter(|byte| **byte == b'\n').count();
    assert_eq!(lines, 1 + 32_768);
}

#[test]
fn stages_of_the_one_bit_block() {
    // The block is 15 filler, the bit, and CRC24A 864CFB.
    let crc = "100001100100110011111011";
    let stage = |name| printed(&["stage", name, "1", "2", "1", "0", "24"]);
    assert_eq!(stage("blocks"), format!("block\tbits\n0\t{}1{crc}\n", "0".repeat(15)));
    assert!(stage("streams").contains(&format!("\n0\t0\t{}1{crc}", "-".repeat(15))));
    assert!(stage("circle").starts_with("block\tstart\tbits\n0\t4\t"));
    assert!(stage("codeword").starts_with("block\tfrom\tshare\tbits\n0\t0\t24\t"));
    assert!(stage("segmentation").ends_with("\n1\t1\t1\t40\t0\t0\t15\nblock\tsize\tfiller\tshare\n0\t40\t15\t24\n"));
}

#[test]
fn stage_lines_count_blocks_and_streams() {
    let lines = |name| printed(&["stage", name, "@12217:3", "2", "2", "1", "20"]).lines().count();
    assert_eq!(["blocks", "streams", "circle", "codeword"].map(lines), [4, 10, 4, 4]);
    let codeword = printed(&["stage", "codeword", "@12217:3", "2", "2", "1", "20"]);
    let stretches: Vec<&str> = codeword.lines().skip(1).map(|l| &l[..l.rfind('\t').unwrap()]).collect();
    assert_eq!(stretches, ["0\t0\t4", "1\t4\t8", "2\t12\t8"]);
}

#[test]
fn refusals_are_answers() {
    assert_eq!(printed(&["stage", "circle", "", "2", "1", "0", "24"]), "refused\t1\n");
    assert_eq!(printed(&["stage", "codeword", "@6121:1", "2", "1", "0", "2"]), "refused\t3\n");
    assert_eq!(printed(&["stage", "blocks", "1", "2", "1", "4", "24"]), "refused\t4\n");
}

#[test]
fn help_names_every_command() {
    let help = printed(&["help"]);
    let commands = ["sizes", "stage", "compare", "bridge-stub", "bench", "help"];
    assert!(commands.iter().all(|c| help.contains(&format!("independent {c}"))));
}

#[test]
fn help_on_bench_is_a_part_of_it() {
    let told = printed(&["bench", "--help"]);
    assert!(printed(&["help"]).contains(&told));
    assert!(told.starts_with("independent bench [CALL]") && told.ends_with("instead of the usual ones\n"), "{told}");
}

#[test]
fn bad_arguments() {
    let bad: [&[&str]; 20] = [
        &[],
        &["size"],
        &["sizes", "16"],
        &["help", "me"],
        &["stage", "codeword", "1", "2", "1", "0"],
        &["stage", "codeword", "1", "2", "1", "0", "24", "0"],
        &["stage", "word", "1", "2", "1", "0", "24"],
        &["stage", "codeword", "12", "2", "1", "0", "24"],
        &["stage", "codeword", "1", "two", "1", "0", "24"],
        &["stage", "codeword", "1", "2", "", "0", "24"],
        &["stage", "codeword", "1", "2", "1", "+0", "24"],
        &["stage", "codeword", "@16", "2", "1", "0", "24"],
        &["stage", "codeword", "@65537:1", "2", "1", "0", "24"],
        &["compare"],
        &["compare", "--seed", "1"],
        &["compare", "--seed", "one", "true"],
        &["compare", "--sead", "1", "true"],
        &["compare", "--case", "99999999", "true"],
        &["bridge-stub", "--fault"],
        &["bridge-stub", "--fault", "none"],
    ];
    for arguments in bad {
        let output = run(arguments, Stdio::null());
        assert_eq!((output.status.code(), output.stdout), (Some(2), vec![]), "{arguments:?}");
        assert!(output.stderr.starts_with(b"independent: "), "{arguments:?}");
    }
}
