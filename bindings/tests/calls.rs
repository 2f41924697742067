//! The calls that keep nothing between them, on the cases of the independent program's comparison: the number given,
//! every byte of the output, and that what is given back is its front.

use independent::cases::{self, Asked, Build, Case, Change, Control, ReportBuild, ReportPart, Way};
use independent::compare::expected;
use independent::protocol::GUARD;
use independent::soft_buffer;
use std::collections::BTreeMap;
use zemrukste::{Receiver, Refusal};

const RANDOM_BUILDS: usize = 1_500;

/// Of the cases that are always made only each so manieth, a number that no loop of theirs goes by.
const EVERY: usize = 7;

#[test]
fn calls_answer_as_the_independent_program_does() {
    let mut seen = BTreeMap::new();
    for case in cases::all(3, RANDOM_BUILDS).iter().step_by(EVERY) {
        let mut out = vec![case.fill; case.output_length];
        let given = call(case, &mut out).map_or_else(Refusal::number, |length| {
            assert!(length.map_or(true, |front| front <= case.output_length), "{case:?}");
            0
        });
        let sound = expected(case);
        let same = out == sound.output[GUARD..GUARD + case.output_length];
        assert!(given == sound.number && same, "{case:?}: {given} and {}, output alike: {same}", sound.number);
        *seen.entry(given).or_insert(0) += 1;
    }
    println!("{} calls: {seen:?}", seen.values().sum::<usize>());
    for number in (0..=5).chain([13, 17, 18, 19, 20, 21]) {
        assert!(seen.contains_key(&number), "{number} never occurred");
    }
}

/// The call of a case; where it gives back what it wrote, how much that is, once it is seen to be the output's front.
fn call(case: &Case, out: &mut [u8]) -> Result<Option<usize>, Refusal> {
    let start = out.as_ptr();
    let front = match &case.asked {
        Asked::Build(Build { block, q, n, version, g }) => zemrukste::build(&block.bytes(), *q, *n, *version, *g, out)?,
        Asked::BuildTwo(Build { block, q, n, version, g }, cut) => {
            let bytes = block.bytes();
            let (header, payload) = bytes.split_at(*cut);
            zemrukste::build_two(header, payload, *q, *n, *version, *g, out)?
        }
        Asked::BuildDown(Build { block, q, n, version, g }, receiver) => {
            zemrukste::build_down(&block.bytes(), &wrapped(receiver), *q, *n, *version, *g, out)?
        }
        Asked::Sizes(a) => return told_sizes(*a, out),
        Asked::Change(change @ Change { way: Way::Pack, m, .. }) => zemrukste::pack(*m, &change.bytes(), out)?,
        Asked::Change(change @ Change { way: Way::Unpack, m, .. }) => zemrukste::unpack(*m, &change.bytes(), out)?,
        Asked::ReportBuild(ReportBuild { report, control, data }) => {
            let Build { block, q, n, version, g } = data;
            zemrukste::report_build(&report.bytes(), *control, &block.bytes(), *q, *n, *version, *g, out)?
        }
        Asked::ReportPart(ReportPart { a, q, n, o, control, run }) => {
            zemrukste::report_part(*a, *q, *n, *o, *control, &run.bytes(), out)?
        }
        Asked::Control(Control { payload, terminal, e }) => {
            zemrukste::control_build(&payload.bytes(), *terminal, *e, out)?
        }
        Asked::Whose(run) => {
            out.copy_from_slice(&zemrukste::control_whose(&run.bytes())?.to_le_bytes());
            return Ok(None);
        }
    };
    assert_eq!(front.as_ptr(), start, "{case:?}");
    Ok(Some(front.len()))
}

/// Sizes as C sees it; here no output can be too short for it.
fn told_sizes(a: usize, out: &mut [u8]) -> Result<Option<usize>, Refusal> {
    let s = zemrukste::sizes(a)?;
    let numbers = [s.blocks, s.longs, s.long, s.shorts, s.short, s.filler];
    let bytes: Vec<u8> = numbers.iter().flat_map(|number| (*number as u32).to_le_bytes()).collect();
    out.get_mut(..bytes.len()).ok_or(Refusal::TooShort)?.copy_from_slice(&bytes);
    Ok(None)
}

fn wrapped(receiver: &soft_buffer::Receiver) -> Receiver {
    let soft_buffer::Receiver { release, mimo, processes, soft, layers } = *receiver;
    Receiver { release, mimo, processes, soft, layers }
}

/// Two inputs on the same bytes are no matter.
#[test]
fn both_slices_may_be_the_same() {
    let bits = [1, 0, 1, 1];
    let (mut twice, mut joined) = ([0; 24], [0; 24]);
    let given = zemrukste::build_two(&bits, &bits, 2, 1, 0, 24, &mut twice);
    assert_eq!(given, zemrukste::build(&[bits, bits].concat(), 2, 1, 0, 24, &mut joined));
    assert!(given.is_ok());
}
