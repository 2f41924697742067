//! Build for a downlink: the soft buffer's numbers, the cut circle, and that the fast program is
//! the literal one.

use independent::cases::{all, Asked};
use independent::codeword::{build_down_into, build_into, rows_of, segmentation_of, A_MAX};
use independent::fast::Workspace;
use independent::rate;
use independent::soft_buffer::{n_cb, Receiver, BAD_BUFFER};
use independent::xorshift;

fn receiver(release: usize, mimo: usize, processes: usize, soft: usize, layers: usize) -> Receiver {
    Receiver { release, mimo, processes, soft, layers }
}

/// One code block of 193 rows.
const ROWS: [usize; 1] = [193];

#[test]
fn k_c_divides_under_release_11_alone() {
    for (soft, layers, k_c) in [(35_982_720, 8, 5), (3_654_144, 0, 2), (3_654_144, 2, 2), (3_654_144, 3, 1), (3_667_200, 2, 1)] {
        let eleven = receiver(11, 1, 8, soft, layers);
        let eight = receiver(8, 1, 8, soft, layers);
        assert_eq!(eleven.n_ir(), soft / (8 * k_c));
        assert_eq!(eight.n_ir(), soft / 8);
    }
}

#[test]
fn no_more_than_eight_processes_share_the_buffer() {
    assert_eq!(receiver(8, 2, 8, 1_827_072, 2).n_ir(), 114_192);
    assert_eq!(receiver(8, 2, 15, 1_827_072, 2).n_ir(), 114_192);
    assert_eq!(receiver(8, 2, 3, 1_827_072, 2).n_ir(), 304_512);
}

#[test]
fn the_buffer_is_refused() {
    let good = receiver(8, 1, 1, 32 * 193, 1);
    assert_eq!(good.share(&ROWS), Ok(32 * 193));
    let bad = [
        Receiver { release: 10, ..good },
        Receiver { mimo: 0, ..good },
        Receiver { mimo: 3, ..good },
        Receiver { processes: 0, ..good },
        Receiver { soft: 32 * 193 - 1, ..good },
    ];
    for receiver in bad {
        assert_eq!(receiver.share(&ROWS), Err(BAD_BUFFER));
    }
}

#[test]
fn every_start_is_a_column_s_head_before_the_cut() {
    for r in [1, 2, 3, 5, 17, 33, 96, 193] {
        for n_cb in 32 * r..=96 * r {
            for version in 0..4 {
                let start = rate::start_in(n_cb, r, version);
                let column = if start < 32 * r { start % r } else { (start - 32 * r) % (2 * r) };
                assert!(start < n_cb && column == 0, "R {r}, N_cb {n_cb}, version {version}");
            }
        }
    }
}

#[test]
fn a_large_buffer_cuts_nothing() {
    for (a, g) in [(16, 132), (6_120, 9_000), (12_217, 20_004), (A_MAX, 60_000)] {
        let block = xorshift::block(a, 3);
        let (mut up, mut down) = (vec![7; g], vec![7; g]);
        for version in 0..4 {
            build_into(&block, 2, 1, version, g, &mut up).unwrap();
            build_down_into(&block, &receiver(11, 1, 8, 35_982_720, 8), 2, 1, version, g, &mut down).unwrap();
            assert!(up == down);
        }
    }
}

#[test]
fn at_the_least_cut_stream_0_alone_is_sent() {
    let block = xorshift::block(1_000, 1);
    let rows = rows_of(&segmentation_of(1_000).unwrap());
    let d = &independent::codeword::streams(&block)[0];
    let least = receiver(8, 1, 1, 32 * rows[0], 1);
    let mut out = vec![7; 4_000];
    build_down_into(&block, &least, 2, 1, 1, 4_000, &mut out).unwrap();
    let kept: Vec<u8> = rate::sub_block_01(&d[0]).into_iter().flatten().collect();
    assert_eq!(kept.len(), 1_028);
    assert!(out[1_028..2_056] == out[..1_028]);
    let mut sorted = [out[..1_028].to_vec(), kept];
    sorted.iter_mut().for_each(|bits| bits.sort_unstable());
    assert!(sorted[0] == sorted[1]);
    assert_eq!(n_cb(usize::MAX, 193), 18_528);
}

#[test]
fn the_fast_program_is_the_literal_one() {
    let mut workspace = Workspace::default();
    let mut compared = 0;
    for case in all(2, 0).iter().filter(|case| matches!(case.asked, Asked::BuildDown(..))).step_by(5) {
        let (build, receiver) = match &case.asked {
            Asked::BuildDown(build, receiver) => (build, receiver),
            _ => unreachable!(),
        };
        let block = build.block.bytes();
        let mut outs = [vec![case.fill; case.output_length], vec![case.fill; case.output_length]];
        let [literal, fast] = &mut outs;
        let expected = build_down_into(&block, receiver, build.q, build.n, build.version, build.g, literal);
        let given = workspace.build_down_into(&block, receiver, build.q, build.n, build.version, build.g, fast);
        assert_eq!(given, expected);
        assert!(outs[0] == outs[1], "{receiver:?}");
        compared += 1;
    }
    assert!(compared > 2_000);
}

#[test]
fn at_least_20_000_cases_of_a_downlink_are_compared() {
    let cases = all(1, 0);
    let down: Vec<_> = cases.iter().filter(|case| matches!(case.asked, Asked::BuildDown(..))).collect();
    assert!(down.len() >= 20_000, "{}", down.len());
}

/// As face/example.c prints it.
#[test]
fn the_example_of_a_downlink() {
    let mut out = [7; 24];
    let told = receiver(8, 1, 8, 512, 1);
    build_down_into(&[1], &told, 2, 1, 1, 24, &mut out).unwrap();
    let text: String = out.iter().map(|bit| char::from(b'0' + bit)).collect();
    assert_eq!(text, "110100110011110010100101");
    assert_eq!(build_down_into(&[1], &Receiver { soft: 511, ..told }, 2, 1, 1, 24, &mut out), Err(BAD_BUFFER));
}
