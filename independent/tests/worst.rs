//! How many repeats at worst: the least G beside a formula, what is then heard, and how near the
//! bounds are to what is needed.

use independent::codeword::{segmentation_of, A_MAX};
use independent::older::Upwards;
use independent::rate;
use independent::replay::{run, Replay};
use independent::worst::{heard, tight, worst, worst_order, Worst, THREE};
use independent::{codeword, xorshift};

const QS: [usize; 3] = [2, 4, 6];
const NS: [usize; 4] = [1, 2, 3, 4];

/// Sizes of one to five code blocks, some with filler.
fn sizes() -> impl Iterator<Item = usize> {
    (1..=A_MAX).step_by(1_117).chain([16, 17, 6_120, 6_121, 12_216, 12_217, A_MAX])
}

#[test]
fn known_ones() {
    assert_eq!(worst(16, 2, 1), Ok(Worst { three: 48, one: 132 }));
    assert_eq!(worst(17, 2, 1), Ok(Worst { three: 48, one: 142 }));
    // 2,328 and 2,376 bits are needed: 593 and 594 times 4 bits, not 594 twice
    assert_eq!(worst(6_121, 4, 1), Ok(Worst { three: 4_748, one: 18_836 }));
    assert_eq!(worst(A_MAX, 6, 4), Ok(Worst { three: 23_160, one: 92_280 }));
}

#[test]
fn refusals_in_order() {
    for a in [0, A_MAX + 1, 999_999] {
        assert_eq!((worst(a, 2, 1), worst(a, 3, 0)), (Err(1), Err(1)));
    }
    for (q, n) in [(0, 1), (1, 1), (3, 1), (8, 1), (2, 0), (2, 5), (3, 5)] {
        assert_eq!(worst(16, q, n), Err(3), "{q} {n}");
    }
}

/// Code block r has floor((G' + r) / C) units, so it asks for C * ceil(need / unit) - r of them.
#[test]
fn the_least_by_a_formula() {
    for a in sizes() {
        let s = segmentation_of(a).unwrap();
        let asked = |unit: usize, need: &dyn Fn(usize) -> usize| {
            (0..s.blocks).map(|r| s.blocks * need(r).div_up(unit) - r).max().unwrap() * unit
        };
        for (q, n) in QS.into_iter().flat_map(|q| NS.map(|n| (q, n))) {
            let three = asked(q * n, &|r| 24 * rate::rows(s.size(r) + 4));
            let one = asked(q * n, &|r| 3 * (s.size(r) + 4) - 2 * s.filler_in(r));
            assert_eq!(worst(a, q, n), Ok(Worst { three, one }), "{a} {q} {n}");
        }
    }
}

/// Every data place is sent, by the three and by each version alone.
#[test]
fn enough_is_enough() {
    for a in sizes() {
        let s = segmentation_of(a).unwrap();
        for (q, n) in [(2, 1), (4, 3), (6, 4)] {
            let Worst { three, one } = worst(a, q, n).unwrap();
            let (count, all) = heard(&s, q * n, &THREE.map(|version| (version, three)));
            assert_eq!(count, all, "{a} {q} {n}");
            for version in 0..4 {
                assert_eq!(heard(&s, q * n, &[(version, one)]), (all, all), "{a} {q} {n} {version}");
            }
            assert_eq!(worst_order(&s, q * n, three).1[2], all);
        }
    }
}

/// What lacks after the three in a replayed log.
fn lacking_after_three(a: usize, q: usize, n: usize, g: usize) -> String {
    let block = xorshift::block(a, 1);
    let mut replay = Replay::default();
    replay.answer(b"new 1 1");
    replay.answer(format!("open 0 7 {a}").as_bytes());
    for version in [3, 1, 0] {
        let bits = run(&codeword::build(&block, q, n, version, g).unwrap());
        replay.answer(format!("receive 0 7 {q} {n} {version} {bits}").as_bytes());
    }
    replay.answer(b"read 0 7").unwrap()
}

/// With units of 4 bits one less does not do for K = 56; with units of 2 bits it still does, and
/// two less do not.
#[test]
fn one_unit_less() {
    assert_eq!(worst(32, 4, 1).unwrap().three, 48);
    assert!(lacking_after_three(32, 4, 1, 48).starts_with("ok\t"));
    assert_eq!(lacking_after_three(32, 4, 1, 44), "refused\t11\t2");
    assert!(lacking_after_three(32, 2, 1, 46).starts_with("ok\t"));
    assert_eq!(lacking_after_three(32, 2, 1, 44), "refused\t11\t2");
}

#[test]
fn how_often_one_unit_less_does_not_do() {
    let three = [0, 15, 15, 46, 46, 54, 41, 188];
    assert_eq!(tight(), three.map(|count| (count, 188)));
}
