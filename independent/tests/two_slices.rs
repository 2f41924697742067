//! A block in two slices (02, E9): where the comparison cuts, how it is asked, and the call
//! itself.

use independent::cases::{all, Asked, Build, Case};
use independent::codeword::{build_into, build_two_into, A_MAX};
use independent::protocol::{Call, Request};
use independent::sizes::sizes;
use independent::xorshift;
use std::collections::HashSet;

fn cut_builds(cases: &[Case]) -> impl Iterator<Item = (&Case, &Build, usize)> {
    cases.iter().filter_map(|case| match &case.asked {
        Asked::BuildTwo(build, cut) => Some((case, build, *cut)),
        _ => None,
    })
}

/// Where each code block but the first begins to take of the block.
fn boundaries(a: usize) -> Vec<usize> {
    let s = sizes(a).unwrap();
    let check = if s.blocks > 1 { 24 } else { 0 };
    let taken = |r: usize| (0..r).map(|i| s.size(i) - check).sum::<usize>();
    (1..s.blocks).map(|r| taken(r) - s.filler).collect()
}

#[test]
fn the_cuts_fall_where_they_can_hurt() {
    let cases = all(1, 0);
    let mut accepted = 0;
    let mut seen = HashSet::new();
    for (case, build, cut) in cut_builds(&cases) {
        let a = build.block.length;
        assert!(cut <= a && (!case.null_block || cut == 0) && (!case.null_payload || cut == a));
        if !(1..=A_MAX).contains(&a) || build.block.damage.is_some() {
            continue;
        }
        accepted += 1;
        let blocks = sizes(a).unwrap().blocks;
        let mut note = |what: &'static str, which: usize, beside: i64| seen.insert((blocks, what, which, beside));
        for beside in [-1, 0, 1] {
            let at = |place: usize| place as i64 + beside == cut as i64;
            (1..).zip(boundaries(a)).filter(|(_, place)| at(*place)).for_each(|(r, _)| {
                note("boundary", r, beside);
            });
            for step in [24, 48] {
                for (end, length) in [(0, cut), (1, a - cut)] {
                    if (length as i64 - beside).rem_euclid(step as i64) == 0 {
                        note(["front", "back"][end], step, beside);
                    }
                }
            }
        }
        for (name, place) in [("start", 0), ("end", a), ("first bit", 1), ("last bit", a - 1)] {
            if cut == place {
                note(name, 0, 0);
            }
        }
    }
    assert!(accepted >= 10_000, "{accepted}");
    for blocks in 1..=5 {
        let has = |what, which, beside| seen.contains(&(blocks, what, which, beside));
        assert!(["start", "end", "first bit", "last bit"].into_iter().all(|name| has(name, 0, 0)), "{blocks}");
        for beside in [-1, 0, 1] {
            assert!((1..blocks).all(|r| has("boundary", r, beside)), "{blocks}");
            assert!([24, 48].into_iter().all(|step| has("front", step, beside) && has("back", step, beside)), "{blocks}");
        }
    }
}

#[test]
fn every_refusal_is_sent() {
    let cases = all(1, 0);
    let mut seen = HashSet::new();
    for (case, build, cut) in cut_builds(&cases) {
        let Build { block, q, n, version, g } = build;
        let bytes = block.bytes();
        let (header, payload) = bytes.split_at(cut);
        let mut output = vec![9; case.output_length];
        let number = build_two_into(header, payload, *q, *n, *version, *g, &mut output).map_or_else(|n| n, |()| 0);
        let side = block.damage.map_or(0, |(place, _)| 1 + usize::from(place >= cut));
        seen.insert((number, side));
    }
    assert!([1, 3, 4, 5].into_iter().all(|number| seen.contains(&(number, 0))));
    assert!(seen.contains(&(2, 1)) && seen.contains(&(2, 2)) && seen.contains(&(0, 0)));
}

#[test]
fn a_request_of_two_slices_in_bytes() {
    let call = Call::BuildTwo { block: vec![1, 0, 1], cut: 2, q: 2, n: 1, version: 3, g: 258 };
    let [null_block, null_output, null_payload] = [false; 3];
    let request = Request { call, output_length: 300, fill: 7, null_block, null_output, null_payload };
    let mut bytes = Vec::new();
    request.write(&mut bytes).unwrap();
    let numbers = [3u64, 2, 1, 3, 258, 300].iter().flat_map(|number| number.to_le_bytes());
    let written: Vec<u8> = [3, 0, 7, 0, 2, 0, 0, 0].into_iter().chain(numbers).chain([1, 0, 1]).collect();
    assert_eq!(bytes, written);
    assert_eq!(Request::read(&mut &bytes[..]).unwrap(), Some(request));
    bytes[4] = 4;
    assert!(Request::read(&mut &bytes[..]).is_err());
}

#[test]
fn the_codeword_of_two_slices_is_that_of_the_joined_block() {
    for a in [1, 17, 6_121] {
        let block = xorshift::block(a, 3);
        let mut whole = vec![9; 600];
        build_into(&block, 2, 1, 2, 598, &mut whole).unwrap();
        for cut in [0, 1, a / 2, a] {
            let mut parts = vec![9; 600];
            build_two_into(&block[..cut], &block[cut..], 2, 1, 2, 598, &mut parts).unwrap();
            assert_eq!(parts, whole);
        }
    }
    let long = vec![0; A_MAX];
    assert_eq!(build_two_into(&long, &[1], 2, 1, 0, 240, &mut [0; 240]), Err(1));
    assert_eq!(build_two_into(&[], &[], 2, 1, 0, 240, &mut [0; 240]), Err(1));
    assert_eq!(build_two_into(&[2], &[1], 2, 1, 0, 240, &mut [0; 240]), Err(2));
    assert_eq!(build_two_into(&[1], &[2], 2, 1, 0, 240, &mut [0; 240]), Err(2));
}
