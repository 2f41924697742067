//! Control reports with the data: the code's strength, the way back, and the fast form.

use independent::fast::Workspace;
use independent::report::{self, control_bits, encode, message, nearest, O_MAX, TIED};
use independent::xorshift::{block, Generator};
use independent::{codeword, fast_report};

/// The least weight of a word, and the fewest control bits that give every report back.
const STRENGTH: [(usize, usize); 11] =
    [(32, 1), (16, 3), (16, 3), (16, 5), (16, 6), (16, 11), (12, 11), (12, 11), (12, 11), (12, 11), (10, 17)];

#[test]
fn the_code_is_as_strong_as_told() {
    for (o, (least, fewest)) in (1..).zip(STRENGTH) {
        let words: Vec<Vec<u8>> = (1..1 << o).map(|m| encode(&message(m, o))).collect();
        let weight = |word: &Vec<u8>| word.iter().filter(|bit| **bit == 1).count();
        assert_eq!(words.iter().map(weight).min(), Some(least), "{o}");
        let first = |word: &Vec<u8>| word.iter().position(|bit| *bit == 1).unwrap() + 1;
        assert_eq!(words.iter().map(first).max(), Some(fewest), "{o}");
    }
}

#[test]
fn reports_come_back_from_the_fewest_bits_on() {
    for (o, (_, fewest)) in (1..).zip(STRENGTH) {
        for m in [0, 1, (1 << o) - 1, (1 << o) / 3] {
            let report = message(m, o);
            assert_eq!(nearest(o, &control_bits(&report, fewest)), Ok(report.clone()));
        }
        assert_eq!(nearest(o, &vec![0; fewest - 1]), Err(TIED));
    }
}

#[test]
fn fewer_flips_than_half_the_distance_are_survived() {
    let mut random = Generator::new(3);
    for (o, (least, _)) in (1..).zip(STRENGTH) {
        for length in [32, 40, 64, 100] {
            let report = message(random.below(1 << o), o);
            let mut received = control_bits(&report, length);
            let mut places: Vec<usize> = (0..length).collect();
            for _ in 0..(length / 32 * least - 1) / 2 {
                let place = places.swap_remove(random.below(places.len()));
                received[place] ^= 1;
            }
            assert_eq!(nearest(o, &received), Ok(report), "{o} {length}");
        }
    }
}

#[test]
fn control_then_data() {
    let (data, report) = (block(16, 2), message(5, 4));
    let mut run = vec![7; 34 + 48 + 1];
    report::build_into(&report, 34, &data, 2, 1, 0, 48, &mut run).unwrap();
    assert_eq!(run[..34], control_bits(&report, 34));
    assert_eq!(run[34..82], codeword::build(&data, 2, 1, 0, 48).unwrap());
    assert_eq!(run[82], 7);
    let (back, rest) = report::part(16, 2, 1, 4, 34, &run[..82], 4).unwrap();
    assert_eq!((back, rest), (report, &run[34..82]));
}

#[test]
fn the_fast_form_is_the_literal_one() {
    let mut random = Generator::new(1);
    let mut workspace = Workspace::default();
    for case in 0..3_000 {
        let (q, n) = (random.choose(&[2, 4, 6, 3]), random.below(6));
        let (o, control) = (random.below(O_MAX + 2), q * random.below(30) + usize::from(case % 11 == 0));
        let (a, g) = (random.below(80), n * q * random.below(20));
        let (mut bits, data) = (message(random.below(1 << o), o), block(a, case));
        if case % 13 == 0 && o > 0 {
            bits[o - 1] = 2;
        }
        let room = (n * control + g).saturating_sub(usize::from(case % 17 == 0));
        let version = random.below(5);
        let (mut one, mut other) = (vec![9; room], vec![9; room]);
        let literal = report::build_into(&bits, control, &data, q, n, version, g, &mut one);
        let fast = fast_report::build_into(&mut workspace, &bits, control, &data, q, n, version, g, &mut other);
        assert_eq!((literal, &one), (fast, &other), "{case}");
        for place in 0..random.below(4) {
            if let Some(bit) = one.get_mut(3 * place) {
                *bit ^= 1;
            }
        }
        let (mut out, mut same) = (vec![9; o], vec![9; o]);
        let literal = report::part_into(a, q, n, o, control, &one, &mut out);
        let fast = fast_report::part_into(a, q, n, o, control, &one, &mut same);
        assert_eq!((literal, out), (fast, same), "{case}");
    }
}
