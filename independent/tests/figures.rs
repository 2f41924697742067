//! The numbers of the pictures: known ones, and each curve against a count of its own.

use independent::codeword::build;
use independent::figures::{heard_at, text, Circle, CUTS, ORDER, SIZES};
use independent::replay::{run, Replay};
use independent::xorshift;

#[test]
fn bits_needed_by_one_version() {
    let needed = |k| [0, 1, 2, 3].map(|version| Circle::new(k).needed(version));
    assert_eq!(needed(40), [132, 132, 107, 75]);
    assert_eq!(needed(6_144), [18_444, 18_444, 14_985, 10_375]);
}

/// Data places that lack after receptions of version and G, as Receive counts them.
fn lacking(a: usize, receptions: &[(usize, usize)]) -> usize {
    let block = xorshift::block(a, 1);
    let mut replay = Replay::default();
    replay.answer(b"new 1 1");
    replay.answer(format!("open 0 7 {a}").as_bytes());
    let mut answer = String::new();
    for (version, g) in receptions {
        let bits = run(&build(&block, 2, 1, *version, *g).unwrap());
        answer = replay.answer(format!("receive 0 7 2 1 {version} {bits}").as_bytes()).unwrap();
    }
    answer.strip_prefix("ok\t").unwrap().parse().unwrap()
}

#[test]
fn a_version_alone_hears_what_receive_counts() {
    for (a, k, step) in [(16, 40, 2), (6_120, 6_144, 922)] {
        for version in 0..4 {
            let curve = Circle::new(k).alone(version);
            for g in (step..=3 * (k + 4)).step_by(step) {
                assert_eq!(heard_at(&curve, g), k - lacking(a, &[(version, g)]), "{k} {version} {g}");
            }
        }
    }
}

#[test]
fn four_quarters_hear_what_receive_counts() {
    assert_eq!(ORDER, [0, 2, 3, 1]);
    for (a, k, quarter) in [(16, 40, 48), (6_120, 6_144, 4_632)] {
        let circle = Circle::new(k);
        let curve = circle.together();
        assert_eq!((circle.quarter(), curve.last()), (quarter, Some(&(4 * quarter, k))));
        for sent in 1..=4 {
            let receptions: Vec<(usize, usize)> =
                ORDER[..sent].iter().map(|version| (*version, quarter)).collect();
            assert_eq!(heard_at(&curve, sent * quarter), k - lacking(a, &receptions), "{k} {sent}");
        }
    }
}

fn rows(table: &str) -> Vec<Vec<String>> {
    let text = text();
    let of_table = text.lines().filter(|line| line.split('\t').next() == Some(table));
    of_table.skip(1).map(|line| line.split('\t').skip(1).map(String::from).collect()).collect()
}

/// What each place of a circle holds.
fn held(k: usize) -> Vec<String> {
    let parts = rows("part").into_iter().filter(|row| row[0] == k.to_string());
    let places = |row: &Vec<String>| row[2].parse::<usize>().unwrap() - row[1].parse::<usize>().unwrap();
    parts.flat_map(|row| vec![row[3].clone(); places(&row)]).collect()
}

#[test]
fn circles_and_starts() {
    assert_eq!(rows("circle"), [["40", "2", "192", "132", "48"], ["6144", "193", "18528", "18444", "4632"]]);
    for row in rows("sent") {
        let [k, version, start, bits, places, heard] =
            [0, 1, 2, 3, 4, 5].map(|at| row[at].parse::<usize>().unwrap());
        let r: usize = if k == 40 { 2 } else { 193 };
        assert_eq!(start, r * (24 * version + 2));
        assert!(bits == k || bits == 2 * k);
        assert!(heard <= k);
        // So many places from the start hold so many bits, the last of them one.
        let holds = held(k);
        let bits_in =
            |places| (start..start + places).filter(|at| holds[at % holds.len()] != "dummy").count();
        assert_eq!([bits_in(places), bits_in(places - 1)], [bits, bits - 1]);
    }
    assert_eq!(rows("sent").len(), 16);
}

#[test]
fn cut_circles() {
    assert_eq!(CUTS, [96, 64, 50, 32]);
    let number = |row: &Vec<String>, at: usize| row[at].parse::<usize>().unwrap();
    let (whole, cut): (Vec<_>, Vec<_>) = rows("cut").into_iter().partition(|row| row[1] == "96");
    let without = |row: &Vec<String>| [0, 3, 4, 5, 6, 7].map(|at| row[at].clone()).to_vec();
    assert_eq!(whole.iter().map(without).collect::<Vec<_>>(), rows("sent"));
    assert_eq!(cut.len(), 2 * 3 * 4 * 2);
    let circles = SIZES.map(held);
    for row in &cut {
        let [k, columns, places, version] = [0, 1, 2, 3].map(|at| number(row, at));
        let [start, bits, passed, heard] = [4, 5, 6, 7].map(|at| number(row, at));
        let r: usize = if k == 40 { 2 } else { 193 };
        let step = match columns {
            64 => 16,
            50 => 14,
            _ => 8,
        };
        assert_eq!((places, start), (columns * r, r * (step * version + 2)));
        let holds = &circles[usize::from(k > 40)];
        let counted = |kind: &str| (0..passed).filter(|at| holds[(start + at) % places] == kind).count();
        assert_eq!(heard, counted("data"), "{row:?}");
        let sent = passed - counted("dummy");
        assert!(sent == bits || passed == places && sent < bits, "{row:?}");
        // Stream 0 is all there: two turns of 32 * R bring it, whichever version comes.
        assert!(columns > 32 || bits == k || heard == k);
    }
}

#[test]
fn parts_make_up_the_circle() {
    for (k, places, dummies) in [(40, 192, 60), (6_144, 18_528, 84)] {
        assert!(SIZES.contains(&k));
        let parts: Vec<Vec<String>> =
            rows("part").into_iter().filter(|row| row[0] == k.to_string()).collect();
        let number = |row: &Vec<String>, at: usize| row[at].parse::<usize>().unwrap();
        assert_eq!((number(&parts[0], 1), number(parts.last().unwrap(), 2)), (0, places));
        assert!(parts.windows(2).all(|pair| pair[0][2] == pair[1][1] && pair[0][3] != pair[1][3]));
        let total = |kind: &str| {
            let of_kind = parts.iter().filter(|row| row[3] == kind);
            of_kind.map(|row| number(row, 2) - number(row, 1)).sum::<usize>()
        };
        assert_eq!(["data", "parity", "tail", "dummy"].map(total), [k, 2 * k, 12, dummies]);
        let beyond = |row: &&Vec<String>| row[3] == "data" && number(row, 2) > places / 3;
        assert_eq!(parts.iter().filter(beyond).count(), 0);
    }
}
