//! Build for speed gives what the literal Build gives, bit for bit and refusal for refusal.

use independent::codeword;
use independent::fast::{self, Workspace};
use independent::rate;
use independent::sizes::sizes;
use independent::table::TABLE;
use independent::xorshift::{self, Generator};

/// What both are lent: longer than G, filled with what no build writes.
const FILL: u8 = 9;

/// One call of both, the workspace being that of earlier calls. Gives their answer.
fn same(workspace: &mut Workspace, block: &[u8], numbers: [usize; 4], length: usize) -> Result<(), u8> {
    let [q, n, version, g] = numbers;
    let mut literal = vec![FILL; length];
    let mut quick = literal.clone();
    let mut alone = literal.clone();
    let answer = codeword::build_into(block, q, n, version, g, &mut literal);
    assert_eq!(workspace.build_into(block, q, n, version, g, &mut quick), answer, "{numbers:?}");
    assert_eq!(fast::build_into(block, q, n, version, g, &mut alone), answer, "{numbers:?}");
    assert!(quick == literal, "A = {}, {numbers:?}, workspace", block.len());
    assert!(alone == literal, "A = {}, {numbers:?}", block.len());
    if answer.is_err() {
        assert!(literal.iter().all(|byte| *byte == FILL));
    }
    answer
}

/// 3 * D - 2 * F over all code blocks: what one turn of every circle sends.
fn mother_code(a: usize) -> usize {
    let s = sizes(a).unwrap();
    (0..s.blocks).map(|r| 3 * (s.size(r) + 4) - 2 * s.filler_in(r)).sum()
}

/// The multiple of Q * N next below `g`, within what G may be for `a`.
fn allowed(g: usize, q: usize, n: usize, a: usize) -> usize {
    let least = sizes(a).unwrap().blocks;
    q * n * (g.min(codeword::G_MAX) / (q * n)).max(least)
}

#[test]
fn every_row_of_the_table_with_and_without_filler() {
    let mut workspace = Workspace::default();
    for pair in TABLE.windows(2) {
        for b in [pair[0].k.max(25), pair[0].k + 1] {
            let version = b % 4;
            let block = xorshift::block(b - 24, b as u64);
            let turn = mother_code(block.len());
            let g = allowed(turn + 48, 2, 1, block.len());
            assert_eq!(same(&mut workspace, &block, [2, 1, version, g], g + 3), Ok(()));
        }
    }
}

#[test]
fn every_number_of_code_blocks_allocation_and_version() {
    let mut workspace = Workspace::default();
    for (from, to) in [(1, 6_120), (6_121, 12_216), (12_217, 18_336), (18_337, 24_456), (24_457, 30_576)] {
        let mut random = Generator::new(from as u64);
        for case in 0..48 {
            let (q, n, version) = (2 + 2 * (case / 16), 1 + case / 4 % 4, case % 4);
            let a = from + random.below(to - from + 1);
            let block = xorshift::block(a, random.number());
            let blocks = sizes(a).unwrap().blocks;
            let turn = mother_code(a);
            let some = random.below(turn);
            for g in [0, some, turn - 1, turn, turn + 24] {
                let g = allowed(g, q, n, a);
                assert_eq!(same(&mut workspace, &block, [q, n, version, g], g + 5), Ok(()));
            }
            let remainder = random.below(blocks);
            let g = q * n * (blocks * (1 + random.below(300)) + remainder);
            assert_eq!(same(&mut workspace, &block, [q, n, version, g], g), Ok(()));
        }
    }
}

#[test]
fn several_turns_and_the_longest_codeword() {
    let mut workspace = Workspace::default();
    for (case, a) in [1, 2, 15, 16, 17, 40, 488, 489, 1_000, 6_120, 6_121, 12_217, 30_576].into_iter().enumerate() {
        for version in 0..4 {
            let (q, n) = ([2, 4, 6][(case + version) % 3], 1 + (case + version / 2) % 4);
            let block = xorshift::block(a, (a + version) as u64);
            let g = allowed(5 * mother_code(a) / 2, q, n, a);
            assert_eq!(same(&mut workspace, &block, [q, n, version, g], g + 1), Ok(()));
            assert_eq!(same(&mut workspace, &block, [q, n, version, 172_800], 172_800), Ok(()));
        }
    }
}

#[test]
fn blocks_of_one_value() {
    let mut workspace = Workspace::default();
    for a in [1, 17, 63, 64, 65, 6_120, 6_121, 18_336] {
        for value in [1, 0] {
            let g = allowed(mother_code(a), 6, 3, a);
            assert_eq!(same(&mut workspace, &vec![value; a], [6, 3, a % 4, g], g), Ok(()));
        }
    }
}

#[test]
fn every_length_of_small_blocks() {
    let mut workspace = Workspace::default();
    for a in 1..=700 {
        let g = allowed(mother_code(a) + 16, 4, 2, a);
        assert_eq!(same(&mut workspace, &xorshift::block(a, a as u64), [4, 2, a % 4, g], g), Ok(()));
    }
}

#[test]
fn refusals_leave_the_output() {
    let mut workspace = Workspace::default();
    let most = usize::MAX;
    for a in [1, 16, 6_120, 6_121, 30_576] {
        let mut block = vec![1; a];
        let mut answer = |numbers, length| same(&mut workspace, &block, numbers, length);
        for q in [0, 1, 3, 5, 7, 8, 1 << 63, most] {
            assert_eq!(answer([q, 2, 0, 840], 840), Err(3));
        }
        for n in [0, 5, 1 << 63, most] {
            assert_eq!(answer([2, n, 0, 840], 840), Err(3));
        }
        for g in [0, 1, 41, 172_801, 172_802, most - 1, most] {
            assert_eq!(answer([2, 1, 0, g], 840), Err(3));
        }
        for version in [4, 255, 256, most] {
            assert_eq!(answer([2, 1, version, 840], 0), Err(4));
        }
        for length in [0, 839] {
            assert_eq!(answer([2, 1, 3, 840], length), Err(5));
        }
        assert_eq!(answer([2, 1, 3, 840], 840), Ok(()));
        let blocks = sizes(a).unwrap().blocks;
        assert_eq!(answer([6, 4, 0, 24 * (blocks - 1)], 840), Err(3));
        assert_eq!(answer([6, 4, 0, 24 * blocks], 840), Ok(()));
        for (place, byte) in [(0, 2), (0, 255), (a - 1, 2), (a - 1, 254), (a / 2, 128)] {
            block.fill(1);
            block[place] = byte;
            assert_eq!(same(&mut workspace, &block, [2, 1, 0, 840], 840), Err(2));
            assert_eq!(same(&mut workspace, &block, [2, 1, 0, 840], 839), Err(5));
        }
    }
    assert_eq!(same(&mut workspace, &[], [2, 1, 0, 840], 840), Err(1));
    assert_eq!(same(&mut workspace, &[3; 30_577], [3, 0, 9, 0], 0), Err(1));
}

#[test]
fn the_starts_are_heads_of_columns() {
    for row in TABLE {
        let r = rate::rows(row.k + 4);
        let starts = [0, 1, 2, 3].map(|version| rate::start(96 * r, version));
        assert_eq!(starts, [2 * r, 26 * r, 32 * r + 2 * 9 * r, 32 * r + 2 * 21 * r]);
    }
}
