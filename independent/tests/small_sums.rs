//! The "Small sums to check against" of 01, starred and not.

use independent::codeword::{build, code_blocks};
use independent::crc;
use independent::rate;
use independent::segmentation::Segmentation;
use independent::sizes::sizes;
use independent::turbo::{interleaver, Constituent};
use independent::xorshift;

/// A stream's number and a place in it.
type Label = (usize, usize);

/// The size K of each code block of A bits, and F.
fn blocks_and_filler(a: usize) -> (Vec<usize>, usize) {
    let s = sizes(a).unwrap();
    ((0..s.blocks).map(|r| s.size(r)).collect(), s.filler)
}

/// Streams without filler, each place holding its own label in a bit's stead.
fn labels(k: usize) -> [Vec<Option<Label>>; 3] {
    [0, 1, 2].map(|stream| (0..k + 4).map(|place| Some((stream, place))).collect())
}

/// Where the bits of one transmission of a block of K bits without filler come from.
fn sent(k: usize, version: usize, g: usize) -> Vec<Label> {
    rate::match_block(&labels(k), version, g)
}

/// The data places such a transmission lacks.
fn lacking(k: usize, version: usize, g: usize) -> Vec<usize> {
    let sent = sent(k, version, g);
    (0..k).filter(|place| !sent.contains(&(0, *place))).collect()
}

/// The least G whose transmission sends every data place.
fn least_complete(k: usize, version: usize) -> usize {
    let all = sent(k, version, 3 * (k + 4));
    1 + all.iter().rposition(|(stream, place)| *stream == 0 && *place < k).unwrap()
}

#[test]
fn segmentation_of_small_and_one_block_sizes() {
    assert_eq!(blocks_and_filler(16), (vec![40], 0));
    assert_eq!(blocks_and_filler(17), (vec![48], 7));
    assert_eq!(blocks_and_filler(6_120), (vec![6_144], 0));
}

#[test]
fn segmentation_of_several_blocks_puts_short_ones_first() {
    assert_eq!(blocks_and_filler(6_121), (vec![3_072, 3_136], 15));
    assert_eq!(blocks_and_filler(12_216), (vec![6_144; 2], 0));
    assert_eq!(blocks_and_filler(12_217), (vec![4_096, 4_096, 4_160], 39));
    assert_eq!(blocks_and_filler(30_576), (vec![6_144; 5], 0));
}

#[test]
fn short_size_is_reported_for_several_blocks_even_if_unused() {
    let s = sizes(12_216).unwrap();
    assert_eq!((s.shorts, s.short, s.longs), (0, 6_080, 2));
    let s = sizes(6_120).unwrap();
    assert_eq!((s.shorts, s.short, s.longs), (0, 0, 1));
}

#[test]
fn number_of_blocks_changes_after_the_listed_sizes() {
    let changes: Vec<usize> = (1..30_576)
        .filter(|a| sizes(*a).unwrap().blocks != sizes(a + 1).unwrap().blocks)
        .collect();
    assert_eq!(changes, [6_120, 12_216, 18_336, 24_456]);
}

#[test]
fn every_size_is_filled_exactly_with_at_most_63_filler() {
    let mut most = 0;
    for a in 1..=30_576 {
        let s: Segmentation = sizes(a).unwrap();
        let total: usize = (0..s.blocks).map(|r| s.size(r)).sum();
        assert_eq!(total, a + 24 + s.parity * s.blocks + s.filler);
        assert_eq!(s.shorts + s.longs, s.blocks);
        most = most.max(s.filler);
    }
    assert_eq!(most, 63);
}

#[test]
fn second_encoder_places_of_40() {
    let pi = interleaver(40);
    assert_eq!([0, 1, 2, 3, 39].map(|i| pi[i]), [0, 13, 6, 19, 7]);
}

#[test]
fn crc24a_of_the_one_bit_block() {
    let bits: Vec<u8> = (0..24).rev().map(|power| (0x864CFB >> power & 1) as u8).collect();
    assert_eq!(crc::parity(&[1], &crc::CRC24A), bits);
}

#[test]
fn first_encoder_answer_to_a_single_one() {
    let mut encoder = Constituent::default();
    let z = [1, 0, 0, 0, 0, 0, 0, 0].map(|c| encoder.encode(c));
    assert_eq!(z, [1, 1, 1, 1, 0, 0, 1, 0]);
}

#[test]
fn first_places_of_versions_0_1_and_2() {
    assert_eq!(sent(40, 0, 2), [(0, 20), (0, 4)]);
    assert_eq!(sent(40, 1, 2), [(0, 23), (0, 7)]);
    assert_eq!(sent(40, 2, 2), [(1, 30), (2, 31)]);
}

#[test]
fn version_0_needs_132_bits() {
    assert_eq!(lacking(40, 0, 132), []);
    assert_eq!(lacking(40, 0, 130), [12, 28]);
}

#[test]
fn version_2_of_64_and_66_bits() {
    assert_eq!(lacking(40, 2, 64).len(), 40);
    assert_eq!(lacking(40, 2, 66).len(), 38);
}

#[test]
fn least_complete_transmissions() {
    let needed = |k| [0, 1, 2, 3].map(|version| least_complete(k, version));
    assert_eq!(needed(40), [132, 132, 107, 75]);
    assert_eq!(needed(6_144), [18_444, 18_444, 14_985, 10_375]);
}

#[test]
fn shares_of_two_blocks() {
    assert_eq!(rate::shares(14, 2, 2), [6, 8]);
    assert_eq!(rate::shares(12, 2, 2), [6, 6]);
    assert_eq!(rate::shares(5 * 24 + 48, 24, 5), [24, 24, 24, 48, 48]);
    let block = xorshift::block(6_121, 1);
    assert_eq!(build(&block, 2, 1, 0, 14).unwrap().len(), 14);
    assert_eq!(build(&block, 2, 1, 0, 2), Err(3));
}

#[test]
fn all_zero_blocks_build_to_zeros() {
    for (a, q, n, version, g) in [(1, 2, 1, 0, 600), (17, 6, 4, 3, 480), (6_121, 4, 2, 2, 40_000)] {
        assert_eq!(build(&vec![0; a], q, n, version, g).unwrap(), vec![0; g]);
    }
}

#[test]
fn code_blocks_begin_with_their_filler_as_zeros() {
    let blocks = code_blocks(&vec![1; 12_217]);
    assert_eq!(blocks[0][..40], [vec![0; 39], vec![1]].concat());
    assert_eq!((blocks[1][0], blocks[2][0]), (1, 1));
}
