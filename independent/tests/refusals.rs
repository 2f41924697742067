//! The refusals of Build at their boundaries, and their order 1, 3, 4, 5, 2.

use independent::codeword::{build, build_into};
use independent::sizes::sizes;

/// What Build answers for a block of zeros, the codeword itself left out.
fn refusal(a: usize, q: usize, n: usize, version: usize, g: usize) -> Result<usize, u8> {
    build(&vec![0; a], q, n, version, g).map(|codeword| codeword.len())
}

#[test]
fn size_of_the_block() {
    assert_eq!(refusal(0, 2, 1, 0, 24), Err(1));
    assert_eq!(refusal(1, 2, 1, 0, 24), Ok(24));
    assert_eq!(refusal(30_576, 2, 1, 0, 24), Ok(24));
    assert_eq!(refusal(30_577, 2, 1, 0, 24), Err(1));
    assert_eq!(sizes(0), Err(1));
    assert_eq!(sizes(30_577), Err(1));
    assert_eq!(sizes(usize::MAX), Err(1));
    assert!(sizes(1).is_ok() && sizes(30_576).is_ok());
}

#[test]
fn bits_a_symbol_and_layers() {
    let taken = |q: &usize| refusal(16, *q, 1, 0, 840).is_ok();
    assert!((0..=840).filter(taken).eq([2, 4, 6]));
    let taken = |n: &usize| refusal(16, 2, *n, 0, 840).is_ok();
    assert!((0..=840).filter(taken).eq([1, 2, 3, 4]));
    assert_eq!(refusal(16, usize::MAX, usize::MAX, 0, 840), Err(3));
}

#[test]
fn length_of_the_codeword() {
    assert_eq!(refusal(16, 2, 1, 0, 172_800), Ok(172_800));
    assert_eq!(refusal(16, 2, 1, 0, 172_802), Err(3));
    assert_eq!(refusal(16, 2, 1, 0, usize::MAX - 1), Err(3));
    assert_eq!(refusal(16, 2, 1, 0, 0), Err(3));
    assert_eq!(refusal(16, 2, 1, 0, 1), Err(3));
    assert_eq!(refusal(16, 2, 1, 0, 2), Ok(2));
    assert_eq!(refusal(16, 6, 4, 0, 24), Ok(24));
    assert_eq!(refusal(16, 6, 4, 0, 36), Err(3));
}

#[test]
fn every_code_block_has_a_share() {
    for (a, blocks) in [(6_120, 1), (6_121, 2), (12_217, 3), (18_337, 4), (24_457, 5)] {
        assert_eq!(refusal(a, 4, 2, 0, 8 * blocks), Ok(8 * blocks));
        assert_eq!(refusal(a, 4, 2, 0, 8 * (blocks - 1)), Err(3));
    }
}

#[test]
fn redundancy_version() {
    assert_eq!(refusal(16, 2, 1, 3, 2), Ok(2));
    assert_eq!(refusal(16, 2, 1, 4, 2), Err(4));
    assert_eq!(refusal(16, 2, 1, usize::MAX, 2), Err(4));
}

#[test]
fn bytes_above_1() {
    for place in [0, 8, 15] {
        let mut block = [1; 16];
        block[place] = 2;
        assert_eq!(build(&block, 2, 1, 0, 2), Err(2));
        block[place] = 255;
        assert_eq!(build(&block, 2, 1, 0, 2), Err(2));
    }
    assert!(build(&[1; 16], 2, 1, 0, 2).is_ok());
}

#[test]
fn the_first_that_applies_is_given() {
    let mut output = [9; 3];
    let long = [2; 30_577];
    assert_eq!(build_into(&long, 3, 1, 4, 4, &mut output), Err(1));
    assert_eq!(build_into(&[2; 16], 3, 1, 4, 4, &mut output), Err(3));
    assert_eq!(build_into(&[2; 16], 2, 1, 4, 4, &mut output), Err(4));
    assert_eq!(build_into(&[2; 16], 2, 1, 3, 4, &mut output), Err(5));
    assert_eq!(build_into(&[2; 16], 2, 1, 3, 2, &mut output), Err(2));
    assert_eq!(output, [9; 3]);
}

#[test]
fn a_longer_output_keeps_its_other_bytes() {
    let block = [1; 16];
    let mut output = [9; 26];
    assert_eq!(build_into(&block, 2, 1, 1, 24, &mut output), Ok(()));
    assert_eq!(output[..24], build(&block, 2, 1, 1, 24).unwrap());
    assert_eq!(output[24..], [9, 9]);
    assert_eq!(build_into(&block, 2, 1, 1, 24, &mut output[..24]), Ok(()));
    assert_eq!(build_into(&block, 2, 1, 1, 24, &mut output[..23]), Err(5));
}
