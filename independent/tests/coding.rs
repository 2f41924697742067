//! Published check values, the table, and the whole chain against a restatement of it in
//! other forms: shift register CRC, difference equation encoder, closed form circle.

use independent::codeword::{build, code_blocks, streams};
use independent::crc::{self, CRC24A, CRC24B};
use independent::older::Upwards;
use independent::rate;
use independent::table::TABLE;
use independent::turbo::{encode, interleaver};
use independent::xorshift;

const CRC16: [usize; 4] = [16, 12, 5, 0];

fn value(bits: &[u8]) -> u32 {
    bits.iter().fold(0, |value, bit| 2 * value + u32::from(*bit))
}

fn highest_first(bytes: &[u8]) -> Vec<u8> {
    bytes.iter().flat_map(|byte| (0..8).rev().map(move |power| byte >> power & 1)).collect()
}

#[test]
fn published_check_values() {
    let bits = highest_first(b"123456789");
    assert_eq!(value(&crc::parity(&bits, &CRC24A)), 0xCDE703);
    assert_eq!(value(&crc::parity(&bits, &CRC24B)), 0x23EF52);
    assert_eq!(value(&crc::parity(&bits, &CRC16)), 0x31C3);
}

#[test]
fn the_table_has_the_sizes_of_the_standard() {
    let steps = [(40, 512, 8), (528, 1_024, 16), (1_056, 2_048, 32), (2_112, 6_144, 64)];
    let sizes = steps.iter().flat_map(|(from, to, step)| (*from..=*to).step_by(*step));
    assert!(TABLE.iter().map(|row| row.k).eq(sizes));
}

#[test]
fn every_row_is_a_rearrangement() {
    for row in TABLE {
        let mut places = interleaver(row.k);
        places.sort_unstable();
        assert!(places.into_iter().eq(0..row.k), "K = {}", row.k);
    }
}

#[test]
fn dummies_are_4_12_20_or_28() {
    for row in TABLE {
        let d = row.k + 4;
        assert!([4, 12, 20, 28].contains(&(32 * rate::rows(d) - d)), "K = {}", row.k);
    }
}

#[test]
fn the_start_is_the_whole_circles() {
    for row in TABLE {
        let r = rate::rows(row.k + 4);
        for version in 0..4 {
            assert_eq!(rate::start(96 * r, version), r * (24 * version + 2));
        }
    }
}

#[test]
fn only_streams_0_and_1_lack_the_filler() {
    let d = &streams(&[1])[0];
    let absent = [0, 1, 2].map(|stream: usize| d[stream].iter().filter(|place| place.is_none()).count());
    assert_eq!(absent, [15, 15, 0]);
    assert!(d[0][..15].iter().chain(&d[1][..15]).all(Option::is_none));
    let several = streams(&xorshift::block(12_217, 5));
    assert_eq!(several[0][0].iter().filter(|place| place.is_none()).count(), 39);
    assert!(several[1..].iter().flatten().flatten().all(Option::is_some));
}

/// z_k = c_k + c_{k-1} + c_{k-3} + z_{k-2} + z_{k-3}: g_0(D) z(D) = g_1(D) c(D).
fn difference_equation(c: &[u8]) -> Vec<u8> {
    let mut z: Vec<u8> = Vec::new();
    for k in 0..c.len() {
        let past = |run: &[u8], back: usize| if k < back { 0 } else { run[k - back] };
        z.push(c[k] ^ past(c, 1) ^ past(c, 3) ^ past(&z, 2) ^ past(&z, 3));
    }
    z
}

/// The block followed by the three bits that empty the encoder, found by trying all eight.
fn emptied(c: &[u8]) -> Vec<u8> {
    let empties = |tail: &u8| {
        let tail = [tail >> 2 & 1, tail >> 1 & 1, tail & 1];
        let z = difference_equation(&[c, &tail, &[0; 3]].concat());
        z[c.len() + 3..] == [0; 3]
    };
    let tails: Vec<u8> = (0..8).filter(empties).collect();
    assert_eq!(tails.len(), 1);
    [c, &[tails[0] >> 2 & 1, tails[0] >> 1 & 1, tails[0] & 1]].concat()
}

/// The streams in the form above, filler as bits.
fn other_streams(c: &[u8]) -> [Vec<u8>; 3] {
    let k = c.len();
    let swapped: Vec<u8> = interleaver(k).iter().map(|place| c[*place]).collect();
    let (x, x2) = (emptied(c), emptied(&swapped));
    let (z, z2) = (difference_equation(&x), difference_equation(&x2));
    [
        [c, &[x[k], z[k + 1], x2[k], z2[k + 1]]].concat(),
        [&z[..k], &[z[k], x[k + 2], z2[k], x2[k + 2]]].concat(),
        [&z2[..k], &[x[k + 1], z[k + 2], x2[k + 1], z2[k + 2]]].concat(),
    ]
}

#[test]
fn streams_and_tails_follow_the_difference_equation() {
    for seed in 1..40 {
        let c = xorshift::block(TABLE[4 * seed].k, seed as u64);
        let d = encode(&c, 0).map(|stream| stream.into_iter().flatten().collect::<Vec<u8>>());
        assert_eq!(d, other_streams(&c));
    }
}

/// CRC as a shift register.
fn register(bits: &[u8], generator: u32) -> Vec<u8> {
    let step = |state: u32, bit: &u8| {
        let out = state >> 23 & 1 ^ u32::from(*bit);
        (state << 1 & 0xFF_FFFF) ^ (out * generator)
    };
    let state = bits.iter().fold(0, step);
    (0..24).rev().map(|power| (state >> power & 1) as u8).collect()
}

/// The code blocks in terms of totals: cut from the back, where nothing is filler.
fn other_blocks(a: &[u8], sizes: &[usize]) -> Vec<Vec<u8>> {
    let mut rest = [a, &register(a, 0x864CFB)].concat();
    let parity = if sizes.len() == 1 { 0 } else { 24 };
    let mut blocks = Vec::new();
    for size in sizes.iter().rev() {
        let data = rest.split_off(rest.len().saturating_sub(size - parity));
        let mut c = vec![0; size - parity - data.len()];
        c.extend(data);
        if parity > 0 {
            c.extend(register(&c, 0x800063));
        }
        blocks.insert(0, c);
    }
    assert_eq!(rest, []);
    blocks
}

/// The bit at circle place p, or none: in closed form, the column pattern being the
/// reversal of five bits.
fn at(d: &[Vec<u8>; 3], filler: usize, p: usize) -> Option<u8> {
    let length = d[0].len();
    let r = length.div_up(32);
    let full = 32 * r;
    let (stream, k) = if p < full { (0, p) } else { (1 + (p - full) % 2, (p - full) / 2) };
    let column = ((k / r) as u32).reverse_bits() as usize >> 27;
    let y = (column + 32 * (k % r) + stream / 2) % full;
    let place = y.checked_sub(full - length)?;
    (stream == 2 || place >= filler).then(|| d[stream][place])
}

struct Case {
    a: usize,
    sizes: &'static [usize],
    filler: usize,
    /// E of each block, and Q, N and G.
    shares: &'static [usize],
    q: usize,
    n: usize,
    g: usize,
}

const CASES: [Case; 6] = [
    Case { a: 1, sizes: &[40], filler: 15, shares: &[24], q: 2, n: 1, g: 24 },
    Case { a: 1, sizes: &[40], filler: 15, shares: &[984], q: 6, n: 4, g: 984 },
    Case { a: 17, sizes: &[48], filler: 7, shares: &[100], q: 4, n: 1, g: 100 },
    Case { a: 6_121, sizes: &[3_072, 3_136], filler: 15, shares: &[9_000, 9_012], q: 4, n: 3, g: 18_012 },
    Case { a: 12_217, sizes: &[4_096, 4_096, 4_160], filler: 39, shares: &[4, 8, 8], q: 2, n: 2, g: 20 },
    Case { a: 30_576, sizes: &[6_144; 5], filler: 0, shares: &[34_560; 5], q: 6, n: 4, g: 172_800 },
];

#[test]
fn the_chain_agrees_with_its_restatement() {
    for case in CASES {
        let block = xorshift::block(case.a, 7);
        let blocks = other_blocks(&block, case.sizes);
        assert_eq!(code_blocks(&block), blocks, "A = {}", case.a);
        for version in 0..4 {
            let built = build(&block, case.q, case.n, version, case.g).unwrap();
            assert_eq!(built, other_codeword(&blocks, &case, version), "A = {}", case.a);
        }
    }
}

fn other_codeword(blocks: &[Vec<u8>], case: &Case, version: usize) -> Vec<u8> {
    let mut codeword = Vec::new();
    for (r, c) in blocks.iter().enumerate() {
        let d = other_streams(c);
        let rows = (c.len() + 4).div_up(32);
        let filler = if r == 0 { case.filler } else { 0 };
        let round = (rows * (24 * version + 2)..).map(|p| at(&d, filler, p % (96 * rows)));
        codeword.extend(round.flatten().take(case.shares[r]));
    }
    codeword
}

#[test]
fn the_generator_is_xorshift64_star() {
    // Worked apart from this program, in whole numbers modulo 2^64.
    assert_eq!(xorshift::block(16, 1), BITS_OF_SEED_1);
    assert_eq!(xorshift::block(16, 0), xorshift::block(16, 0x9E3779B97F4A7C15));
    assert_ne!(xorshift::block(64, 1), xorshift::block(64, 2));
}

const BITS_OF_SEED_1: [u8; 16] = [0, 1, 1, 0, 0, 1, 1, 1, 0, 1, 0, 0, 0, 1, 1, 1];
