//! Downlink control messages: published values, the clauses' own words, the calls, and the
//! fast program beside the literal one.

use independent::control::{attach, build_into, encode, message, sub_block, whose, E_MAX, P, PAYLOAD_MAX};
use independent::xorshift::Generator;
use independent::{control, crc, fast_control, rate, xorshift};

fn bits(text: &str) -> Vec<u8> {
    text.bytes().map(|digit| digit - b'0').collect()
}

/// CRC-16/XMODEM, the published check value of this generator.
#[test]
fn the_published_check_value() {
    let ascii: Vec<u8> = b"123456789".iter().flat_map(|byte| (0..8).map(move |bit| byte >> (7 - bit) & 1)).collect();
    let parity = crc::parity(&ascii, &crc::CRC16);
    assert_eq!(parity.iter().fold(0, |number, bit| number * 2 + u32::from(*bit)), 0x31C3);
}

#[test]
fn the_columns_are_the_turbo_columns_half_a_turn_on() {
    for j in 0..32 {
        assert_eq!(P[j], rate::P[(j + 16) % 32]);
    }
}

#[test]
fn terminal_0_leaves_the_check_and_the_highest_bit_meets_the_first() {
    let payload = xorshift::block(40, 3);
    let plain = attach(&payload, 0);
    assert_eq!(plain, crc::attach(&payload, &crc::CRC16));
    let mixed = attach(&payload, 0x8000);
    assert_eq!(mixed[40], 1 - plain[40]);
    assert_eq!((&mixed[..40], &mixed[41..]), (&plain[..40], &plain[41..]));
}

/// One bit among zeros gives each generator's taps, round the end too.
#[test]
fn one_bit_shows_the_taps() {
    for at in [0, 14, 19] {
        let mut c = vec![0; 20];
        c[at] = 1;
        for (stream, taps) in encode(&c).iter().zip(["1011011", "1111001", "1110101"]) {
            let seen: Vec<u8> = (0..7).map(|k| stream[(at + k) % 20]).collect();
            assert_eq!(seen, bits(taps));
            assert_eq!(stream.iter().map(|bit| usize::from(*bit)).sum::<usize>(), 5);
        }
    }
}

/// The register ends as it began, so the code does not know where the message starts.
#[test]
fn a_turned_message_has_turned_streams() {
    let c = xorshift::block(33, 9);
    let mut turned = c.clone();
    turned.rotate_left(7);
    for (stream, other) in encode(&c).iter_mut().zip(encode(&turned)) {
        stream.rotate_left(7);
        assert_eq!(*stream, other);
    }
}

#[test]
fn the_first_places_that_are_sent() {
    let places: Vec<u8> = (0..40).collect();
    let out: Vec<Option<u8>> = sub_block(&places);
    // 24 dummies in front: row 0 has places 0 to 7 in columns 24 to 31.
    assert_eq!(out[..8], [None, Some(9), None, Some(25), None, Some(17), Some(1), Some(33)]);
}

#[test]
fn the_refusals_in_their_order() {
    let mut out = [7; 100];
    let good = vec![1; 10];
    let mut bad = good.clone();
    bad[9] = 2;
    assert_eq!(build_into(&[], 1, 0, &mut []), Err(20));
    assert_eq!(build_into(&[2; 65], 1, 0, &mut []), Err(20));
    assert_eq!(build_into(&bad, 1, 0, &mut []), Err(3));
    assert_eq!(build_into(&bad, 1, 4_097, &mut []), Err(3));
    assert_eq!(build_into(&bad, 1, 101, &mut out), Err(5));
    assert_eq!(build_into(&bad, 1, 100, &mut out), Err(2));
    assert!(out.iter().all(|byte| *byte == 7));
    assert_eq!(build_into(&good, 1, 99, &mut out), Ok(()));
    assert_eq!((out[98] < 2, out[99]), (true, 7));
    assert_eq!((whose(&[0; 16]), whose(&[2; 81]), whose(&[2; 17])), (Err(20), Err(20), Err(2)));
}

#[test]
fn what_is_attached_is_its_terminals_own() {
    let mut random = Generator::new(4);
    for length in 1..=PAYLOAD_MAX {
        for terminal in [0, 1, 9, 0x8000, 0xFFFF, random.below(65_536) as u16] {
            let run = attach(&xorshift::block(length, random.number()), terminal);
            assert_eq!(whose(&run), Ok(terminal));
        }
    }
}

/// Any run whatever: the answer makes it, and no other number does.
#[test]
fn one_number_alone_fits() {
    for length in [17, 18, 40, 80] {
        let run = xorshift::block(length, 77);
        let owner = whose(&run).unwrap();
        let fits = |terminal: &u16| attach(&run[..length - 16], *terminal) == run;
        assert_eq!((0..=u16::MAX).filter(fits).collect::<Vec<u16>>(), [owner]);
    }
}

#[test]
fn enough_bits_send_every_coded_bit() {
    let payload = xorshift::block(21, 5);
    let d = control::encode(&attach(&payload, 9));
    let sent = message(&payload, 9, 3 * 37);
    let ones = |bits: &[u8]| bits.iter().filter(|bit| **bit == 1).count();
    assert_eq!(ones(&sent), d.iter().map(|stream| ones(stream)).sum());
}

#[test]
fn the_fast_program_is_the_literal_one() {
    let mut random = Generator::new(8);
    for length in 1..=PAYLOAD_MAX {
        for round in 0..12 {
            let mut payload = xorshift::block(length, random.number());
            let terminal = [0, 1, u16::MAX, random.below(65_536) as u16][round % 4];
            let e = [1, 72, 3 * (length + 16), 3 * (length + 16) + 1, 1_000, E_MAX][round % 6];
            if round == 11 {
                payload[random.below(length)] = 2;
            }
            let (mut fast, mut literal) = (vec![9; E_MAX + 5], vec![9; E_MAX + 5]);
            assert_eq!(
                fast_control::build_into(&payload, terminal, e, &mut fast),
                build_into(&payload, terminal, e, &mut literal)
            );
            assert_eq!(fast, literal);
            let run = xorshift::block(length + 16, random.number());
            assert_eq!(fast_control::whose(&run), whose(&run));
        }
    }
}
