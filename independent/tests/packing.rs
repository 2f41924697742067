//! The packed form of a room: its bytes, there and back, the refusals.

use independent::packing::{pack, packed, unpack, unpacked, PACKED_OF_BLOCK};
use independent::slots::ROOM_OF_BLOCK;

#[test]
fn four_places_in_a_byte() {
    assert_eq!(packed([0, 1, 2, 3]), 0b00_01_10_11);
    assert_eq!(packed([2; 4]), 170);
    assert_eq!(packed([4, 255, 3, 1]), 0b10_10_11_01);
    assert_eq!(unpacked(0b11_00_01_10), [3, 0, 1, 2]);
    assert!((0..=255).all(|byte| packed(unpacked(byte)) == byte));
}

#[test]
fn there_and_back_and_what_stays() {
    for m in 1..=5 {
        let room: Vec<u8> = (0..m * ROOM_OF_BLOCK).map(|place| (place % 251) as u8).collect();
        let mut short = vec![7; m * PACKED_OF_BLOCK + 2];
        pack(m, &room, &mut short).unwrap();
        assert_eq!(short[m * PACKED_OF_BLOCK..], [7; 2]);
        let mut back = vec![9; m * ROOM_OF_BLOCK + 1];
        unpack(m, &short, &mut back).unwrap();
        let changed: Vec<u8> = room.iter().map(|value| if *value > 3 { 2 } else { *value }).chain([9]).collect();
        assert_eq!(back, changed);
        let again = short.clone();
        pack(m, &back, &mut short).unwrap();
        assert_eq!(short, again);
    }
}

#[test]
fn refusals_in_their_order() {
    assert_eq!(pack(0, &[], &mut []), Err(13));
    assert_eq!(unpack(6, &[0; 30_000], &mut [0; 120_000]), Err(13));
    assert_eq!(pack(1, &[0; 18_527], &mut [0; 4_632]), Err(5));
    assert_eq!(pack(1, &[0; 18_528], &mut [0; 4_631]), Err(5));
    assert_eq!(unpack(1, &[0; 4_632], &mut [0; 18_528]), Ok(()));
}
