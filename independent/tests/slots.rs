//! The slots of 01: its sums, its refusals in their order, the June sequence, states that
//! no call made, and seeded histories against a list of what was sent.

use independent::codeword::{build, streams as built_streams, G_MAX};
use independent::older::Upwards;
use independent::sizes::sizes;
use independent::slots::{close, new, open, open_down, read, receive, streams};
use independent::slots::{Answer, Head, Refusal, State, DISPUTED, ROOM_OF_BLOCK};
use independent::soft_buffer::{Receiver, WHOLE_SHARE};
use independent::xorshift::{self, Generator};
use std::collections::HashMap;

const CAR: u16 = 7;
const OTHER: u16 = 8;

/// What a lent output is filled with, and what a store is before its first opening.
const FILL: u8 = 9;

fn refused<T>(number: u8) -> Result<T, Refusal> {
    Err(Refusal::Number(number))
}

/// A new state of one slot for M code blocks and its store.
fn cell(m: usize) -> (State, Vec<u8>) {
    let (state, answer) = new(1, m);
    assert_eq!(answer, Ok(()));
    (state, vec![FILL; m * ROOM_OF_BLOCK])
}

/// The same with slot 0 open for CAR.
fn opened(a: usize) -> (State, Vec<u8>) {
    let (state, mut store) = cell(sizes(a).unwrap().blocks);
    let (state, answer) = open(state, &mut store, 0, CAR, a);
    assert_eq!(answer, Ok(()));
    (state, store)
}

/// Receives a true transmission in slot 0 for CAR, Q = 2 and N = 1.
fn hear(state: State, store: &mut [u8], block: &[u8], version: usize, g: usize) -> Result<usize, Refusal> {
    let bits = build(block, 2, 1, version, g).unwrap();
    let (after, answer) = receive(state, store, 0, CAR, 2, 1, version, &bits);
    assert_eq!(after, state);
    answer
}

/// Reads slot 0 for CAR. A refusal must leave the output.
fn block_read(state: State, store: &[u8], a: usize) -> Result<Vec<u8>, Refusal> {
    let mut output = vec![FILL; a + 3];
    let (after, answer) = read(state, store, 0, CAR, &mut output);
    assert_eq!(after, state);
    let untouched = if answer.is_ok() { a } else { 0 };
    assert!(output[untouched..].iter().all(|byte| *byte == FILL));
    answer.map(|()| output[..a].to_vec())
}

#[test]
fn one_version_0_of_132_bits_reads_and_of_130_lacks_2() {
    let block = xorshift::block(16, 1);
    let (state, mut store) = opened(16);
    assert_eq!(hear(state, &mut store, &block, 0, 130), Ok(2));
    assert_eq!(block_read(state, &store, 16), Err(Refusal::Lacking(2)));
    let mut output = [FILL; 132];
    assert_eq!(streams(state, &store, 0, CAR, 0, &mut output), (state, Ok(())));
    let unheard: Vec<usize> = (0..40).filter(|place| output[*place] == 2).collect();
    assert_eq!(unheard, [12, 28]);
    let (state, mut store) = opened(16);
    assert_eq!(hear(state, &mut store, &block, 0, 132), Ok(0));
    assert_eq!(block_read(state, &store, 16), Ok(block));
}

#[test]
fn one_version_2_of_64_bits_lacks_40_and_of_66_lacks_38() {
    let block = xorshift::block(16, 2);
    for (g, lacking) in [(64, 40), (66, 38)] {
        let (state, mut store) = opened(16);
        assert_eq!(hear(state, &mut store, &block, 2, g), Ok(lacking));
        assert_eq!(block_read(state, &store, 16), Err(Refusal::Lacking(lacking)));
    }
}

#[test]
fn two_code_blocks_share_14_bits_as_6_and_8() {
    let block = xorshift::block(6_121, 3);
    let (state, mut store) = opened(6_121);
    assert_eq!(hear(state, &mut store, &block, 0, 14), Ok(6_121 + 24 + 48 - 14));
    let heard = |r| store[r * ROOM_OF_BLOCK..][..ROOM_OF_BLOCK].iter().filter(|byte| **byte < 2).count();
    assert_eq!([heard(0), heard(1)], [6, 8]);
    let before = store.clone();
    assert_eq!(receive(state, &mut store, 0, CAR, 2, 1, 0, &[0, 0]), (state, refused(3)));
    assert_eq!(store, before);
}

#[test]
fn a_bit_that_came_twice_is_one_place_heard() {
    let block = xorshift::block(16, 4);
    let (state, mut store) = opened(16);
    // Version 0 begins with the data places 20 and 4, version 1 with 23 and 7.
    assert_eq!(hear(state, &mut store, &block, 0, 2), Ok(38));
    assert_eq!(hear(state, &mut store, &block, 0, 2), Ok(38));
    assert_eq!(hear(state, &mut store, &block, 1, 2), Ok(36));
}

#[test]
fn two_different_bits_dispute_a_place_until_the_close() {
    let block = xorshift::block(16, 5);
    let (state, mut store) = opened(16);
    let truth = build(&block, 2, 1, 0, 132).unwrap();
    let mut wrong = truth.clone();
    wrong[0] ^= 1;
    assert_eq!(receive(state, &mut store, 0, CAR, 2, 1, 0, &wrong), (state, Ok(0)));
    assert_eq!(block_read(state, &store, 16), refused(12));
    // The place that version 0 sends first is disputed, however often the block comes.
    for _ in 0..3 {
        assert_eq!(receive(state, &mut store, 0, CAR, 2, 1, 0, &truth), (state, Ok(1)));
        assert_eq!(block_read(state, &store, 16), Err(Refusal::Lacking(1)));
    }
    assert_eq!(store.iter().filter(|byte| **byte == DISPUTED).count(), 1);
    let mut output = [FILL; 132];
    assert_eq!(streams(state, &store, 0, CAR, 0, &mut output), (state, Ok(())));
    assert_eq!(output[20], 2);
    // The next opening clears it.
    let (state, _) = close(state, 0, CAR);
    let (state, _) = open(state, &mut store, 0, CAR, 16);
    assert_eq!(hear(state, &mut store, &block, 0, 132), Ok(0));
    assert_eq!(block_read(state, &store, 16), Ok(block));
    // Two turns of one reception contradict each other as well.
    let (state, mut store) = opened(16);
    let two_turns = [wrong, truth].concat();
    assert_eq!(receive(state, &mut store, 0, CAR, 2, 1, 0, &two_turns), (state, Ok(1)));
}

#[test]
fn a_bit_meets_whatever_a_room_holds() {
    let bits = [0, 1].repeat(66);
    for old in [0, 1, 2, 3, 4, 7, 255] {
        let (state, mut store) = opened(16);
        store.fill(old);
        let _ = receive(state, &mut store, 0, CAR, 2, 1, 0, &bits);
        let unheard = old == 2 || old > 3;
        let kept: Vec<u8> = store.iter().copied().filter(|byte| unheard == (*byte != old)).collect();
        match old {
            3 => assert!(store.iter().all(|byte| *byte == 3)),
            0 | 1 => assert_eq!(store.iter().filter(|byte| **byte == 3).count(), 66),
            _ => assert_eq!((kept.len(), kept.iter().sum::<u8>()), (132, 66)),
        }
    }
}

#[test]
fn code_block_parity_must_be_heard_and_is_compared() {
    let block = xorshift::block(6_121, 6);
    let (state, mut store) = opened(6_121);
    let g = 2 * 3 * 3_140;
    let mut bits = build(&block, 2, 1, 0, g).unwrap();
    let is_own_parity = |(r, stream, place): &(usize, usize, usize)| {
        let k = [3_072, 3_136][*r];
        *stream == 0 && (k - 24..k).contains(place)
    };
    let places = sent_places(6_121, 2, 0, g);
    let parity: Vec<usize> = (0..g).filter(|at| is_own_parity(&places[*at])).collect();
    assert!(parity.len() >= 48);
    parity.iter().for_each(|at| bits[*at] ^= 1);
    assert_eq!(receive(state, &mut store, 0, CAR, 2, 1, 0, &bits), (state, Ok(0)));
    assert_eq!(block_read(state, &store, 6_121), Err(Refusal::CodeBlockWrong(0)));
    // Everything but the last parity bits: as many data places are lacking as were cut off.
    let (state, mut store) = opened(6_121);
    let short = &bits[..2 * (parity[0] / 2)];
    let (_, answer) = receive(state, &mut store, 0, CAR, 2, 1, 0, short);
    let sent: HashMap<_, _> = sent_places(6_121, 2, 0, short.len()).into_iter().zip(short).collect();
    let heard = sent.keys().filter(|(r, stream, place)| *stream == 0 && *place < [3_072, 3_136][*r]);
    assert_eq!(answer, Ok(6_121 + 24 + 48 - heard.count()));
}

/// June: a car's block was left in the room, the slot was opened for another car, and a
/// reception of parity alone completed the old block.
#[test]
fn what_an_earlier_car_left_is_never_released() {
    let (old, fresh) = (xorshift::block(16, 10), xorshift::block(16, 11));
    let (state, mut store) = opened(16);
    assert_eq!(hear(state, &mut store, &old, 0, 132), Ok(0));
    assert_eq!(block_read(state, &store, 16), Ok(old.clone()));
    let (state, answer) = close(state, 0, CAR);
    assert_eq!(answer, Ok(()));
    assert_eq!(state.heads[0], Head::default());
    let (state, answer) = open(state, &mut store, 0, OTHER, 16);
    assert_eq!(answer, Ok(()));
    assert!(store.iter().all(|byte| *byte == 2));
    // Version 2 with 64 bits is parity alone.
    let parity = build(&fresh, 2, 1, 2, 64).unwrap();
    assert_eq!(receive(state, &mut store, 0, OTHER, 2, 1, 2, &parity), (state, Ok(40)));
    let mut output = [FILL; 16];
    assert_eq!(read(state, &store, 0, OTHER, &mut output), (state, Err(Refusal::Lacking(40))));
    assert_eq!(output, [FILL; 16]);
    assert_eq!(read(state, &store, 0, CAR, &mut output), (state, refused(9)));
}

#[test]
fn opening_clears_the_whole_room_and_no_other() {
    let (state, answer) = new(3, 2);
    assert_eq!(answer, Ok(()));
    let room = 2 * ROOM_OF_BLOCK;
    let mut store = vec![FILL; 3 * room + 10];
    let (state, answer) = open(state, &mut store, 1, 0, 16);
    assert_eq!(answer, Ok(()));
    assert!(store[room..2 * room].iter().all(|byte| *byte == 2));
    assert!(store[..room].iter().chain(&store[2 * room..]).all(|byte| *byte == FILL));
    let head = Head { open: true, terminal: 0, a: 16, share: WHOLE_SHARE };
    assert_eq!((state.heads[1], state.heads[0], state.heads[2]), (head, Head::default(), Head::default()));
}

#[test]
fn streams_of_a_heard_block() {
    for (a, seed) in [(1, 1), (17, 2), (6_121, 3), (12_217, 4)] {
        let block = xorshift::block(a, seed);
        let (state, mut store) = opened(a);
        assert_eq!(hear(state, &mut store, &block, 3, 60_000), Ok(0));
        let truth = built_streams(&block);
        for (r, d) in truth.iter().enumerate() {
            let expected: Vec<u8> = d.iter().flatten().map(|place| place.unwrap_or(0)).collect();
            let mut output = vec![FILL; expected.len() + 2];
            assert_eq!(streams(state, &store, 0, CAR, r, &mut output), (state, Ok(())));
            assert_eq!(output[..expected.len()], expected);
            assert_eq!(output[expected.len()..], [FILL, FILL]);
        }
    }
}

#[test]
fn streams_of_an_unheard_block_show_the_absent_filler_as_0() {
    let (state, store) = opened(1);
    let mut output = [FILL; 132];
    assert_eq!(streams(state, &store, 0, CAR, 0, &mut output), (state, Ok(())));
    for (at, byte) in output.iter().enumerate() {
        let absent = at % 44 < 15 && at < 88;
        assert_eq!(*byte, if absent { 0 } else { 2 }, "{at}");
    }
    // Whatever the room holds at dummies and absent filler.
    for value in [0, 1, 3, 255] {
        let store = vec![value; ROOM_OF_BLOCK];
        let mut output = [FILL; 132];
        assert_eq!(streams(state, &store, 0, CAR, 0, &mut output), (state, Ok(())));
        for (at, byte) in output.iter().enumerate() {
            let absent = at % 44 < 15 && at < 88;
            assert_eq!(*byte, if absent { 0 } else { value.min(2) }, "{at}");
        }
    }
}

#[test]
fn limits_of_new() {
    for s in [0, 1, 8, 9, usize::MAX] {
        for m in [0, 1, 5, 6, usize::MAX] {
            let (state, answer) = new(s, m);
            if [1, 8].contains(&s) && [1, 5].contains(&m) {
                assert_eq!((state, answer), (State { s, m, ..State::default() }, Ok(())));
            } else {
                assert_eq!((state, answer), (State::default(), refused(13)));
                assert_eq!(close(state, 0, 0), (state, refused(13)));
                assert_eq!(open(state, &mut [], 0, 0, 1), (state, refused(13)));
            }
        }
    }
}

/// The answers of all calls that a state may refuse, each on a store and an output that
/// must stay: Open, Receive, Read, Streams, Close.
fn answers(state: State, length: usize, slot: usize, terminal: u16, asked: &Asked) -> [u8; 5] {
    let mut store = vec![FILL; length];
    let mut output = vec![FILL; asked.output];
    let number = |(after, answer): (State, Answer)| {
        answer.map_or_else(|refusal| (after == state).then(|| refusal.number()).unwrap(), |()| 0)
    };
    let opening = number(open(state, &mut store, slot, terminal, asked.a));
    assert!(opening == 0 || store.iter().all(|byte| *byte == FILL));
    store.fill(FILL);
    let (q, n, version) = asked.numbers;
    let (after, heard) = receive(state, &mut store, slot, terminal, q, n, version, &asked.bits);
    let receiving = number((after, heard.map(|_| ())));
    assert!(receiving == 0 || store.iter().all(|byte| *byte == FILL));
    store.fill(FILL);
    let reading = number(read(state, &store, slot, terminal, &mut output));
    assert!(reading == 0 || output.iter().all(|byte| *byte == FILL));
    let streaming = number(streams(state, &store, slot, terminal, asked.code_block, &mut output));
    assert!(streaming == 0 || output.iter().all(|byte| *byte == FILL));
    [opening, receiving, reading, streaming, number(close(state, slot, terminal))]
}

#[derive(Clone)]
struct Asked {
    a: usize,
    numbers: (usize, usize, usize),
    bits: Vec<u8>,
    code_block: usize,
    output: usize,
}

/// Every argument at fault: only the first refusal of each call may come.
fn all_wrong() -> Asked {
    Asked { a: 0, numbers: (3, 5, 4), bits: vec![2; 3], code_block: 9, output: 0 }
}

#[test]
fn refusals_in_their_order() {
    let (state, _) = new(2, 2);
    let enough = 4 * ROOM_OF_BLOCK;
    let mut broken = state;
    broken.heads[1] = Head { open: true, terminal: CAR, a: 0, share: WHOLE_SHARE };
    let mut own = state;
    own.heads[0] = Head { open: true, terminal: CAR, a: 6_121, share: WHOLE_SHARE };
    // Nothing is looked at before 13, then the store, then the slot number.
    let mut asked = all_wrong();
    assert_eq!(answers(broken, enough - 1, 2, OTHER, &asked), [13; 5]);
    assert_eq!(answers(own, enough - 1, 2, OTHER, &asked), [5, 5, 5, 5, 6]);
    assert_eq!(answers(own, enough, 2, OTHER, &asked), [6; 5]);
    assert_eq!(answers(own, enough, usize::MAX, OTHER, &asked), [6; 5]);
    assert_eq!(answers(own, enough, 1, OTHER, &asked), [1, 8, 8, 8, 8]);
    assert_eq!(answers(own, enough, 0, OTHER, &asked), [7, 9, 9, 9, 9]);
    assert_eq!(answers(own, enough, 0, CAR, &asked), [7, 3, 5, 14, 0]);
    // A closed head holds terminal 0, which is an ordinary terminal.
    assert_eq!(answers(own, enough, 1, 0, &asked), [1, 8, 8, 8, 8]);
    asked.a = 30_577;
    assert_eq!(answers(own, enough, 1, OTHER, &asked)[0], 1);
    asked.a = usize::MAX;
    assert_eq!(answers(own, enough, 1, OTHER, &asked)[0], 1);
    asked.a = 12_217;
    assert_eq!(answers(own, enough, 1, OTHER, &asked)[0], 10);
    asked.a = 12_216;
    assert_eq!(answers(own, enough, 1, OTHER, &asked)[0], 0);
    // 3, then 4, then 2.
    asked.numbers = (2, 1, 4);
    assert_eq!(answers(own, enough, 0, CAR, &asked)[1], 3);
    asked.bits = vec![2; 2];
    assert_eq!(answers(own, enough, 0, CAR, &asked)[1], 3);
    asked.bits = vec![2; 4];
    assert_eq!(answers(own, enough, 0, CAR, &asked)[1], 4);
    asked.numbers = (2, 1, 3);
    assert_eq!(answers(own, enough, 0, CAR, &asked)[1], 2);
    asked.bits = vec![1, 1, 1, 255];
    assert_eq!(answers(own, enough, 0, CAR, &asked)[1], 2);
    asked.bits = vec![1; 4];
    assert_eq!(answers(own, enough, 0, CAR, &asked)[1], 0);
    asked.bits = vec![1; G_MAX + 2];
    assert_eq!(answers(own, enough, 0, CAR, &asked)[1], 3);
    asked.bits = vec![1; G_MAX];
    assert_eq!(answers(own, enough, 0, CAR, &asked)[1], 0);
    // 14, then 5 for the output; Read's 5 before its 11.
    asked.code_block = 2;
    assert_eq!(answers(own, enough, 0, CAR, &asked)[3], 14);
    asked.code_block = 1;
    asked.output = 3 * 3_140 - 1;
    assert_eq!(answers(own, enough, 0, CAR, &asked)[3], 5);
    asked.output = 3 * 3_140;
    assert_eq!(answers(own, enough, 0, CAR, &asked)[3], 0);
    asked.output = 6_120;
    assert_eq!(answers(own, enough, 0, CAR, &asked)[2], 5);
    asked.output = 6_121;
    assert_eq!(answers(own, enough, 0, CAR, &asked)[2], 11);
}

#[test]
fn layers_and_bits_a_symbol_of_a_reception() {
    let (state, mut store) = opened(16);
    for q in (0..=9).chain([1 << 63, usize::MAX]) {
        for n in (0..=6).chain([1 << 63, usize::MAX]) {
            let (_, answer) = receive(state, &mut store, 0, CAR, q, n, 0, &[0; 720]);
            assert_eq!(answer.is_ok(), [2, 4, 6].contains(&q) && (1..=4).contains(&n), "{q} {n}");
        }
    }
    assert_eq!(receive(state, &mut store, 0, CAR, 2, 1, 0, &[]), (state, refused(3)));
}

#[test]
fn an_open_slot_is_not_opened_again_not_even_by_its_own_car() {
    let (state, mut store) = opened(16);
    let block = xorshift::block(16, 1);
    assert_eq!(hear(state, &mut store, &block, 0, 132), Ok(0));
    for terminal in [CAR, OTHER, 0] {
        assert_eq!(open(state, &mut store, 0, terminal, 16), (state, refused(7)));
    }
    assert_eq!(block_read(state, &store, 16), Ok(block));
}

#[test]
fn states_that_no_call_made() {
    let good = Head { open: true, terminal: CAR, a: 16, share: WHOLE_SHARE };
    let mut made = State { s: 2, m: 1, heads: [Head::default(); 8] };
    made.heads[0] = good;
    // Heads from S upward, however broken, are ignored and come back unchanged.
    made.heads[2] = Head { open: true, terminal: 1, a: 0, share: WHOLE_SHARE };
    made.heads[7] = Head { open: true, terminal: 2, a: usize::MAX, share: WHOLE_SHARE };
    // A closed head with stray numbers is not broken and comes back as it came.
    made.heads[1] = Head { open: false, terminal: 5, a: 99_999, share: 3 };
    let mut store = vec![FILL; 2 * ROOM_OF_BLOCK];
    let block = xorshift::block(16, 1);
    assert_eq!(hear(made, &mut store, &block, 0, 132), Ok(0));
    assert_eq!(block_read(made, &store, 16), Ok(block));
    let (after, answer) = close(made, 0, CAR);
    let mut expected = made;
    expected.heads[0] = Head::default();
    assert_eq!((after, answer), (expected, Ok(())));
    assert_eq!(close(made, 1, 5), (made, refused(8)));
    let (after, answer) = open(made, &mut store, 1, OTHER, 6_120);
    expected = made;
    expected.heads[1] = Head { open: true, terminal: OTHER, a: 6_120, share: WHOLE_SHARE };
    assert_eq!((after, answer), (expected, Ok(())));
    // A head below S whose A is out of range or too large for M breaks every slot.
    for a in [0, 6_121, 30_577, usize::MAX] {
        let mut broken = made;
        broken.heads[1] = Head { open: true, terminal: OTHER, a, share: WHOLE_SHARE };
        assert_eq!(answers(broken, 2 * ROOM_OF_BLOCK, 0, CAR, &all_wrong()), [13; 5]);
    }
    // So does one whose share is below 32 * R: R is 2 for A = 16.
    for (share, number) in [(0, 13), (63, 13), (64, 9), (usize::MAX, 9)] {
        let mut broken = made;
        broken.heads[1] = Head { open: true, terminal: OTHER, a: 16, share };
        assert_eq!(read(broken, &store, 1, CAR, &mut []).1, refused(number), "{share}");
    }
    for (s, m) in [(0, 1), (9, 1), (usize::MAX, 1), (1, 0), (1, 6), (1, usize::MAX)] {
        let broken = State { s, m, heads: made.heads };
        assert_eq!(answers(broken, 2 * ROOM_OF_BLOCK, 0, CAR, &all_wrong()), [13; 5]);
    }
}

#[test]
fn room_bytes_other_than_0_and_1_are_unheard_and_stay() {
    let (state, _) = opened(16);
    let mut store: Vec<u8> = (0..ROOM_OF_BLOCK).map(|at| 2 + (at % 254) as u8).collect();
    let before = store.clone();
    assert_eq!(block_read(state, &store, 16), Err(Refusal::Lacking(40)));
    let block = xorshift::block(16, 3);
    assert_eq!(hear(state, &mut store, &block, 2, 64), Ok(40));
    let changed = store.iter().zip(&before).filter(|(now, then)| now != then).count();
    assert_eq!(changed, 64);
    assert!(store.iter().zip(&before).all(|(now, then)| now == then || *now < 2));
}

/// The stream place behind each sent bit, in closed form: the column pattern is the
/// reversal of five bits.
fn sent_places(a: usize, symbol: usize, version: usize, g: usize) -> Vec<(usize, usize, usize)> {
    let s = sizes(a).unwrap();
    let symbols = g / symbol;
    let mut sent = Vec::new();
    for r in 0..s.blocks {
        let share = symbol * ((symbols + r) / s.blocks);
        let (d, filler) = (s.size(r) + 4, s.filler_in(r));
        let rows = d.div_up(32);
        let full = 32 * rows;
        let at = |p: usize| {
            let (stream, k) = if p < full { (0, p) } else { (1 + (p - full) % 2, (p - full) / 2) };
            let column = ((k / rows) as u32).reverse_bits() as usize >> 27;
            let place = ((column + 32 * (k % rows) + stream / 2) % full).checked_sub(full - d)?;
            (stream == 2 || place >= filler).then_some((r, stream, place))
        };
        let round = (rows * (24 * version + 2)..).filter_map(|p| at(p % (3 * full)));
        sent.extend(round.take(share));
    }
    sent
}

/// What is known of one slot: its car, A, and the last bit that came for each place.
struct Known {
    terminal: u16,
    block: Vec<u8>,
    heard: HashMap<(usize, usize, usize), u8>,
}

impl Known {
    fn lacking(&self) -> usize {
        let s = sizes(self.block.len()).unwrap();
        let data = (0..s.blocks).map(|r| s.size(r) - s.filler_in(r)).sum::<usize>();
        let is_data = |(r, stream, place): &&(usize, usize, usize)| *stream == 0 && *place < s.size(*r);
        data - self.heard.keys().filter(is_data).count()
    }
}

/// Three slots, seeded calls, true transmissions only: a read releases the block exactly
/// when every data place has been sent since the opening.
#[test]
fn seeded_histories() {
    let mut random = Generator::new(2_024);
    let mut releases = 0;
    for _ in 0..200 {
        let (mut state, _) = new(3, 1 + random.below(2));
        let mut store = vec![FILL; 3 * state.m * ROOM_OF_BLOCK + 5];
        let mut known: [Option<Known>; 3] = [None, None, None];
        for _ in 0..60 {
            let slot = random.below(3);
            let terminal = random.below(2) as u16;
            match random.below(8) {
                0 => {
                    let most = if random.below(4) == 0 { 6_108 * state.m } else { 80 };
                    let a = 1 + random.below(most);
                    let (after, answer) = open(state, &mut store, slot, terminal, a);
                    let expected = if known[slot].is_some() { refused(7) } else { Ok(()) };
                    assert_eq!(answer, expected);
                    if answer.is_ok() {
                        let block = xorshift::block(a, random.number());
                        known[slot] = Some(Known { terminal, block, heard: HashMap::new() });
                    }
                    state = after;
                }
                1 => {
                    let (after, answer) = close(state, slot, terminal);
                    assert_eq!(answer, ownership(&known[slot], terminal));
                    if answer.is_ok() {
                        known[slot] = None;
                    }
                    state = after;
                }
                2..=4 => step_receive(&mut random, state, &mut store, slot, terminal, &mut known[slot]),
                _ => releases += step_read(state, &store, slot, terminal, &known[slot]),
            }
        }
        assert!(store[store.len() - 5..].iter().all(|byte| *byte == FILL));
    }
    assert!(releases > 200, "{releases}");
}

fn ownership(known: &Option<Known>, terminal: u16) -> Answer {
    match known {
        None => refused(8),
        Some(slot) if slot.terminal != terminal => refused(9),
        Some(_) => Ok(()),
    }
}

fn step_receive(
    random: &mut Generator,
    state: State,
    store: &mut [u8],
    slot: usize,
    terminal: u16,
    known: &mut Option<Known>,
) {
    let (q, n, version) = (random.choose(&[2, 4, 6]), 1 + random.below(4), random.below(4));
    let owned = ownership(known, terminal);
    let own = match known.as_mut().filter(|_| owned.is_ok()) {
        Some(own) => own,
        None => {
            let (after, answer) = receive(state, store, slot, terminal, q, n, version, &[0; 48]);
            assert_eq!((after, answer.map(|_| ())), (state, owned));
            return;
        }
    };
    let s = sizes(own.block.len()).unwrap();
    let g = q * n * (s.blocks + random.below(4 * own.block.len() / (q * n) + 30));
    let bits = build(&own.block, q, n, version, g).unwrap();
    for (place, bit) in sent_places(own.block.len(), q * n, version, g).into_iter().zip(&bits) {
        own.heard.insert(place, *bit);
    }
    let (after, answer) = receive(state, store, slot, terminal, q, n, version, &bits);
    assert_eq!((after, answer), (state, Ok(own.lacking())));
}

/// Reads and looks at every stream. Gives 1 if the block was released.
fn step_read(state: State, store: &[u8], slot: usize, terminal: u16, known: &Option<Known>) -> usize {
    let length = known.as_ref().map_or(1, |own| own.block.len());
    let mut output = vec![FILL; length + 1];
    let (after, answer) = read(state, store, slot, terminal, &mut output);
    assert_eq!(after, state);
    let own = match known.as_ref().filter(|_| ownership(known, terminal).is_ok()) {
        Some(own) => own,
        None => {
            assert_eq!(answer, ownership(known, terminal));
            return 0;
        }
    };
    check_streams(state, store, slot, own);
    match own.lacking() {
        0 => {
            assert_eq!(answer, Ok(()));
            assert_eq!(output[..length], own.block);
            1
        }
        count => {
            assert_eq!(answer, Err(Refusal::Lacking(count)));
            assert!(output.iter().all(|byte| *byte == FILL));
            0
        }
    }
}

fn check_streams(state: State, store: &[u8], slot: usize, own: &Known) {
    let s = sizes(own.block.len()).unwrap();
    for r in 0..s.blocks {
        let d = s.size(r) + 4;
        let mut output = vec![FILL; 3 * d];
        assert_eq!(streams(state, store, slot, own.terminal, r, &mut output), (state, Ok(())));
        for (at, byte) in output.iter().enumerate() {
            let (stream, place) = (at / d, at % d);
            let absent = stream < 2 && place < s.filler_in(r);
            let expected = own.heard.get(&(r, stream, place)).copied().unwrap_or(if absent { 0 } else { 2 });
            assert_eq!(*byte, expected, "block {r} stream {stream} place {place}");
        }
    }
}

/// A receiver under Release 8 with 8 processes.
fn receiver(soft: usize) -> Receiver {
    Receiver { release: 8, mimo: 1, processes: 8, soft, layers: 1 }
}

#[test]
fn a_downlink_s_head_keeps_the_share() {
    let (state, mut store) = cell(2);
    for (a, soft, answer) in [
        (16, 511, Err(21)),
        (16, 512, Ok(64)),
        (16, 519, Ok(64)),
        (16, 800_000, Ok(100_000)),
        (6_121, 16 * 3_168 - 1, Err(21)), // R is 97 and 99, the share is of two code blocks
        (6_121, 16 * 3_168, Ok(3_168)),
        (0, 0, Err(1)),
        (12_217, 0, Err(10)),
    ] {
        let (after, given) = open_down(state, &mut store, 0, CAR, a, &receiver(soft));
        let shares = given.map(|()| after.heads[0].share).map_err(Refusal::number);
        assert_eq!(shares, answer, "{a} {soft}");
    }
    let eleven = Receiver { release: 11, soft: 35_982_720, layers: 2, ..receiver(0) };
    let shares = [8, 11].map(|release| {
        open_down(state, &mut store, 0, CAR, 16, &Receiver { release, ..eleven }).0.heads[0].share
    });
    assert_eq!(shares, [4_497_840, 899_568]);
}

/// One turn of a circle cut at 32 * R is stream 0 alone, whose places are all heard by then.
#[test]
fn the_least_share_sends_stream_0_alone() {
    let block = xorshift::block(16, 1);
    for version in 0..4 {
        let (state, mut store) = cell(1);
        let (state, _) = open_down(state, &mut store, 0, CAR, 16, &receiver(512));
        let mut bits = vec![0; 44];
        independent::codeword::build_down_into(&block, &receiver(512), 2, 1, version, 44, &mut bits).unwrap();
        assert_eq!(receive(state, &mut store, 0, CAR, 2, 1, version, &bits).1, Ok(0));
        assert_eq!(block_read(state, &store, 16), Ok(block.clone()));
        let mut runs = [FILL; 132];
        assert_eq!(streams(state, &store, 0, CAR, 0, &mut runs).1, Ok(()));
        assert!(runs[44..].iter().all(|byte| *byte == 2));
        assert!(store[64..].iter().all(|byte| *byte == 2));
    }
}
