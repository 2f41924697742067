//! Receive and Read for speed give what the literal ones give: the same answers, refusals
//! and bytes.

use independent::codeword::{build, G_MAX};
use independent::crc;
use independent::fast_slots::{self, Workspace};
use independent::packing;
use independent::rate;
use independent::segmentation::{self, Segmentation};
use independent::sizes::sizes;
use independent::slots::{self, Head, Refusal, State, ROOM_OF_BLOCK, UNHEARD};
use independent::table::TABLE;
use independent::turbo;
use independent::soft_buffer::WHOLE_SHARE;
use independent::xorshift::{self, Generator};

const CAR: u16 = 7;

/// What no call writes.
const FILL: u8 = 9;

/// A slot for both, and the store of each.
struct Both {
    state: State,
    slot: usize,
    literal: Vec<u8>,
    quick: Vec<u8>,
    workspace: Workspace,
}

impl Both {
    /// The last of so many slots of M code blocks, open for CAR, over a store that is longer
    /// than it need be.
    fn opened(a: usize, slots: usize, m: usize) -> Both {
        let mut store = vec![FILL; slots * m * ROOM_OF_BLOCK + 5];
        let (state, _) = slots::new(slots, m);
        let (state, answer) = slots::open(state, &mut store, slots - 1, CAR, a);
        assert_eq!(answer, Ok(()));
        Both { state, slot: slots - 1, quick: store.clone(), literal: store, workspace: Workspace::default() }
    }

    /// One with as many code blocks as A needs.
    fn of(a: usize) -> Both {
        Both::opened(a, 1, sizes(a).unwrap().blocks)
    }

    fn receive(&mut self, [q, n, version]: [usize; 3], bits: &[u8]) -> Result<usize, Refusal> {
        let Both { state, slot, .. } = *self;
        let mut packed = packed(&self.literal);
        let answer = slots::receive(state, &mut self.literal, slot, CAR, q, n, version, bits).1;
        assert_eq!(
            fast_slots::receive(&state, &mut self.quick, slot, CAR, q, n, version, bits),
            answer,
            "{state:?}, {q} {n} {version}, G = {}",
            bits.len()
        );
        assert!(self.quick == self.literal, "{state:?}, {q} {n} {version}, G = {}", bits.len());
        assert_eq!(fast_slots::receive_packed(&state, &mut packed, slot, CAR, q, n, version, bits), answer);
        assert!(packed == self::packed(&self.literal), "{state:?}, {q} {n} {version}, G = {}", bits.len());
        answer
    }

    fn read(&mut self, room: usize) -> Result<Vec<u8>, Refusal> {
        let Both { state, slot, .. } = *self;
        let mut literal = vec![FILL; room];
        let mut quick = literal.clone();
        let answer = slots::read(state, &self.literal, slot, CAR, &mut literal).1;
        assert_eq!(self.workspace.read(&state, &self.quick, slot, CAR, &mut quick), answer);
        assert!(quick == literal, "{state:?}");
        let mut quick = vec![FILL; room];
        let again = self.workspace.read_packed(&state, &packed(&self.literal), slot, CAR, &mut quick);
        assert_eq!(again, answer);
        assert!(quick == literal, "{state:?}");
        answer.map(|()| literal)
    }

    /// A true transmission of G bits and a read.
    fn hear(&mut self, block: &[u8], numbers: [usize; 3], g: usize) -> Result<(), Refusal> {
        let [q, n, version] = numbers;
        self.receive(numbers, &build(block, q, n, version, g).unwrap())?;
        let output = self.read(block.len() + 2)?;
        assert!(output[..block.len()] == *block);
        Ok(())
    }
}

/// The packed form of a store, as far as it makes whole bytes.
fn packed(store: &[u8]) -> Vec<u8> {
    store.chunks_exact(4).map(|four| packing::packed([four[0], four[1], four[2], four[3]])).collect()
}

/// 3 * D - 2 * F over all code blocks: what one turn of every circle sends.
fn mother_code(a: usize) -> usize {
    let s = sizes(a).unwrap();
    (0..s.blocks).map(|r| 3 * (s.size(r) + 4) - 2 * s.filler_in(r)).sum()
}

/// The multiple of Q * N next below `g`, within what G may be for `a`.
fn allowed(g: usize, q: usize, n: usize, a: usize) -> usize {
    let least = sizes(a).unwrap().blocks;
    q * n * (g.min(G_MAX) / (q * n)).max(least)
}

#[test]
fn every_row_of_the_table_with_and_without_filler() {
    for pair in TABLE.windows(2) {
        for b in [pair[0].k.max(25), pair[0].k + 1] {
            let a = b - 24;
            let block = xorshift::block(a, b as u64);
            let turn = mother_code(a);
            for (version, g) in [(b % 4, turn / 3), ((b + 1) % 4, turn + 48)] {
                let _ = Both::of(a).hear(&block, [2, 1, version], allowed(g, 2, 1, a));
            }
        }
    }
}

#[test]
fn circles_that_are_cut() {
    let mut random = Generator::new(23);
    for a in [1, 16, 40, 488, 6_120, 6_121, 12_217] {
        let rows = rate::rows(sizes(a).unwrap().long + 4);
        let column = 32 + 2 * random.below(32);
        for share in [
            32 * rows,
            32 * rows + 1,
            50 * rows,
            column * rows + 1 + random.below(2 * rows - 1),
            column * rows,
            96 * rows - 1,
            96 * rows,
            96 * rows + 77,
        ] {
            for version in 0..4 {
                let mut both = Both::of(a);
                both.state.heads[0].share = share;
                let turn = (0..sizes(a).unwrap().blocks).map(|r| slots::turn(&sizes(a).unwrap(), r, share));
                let turn = turn.sum::<usize>();
                let g = random.choose(&[turn / 3, turn + 8, 2 * turn + 2, 3 * turn + 24]);
                let bits = xorshift::block(allowed(g, 2, 1, a), random.number());
                let _ = both.receive([2, 1, version], &bits);
                let block = xorshift::block(a, random.number());
                let g = allowed(2 * turn, 2, 1, a);
                let mut both = Both::of(a);
                both.state.heads[0].share = share;
                let bits = independent::codeword::build_in(share, &block, 2, 1, version, g).unwrap();
                assert_eq!(both.receive([2, 1, version], &bits), Ok(0));
                assert_eq!(both.read(a), Ok(block));
            }
        }
    }
}

#[test]
fn rooms_of_any_bytes_and_contradictions_within_a_reception() {
    let mut random = Generator::new(22);
    for a in [1, 16, 40, 600, 6_120, 6_121] {
        let turn = mother_code(a);
        for g in [turn / 2, turn + 8, 2 * turn, 2 * turn + 2, 3 * turn + 24, 7 * turn] {
            let mut both = Both::of(a);
            both.literal.iter_mut().for_each(|byte| *byte = random.choose(&[0, 1, 2, 3, 4, 255]));
            both.quick = both.literal.clone();
            let bits = xorshift::block(allowed(g, 2, 1, a), random.number());
            let _ = both.receive([2, 1, random.below(4)], &bits);
        }
    }
}

#[test]
fn every_number_of_code_blocks_allocation_and_version() {
    for (from, to) in [(1, 6_120), (6_121, 12_216), (12_217, 18_336), (18_337, 24_456), (24_457, 30_576)] {
        let mut random = Generator::new(from as u64);
        for case in 0..24 {
            let (q, n) = (2 + 2 * (case / 8), 1 + case / 2 % 4);
            let a = from + random.below(to - from + 1);
            let block = xorshift::block(a, random.number());
            let turn = mother_code(a);
            let mut both = Both::of(a);
            for g in [0, random.below(turn), turn - 1, turn, turn + 24] {
                let version = random.below(4);
                let _ = both.hear(&block, [q, n, version], allowed(g, q, n, a));
            }
        }
    }
}

#[test]
fn several_turns_and_the_longest_reception() {
    for (case, a) in
        [1, 2, 15, 16, 17, 40, 488, 489, 1_000, 6_120, 6_121, 12_217, 30_576].into_iter().enumerate()
    {
        for version in 0..4 {
            let (q, n) = ([2, 4, 6][(case + version) % 3], 1 + (case + version / 2) % 4);
            let g = allowed(5 * mother_code(a) / 2, q, n, a);
            // No true transmission: each turn has bits of its own.
            let mut both = Both::of(a);
            for g in [g, G_MAX / (q * n) * (q * n)] {
                both.receive([q, n, version], &xorshift::block(g, (g + version) as u64)).unwrap();
            }
            let block = xorshift::block(a, version as u64);
            assert_eq!(Both::of(a).hear(&block, [q, n, version], g), Ok(()));
        }
    }
}

#[test]
fn every_length_of_small_blocks() {
    for a in 1..=700 {
        let block = xorshift::block(a, a as u64);
        let g = allowed(mother_code(a) + 16, 4, 2, a);
        assert_eq!(Both::of(a).hear(&block, [4, 2, a % 4], g), Ok(()));
    }
}

#[test]
fn other_rooms_and_what_they_hold() {
    let mut random = Generator::new(3);
    for a in [1, 17, 6_120, 6_121] {
        let mut both = Both::opened(a, 3, 2);
        both.literal.iter_mut().for_each(|byte| *byte = [0, 1, UNHEARD, 255][random.below(4)]);
        both.quick = both.literal.clone();
        let _ = both.read(a);
        for version in [2, 3, 0] {
            let _ = both.hear(&xorshift::block(a, 5), [2, 1, version], allowed(a, 2, 1, a));
        }
    }
}

#[test]
fn a_damaged_bit_is_refused_by_both() {
    // Code blocks of one size, so that every share is a whole turn.
    for (a, refusal) in [(40, Refusal::Number(12)), (12_216, Refusal::CodeBlockWrong(0))] {
        let block = xorshift::block(a, 1);
        let mut bits = build(&block, 2, 1, 0, mother_code(a)).unwrap();
        bits[0] ^= 1;
        let mut both = Both::of(a);
        assert_eq!(both.receive([2, 1, 0], &bits), Ok(0));
        assert_eq!(both.read(a), Err(refusal));
        bits[1] = 2;
        assert_eq!(both.receive([2, 1, 0], &bits), Err(Refusal::Number(2)));
    }
}

/// The codeword of a block with its transport check as given, one turn of each circle, with
/// something else for the checks of some code blocks.
fn with_checks(b: &[u8], wrong: &[usize], check: impl Fn(&[u8], &mut [u8])) -> Vec<u8> {
    let s = Segmentation::of(b.len());
    let mut code_blocks = segmentation::code_blocks(b, &s);
    for r in wrong {
        let (data, parity) = code_blocks[*r].split_at_mut(s.size(*r) - 24);
        check(data, parity);
    }
    let shares = rate::shares(s.blocks * 3 * (s.long + 4), 2, s.blocks);
    let sent = code_blocks.iter().enumerate();
    sent.flat_map(|(r, c)| rate::match_block(&turbo::encode(c, s.filler_in(r)), 0, shares[r])).collect()
}

#[test]
fn the_first_wrong_code_block_is_named() {
    // With filler in block 0 and without, of two, three and five code blocks.
    for a in [6_121, 12_216, 12_217, 18_336, 30_576] {
        let last = sizes(a).unwrap().blocks - 1;
        for block in [xorshift::block(a, 2), vec![0; a]] {
            let b = crc::attach(&block, &crc::CRC24A);
            let mut off = b.clone();
            off[a] ^= 1;
            for wrong in [&[0][..], &[last / 2], &[last], &[0, last], &[last - 1, last]] {
                for b in [&b, &off] {
                    let mut both = Both::of(a);
                    let bits = with_checks(b, wrong, |_, parity| parity[23] ^= 1);
                    assert_eq!(both.receive([2, 1, 0], &bits), Ok(0));
                    assert_eq!(both.read(a), Err(Refusal::CodeBlockWrong(wrong[0])));
                }
            }
            let mut both = Both::of(a);
            assert_eq!(both.receive([2, 1, 0], &with_checks(&off, &[], |_, _| ())), Ok(0));
            assert_eq!(both.read(a), Err(Refusal::Number(12)));
        }
    }
}

#[test]
fn the_partner_s_check_is_seen_but_on_zeros() {
    let a = 6_121;
    let both_wrong =
        |data: &[u8], parity: &mut [u8]| parity.copy_from_slice(&crc::parity(data, &crc::CRC24A));
    for (block, answer) in [
        (xorshift::block(a, 1), Err(Refusal::CodeBlockWrong(0))),
        (vec![0; a], Ok(vec![0; a])), // both checks of zeros are zeros
    ] {
        let bits = with_checks(&crc::attach(&block, &crc::CRC24A), &[0, 1], both_wrong);
        let mut both = Both::of(a);
        assert_eq!(both.receive([2, 1, 0], &bits), Ok(0));
        assert_eq!(both.read(a), answer);
    }
}

#[test]
fn refusals_in_their_order() {
    let head = |open, terminal, a, share| Head { open, terminal, a, share };
    let sizes = [0, 1, 6_120, 6_121, 30_576, 30_577, usize::MAX];
    let mut random = Generator::new(4);
    for _ in 0..20_000 {
        let mut state = State { s: random.below(10), m: random.below(7), ..State::default() };
        for at in &mut state.heads {
            *at = head(
                random.below(2) == 0,
                random.below(2) as u16,
                [40, sizes[random.below(7)]][random.below(2)],
                [WHOLE_SHARE, WHOLE_SHARE, 96, 6_176, 95, 0][random.below(6)],
            );
        }
        let mut literal = vec![FILL; random.below(9) * random.below(6) * ROOM_OF_BLOCK];
        let mut quick = literal.clone();
        let (slot, terminal) = (random.below(9), random.below(2) as u16);
        let [q, n, version] = [random.below(8), random.below(6), random.below(6)];
        let bits = vec![random.below(8) as u8 / 3; [12, 24, random.below(300)][random.below(3)]];
        let answer = slots::receive(state, &mut literal, slot, terminal, q, n, version, &bits).1;
        let other = fast_slots::receive(&state, &mut quick, slot, terminal, q, n, version, &bits);
        assert_eq!(other, answer, "{state:?} {slot} {terminal} {q} {n} {version}");
        assert!(quick == literal);
        let mut output = vec![FILL; [0, 39, 40, 30_576][random.below(4)]];
        let answer = slots::read(state, &literal, slot, terminal, &mut output).1;
        let mut output = vec![FILL; output.len()];
        assert_eq!(
            Workspace::default().read(&state, &quick, slot, terminal, &mut output),
            answer,
            "{state:?}"
        );
    }
}
