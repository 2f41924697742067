//! The histories that a comparison sends, as lines of the protocol `replay`: from a seed and
//! a number, always the same lines.
//!
//! The maker keeps in mind what it has opened and for whom, so that most calls make sense; it
//! answers nothing itself, and where it is mistaken the history is only less orderly.

use crate::codeword::{self, rows_of, segmentation_of, A_MAX, G_MAX};
use crate::crc;
use crate::older::Upwards;
use crate::rate;
use crate::replay::{is_silent, run, LINE_MAX};
use crate::segmentation::{self, Segmentation};
use crate::slots;
use crate::soft_buffer::{n_cb, Receiver, WHOLE_SHARE};
use crate::turbo;
use crate::worst::{self, Worst, THREE};
use crate::xorshift::{self, Generator};

/// A history: lines without their newlines.
pub type History = Vec<Vec<u8>>;

/// S and M that the store has room for, those with slots side by side more often.
const FITTING: [(usize, usize); 8] = [(1, 1), (2, 1), (2, 1), (3, 1), (3, 1), (3, 1), (1, 2), (1, 3)];

/// S and M in range that need a longer store.
const TOO_LARGE: [(usize, usize); 6] = [(2, 2), (4, 1), (1, 4), (3, 2), (8, 5), (1, 5)];

/// S and M that New refuses.
const OUT_OF_RANGE: [(usize, usize); 6] = [(0, 1), (9, 1), (1, 0), (1, 6), (0, 0), (999_999, 999_999)];

/// Few cars, so that one meets what another left.
const TERMINALS: [usize; 5] = [0, 1, 7, 256, 65_535];

const QS: [usize; 3] = [2, 4, 6];
const NS: [usize; 4] = [1, 2, 3, 4];

/// The soft bits of a receiver that K_C divides, under Release 11: by 5, and by 2 up to two layers.
const DIVIDED: [usize; 2] = [35_982_720, 3_654_144];

/// Stands before a read that request E8 of 02 says must give the block.
pub const RELEASED: &str = "# released";

/// The lines that change the form of the rooms.
pub const CHANGES: [&str; 2] = ["pack", "unpack"];

/// Kinds of receivers.
const CUTS: usize = 9;

/// The order in which a car sends the versions, most often.
const USUAL_ORDER: [usize; 4] = [0, 2, 3, 1];

/// The histories 0 to `count` - 1 of a seed.
pub fn all(seed: u64, count: usize) -> Vec<History> {
    let mut seeds = Generator::new(seed);
    (0..count).map(|number| history(number, seeds.number())).collect()
}

/// The history of a number, made from a seed of its own.
fn history(number: usize, seed: u64) -> History {
    let mut maker = Maker { random: Generator::new(seed), lines: Vec::new(), s: 0, m: 0, cars: Vec::new() };
    match number {
        0 => maker.tour(),
        _ if number % 500 == 1 => maker.long_lines(),
        _ if number % 20 == 2 => maker.large(2 + number / 20 % 2),
        _ if number % 40 == 3 => maker.large(1),
        _ if number % 10 == 4 => maker.repeats(),
        _ if number % 40 == 5 => maker.checks(2 + number / 40 % 2),
        _ if number % 10 == 6 => maker.cuts(),
        _ => maker.small(),
    }
    if number % 3 == 2 {
        maker.strew();
    }
    // The last line of a comparison lacks its newline, and must show whether it counts.
    if maker.lines.last().map_or(false, |line| is_silent(line)) {
        maker.sizes();
    }
    maker.lines
}

/// Who has a slot, and what it sends.
#[derive(Clone)]
struct Car {
    terminal: usize,
    block: Vec<u8>,
    /// Each code block's share of the soft buffer.
    share: usize,
    order: [usize; 4],
    /// Transmissions so far.
    sent: usize,
    /// The last reception's Q, N, version and bits.
    last: Option<(usize, usize, usize, Vec<u8>)>,
}

impl Car {
    fn segmentation(&self) -> Segmentation {
        segmentation_of(self.block.len()).expect("A is in range")
    }

    /// What one turn of every circle sends: 3 * D - 2 * F for a code block whose circle is whole.
    fn turn(&self) -> usize {
        let s = self.segmentation();
        (0..s.blocks).map(|r| slots::turn(&s, r, self.share)).sum()
    }

    /// A true transmission.
    fn build(&self, q: usize, n: usize, version: usize, g: usize) -> Result<Vec<u8>, u8> {
        codeword::build_in(self.share, &self.block, q, n, version, g)
    }

    /// A G that gives each code block a whole turn.
    fn whole(&self, symbol: usize) -> usize {
        let s = self.segmentation();
        s.blocks * (3 * (s.long + 4)).up_to_multiple(symbol)
    }

    /// A G that gives each code block a quarter of its circle's places at least, 24 * R: the
    /// versions 0, 1 and 3 together then send every data place.
    fn quarter(&self) -> usize {
        let s = self.segmentation();
        s.blocks * 24 * rate::rows(s.long + 4)
    }

    fn version(&self) -> usize {
        self.order[self.sent % 4]
    }
}

/// What stands where the check of a code block belongs.
#[derive(Clone, Copy)]
enum Check {
    OneBitOff,
    AllBitsOff,
    /// CRC24A, as the partner's unit wrote it.
    TransportKind,
}

/// What is wrong with a transmission.
#[derive(Clone, Copy)]
enum Slip {
    OneBit,
    ManyBits,
    OtherBlock,
    TransportCheck,
    CodeBlockChecks,
}

struct Maker {
    random: Generator,
    lines: History,
    s: usize,
    m: usize,
    /// Of each slot below S, as far as the maker knows.
    cars: Vec<Option<Car>>,
}

impl Maker {
    // Kinds of histories.

    /// Every refusal once, most on a slot of one small block.
    fn tour(&mut self) {
        self.say("sizes 6121");
        self.say("worst 6121 4 1");
        self.say("build 2 1 0 24 1");
        self.say("read 0 7"); // 13: there has been no New
        self.say("new 9 1"); // 13
        self.say("new 2 2");
        self.say("open 0 7 16"); // 5
        self.say("new 2 1");
        self.say("open 2 7 16"); // 6
        self.say("read 0 7"); // 8
        self.say("open 0 7 0"); // 1
        self.say("open 0 7 6121"); // 10
        self.say("open 0 7 16");
        self.say("open 0 7 16"); // 7
        self.say("read 0 8"); // 9
        self.say("read 0 7"); // 11 with 40
        self.say("receive 0 7 2 1 0 010"); // 3
        self.say("receive 0 7 2 1 4 01"); // 4
        self.say("receive 0 7 2 1 0 02"); // 2
        self.say("streams 0 7 1"); // 14
        self.say("streams 0 7 0");
        self.say(format!("receive 0 7 2 1 0 {}", "1".repeat(132)));
        self.say("read 0 7"); // 12
        self.say("read 0  7"); // 15
        let codeword = codeword::build(&xorshift::block(16, 1), 2, 1, 0, 132).expect("a sum of 01");
        self.say(format!("build 2 1 0 132 {}", run(&xorshift::block(16, 1))));
        self.say(format!("receive 0 7 2 1 0 {}", run(&codeword)));
        self.say("read 0 7"); // 11: disputed wherever the block has a 0
        self.say("close 0 7");
        self.say("open 0 7 16");
        self.say(format!("receive 0 7 2 1 0 {}", run(&codeword)));
        self.say("read 0 7");
        self.say(format!("receive 0 7 2 1 0 {}{}", 1 - codeword[0], run(&codeword[1..2])));
        self.say("read 0 7"); // 11 with 1, however often the block comes
        self.say(format!("receive 0 7 2 1 0 {}", run(&codeword)));
        self.say("read 0 7");
        self.say("streams 0 7 0");
        self.say("close 0 7");
        self.say("new 1 2");
        self.say("open 0 7 6121");
        self.say(format!("receive 0 7 2 1 0 {}", "1".repeat(18_840)));
        self.say("read 0 7"); // 16 with 0
        self.say("pack");
        self.say("read 0 7"); // 16 with 0
        self.say("new 2 2");
        self.say("unpack"); // 5
        self.say("new 0 1"); // 13
        self.say("unpack"); // 13
        self.say("new 1 1");
        self.say("unpack");
        self.say("open-down 0 7 16 8 1 8 511 1"); // 21: N_cb is 63, R is 2
        self.say("open-down 0 7 16 8 1 8 512 1");
        self.say("build-down 8 1 8 512 1 2 1 0 24 1");
    }

    /// Lines at their limit and past it, the longest reception and the longest blocks.
    fn long_lines(&mut self) {
        self.say("new 1 1");
        self.say("open 0 7 16");
        let block = run(&xorshift::block(16, self.random.number()));
        self.say(format!("build 6 4 1 {G_MAX} {block}"));
        for length in [G_MAX, G_MAX + 24] {
            let bits = self.bits(length);
            self.say(format!("receive 0 7 6 4 3 {bits}"));
        }
        self.say("streams 0 7 0");
        self.say("read 0 7");
        for length in [LINE_MAX, LINE_MAX + 1] {
            let head = "build 2 1 0 24 ";
            let bits = self.bits(length - head.len());
            self.say(format!("{head}{bits}"));
            self.say("x".repeat(length));
        }
        self.say("#".repeat(LINE_MAX + 1));
        self.say(format!("# {}", "read 0 7 ".repeat(30_000)));
        for length in [A_MAX, A_MAX + 1] {
            let bits = self.bits(length);
            self.say(format!("build 4 2 2 {} {bits}", 8 * 700));
            self.say(format!("build-down 11 1 8 35982720 2 4 2 2 {} {bits}", 8 * 700));
        }
        self.say(" ".repeat(5_000));
        self.say("close 0 7");
    }

    /// Blocks of up to so many code blocks in as many slots as there is room for, twice over:
    /// a circle of the largest K fills its part of the room to the last byte.
    fn large(&mut self, blocks: usize) {
        let (from, to) = [(2_000, 6_120), (6_121, 12_216), (12_217, 18_336)][blocks - 1];
        let layouts: [&[(usize, usize)]; 3] =
            [&[(3, 1), (3, 1), (2, 1), (1, 2)], &[(1, 2), (1, 3)], &[(1, 3)]];
        self.begin_with(layouts[blocks - 1]);
        for from in [from, 1] {
            for slot in 0..self.s {
                let between = self.between(from, to);
                let a = self.random.choose(&[from, to, between, between]);
                let terminal = self.random.choose(&TERMINALS);
                self.open(slot, terminal, a);
                self.own(slot, "read", "");
            }
            for _ in 0..self.between(3, 3 + 3 * self.s) {
                let slot = self.random.below(self.s);
                self.slot_step(slot);
            }
            self.finish_some();
            let open: Vec<usize> = (0..self.s).filter(|slot| self.cars[*slot].is_some()).collect();
            open.into_iter().for_each(|slot| self.close(slot));
        }
    }

    /// Blocks of so many code blocks, heard whole with the check of one of them wrong, of two,
    /// of all, or with the transport check wrong and no other; filler or none, sometimes zeros
    /// alone; then heard rightly, which disputes what was wrong.
    fn checks(&mut self, blocks: usize) {
        let (from, to) = [(6_121, 12_216), (12_217, 18_336)][blocks - 2];
        self.begin(1, blocks);
        let all: Vec<usize> = (0..blocks).collect();
        for wrong in
            [&all[..0], &all[..1], &all[blocks / 2..][..1], &all[blocks - 1..], &all[blocks - 2..], &all]
        {
            let between = self.between(from, to);
            let a = self.random.choose(&[from, to, between, between]);
            let terminal = self.random.choose(&TERMINALS);
            self.open(0, terminal, a);
            if self.random.below(3) == 0 {
                self.car_mut(0).block.fill(0);
            }
            let check = self.random.choose(&[Check::OneBitOff, Check::AllBitsOff, Check::TransportKind]);
            let mut b = crc::attach(&self.car(0).block, &crc::CRC24A);
            if wrong.is_empty() || self.random.below(3) == 0 {
                b[a] ^= 1; // 12, which comes after 16
            }
            let (q, n) = self.allocation();
            let g = self.car(0).whole(q * n);
            let version = self.random.below(4);
            let wrong = wrong.iter().map(|r| (*r, check)).collect::<Vec<_>>();
            let bits = self.codeword_of(&b, WHOLE_SHARE, (q * n, version, g), &wrong);
            self.receive(0, (q, n, version), bits);
            self.own(0, "read", "");
            if self.random.below(2) == 0 {
                let (version, g) = (self.car(0).version(), self.car(0).whole(2));
                self.hear(0, version, g);
            }
            self.close(0);
        }
    }

    /// Some slots and small blocks: everything that can happen.
    fn small(&mut self) {
        match self.random.below(20) {
            0 => self.go_on_from_before(),
            1 => self.begin_with(&OUT_OF_RANGE),
            2 => self.begin_with(&TOO_LARGE),
            _ => self.begin_with(&FITTING),
        }
        for _ in 0..self.between(6, 26) {
            self.step();
        }
        self.finish_some();
    }

    /// What request E8 of 02 promises: three transmissions of versions 0, 1 and 3 in any order, or
    /// one of any version, of the least G or a little more, between other calls, and then a read.
    fn repeats(&mut self) {
        let layouts = [(3, 1), (2, 1), (3, 1), (1, 2), (1, 3)];
        self.begin_with(&layouts);
        let slot = self.random.below(self.s);
        let most = self.random.choose(&[40, 200, 600, 600, 6_120 * self.m]);
        let (a, terminal) = (self.between(1, most), self.random.choose(&TERMINALS));
        self.open(slot, terminal, a);
        let alone = self.random.below(3) == 0;
        let mut versions = if alone { vec![self.random.below(4)] } else { THREE.to_vec() };
        while !versions.is_empty() {
            self.harmless(slot);
            let next = self.random.below(versions.len());
            self.planned(slot, versions.remove(next), alone);
        }
        self.harmless(slot);
        self.say(RELEASED);
        self.own(slot, "read", "");
    }

    /// A true transmission of a version with the least G for some Q and N, or a little more.
    fn planned(&mut self, slot: usize, version: usize, alone: bool) {
        let (q, n) = self.allocation();
        let block = self.car(slot).block.clone();
        let Worst { three, one } = worst::worst(block.len(), q, n).expect("A, Q and N are in range");
        let more = q * n * self.random.choose(&[0, 0, 0, 1, 2, 7]);
        let bits = codeword::build(&block, q, n, version, if alone { one } else { three } + more);
        self.receive(slot, (q, n, version), bits.expect("the least G is one that Build takes"));
    }

    /// Calls that must not keep a block back: on other slots, refused ones, reads, true receptions.
    fn harmless(&mut self, slot: usize) {
        for _ in 0..self.random.below(4) {
            let other = (slot + 1 + self.random.below(self.s)) % self.s;
            match self.random.below(8) {
                0 | 1 if other != slot => self.slot_step(other),
                2 => self.refused_reception(slot),
                3 => self.open_again(slot),
                4 => self.own(slot, "read", ""),
                5 => self.unreadable(),
                _ => self.transmit(slot),
            }
        }
    }

    /// Downlinks whose circles are cut, at each place of a code block's circle that matters, beside
    /// an uplink where there is room: all versions in some order, the last with a whole turn.
    fn cuts(&mut self) {
        self.begin_with(&[(3, 1), (2, 1), (1, 1), (1, 2), (1, 3)]);
        let blocks = 1 + self.random.below(self.m);
        let (from, to) = [(1, 400), (6_121, 12_216), (12_217, 18_336)][blocks - 1];
        for kind in 0..CUTS {
            let slot = self.random.below(self.s);
            let (a, terminal) = (self.between(from, to), self.random.choose(&TERMINALS));
            if blocks > 1 && self.random.below(2) > 0 {
                continue;
            }
            if self.cars[slot].is_some() {
                self.close(slot);
            }
            let receiver = self.receiver(a, kind);
            self.open_down(slot, terminal, a, &receiver);
            for _ in 0..3 {
                if self.cars[slot].is_some() {
                    self.transmit(slot);
                }
                let other = self.random.below(self.s);
                if other != slot {
                    self.slot_step(other);
                }
            }
            if self.cars[slot].is_some() {
                self.finish(slot);
            }
            match self.random.below(4) {
                0 => self.sizes(),
                1 => self.worst(),
                _ => self.build(),
            }
        }
    }

    /// A receiver for a block of A bits: where the cut lies on the circle of one of the code blocks
    /// is chosen by the kind; the last two kinds are refused.
    fn receiver(&mut self, a: usize, kind: usize) -> Receiver {
        let rows = rows_of(&segmentation_of(a).expect("A is in range"));
        let r = self.random.choose(&rows);
        let column = 2 * self.random.below(32) + 32;
        let share = match kind {
            0 => 32 * r,
            1 => 32 * r + 1,
            2 => column * r + self.between(1, 2 * r - 1),
            3 => column * r,
            4 => 96 * r - 1,
            5 => 96 * r,
            6 => 96 * r + self.between(1, 400_000),
            _ => self.random.choose(&[0, 1, 32 * r - 1]),
        };
        let (mimo, processes) = (self.between(1, 2), self.random.choose(&[1, 2, 7, 8, 9, 15, 999_999]));
        let parts = rows.len() * mimo * processes.min(8);
        let soft = share * parts + self.random.below(parts);
        let release = self.random.choose(&[8, 11]);
        let mut receiver = Receiver { release, mimo, processes, soft, layers: self.random.below(5) };
        match kind {
            6 if self.random.below(2) == 0 => receiver.soft = self.random.choose(&DIVIDED),
            8 => match self.random.below(3) {
                0 => receiver.release = self.random.choose(&[0, 7, 9, 10, 12, 999_999]),
                1 => receiver.mimo = self.random.choose(&[0, 3, 999_999]),
                _ => receiver.processes = 0,
            },
            _ => {}
        }
        receiver
    }

    // Twins.

    /// Changes of form strewn between the lines: every other answer stays.
    fn strew(&mut self) {
        let often = self.random.choose(&[2, 4, 10]);
        let lines = std::mem::take(&mut self.lines);
        for line in lines {
            // A read of which something is promised stands behind its mark.
            let marked = self.lines.last().map_or(false, |last| last == RELEASED.as_bytes());
            if !marked && self.random.below(often) == 0 {
                let change = self.random.choose(&CHANGES);
                self.say(change);
            }
            self.lines.push(line);
        }
    }

    // Beginnings.

    /// No New: what the history before left open may be met.
    fn go_on_from_before(&mut self) {
        (self.s, self.m) = (3, 1);
        self.cars = vec![None; 3];
        for _ in 0..6 {
            let slot = self.random.below(3);
            self.stranger(slot);
        }
    }

    fn begin_with(&mut self, choice: &[(usize, usize)]) {
        let (s, m) = self.random.choose(choice);
        self.begin(s, m);
    }

    fn begin(&mut self, s: usize, m: usize) {
        self.say(format!("new {s} {m}"));
        (self.s, self.m) = (s.clamp(1, 8), m.clamp(1, 5));
        self.cars = vec![None; self.s];
    }

    // Steps.

    fn step(&mut self) {
        let slot = self.random.below(self.s);
        match self.random.below(100) {
            0..=5 => self.unreadable(),
            6..=7 => self.silent(),
            8..=11 => self.build(),
            12 => self.sizes(),
            13..=14 => self.no_such_slot(),
            15 => self.begin_with(&FITTING),
            16 if self.random.below(4) == 0 => self.begin_with(&OUT_OF_RANGE),
            17..=18 => self.worst(),
            _ => self.slot_step(slot),
        }
    }

    fn slot_step(&mut self, slot: usize) {
        if self.cars[slot].is_none() {
            return self.closed_step(slot);
        }
        match self.random.below(100) {
            0..=39 => self.transmit(slot),
            40..=51 => self.own(slot, "read", ""),
            52..=59 => self.streams(slot),
            60..=66 => self.close(slot),
            67..=73 => self.stranger(slot),
            74..=76 => self.open_again(slot),
            77..=85 => self.slipped(slot),
            86..=91 => self.refused_reception(slot),
            _ => self.again(slot),
        }
    }

    fn closed_step(&mut self, slot: usize) {
        let terminal = self.random.choose(&TERMINALS);
        match self.random.below(10) {
            0 => self.stranger(slot),
            1 => {
                let a = self.random.choose(&[0, A_MAX + 1, 65_536, 999_999, A_MAX, 6_121, 12_217, 18_337]);
                self.say(format!("open {slot} {terminal} {a}"));
            }
            2 => {
                let far = self.random.choose(&[0, A_MAX + 1, 999_999, 6_121, 18_337]);
                self.say(format!("open-down {slot} {terminal} {far} 11 1 8 999999 2"));
            }
            chosen => {
                let most = self.random.choose(&[16, 40, 80, 80, 200, 600]);
                let a = self.between(1, most);
                if chosen > 6 {
                    let kind = self.random.below(CUTS);
                    let receiver = self.receiver(a, kind);
                    return self.open_down(slot, terminal, a, &receiver);
                }
                self.open(slot, terminal, a);
            }
        }
    }

    fn open(&mut self, slot: usize, terminal: usize, a: usize) {
        self.say(format!("open {slot} {terminal} {a}"));
        self.take(slot, terminal, a, WHOLE_SHARE);
    }

    fn open_down(&mut self, slot: usize, terminal: usize, a: usize, receiver: &Receiver) {
        self.say(format!("open-down {slot} {terminal} {a} {}", words(receiver)));
        let rows = rows_of(&segmentation_of(a).expect("A is in range"));
        if let Ok(share) = receiver.share(&rows) {
            self.take(slot, terminal, a, share);
        }
    }

    /// The slot is this car's.
    fn take(&mut self, slot: usize, terminal: usize, a: usize, share: usize) {
        let block = self.block(a);
        let mut order = USUAL_ORDER;
        if self.random.below(3) == 0 {
            order = [0; 4].map(|_| self.random.below(4));
        }
        self.cars[slot] = Some(Car { terminal, block, share, order, sent: 0, last: None });
    }

    fn open_again(&mut self, slot: usize) {
        let own = self.car(slot).terminal;
        let terminal = self.random.choose(&[own, 0, 7]);
        let a = self.random.choose(&[0, 1, 16, 40, A_MAX + 1]);
        let (verb, receiver) = self.random.choose(&[("open", ""), ("open-down", " 11 1 8 0 2")]);
        self.say(format!("{verb} {slot} {terminal} {a}{receiver}"));
    }

    fn close(&mut self, slot: usize) {
        self.own(slot, "close", "");
        self.cars[slot] = None;
    }

    fn streams(&mut self, slot: usize) {
        let blocks = self.car(slot).segmentation().blocks;
        let code_block = self.random.below(blocks);
        self.own(slot, "streams", &format!(" {code_block}"));
        if self.random.below(8) == 0 {
            let far = self.random.choose(&[blocks, self.m, 5, 999_999]);
            self.own(slot, "streams", &format!(" {far}"));
        }
    }

    /// A call by a terminal that need not have the slot.
    fn stranger(&mut self, slot: usize) {
        let terminal = self.random.choose(&TERMINALS);
        match self.random.below(4) {
            0 => self.say(format!("read {slot} {terminal}")),
            1 => self.say(format!("streams {slot} {terminal} 0")),
            2 => self.say(format!("close {slot} {terminal}")),
            _ => {
                let (version, bits) = (self.random.below(4), self.bits(24));
                self.say(format!("receive {slot} {terminal} 2 1 {version} {bits}"));
            }
        }
    }

    /// A call on a slot that is none.
    fn no_such_slot(&mut self) {
        let slot = self.random.choose(&[self.s, self.s, self.s + 1, 8, 255, 256, 65_536, 999_999]);
        let call = self.random.choose(&[
            "open S 7 16",
            "open S 7 0",
            "open-down S 7 16 11 1 8 0 1",
            "receive S 7 2 1 0 01",
            "read S 7",
            "close S 7",
        ]);
        self.say(call.replace('S', &slot.to_string()));
    }

    // Receptions.

    /// The next true transmission of the slot's car.
    fn transmit(&mut self, slot: usize) {
        let (q, n) = self.allocation();
        let g = self.some_length(slot, q * n);
        let car = self.car(slot);
        let version = car.version();
        if let Ok(bits) = car.build(q, n, version, g) {
            self.receive(slot, (q, n, version), bits);
        }
    }

    fn finish_some(&mut self) {
        for slot in 0..self.s {
            if self.cars[slot].is_some() && self.random.below(2) == 0 {
                self.finish(slot);
            }
        }
    }

    /// What completes a block: read before and after, and looked at.
    fn finish(&mut self, slot: usize) {
        self.own(slot, "read", "");
        if self.random.below(2) == 0 {
            self.slipped(slot);
        }
        if self.random.below(2) == 0 {
            let (version, g) = (self.car(slot).version(), self.car(slot).whole(2));
            self.hear(slot, version, g);
        } else {
            let quarter = self.car(slot).quarter();
            for version in self.car(slot).order {
                self.hear(slot, version, quarter);
            }
        }
        let last = self.car(slot).segmentation().blocks - 1;
        self.own(slot, "streams", &format!(" {last}"));
        match self.random.below(3) {
            0 => self.stranger(slot),
            1 => self.close(slot),
            _ => {}
        }
    }

    /// A true transmission with Q = 2 and N = 1, then a read.
    fn hear(&mut self, slot: usize, version: usize, g: usize) {
        let bits = self.car(slot).build(2, 1, version, g);
        self.receive(slot, (2, 1, version), bits.expect("G is even and long enough"));
        self.own(slot, "read", "");
    }

    /// A reception that is not a true transmission, then often a look at what it made.
    fn slipped(&mut self, slot: usize) {
        let (q, n) = self.allocation();
        let slips =
            [Slip::OneBit, Slip::ManyBits, Slip::OtherBlock, Slip::TransportCheck, Slip::CodeBlockChecks];
        let slip = self.random.choose(&slips);
        let whole = self.car(slot).whole(q * n);
        let short = self.some_length(slot, q * n);
        let g = self.random.choose(&[short, whole, whole]);
        let version = self.random.below(4);
        let bits = self.slip(slip, slot, (q * n, version, g));
        self.receive(slot, (q, n, version), bits);
        if self.random.below(3) > 0 {
            self.own(slot, "read", "");
        }
    }

    fn slip(&mut self, slip: Slip, slot: usize, (symbol, version, g): (usize, usize, usize)) -> Vec<u8> {
        let block = self.car(slot).block.clone();
        let mut b = crc::attach(&block, &crc::CRC24A);
        match slip {
            Slip::OtherBlock => b = crc::attach(&self.block(block.len()), &crc::CRC24A),
            Slip::TransportCheck => {
                let place = block.len() + self.random.below(24);
                b[place] ^= 1;
            }
            _ => {}
        }
        let wrong = match slip {
            Slip::CodeBlockChecks => self.some_checks(self.car(slot).segmentation().blocks),
            _ => Vec::new(),
        };
        let mut bits = self.codeword_of(&b, self.car(slot).share, (symbol, version, g), &wrong);
        let flips = match slip {
            Slip::OneBit => 1,
            Slip::ManyBits => 1 + bits.len() / 5,
            _ => 0,
        };
        for _ in 0..flips {
            let place = self.random.below(bits.len());
            bits[place] ^= 1;
        }
        bits
    }

    /// One or more code blocks of several, and what stands for their checks.
    fn some_checks(&mut self, blocks: usize) -> Vec<(usize, Check)> {
        if blocks == 1 {
            return Vec::new();
        }
        let chosen = 1 + self.random.below((1 << blocks) - 1);
        let checks = [Check::OneBitOff, Check::AllBitsOff, Check::TransportKind];
        let wrong = (0..blocks).filter(|r| chosen >> r & 1 > 0);
        wrong.map(|r| (r, self.random.choose(&checks))).collect()
    }

    /// The codeword of a block with its transport check as given, right or wrong; in place of
    /// the checks of some code blocks something else.
    fn codeword_of(
        &mut self,
        b: &[u8],
        share: usize,
        (symbol, version, g): (usize, usize, usize),
        wrong: &[(usize, Check)],
    ) -> Vec<u8> {
        let s = Segmentation::of(b.len());
        let shares = rate::shares(g, symbol, s.blocks);
        let mut codeword = Vec::new();
        let mut code_blocks = segmentation::code_blocks(b, &s);
        for &(r, check) in wrong {
            let (data, parity) = code_blocks[r].split_at_mut(s.size(r) - s.parity);
            match check {
                Check::OneBitOff => parity[self.random.below(s.parity)] ^= 1,
                Check::AllBitsOff => parity.iter_mut().for_each(|bit| *bit ^= 1),
                Check::TransportKind => parity.copy_from_slice(&crc::parity(data, &crc::CRC24A)),
            }
        }
        for (r, c) in code_blocks.into_iter().enumerate() {
            let cut = n_cb(share, rate::rows(s.size(r) + 4));
            codeword.extend(rate::match_cut(&turbo::encode(&c, s.filler_in(r)), cut, version, shares[r]));
        }
        codeword
    }

    /// 3, 4, 2, or several of them at once.
    fn refused_reception(&mut self, slot: usize) {
        let (mut q, mut n) = self.allocation();
        let mut version = self.random.below(4);
        let mut bits = vec![1; self.some_length(slot, q * n).min(600).up_to_multiple(q * n)];
        let faults = 1 + self.random.below(7);
        if faults & 1 > 0 {
            match self.random.below(4) {
                0 => q = self.random.choose(&[0, 1, 3, 5, 8, 999_999]),
                1 => n = self.random.choose(&[0, 5, 6, 999_999]),
                2 => bits.truncate(self.car(slot).segmentation().blocks * q * n - 1),
                _ => bits.push(0),
            }
        }
        if faults & 2 > 0 {
            version = self.random.choose(&[4, 5, 256, 260, 65_536, 999_999]);
        }
        if faults & 4 > 0 {
            let last = bits.len() - 1;
            let place = self.random.choose(&[0, last, last / 2]);
            bits[place] = self.between(2, 9) as u8;
        }
        self.receive(slot, (q, n, version), bits);
        if self.random.below(2) == 0 {
            self.streams(slot);
        }
    }

    /// The last reception again, as it was or contradicted, sometimes within one reception
    /// that comes round to its own places.
    fn again(&mut self, slot: usize) {
        let (q, n, version, mut bits) = match self.car(slot).last.clone() {
            Some(last) => last,
            None => return self.transmit(slot),
        };
        let contradiction = self.random.below(3);
        bits.iter_mut().for_each(|bit| match contradiction {
            0 => *bit ^= 1,
            1 if self.random.below(4) == 0 => *bit ^= 1,
            _ => {}
        });
        let turn = self.car(slot).turn();
        if turn < 1_000 && self.random.below(2) == 0 {
            let rounds = self.between(1, 4);
            if let Ok(turns) = self.car(slot).build(q, n, version, rounds * turn) {
                bits = [turns, bits].concat();
            }
        }
        self.receive(slot, (q, n, version), bits);
    }

    fn receive(&mut self, slot: usize, (q, n, version): (usize, usize, usize), bits: Vec<u8>) {
        self.own(slot, "receive", &format!(" {q} {n} {version} {}", run(&bits)));
        if let Some(car) = &mut self.cars[slot] {
            car.sent += 1;
            if bits.iter().all(|bit| *bit < 2) {
                car.last = Some((q, n, version, bits));
            }
        }
    }

    /// A G for the slot's block: the least, a part of a turn most often, sometimes more.
    fn some_length(&mut self, slot: usize, symbol: usize) -> usize {
        let (blocks, turn) = (self.car(slot).segmentation().blocks, self.car(slot).turn());
        let (from, to) = match self.random.below(12) {
            0 => (symbol * blocks, symbol * blocks),
            1..=3 => (symbol * blocks, turn / 4),
            4..=8 => (turn / 4, turn / 2),
            9..=10 => (turn - turn.min(40), turn),
            _ if turn < 1_000 => (turn, 3 * turn),
            _ => (turn / 2, turn),
        };
        let least = symbol * blocks;
        self.between(from.max(least), to.max(least)) / symbol * symbol
    }

    // Calls without a state, and lines without a call.

    fn build(&mut self) {
        let (mut q, mut n) = self.allocation();
        let most = self.random.choose(&[20, 40, 100, 300]);
        let a = self.between(1, most);
        let mut block = self.block(a);
        let mut version = self.random.below(4);
        let mut g = q * n * self.between(1, 40);
        match self.random.below(12) {
            0 => q = self.random.choose(&[0, 3, 7, 8]),
            1 => n = self.random.choose(&[0, 5]),
            2 => g = self.random.choose(&[0, g + 1, G_MAX + 24, 999_999]),
            3 => version = self.random.choose(&[4, 256]),
            4 => block[a - 1] = self.between(2, 9) as u8,
            _ => {}
        }
        let call = format!("{q} {n} {version} {g} {}", run(&block));
        if self.random.below(2) == 0 {
            return self.say(format!("build {call}"));
        }
        let kind = self.random.below(CUTS);
        let receiver = words(&self.receiver(a, kind));
        self.say(format!("build-down {receiver} {call}"));
    }

    fn sizes(&mut self) {
        let near = [0, 1, 16, 6_120, 6_121, 12_216, 12_217, 18_336, 24_456, A_MAX, A_MAX + 1, 999_999];
        let a = match self.random.below(3) {
            0 => self.random.choose(&near),
            _ => self.between(1, A_MAX),
        };
        self.say(format!("sizes {a}"));
    }

    fn worst(&mut self) {
        let near = [0, 16, 6_121, 12_217, A_MAX, A_MAX + 1];
        let a = match self.random.below(3) {
            0 => self.random.choose(&near),
            _ => self.between(1, A_MAX),
        };
        let (mut q, mut n) = self.allocation();
        match self.random.below(8) {
            0 => q = self.random.choose(&[0, 1, 3, 8, 999_999]),
            1 => n = self.random.choose(&[0, 5, 999_999]),
            _ => {}
        }
        self.say(format!("worst {a} {q} {n}"));
    }

    fn silent(&mut self) {
        let line = self.random.choose(&["", "#", "# a remark", "#new 1 1", "#\ttab", "##"]);
        self.say(line);
    }

    /// A call with something wrong in its form, so that it is not to be read.
    fn unreadable(&mut self) {
        let slot = self.random.below(self.s);
        let terminal = self.cars[slot].as_ref().map_or(0, |car| car.terminal);
        // The 2 keeps a line that can be read after all from bringing bits.
        let bits = self.bits(3) + "2";
        let calls = [
            "new 1 1".to_string(),
            format!("open {slot} {terminal} 16"),
            format!("receive {slot} {terminal} 2 1 0 {bits}"),
            format!("read {slot} {terminal}"),
            format!("streams {slot} {terminal} 0"),
            format!("close {slot} {terminal}"),
            format!("build 2 1 0 24 {bits}"),
            "sizes 16".to_string(),
            "worst 16 2 1".to_string(),
            format!("open-down {slot} {terminal} 16 8 2 8 35982720 4"),
            format!("build-down 11 1 8 35982720 2 2 1 0 24 {bits}"),
        ];
        let line = calls[self.random.below(calls.len())].clone().into_bytes();
        let spoiled = self.spoil(line);
        self.lines.push(spoiled);
    }

    fn spoil(&mut self, mut line: Vec<u8>) -> Vec<u8> {
        let blanks: Vec<usize> = (0..line.len()).filter(|at| line[*at] == b' ').collect();
        let blank = self.random.choose(&blanks);
        let any = self.random.below(line.len());
        match self.random.below(16) {
            0 => line.insert(blank, b' '),
            1 => line.insert(0, b' '),
            2 => line.push(b' '),
            3 => line.truncate(blank),
            4 => line.truncate(blank + 1),
            5 => line.extend(b" 0"),
            6 => line[blank] = b'\t',
            7 => line.push(b'\r'),
            8 => line.insert(any, 0),
            9 => {
                line.insert(any, self.random.choose(&[b'-', b'+', b'x', b'.', b',', b'/', b':', 0xFF, 0x80]))
            }
            10 => line.insert(blank + 1, b'0'),
            11 => line.splice(blank + 1..blank + 1, *b"100000").for_each(drop),
            12 => line.make_ascii_uppercase(),
            13 => line[0] += 1,
            14 => line = self.far_terminal(),
            _ => line = self.random.choose(&[
                " ", "call", "ok", "-", "0", "new", "\t", "\r", "pack ", " unpack", "pack 0", "Pack", "packs",
                "unpack\r", "open-down", "build-down 11 1 8 123456789 2 2 1 0 24 1",
            ]).into(),
        }
        line
    }

    /// A terminal number that is none.
    fn far_terminal(&mut self) -> Vec<u8> {
        let call = self.random.choose(&[
            "open 0 T 16",
            "receive 0 T 2 1 0 01",
            "read 0 T",
            "streams 0 T 0",
            "close 0 T",
            "open-down 0 T 16 11 1 8 999999 2",
        ]);
        let terminal = self.random.choose(&["65536", "65537", "99999", "131072", "999999", "1000000", "00"]);
        call.replace('T', terminal).into_bytes()
    }

    // Helps.

    fn say(&mut self, line: impl Into<String>) {
        self.lines.push(line.into().into_bytes());
    }

    /// A call on a slot by the car that has it.
    fn own(&mut self, slot: usize, word: &str, rest: &str) {
        let terminal = self.car(slot).terminal;
        self.say(format!("{word} {slot} {terminal}{rest}"));
    }

    fn car(&self, slot: usize) -> &Car {
        self.cars[slot].as_ref().expect("a step on an open slot")
    }

    fn car_mut(&mut self, slot: usize) -> &mut Car {
        self.cars[slot].as_mut().expect("a step on an open slot")
    }

    fn between(&mut self, from: usize, to: usize) -> usize {
        from + self.random.below(to - from + 1)
    }

    fn allocation(&mut self) -> (usize, usize) {
        (self.random.choose(&QS), self.random.choose(&NS))
    }

    fn block(&mut self, a: usize) -> Vec<u8> {
        xorshift::block(a, self.random.number())
    }

    fn bits(&mut self, length: usize) -> String {
        run(&self.block(length))
    }
}

/// A receiver as the words of a line.
fn words(receiver: &Receiver) -> String {
    let Receiver { release, mimo, processes, soft, layers } = receiver;
    format!("{release} {mimo} {processes} {soft} {layers}")
}
