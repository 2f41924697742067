//! The cases that a comparison sends: from a seed, always the same ones in the same order.
//!
//! A case is a description; the block's bits are made when they are needed.

use crate::cases_control;
use crate::codeword::{segmentation_of, A_MAX, G_MAX};
use crate::control;
use crate::packing::PACKED_OF_BLOCK;
use crate::protocol::{BLOCK_MAX, OUTPUT_MAX};
use crate::report::{self, CONTROL_MAX, O_MAX};
use crate::slots::{BLOCKS_MAX, ROOM_OF_BLOCK};
use crate::soft_buffer::Receiver;
use crate::table::TABLE;
use crate::xorshift::{self, Generator};

#[derive(Clone, Debug)]
pub struct Case {
    /// What the case is there for.
    pub group: &'static str,
    pub asked: Asked,
    pub output_length: usize,
    /// What the output holds before the call: never a bit.
    pub fill: u8,
    pub null_block: bool,
    pub null_output: bool,
    pub null_payload: bool,
}

#[derive(Clone, Debug)]
pub enum Asked {
    Build(Build),
    /// The block in two slices, cut behind so many bits.
    BuildTwo(Build, usize),
    BuildDown(Build, Receiver),
    Sizes(usize),
    ReportBuild(ReportBuild),
    ReportPart(ReportPart),
    Control(Control),
    Whose(Block),
    Change(Change),
}

/// The change of form of one room.
#[derive(Clone, Debug)]
pub struct Change {
    pub way: Way,
    pub m: usize,
    /// How many bytes are lent to be changed, and what makes them.
    pub length: usize,
    pub seed: u64,
}

#[derive(Clone, Copy, Debug, PartialEq, Eq)]
pub enum Way {
    Pack,
    Unpack,
}

impl Change {
    /// Any bytes; to be packed, often places as a room has them, now and then higher ones.
    pub fn bytes(&self) -> Vec<u8> {
        let mut random = Generator::new(self.seed);
        let mut byte = || random.below(256) as u8;
        let mut any = |_| match self.way {
            Way::Pack => byte() >> (byte() & 7),
            Way::Unpack => byte(),
        };
        (0..self.length).map(&mut any).collect()
    }
}

/// A report ahead of a block.
#[derive(Clone, Debug)]
pub struct ReportBuild {
    pub report: Block,
    pub control: usize,
    pub data: Build,
}

/// A received run to be parted.
#[derive(Clone, Debug)]
pub struct ReportPart {
    pub a: usize,
    pub q: usize,
    pub n: usize,
    pub o: usize,
    pub control: usize,
    pub run: Run,
}

/// Control bits of a report, some of them turned, and random data behind them.
#[derive(Clone, Debug)]
pub struct Run {
    pub report: Vec<u8>,
    pub ahead: usize,
    pub flips: Vec<usize>,
    pub data: Block,
}

impl Run {
    pub fn bytes(&self) -> Vec<u8> {
        let mut bytes = report::control_bits(&self.report, self.ahead);
        self.flips.iter().for_each(|place| bytes[*place] ^= 1);
        bytes.extend(self.data.bytes());
        bytes
    }
}

#[derive(Clone, Debug)]
pub struct Build {
    pub block: Block,
    pub q: usize,
    pub n: usize,
    pub version: usize,
    pub g: usize,
}

/// A control message: the payload's bits, whose, and how many bits.
#[derive(Clone, Debug)]
pub struct Control {
    pub payload: Block,
    pub terminal: u16,
    pub e: usize,
}

#[derive(Clone, Debug)]
pub struct Block {
    pub length: usize,
    pub content: Content,
    /// A byte that is no bit, and where it stands.
    pub damage: Option<(usize, u8)>,
}

#[derive(Clone, Copy, Debug)]
pub enum Content {
    /// `xorshift::block` of this seed.
    Random(u64),
    All(u8),
    /// Payload of this seed and its check for this terminal.
    Attached(u64, u16),
}

impl Block {
    pub fn bytes(&self) -> Vec<u8> {
        let mut bytes = match self.content {
            Content::Random(seed) => xorshift::block(self.length, seed),
            Content::All(bit) => vec![bit; self.length],
            Content::Attached(seed, terminal) => {
                control::attach(&xorshift::block(self.length - control::PARITY, seed), terminal)
            }
        };
        if let Some((place, byte)) = self.damage {
            bytes[place] = byte;
        }
        bytes
    }
}

/// The least and the largest A of each number of code blocks.
pub(crate) const BLOCKS: [(usize, usize); 5] =
    [(1, 6_120), (6_121, 12_216), (12_217, 18_336), (18_337, 24_456), (24_457, A_MAX)];

const QS: [usize; 3] = [2, 4, 6];
const NS: [usize; 4] = [1, 2, 3, 4];

/// Numbers that only a full-width argument carries.
pub(crate) const HUGE: [usize; 6] = [1 << 16, 1 << 31, 1 << 32, (1 << 32) + 2, 1 << 63, usize::MAX];

/// All cases of a seed, `random` of them being random builds, and half as many again random
/// control messages.
pub fn all(seed: u64, random: usize) -> Vec<Case> {
    let mut maker = Maker { random: Generator::new(seed), cases: Vec::new() };
    maker.sizes();
    maker.grid();
    maker.longest();
    maker.rows();
    maker.edges();
    maker.block_lengths();
    maker.single_faults();
    maker.several_faults();
    maker.random_builds(random);
    maker.two_slices();
    maker.reports();
    maker.runs();
    maker.run_faults();
    maker.changes();
    maker.cases.append(&mut cases_control::all(seed, random));
    maker.downlink();
    maker.cases
}

/// 3 * D - 2 * F over all code blocks: what one turn of every circle sends.
fn turn(a: usize) -> usize {
    let s = segmentation_of(a).expect("A is in range");
    (0..s.blocks).map(|r| 3 * (s.size(r) + 4) - 2 * s.filler_in(r)).sum()
}

fn blocks_of(a: usize) -> usize {
    segmentation_of(a).expect("A is in range").blocks
}

/// Makes the cases one after another; those of two slices are in `cases_two`,
/// those of a downlink in `cases_down`.
pub(crate) struct Maker {
    pub(crate) random: Generator,
    cases: Vec<Case>,
}

impl Maker {
    // Sizes.

    fn sizes(&mut self) {
        for a in 0..=30_600 {
            self.size("every A", a, 24);
        }
        for a in HUGE.into_iter().chain([40_000, 65_535, 65_537, 100_000]) {
            self.size("large A", a, 24);
            self.size("large A", a.wrapping_add(16), 24);
        }
        for a in [0, 1, 16, 6_121, 12_216, A_MAX, A_MAX + 1, usize::MAX] {
            for output_length in (0..24).chain([25, 28, 32, 48, 100, 4_096]) {
                self.size("output length of Sizes", a, output_length);
            }
            self.size("null output of Sizes", a, 0);
            self.last().null_output = true;
        }
    }

    fn size(&mut self, group: &'static str, a: usize, output_length: usize) {
        self.push(group, Asked::Sizes(a), output_length);
    }

    // Builds that are accepted.

    /// Every C, Q, N and version: G at its least, with every remainder of G' by C, at
    /// one turn of the circles and past several.
    fn grid(&mut self) {
        for (blocks, (from, to)) in (1..).zip(BLOCKS) {
            for (q, n, version) in allocations() {
                let symbol = q * n;
                let a = self.between(from, to);
                self.exact("least G", a, (q, n, version, symbol * blocks));
                for remainder in 0..blocks {
                    let a = self.between(from, to);
                    let each = self.between(1, turn(a) / symbol / blocks);
                    let g = symbol * (blocks * each + remainder);
                    self.exact("remainder of G' by C", a, (q, n, version, g));
                }
                let a = self.between(from, to);
                let symbols = turn(a) / symbol;
                self.exact("one turn, or just short", a, (q, n, version, symbol * symbols));
                self.exact("just over one turn", a, (q, n, version, symbol * (symbols + blocks)));
                let a = if blocks == 1 { self.between(1, 600) } else { from };
                let most = (4 * turn(a)).min(G_MAX) / symbol;
                let g = symbol * self.between(most / 2, most);
                self.exact("several turns", a, (q, n, version, g));
            }
        }
    }

    /// G = 172,800, which every N * Q divides.
    fn longest(&mut self) {
        for (case, (q, n, version)) in allocations().enumerate() {
            let (from, to) = BLOCKS[case % 5];
            let a = self.between(from, to);
            self.exact("largest G", a, (q, n, version, G_MAX));
        }
        for a in [1, 16, 6_120, 6_121, A_MAX] {
            self.exact("largest G", a, (6, 4, 0, G_MAX));
        }
    }

    /// Every row of the table: without filler, and with as much as the row can have.
    fn rows(&mut self) {
        for (case, row) in TABLE.iter().enumerate() {
            let before = if case == 0 { 24 } else { TABLE[case - 1].k };
            for a in [row.k - 24, (before + 1).max(25) - 24] {
                let (q, n) = self.allocation();
                let version = self.random.below(4);
                let g = q * n * (turn(a) / (q * n) + self.between(1, 4));
                self.exact("every row of the table", a, (q, n, version, g));
            }
        }
    }

    /// Every length next to where C changes, and the smallest.
    fn edges(&mut self) {
        let near = BLOCKS.into_iter().flat_map(|(from, to)| [from, from + 1, to - 1, to]);
        for a in near.chain(2..48) {
            for version in 0..4 {
                let (q, n) = self.allocation();
                let symbols = turn(a) / (q * n) + 2;
                let g = q * n * self.between(blocks_of(a), symbols);
                self.exact("edges of A", a, (q, n, version, g));
            }
        }
    }

    fn random_builds(&mut self, count: usize) {
        for _ in 0..count {
            let a = self.some_length();
            let (q, n) = self.allocation();
            let version = self.random.below(4);
            let g = self.some_codeword(a, q * n);
            let beyond = match self.random.below(4) {
                0 => self.between(1, 100),
                1 => 1,
                _ => 0,
            };
            self.build("random", a, (q, n, version, g), g + beyond);
        }
    }

    /// Small blocks most often, every C often enough.
    fn some_length(&mut self) -> usize {
        let (from, to) = match self.random.below(20) {
            0..=7 => (1, 200),
            8..=13 => BLOCKS[0],
            14..=16 => BLOCKS[1],
            17 => BLOCKS[2],
            18 => BLOCKS[3],
            _ => BLOCKS[4],
        };
        self.between(from, to)
    }

    pub(crate) fn some_codeword(&mut self, a: usize, symbol: usize) -> usize {
        let (blocks, whole, most) = (blocks_of(a), turn(a) / symbol, G_MAX / symbol);
        let (from, to) = match self.random.below(8) {
            0 => (blocks, blocks + 20),
            1..=4 => (blocks, whole),
            5..=6 => (whole - whole.min(10), whole + 10),
            _ => (whole, whole + whole.min(6_000 / symbol).max(whole / 4)),
        };
        symbol * self.between(from.max(blocks), to.max(blocks)).min(most)
    }

    // Builds that are refused.

    /// Refusal 1, A = 0 also as a null pointer, and the lengths just inside.
    fn block_lengths(&mut self) {
        for version in 0..4 {
            for a in [1, 2, A_MAX - 1, A_MAX] {
                self.exact("A just in range", a, (2, 1, version, 240));
            }
            for a in [0, A_MAX + 1, A_MAX + 2, 30_600, 32_768, 40_000, BLOCK_MAX - 1, BLOCK_MAX] {
                self.exact("A out of range", a, (2, 1, version, 240));
            }
            self.exact("A = 0 as null", 0, (2, 1, version, 240));
            self.last().null_block = true;
            self.build("A = 0 as null", 0, (2, 1, version, 240), 0);
            self.last().null_block = true;
            self.last().null_output = true;
        }
    }

    /// One thing wrong at a time, or just right.
    fn single_faults(&mut self) {
        for (blocks, (from, to)) in (1..).zip(BLOCKS) {
            for (q, n) in QS.into_iter().flat_map(|q| NS.map(|n| (q, n))) {
                let a = self.between(from, to);
                let version = self.random.below(4);
                let symbol = q * n;
                let g = symbol * self.between(blocks, blocks + 40);
                for bad in (0..=13).filter(|q| !QS.contains(q)).chain(HUGE) {
                    self.exact("Q out of range", a, (bad, n, version, g));
                }
                for bad in [0, 5, 6, 7, 8, 12].into_iter().chain(HUGE) {
                    self.exact("N out of range", a, (q, bad, version, g));
                }
                for (q, n) in [(1 << 63, 2), (1 << 32, 1 << 32), (0, 0), (usize::MAX, usize::MAX), (3, 5)] {
                    self.exact("Q and N out of range", a, (q, n, version, g));
                }
                self.codeword_lengths(a, (q, n, version), blocks);
                for bad in (4..=8).chain([255, 256]).chain(HUGE) {
                    self.exact("version out of range", a, (q, n, bad, g));
                }
                self.output_lengths(a, (q, n, version, g));
                self.damaged_blocks(a, (q, n, version, g));
            }
        }
    }

    fn codeword_lengths(&mut self, a: usize, (q, n, version): (usize, usize, usize), blocks: usize) {
        let symbol = q * n;
        let mut bad = vec![0, 1, symbol * (blocks - 1), symbol * blocks - 1, G_MAX + 1, G_MAX + 2, G_MAX + 16];
        bad.extend([G_MAX + symbol, 2 * G_MAX, usize::MAX - usize::MAX % symbol]);
        bad.extend(HUGE.map(|huge| huge - huge % symbol));
        bad.extend(HUGE);
        for remainder in 1..symbol {
            bad.push(symbol * self.between(blocks, blocks + 60) + remainder);
        }
        bad.push(G_MAX - 1);
        // Outputs of that length only for one allocation: they are long.
        let longest = if symbol == 2 { OUTPUT_MAX } else { 500 };
        for g in bad {
            self.build("G out of range or no multiple", a, (q, n, version, g), g.min(longest));
        }
        self.exact("G at its least", a, (q, n, version, symbol * blocks));
        self.exact("G at its least and one symbol", a, (q, n, version, symbol * (blocks + 1)));
    }

    fn output_lengths(&mut self, a: usize, numbers: (usize, usize, usize, usize)) {
        let g = numbers.3;
        for length in [0, 1, g / 2, g - 1] {
            self.build("output too short", a, numbers, length);
        }
        self.build("output too short, null", a, numbers, 0);
        self.last().null_output = true;
        for length in [g, g + 1, g + 2, g + 1_000] {
            self.build("output long enough", a, numbers, length);
        }
        if numbers.0 == 2 {
            self.build("output far longer", a, numbers, OUTPUT_MAX);
        }
    }

    fn damaged_blocks(&mut self, a: usize, numbers: (usize, usize, usize, usize)) {
        for place in [0, a - 1, self.random.below(a)] {
            for byte in [2, 255, 3, 128] {
                self.exact("a byte above 1", a, numbers);
                self.damage(place, byte);
            }
        }
    }

    /// Every set of faults at once, so that the order of the refusals shows.
    fn several_faults(&mut self) {
        for (from, to) in BLOCKS {
            for faults in 0..32 {
                let has = |fault: usize| faults >> fault & 1 == 1;
                for bad_length in [0, A_MAX + 1] {
                    let a = if has(0) { bad_length } else { self.between(from, to) };
                    let (mut q, mut n) = self.allocation();
                    let mut g = q * n * 12;
                    match self.random.below(3) {
                        _ if !has(1) => {}
                        0 => q = self.random.choose(&[0, 3, 8]),
                        1 => n = self.random.choose(&[0, 5]),
                        _ => g = self.random.choose(&[0, g + 1, G_MAX + q * n]),
                    }
                    let version = if has(2) { self.between(4, 6) } else { self.random.below(4) };
                    let length = if has(3) { (g / 2).min(1_000) } else { g };
                    self.build("several faults", a, (q, n, version, g), length);
                    if has(4) && a > 0 {
                        let place = self.random.choose(&[0, a - 1]);
                        self.damage(place, 2);
                    }
                }
            }
        }
    }

    // Control reports with the data.

    /// Every O, Q and N, control bits at their least and most and between; every refusal of
    /// Build with a report, alone and with others.
    fn reports(&mut self) {
        for (o, (q, n)) in (1..=O_MAX).flat_map(|o| pairs().map(move |pair| (o, pair))) {
            for control in [q, 2 * q, CONTROL_MAX - CONTROL_MAX % q] {
                let a = self.some_length();
                let g = q * n * (blocks_of(a) + self.random.below(40));
                let version = self.random.below(4);
                self.report("a report of every length", o, control, a, (q, n, version, g));
            }
            for _ in 0..8 {
                let control = q * self.between(1, 60);
                let a = self.between(1, 400);
                let g = q * n * self.between(1, 80);
                let version = self.random.below(4);
                self.report("random reports", o, control, a, (q, n, version, g));
            }
        }
        for (q, n) in pairs() {
            let (a, g) = (40, 4 * q * n);
            for o in [0, 12, 13, 32, 100, 4_096] {
                self.report("report length", o, q, a, (q, n, 0, g));
            }
            let most = CONTROL_MAX - CONTROL_MAX % q;
            for control in [0, 1, q - 1, q + 1, 2 * q + 1, most + q, most + 1, 4_097, 8_192].into_iter().chain(HUGE) {
                self.report("control bits a layer", 4, control, a, (q, n, 0, g));
            }
            for (byte, place) in [(2, 0), (255, 3)] {
                self.report("a byte above 1 in the report", 4, q, a, (q, n, 0, g));
                if let Asked::ReportBuild(asked) = &mut self.last().asked {
                    asked.report.damage = Some((place, byte));
                }
            }
            for short in [1, g, n * q + g] {
                self.report("output too short for both", 4, q, a, (q, n, 0, g));
                self.last().output_length -= short;
            }
        }
        self.report_faults();
    }

    /// Every set of faults of Build with a report at once.
    fn report_faults(&mut self) {
        for faults in 0..256 {
            for _ in 0..4 {
                let has = |fault: usize| faults >> fault & 1 == 1;
                let (mut q, mut n) = self.allocation();
                let mut g = 6 * q * n;
                let mut control = q * self.between(1, 20);
                let a = if has(0) { self.random.choose(&[0, A_MAX + 1]) } else { self.between(1, 500) };
                let o = if has(2) { self.random.choose(&[0, 12]) } else { self.between(1, O_MAX) };
                if has(3) {
                    control = self.random.choose(&[0, control + 1, 4_100]);
                }
                if has(4) {
                    g = self.random.choose(&[0, g + 1, G_MAX + q * n]);
                }
                match self.random.below(2) {
                    _ if !has(1) => {}
                    0 => q = self.random.choose(&[0, 3, 8]),
                    _ => n = self.random.choose(&[0, 5]),
                }
                let version = if has(5) { self.between(4, 6) } else { self.random.below(4) };
                self.report("several faults of a report", o, control, a, (q, n, version, g));
                if has(6) {
                    self.last().output_length /= 2;
                }
                let in_report = self.random.below(2) == 0;
                if let (true, Asked::ReportBuild(asked)) = (has(7), &mut self.last().asked) {
                    let bits = if in_report { &mut asked.report } else { &mut asked.data.block };
                    if bits.length > 0 {
                        bits.damage = Some((bits.length - 1, 2));
                    }
                }
            }
        }
    }

    /// Runs of every O, Q and N: untouched, and with bits turned up to and past the tie.
    fn runs(&mut self) {
        for (o, (q, n)) in (1..=O_MAX).flat_map(|o| pairs().map(move |pair| (o, pair))) {
            for control in (1..=12).chain([16, 22, 32]).map(|turns| q * turns) {
                for flips in [0, 1, 2, 3, 5, 8, 12, 16] {
                    self.run("runs", o, control, (q, n), flips);
                }
            }
            for flips in [0, n * 512, n * 1_024] {
                self.run("longest runs", o.min(6), CONTROL_MAX - CONTROL_MAX % q, (q, n), flips);
            }
        }
        for flips in [0, 1_000, 2_500, 4_000] {
            self.run("longest runs", O_MAX, CONTROL_MAX, (2, 4), flips);
        }
    }

    /// Every refusal of the way back, alone and with others.
    fn run_faults(&mut self) {
        for faults in 0..64 {
            for _ in 0..40 {
                let has = |fault: usize| faults >> fault & 1 == 1;
                let (q, n) = self.allocation();
                let o = self.between(1, O_MAX);
                let control = q * self.between(1, 12);
                self.run("several faults of a run", o, control, (q, n), 0);
                let [size, symbol, length, control, data] = [
                    self.random.choose(&[0, A_MAX + 1]),
                    self.random.below(2),
                    self.random.choose(&[0, 12, usize::MAX]),
                    self.random.choose(&[0, 1, 4_100, usize::MAX]),
                    self.random.below(3),
                ];
                let damaged = self.random.below(2) == 0;
                let case = self.last();
                let asked = match &mut case.asked {
                    Asked::ReportPart(asked) => asked,
                    _ => continue,
                };
                if has(0) {
                    asked.a = size;
                }
                if has(1) {
                    if symbol == 0 { asked.q = 8 } else { asked.n = 5 }
                }
                if has(2) {
                    asked.o = length;
                }
                if has(3) {
                    asked.control = control;
                }
                if has(4) {
                    // No data, data that is no multiple, and a run cut within its control bits.
                    match data {
                        0 => asked.run.data.length = 0,
                        1 => asked.run.data.length += 1,
                        _ => {
                            asked.run.data.length = 0;
                            asked.run.ahead /= 2;
                        }
                    }
                }
                if has(5) {
                    if damaged && asked.run.data.length > 0 {
                        asked.run.data.damage = Some((asked.run.data.length - 1, 2));
                    } else {
                        case.output_length = 0;
                    }
                }
            }
        }
    }

    fn report(
        &mut self,
        group: &'static str,
        o: usize,
        control: usize,
        a: usize,
        (q, n, version, g): (usize, usize, usize, usize),
    ) {
        let [report, block] = [o, a].map(|length| Block {
            length,
            content: Content::Random(self.random.number()),
            damage: None,
        });
        let data = Build { block, q, n, version, g };
        let length = n.wrapping_mul(control).saturating_add(g).min(200_000);
        let beyond = self.random.below(3);
        self.push(group, Asked::ReportBuild(ReportBuild { report, control, data }), length + beyond);
    }

    fn run(&mut self, group: &'static str, o: usize, control: usize, (q, n): (usize, usize), flips: usize) {
        let a = self.between(1, 600);
        let ahead = n * control;
        let report = report::message(self.random.below(1 << o), o);
        let flips = (0..flips).map(|_| self.random.below(ahead)).collect();
        let data = Block { length: q * n * self.between(1, 6), content: Content::Random(self.random.number()), damage: None };
        let run = Run { report, ahead, flips, data };
        let length = o + self.random.below(3);
        self.push(group, Asked::ReportPart(ReportPart { a, q, n, o, control, run }), length);
    }

    // The change of form of a room.

    /// Each M: buffers just long enough, longer, each just too short and both; M out of range, which comes first.
    fn changes(&mut self) {
        for way in [Way::Pack, Way::Unpack] {
            let (read, written) = match way {
                Way::Pack => (ROOM_OF_BLOCK, PACKED_OF_BLOCK),
                Way::Unpack => (PACKED_OF_BLOCK, ROOM_OF_BLOCK),
            };
            for m in 1..=BLOCKS_MAX {
                let (from, to) = (m * read, m * written);
                for (from, to) in [(from, to), (from + 1, to), (from, to + 3), (from + 4, to + 100)] {
                    self.change("change of form", way, m, from, to);
                }
                for (from, to) in [(from - 1, to), (from, to - 1), (from - 1, to - 1), (0, to), (from, 0)] {
                    self.change("buffers too short", way, m, from, to);
                }
            }
            for m in [0, BLOCKS_MAX + 1, 255].into_iter().chain(HUGE) {
                for (from, to) in [(5 * read, 5 * written), (read, written), (1, 1)] {
                    self.change("M out of range", way, m, from, to);
                }
                self.change("null buffers", way, m, 0, 0);
                self.last().null_block = true;
                self.last().null_output = true;
            }
            self.change("null buffers", way, 1, 0, 0);
            self.last().null_block = true;
            self.last().null_output = true;
        }
    }

    fn change(&mut self, group: &'static str, way: Way, m: usize, length: usize, output_length: usize) {
        let seed = self.random.number();
        self.push(group, Asked::Change(Change { way, m, length, seed }), output_length);
    }

    // Helps.

    pub(crate) fn between(&mut self, from: usize, to: usize) -> usize {
        from + self.random.below(to - from + 1)
    }

    pub(crate) fn allocation(&mut self) -> (usize, usize) {
        (self.random.choose(&QS), self.random.choose(&NS))
    }

    /// A build whose output is as long as the codeword, as far as a bridge has room.
    fn exact(&mut self, group: &'static str, a: usize, numbers: (usize, usize, usize, usize)) {
        self.build(group, a, numbers, numbers.3);
    }

    /// A build on a random block, now and then on one of zeros or of ones.
    pub(crate) fn build(
        &mut self,
        group: &'static str,
        length: usize,
        (q, n, version, g): (usize, usize, usize, usize),
        output_length: usize,
    ) {
        let content = match self.random.below(10) {
            0 => Content::All(0),
            1 => Content::All(1),
            _ => Content::Random(self.random.number()),
        };
        let block = Block { length, content, damage: None };
        let asked = Asked::Build(Build { block, q, n, version, g });
        self.push(group, asked, output_length.min(OUTPUT_MAX));
    }

    fn push(&mut self, group: &'static str, asked: Asked, output_length: usize) {
        let fill = self.between(2, 255) as u8;
        let [null_block, null_output, null_payload] = [false; 3];
        self.cases.push(Case { group, asked, output_length, fill, null_block, null_output, null_payload });
    }

    pub(crate) fn last(&mut self) -> &mut Case {
        self.cases.last_mut().expect("a case has been pushed")
    }

    /// Puts a byte into the block of the last case.
    pub(crate) fn damage(&mut self, place: usize, byte: u8) {
        if let Asked::Build(build) | Asked::BuildTwo(build, _) | Asked::BuildDown(build, _) = &mut self.last().asked {
            build.block.damage = Some((place, byte));
        }
    }
}

/// Every Q and N.
fn pairs() -> impl Iterator<Item = (usize, usize)> {
    QS.into_iter().flat_map(|q| NS.map(|n| (q, n)))
}

/// Every Q, N and version.
fn allocations() -> impl Iterator<Item = (usize, usize, usize)> {
    pairs().flat_map(|(q, n)| [0, 1, 2, 3].map(|version| (q, n, version)))
}
