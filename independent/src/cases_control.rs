//! The cases of the two control calls.

use crate::cases::{Asked, Block, Case, Content, Control};
use crate::control::{E_MAX, PARITY, PAYLOAD_MAX};
use crate::xorshift::Generator;

/// Numbers that only a full-width argument carries.
const HUGE: [usize; 5] = [1 << 16, (1 << 16) + 72, 1 << 32, 1 << 63, usize::MAX];

pub fn all(seed: u64, random: usize) -> Vec<Case> {
    let mut maker = Maker { random: Generator::new(seed ^ 0xC0), cases: Vec::new() };
    maker.grid();
    maker.refused();
    maker.owners();
    maker.refused_owners();
    for _ in 0..random / 2 {
        maker.random_message();
    }
    maker.cases
}

struct Maker {
    random: Generator,
    cases: Vec<Case>,
}

impl Maker {
    /// Every payload, the outermost terminals and one more, E round each turn and stream.
    fn grid(&mut self) {
        for length in 1..=PAYLOAD_MAX {
            let d = length + PARITY;
            let ends = [1, 2, d, 2 * d, 3 * d, 6 * d, 7 * d, E_MAX / (3 * d) * (3 * d)];
            let mut lengths: Vec<usize> = ends.iter().flat_map(|e| [e - 1, *e, e + 1]).filter(|e| *e > 0).collect();
            lengths.extend([72, 144, 288, 576, E_MAX - 1, E_MAX]);
            for e in lengths {
                for terminal in [0, 1, u16::MAX, self.terminal()] {
                    self.build("control message", length, terminal, e, e);
                }
            }
        }
    }

    /// One thing wrong at a time, and every set of faults at once.
    fn refused(&mut self) {
        for length in [0, 65, 66, 80, 128, 255, 256, 4_096, 65_536] {
            self.build("payload size", length, 7, 72, 72);
        }
        self.build("no payload, null", 0, 7, 72, 72);
        self.last().null_block = true;
        for length in [1, 40, PAYLOAD_MAX] {
            for e in [0, E_MAX + 1, E_MAX + 2, 8_192].into_iter().chain(HUGE) {
                self.build("E out of range", length, 7, e, 5_000);
            }
            for room in [0, 1, 71, 72, 73, 1_000] {
                self.build("output of a control message", length, 7, 72, room);
            }
            self.build("no output, null", length, 7, 72, 0);
            self.last().null_output = true;
            for (place, byte) in [(0, 2), (length - 1, 255), (length / 2, 128)] {
                self.build("a byte above 1 in a payload", length, 7, 72, 72);
                self.damage(place, byte);
            }
        }
        for faults in 0..16 {
            for round in 0..12 {
                let has = |fault: usize| faults >> fault & 1 == 1;
                let length = if has(0) { [0, 65][round % 2] } else { 1 + self.random.below(PAYLOAD_MAX) };
                let e = if has(1) { [0, E_MAX + 1][round % 2] } else { 72 };
                let room = if has(2) { e.saturating_sub(1) } else { e };
                let terminal = self.terminal();
                self.build("several faults of a control message", length, terminal, e, room);
                if has(3) && length > 0 {
                    let place = self.random.below(length);
                    self.damage(place, 2);
                }
            }
        }
    }

    /// Runs of every length: what is made for a terminal, and anything.
    fn owners(&mut self) {
        for length in 1 + PARITY..=PAYLOAD_MAX + PARITY {
            for terminal in [0, 1, 9, 0x8000, u16::MAX, self.terminal()] {
                let content = Content::Attached(self.random.number(), terminal);
                self.whose("its own message", length, content);
            }
            for _ in 0..24 {
                let content = Content::Random(self.random.number());
                self.whose("any run", length, content);
            }
            for content in [Content::All(0), Content::All(1)] {
                self.whose("any run", length, content);
            }
        }
    }

    fn refused_owners(&mut self) {
        for length in [0, 1, 15, 16, 81, 82, 96, 128, 65_536] {
            for content in [Content::All(0), Content::All(2)] {
                self.whose("run length", length, content);
            }
        }
        self.whose("no run, null", 0, Content::All(0));
        self.last().null_block = true;
        for length in 17..=80 {
            for place in [0, length - 17, length - 16, length - 1] {
                let content = Content::Random(self.random.number());
                self.whose("a byte above 1 in a run", length, content);
                self.damage(place, [2, 3, 128, 255][place % 4]);
            }
        }
    }

    fn random_message(&mut self) {
        let length = 1 + self.random.below(PAYLOAD_MAX);
        let most = if self.random.below(4) == 0 { E_MAX } else { 4 * (length + PARITY) };
        let e = 1 + self.random.below(most);
        let room = e + [0, 0, 1, 33][self.random.below(4)];
        let terminal = self.terminal();
        self.build("random control message", length, terminal, e, room);
    }

    fn terminal(&mut self) -> u16 {
        self.random.below(65_536) as u16
    }

    fn build(&mut self, group: &'static str, length: usize, terminal: u16, e: usize, room: usize) {
        let content = match self.random.below(12) {
            0 => Content::All(0),
            1 => Content::All(1),
            _ => Content::Random(self.random.number()),
        };
        let payload = Block { length, content, damage: None };
        self.push(group, Asked::Control(Control { payload, terminal, e }), room);
    }

    fn whose(&mut self, group: &'static str, length: usize, content: Content) {
        self.push(group, Asked::Whose(Block { length, content, damage: None }), 2);
    }

    fn push(&mut self, group: &'static str, asked: Asked, output_length: usize) {
        let fill = 2 + self.random.below(254) as u8;
        self.cases.push(Case { group, asked, output_length, fill, null_block: false, null_output: false, null_payload: false });
    }

    fn last(&mut self) -> &mut Case {
        self.cases.last_mut().expect("a case has been pushed")
    }

    fn damage(&mut self, place: usize, byte: u8) {
        if let Asked::Control(Control { payload: block, .. }) | Asked::Whose(block) = &mut self.last().asked {
            block.damage = Some((place, byte));
        }
    }
}
