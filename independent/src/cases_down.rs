//! The comparison's cases of Build for a downlink (02, E6): where the circle is cut, and what
//! is refused with 21.

use crate::cases::{Asked, Maker, BLOCKS, HUGE};
use crate::codeword::{rows_of, segmentation_of, A_MAX};
use crate::soft_buffer::Receiver;

/// Blocks for each number of code blocks, most of them for the quickest.
const LENGTHS: [usize; 5] = [320, 40, 20, 16, 12];

impl Maker {
    pub(crate) fn downlink(&mut self) {
        for ((from, to), count) in BLOCKS.into_iter().zip(LENGTHS) {
            let mut lengths = vec![from, from + 1, to - 1, to];
            lengths.extend((0..count).map(|_| self.between(from, to)));
            for a in lengths {
                self.cut_circles(a);
            }
        }
        for a in 1..=85 {
            self.cut_circles(a);
        }
        self.receivers();
        self.downlink_refused();
    }

    /// Every version of a block with the circle cut at all places of interest, by turns under
    /// either release.
    fn cut_circles(&mut self, a: usize) {
        for (group, share) in self.cuts_of(a) {
            for version in 0..4 {
                let (q, n) = self.allocation();
                let g = self.some_codeword(a, q * n);
                let receiver = self.with_share(a, share);
                let beyond = self.random.below(3);
                self.down(group, a, receiver, (q, n, version, g), g + beyond);
            }
        }
    }

    /// Shares by the rows of the longest code block: N_cb at its least, one above, in and at
    /// the end of a column, and next to the whole circle. For the shorter code blocks some are
    /// past it.
    fn cuts_of(&mut self, a: usize) -> Vec<(&'static str, usize)> {
        let r = longest(a);
        let column = self.between(1, 31);
        let within = self.between(1, 2 * r - 1);
        vec![
            ("N_cb at its least", 32 * r),
            ("N_cb one above its least", 32 * r + 1),
            ("N_cb in the middle of a column", 32 * r + 2 * r * column + within),
            ("N_cb at a column's end", 32 * r + 2 * r * column),
            ("N_cb anywhere", self.between(32 * r, 96 * r)),
            ("N_cb where the start steps", 8 * r * self.between(5, 11) + self.random.below(2)),
            ("N_cb one short of the circle", 96 * r - 1),
            ("N_cb the whole circle", 96 * r),
            ("a share far above the circle", self.between(96 * r + 1, 1 << 40)),
        ]
    }

    /// A receiver with this share of its soft buffer for each code block, and anything below
    /// one more.
    fn with_share(&mut self, a: usize, share: usize) -> Receiver {
        let release = self.random.choose(&[8, 11]);
        let mimo = self.between(1, 2);
        let processes = self.random.choose(&[1, 2, 3, 7, 8, 9, 15, 1 << 40, usize::MAX]);
        let divisor = mimo * processes.min(8) * segmentation_of(a).expect("A is in range").blocks;
        let soft = share * divisor + self.random.below(divisor);
        Receiver { release, mimo, processes, soft, layers: self.between(0, 8) }
    }

    /// The soft bits of the standard's categories, the two with a K_C of their own among them,
    /// with every layer capability about its bound; the largest number of soft bits.
    fn receivers(&mut self) {
        let categories =
            [250_368, 1_237_248, 1_827_072, 3_654_144, 3_667_200, 35_982_720, 35_982_719, 3_654_143, usize::MAX];
        for (release, soft) in [8, 11].into_iter().flat_map(|release| categories.map(|soft| (release, soft))) {
            for layers in [0, 1, 2, 3, 4, 8, usize::MAX] {
                for (from, to) in BLOCKS {
                    let a = self.between(from, to);
                    let (mimo, processes, version) = (self.between(1, 2), self.between(1, 9), self.random.below(4));
                    let (q, n) = self.allocation();
                    let g = self.some_codeword(a, q * n);
                    let receiver = Receiver { release, mimo, processes, soft, layers };
                    self.down("soft bits of a category", a, receiver, (q, n, version, g), g);
                }
            }
        }
    }

    /// Every boundary of 21, and every set of faults at once.
    fn downlink_refused(&mut self) {
        for (from, to) in BLOCKS {
            for _ in 0..6 {
                let a = self.between(from, to);
                let whole = self.with_share(a, 96 * longest(a));
                for release in (0..=13).chain(HUGE) {
                    self.small("another release", a, Receiver { release, ..whole });
                }
                for mimo in (0..=4).chain(HUGE) {
                    self.small("another K_MIMO", a, Receiver { mimo, ..whole });
                }
                for processes in (0..=10).chain(HUGE) {
                    self.small("a number of processes", a, Receiver { processes, ..whole });
                }
                for share in [0, 1, 32 * longest(a) - 1, 32 * longest(a), 32 * shortest(a) - 1, 32 * shortest(a)] {
                    let receiver = self.with_share(a, share);
                    self.small("N_cb about its least", a, receiver);
                }
                for soft in [0, 1, 31, 32, 64].into_iter().chain(HUGE) {
                    self.small("few or many soft bits", a, Receiver { soft, ..whole });
                }
            }
            for faults in 0..64 {
                self.down_with_faults(from, to, faults);
            }
        }
    }

    fn small(&mut self, group: &'static str, a: usize, receiver: Receiver) {
        let version = self.random.below(4);
        self.down(group, a, receiver, (2, 1, version, 240), 240);
    }

    /// Faults at once, so that the order of the refusals shows.
    fn down_with_faults(&mut self, from: usize, to: usize, faults: usize) {
        let has = |fault: usize| faults >> fault & 1 == 1;
        let good = self.between(from, to);
        let a = if has(0) { self.random.choose(&[0, A_MAX + 1]) } else { good };
        let mut receiver = self.with_share(good, 50 * longest(good));
        match self.random.below(4) {
            _ if !has(1) => {}
            0 => receiver.release = 10,
            1 => receiver.mimo = 0,
            2 => receiver.processes = 0,
            _ => receiver.soft = 31,
        }
        let (q, n) = self.allocation();
        let g = q * n * 12 + usize::from(has(2));
        let version = if has(3) { self.between(4, 6) } else { self.random.below(4) };
        let length = if has(4) { g - 1 } else { g };
        self.down("several faults of a downlink", a, receiver, (q, n, version, g), length);
        if has(5) && a > 0 {
            let place = self.random.choose(&[0, a - 1]);
            self.damage(place, 2);
        }
    }

    fn down(
        &mut self,
        group: &'static str,
        a: usize,
        receiver: Receiver,
        numbers: (usize, usize, usize, usize),
        output_length: usize,
    ) {
        self.build(group, a, numbers, output_length);
        let asked = &mut self.last().asked;
        if let Asked::Build(build) = asked {
            *asked = Asked::BuildDown(build.clone(), receiver);
        }
    }
}

fn longest(a: usize) -> usize {
    *rows_of(&segmentation_of(a).expect("A is in range")).last().expect("there is a code block")
}

fn shortest(a: usize) -> usize {
    rows_of(&segmentation_of(a).expect("A is in range"))[0]
}
