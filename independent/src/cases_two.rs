//! The comparison's cases of a block in two slices (02, E9): where the cut falls, and what is
//! refused.

use crate::cases::{Asked, Maker, BLOCKS};
use crate::codeword::{segmentation_of, A_MAX};

/// Random lengths for each number of code blocks, most of them for the quickest, and cuts
/// anywhere in each block.
const LENGTHS: [usize; 5] = [150, 25, 25, 25, 25];
const ANYWHERE: usize = 8;
/// Blocks of up to so many bits are cut everywhere.
const SMALL: usize = 85;

impl Maker {
    pub(crate) fn two_slices(&mut self) {
        for ((from, to), count) in BLOCKS.into_iter().zip(LENGTHS) {
            let mut lengths = vec![from, from + 1, to - 1, to];
            lengths.extend((0..count).map(|_| self.between(from, to)));
            for a in lengths {
                for (group, cut) in self.cuts(a) {
                    self.cut_build(group, a, cut);
                }
            }
        }
        for a in 1..=SMALL {
            for cut in 0..=a {
                self.cut_build("every cut of a small block", a, cut);
            }
        }
        self.two_slices_refused();
    }

    /// The cuts of a block: at its ends and beside them, at the code blocks' boundaries, at
    /// multiples of 24 and 48 from either end, all of these with their neighbours, and
    /// anywhere.
    fn cuts(&mut self, a: usize) -> Vec<(&'static str, usize)> {
        let mut cuts = vec![("cut at an end", 0), ("cut at an end", a)];
        cuts.extend([("cut after the first bit", 1), ("cut before the last bit", a - 1)]);
        let boundaries = boundaries(a).into_iter().map(|at| ("cut at a code block's boundary", at));
        let mut places: Vec<(&'static str, usize)> = boundaries.collect();
        for (group, step) in [("cut at a multiple of 24", 24), ("cut at a multiple of 48", 48)] {
            let multiple = step * self.between(0, a / step);
            places.extend([(group, multiple), (group, a - multiple)]);
        }
        for (group, at) in places {
            cuts.extend([at.wrapping_sub(1), at, at + 1].into_iter().filter(|cut| *cut <= a).map(|cut| (group, cut)));
        }
        cuts.extend((0..ANYWHERE).map(|_| ("cut anywhere", self.between(0, a))));
        cuts
    }

    /// An accepted build of two slices; one that is empty comes as a null pointer half the time.
    fn cut_build(&mut self, group: &'static str, a: usize, cut: usize) {
        let (q, n) = self.allocation();
        let version = self.random.below(4);
        let g = self.some_codeword(a, q * n);
        let null = self.random.below(2) == 1;
        let length = g + self.random.below(3);
        self.two(group, a, cut, (q, n, version, g), length);
        self.last().null_block = null && cut == 0;
        self.last().null_payload = null && cut == a;
    }

    fn two(
        &mut self,
        group: &'static str,
        a: usize,
        cut: usize,
        numbers: (usize, usize, usize, usize),
        output_length: usize,
    ) {
        self.build(group, a, numbers, output_length);
        let asked = &mut self.last().asked;
        if let Asked::Build(build) = asked {
            *asked = Asked::BuildTwo(build.clone(), cut);
        }
    }

    /// A out of range in two slices, a byte above 1 in either, and every set of faults.
    fn two_slices_refused(&mut self) {
        self.two("two empty slices", 0, 0, (2, 1, 0, 240), 240);
        self.last().null_block = true;
        self.last().null_payload = true;
        self.two("two empty slices", 0, 0, (2, 1, 0, 240), 240);
        for a in [A_MAX + 1, A_MAX + 2, 2 * A_MAX, 65_536] {
            for cut in [0, 1, 24, a / 2, A_MAX, A_MAX + 1, a - 1, a] {
                self.two("two slices out of range", a, cut, (2, 1, 0, 240), 240);
            }
        }
        for (from, to) in BLOCKS {
            for _ in 0..12 {
                let a = self.between(from.max(2), to);
                let cut = self.between(1, a - 1);
                for place in [0, cut - 1, cut, a - 1] {
                    let byte = self.random.choose(&[2, 3, 128, 255]);
                    self.two("a byte above 1 in either slice", a, cut, (2, 1, 1, 240), 240);
                    self.damage(place, byte);
                }
            }
            for faults in 0..32 {
                self.two_with_faults(from, to, faults);
            }
        }
    }

    /// Faults at once, so that the order of the refusals shows.
    fn two_with_faults(&mut self, from: usize, to: usize, faults: usize) {
        let has = |fault: usize| faults >> fault & 1 == 1;
        let a = if has(0) { A_MAX + 1 } else { self.between(from.max(2), to) };
        let cut = self.between(0, a);
        let (q, n) = self.allocation();
        let g = q * n * 12 + usize::from(has(1));
        let version = if has(2) { self.between(4, 6) } else { self.random.below(4) };
        let length = if has(3) { g - 1 } else { g };
        self.two("several faults of two slices", a, cut, (q, n, version, g), length);
        if has(4) {
            let place = self.random.choose(&[0, a - 1]);
            self.damage(place, 2);
        }
    }
}

/// Where each code block but the first begins to take of the block.
fn boundaries(a: usize) -> Vec<usize> {
    let s = segmentation_of(a).expect("A is in range");
    let taken = |r: usize| (0..r).map(|i| s.size(i) - s.parity).sum::<usize>();
    (1..s.blocks).map(|r| taken(r) - s.filler).collect()
}
