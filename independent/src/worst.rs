//! How many repeats at worst, request E8 of 02: for a block of A bits, Q and N the least G of
//! three transmissions, versions 0, 1 and 3, that gives every code block 24 * R bits of its own
//! R, and the least G of one alone that gives code block 0 its 3 * D - 2 * F and every other its
//! 3 * D. Looked for upwards, one allocation unit after another; and what is heard, by the walk.

use crate::codeword::{segmentation_of, A_MAX, BAD_ALLOCATION};
use crate::rate;
use crate::segmentation::Segmentation;
use crate::slots::{data_places, walked, ROOM_OF_BLOCK};
use crate::soft_buffer::WHOLE_SHARE;
use crate::table::TABLE;

/// The versions of the three.
pub const THREE: [usize; 3] = [0, 1, 3];

/// Common sizes: a charge limit, small messages, the most in one code block and the least in two,
/// three unlike ones, the most in five.
pub const COMMON: [usize; 9] = [16, 17, 100, 328, 1_000, 6_120, 6_121, 12_217, A_MAX];

/// Common Q and N.
pub const ALLOCATIONS: [(usize, usize); 4] = [(2, 1), (4, 1), (6, 1), (6, 4)];

/// Every N * Q.
pub const UNITS: [usize; 8] = [2, 4, 6, 8, 12, 16, 18, 24];

/// The least G of three transmissions, and of one.
#[derive(Clone, Copy, Debug, PartialEq, Eq)]
pub struct Worst {
    pub three: usize,
    pub one: usize,
}

/// Both for A, Q and N, or refusal 1 or 3.
pub fn worst(a: usize, q: usize, n: usize) -> Result<Worst, u8> {
    let s = segmentation_of(a)?;
    if ![2, 4, 6].contains(&q) || !(1..=4).contains(&n) {
        return Err(BAD_ALLOCATION);
    }
    Ok(Worst { three: least(&s, n * q, quarter), one: least(&s, n * q, whole) })
}

/// 24 * R of code block r.
fn quarter(s: &Segmentation, r: usize) -> usize {
    24 * rate::rows(s.size(r) + 4)
}

/// 3 * D - 2 * F of code block r.
fn whole(s: &Segmentation, r: usize) -> usize {
    3 * (s.size(r) + 4) - 2 * s.filler_in(r)
}

/// The least G, in units of N * Q bits, that gives every code block what it needs.
fn least(s: &Segmentation, unit: usize, need: fn(&Segmentation, usize) -> usize) -> usize {
    let serves = |g: &usize| {
        let shares = rate::shares(*g, unit, s.blocks);
        shares.into_iter().enumerate().all(|(r, e_length)| e_length >= need(s, r))
    };
    (s.blocks..).map(|symbols| symbols * unit).find(serves).expect("a large G serves every need")
}

/// How many data places transmissions of a version and G bits have sent, and how many there are.
pub fn heard(s: &Segmentation, unit: usize, sent: &[(usize, usize)]) -> (usize, usize) {
    let (mut heard, mut all) = (0, 0);
    for r in 0..s.blocks {
        let mut reached = vec![false; ROOM_OF_BLOCK];
        for (version, g) in sent {
            let e_length = rate::shares(*g, unit, s.blocks)[r];
            walked(s, r, WHOLE_SHARE, *version, e_length).into_iter().for_each(|place| reached[place] = true);
        }
        let places = data_places(s, r);
        heard += places.iter().filter(|place| reached[**place - r * ROOM_OF_BLOCK]).count();
        all += places.len();
    }
    (heard, all)
}

/// The orders of the three versions.
fn orders() -> Vec<[usize; 3]> {
    let [a, b, c] = THREE;
    vec![[a, b, c], [a, c, b], [b, a, c], [b, c, a], [c, a, b], [c, b, a]]
}

/// The order in which least is heard after the first, then after the second, and what is heard.
pub fn worst_order(s: &Segmentation, unit: usize, g: usize) -> ([usize; 3], [usize; 3]) {
    let after = |order: [usize; 3]| {
        [1, 2, 3].map(|count| heard(s, unit, &order.map(|version| (version, g))[..count]).0)
    };
    orders().into_iter().map(|order| (order, after(order))).min_by_key(|(_, heard)| *heard).expect("six orders")
}

/// The bits that transmissions of these versions need, as many each, to have sent every data
/// place of a single code block.
pub fn needed(s: &Segmentation, versions: &[usize]) -> usize {
    let mut first = vec![usize::MAX; ROOM_OF_BLOCK];
    for version in versions {
        let turn = walked(s, 0, WHOLE_SHARE, *version, whole(s, 0));
        (1..).zip(turn).for_each(|(bits, place)| first[place] = first[place].min(bits));
    }
    data_places(s, 0).into_iter().map(|place| first[place]).max().expect("a code block has data")
}

/// Over the 188 sizes without filler, for each N * Q: of how many one allocation unit less than the
/// least G of three leaves a data place unheard, and of how many one unit less than the least G of
/// one does, in version 0.
pub fn tight() -> [(usize, usize); UNITS.len()] {
    let sizes: Vec<(Segmentation, usize, usize)> = TABLE
        .iter()
        .map(|row| Segmentation::of(row.k))
        .map(|s| (s, needed(&s, &THREE), needed(&s, &[0])))
        .collect();
    UNITS.map(|unit| {
        let three = sizes.iter().filter(|(s, three, _)| least(s, unit, quarter) - unit < *three);
        let one = sizes.iter().filter(|(s, _, one)| least(s, unit, whole) - unit < *one);
        (three.count(), one.count())
    })
}

/// The tables `repeats` and `tight`.
pub fn text() -> String {
    let mut text = "repeats\tA\tQ\tN\tblocks\tplaces\tone\tthree\torder\tfirst\tsecond\tthird\n".to_string();
    for a in COMMON {
        for (q, n) in ALLOCATIONS {
            text += &repeats_row(a, q, n);
        }
    }
    text += "tight\tunit\tsizes\tthree\tone\n";
    for (unit, (three, one)) in UNITS.into_iter().zip(tight()) {
        text += &format!("tight\t{unit}\t{}\t{three}\t{one}\n", TABLE.len());
    }
    text
}

fn repeats_row(a: usize, q: usize, n: usize) -> String {
    let s = segmentation_of(a).expect("A is in range");
    let least = worst(a, q, n).expect("Q and N are in range");
    let (order, [first, second, third]) = worst_order(&s, n * q, least.three);
    let places = heard(&s, n * q, &[]).1;
    let order = order.map(|version| version.to_string()).join(" ");
    let Worst { three, one } = least;
    format!("repeats\t{a}\t{q}\t{n}\t{}\t{places}\t{one}\t{three}\t{order}\t{first}\t{second}\t{third}\n", s.blocks)
}
