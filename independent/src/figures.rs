//! The numbers of the pictures in docs/pictures as tab-parted text, for the smallest and the
//! largest K without filler: all from the rate matcher, run on labels in the bits' stead, but
//! for the column numbers, which are the standard's table. The tables of repeats are of `worst`.
//!
//! Every line begins with the name of its table; the first of a table names the columns.

use crate::older::Upwards;
use crate::rate;
use crate::worst;

/// The smallest and the largest row of table 5.1.3-3.
pub const SIZES: [usize; 2] = [40, 6_144];

/// The order of the versions where four transmissions come one after another.
pub const ORDER: [usize; 4] = [0, 2, 3, 1];

/// Where the picture of a cut circle cuts it: N_cb in columns of R places. The first is the whole, the last the least accepted.
pub const CUTS: [usize; 4] = [96, 64, 50, 32];

/// A stream's number and a place in it.
type Label = (usize, usize);

/// The circle of a code block of K bits without filler, whole or cut.
pub struct Circle {
    pub k: usize,
    places: Vec<Option<Label>>,
}

/// A number of bits received and how many data places are heard by then.
pub type Point = (usize, usize);

impl Circle {
    pub fn new(k: usize) -> Circle {
        let stream = |i| (0..k + 4).map(|place| Some((i, place))).collect();
        Circle { k, places: rate::circle(&[0, 1, 2].map(stream)) }
    }

    /// The same cut at N_cb = columns * R.
    pub fn cut(&self, columns: usize) -> Circle {
        Circle { k: self.k, places: self.places[..columns * self.rows()].to_vec() }
    }

    fn rows(&self) -> usize {
        rate::rows(self.k + 4)
    }

    /// The bits of one turn.
    pub fn turn(&self) -> usize {
        3 * (self.k + 4)
    }

    /// A quarter of the circle's places, 24 * R: the bits of one of four equal transmissions.
    pub fn quarter(&self) -> usize {
        self.places.len() / 4
    }

    fn start(&self, version: usize) -> usize {
        rate::start_in(self.places.len(), self.rows(), version)
    }

    fn sent(&self, version: usize, bits: usize) -> Vec<Label> {
        rate::walk(&self.places, self.start(version), bits)
    }

    /// How many places the walk passes for so many bits, dummies among them; all of them once it has gone round.
    fn passed(&self, version: usize, bits: usize) -> usize {
        if bits >= self.places.iter().flatten().count() {
            return self.places.len();
        }
        let numbered: Vec<Option<usize>> =
            self.places.iter().enumerate().map(|(at, label)| label.map(|_| at)).collect();
        let start = self.start(version);
        let last = rate::walk(&numbered, start, bits)[bits - 1];
        (last + numbered.len() - start) % numbered.len() + 1
    }

    fn holds(&self, place: usize) -> &'static str {
        match self.places[place] {
            None => "dummy",
            Some((_, at)) if at >= self.k => "tail",
            Some((0, _)) => "data",
            Some(_) => "parity",
        }
    }

    /// Where the circle goes over from one kind of place to another: from, to, kind.
    fn parts(&self) -> Vec<(usize, usize, &'static str)> {
        let mut parts: Vec<(usize, usize, &'static str)> = Vec::new();
        for place in 0..self.places.len() {
            let kind = self.holds(place);
            match parts.last_mut() {
                Some((_, to, last)) if *last == kind => *to = place + 1,
                _ => parts.push((place, place + 1, kind)),
            }
        }
        parts
    }

    /// Data places heard after each number of bits, as the corners of a line from 0.
    fn curve(&self, sent: &[Label]) -> Vec<Point> {
        let mut heard = vec![false; self.k];
        let mut corners = vec![(0, 0)];
        let (mut count, mut last_step) = (0, None);
        for (bits, (stream, place)) in sent.iter().enumerate() {
            let fresh = *stream == 0 && *place < self.k && !std::mem::replace(&mut heard[*place], true);
            if last_step.map_or(false, |step| step != fresh) {
                corners.push((bits, count));
            }
            last_step = Some(fresh);
            count += usize::from(fresh);
        }
        corners.push((sent.len(), count));
        corners
    }

    /// The curve of one turn of a version.
    pub fn alone(&self, version: usize) -> Vec<Point> {
        self.curve(&self.sent(version, self.turn()))
    }

    /// The curve of four transmissions, a quarter of the circle each.
    pub fn together(&self) -> Vec<Point> {
        let sent: Vec<Label> = ORDER.iter().flat_map(|version| self.sent(*version, self.quarter())).collect();
        self.curve(&sent)
    }

    /// The least number of bits by which a version alone hears every data place.
    pub fn needed(&self, version: usize) -> usize {
        let reached = |point: &&Point| point.1 == self.k;
        self.alone(version).iter().find(reached).expect("a turn sends every place").0
    }
}

/// The data places heard at a number of bits, from a curve's corners.
pub fn heard_at(curve: &[Point], bits: usize) -> usize {
    let after = curve.iter().position(|corner| corner.0 >= bits).expect("the curve goes on so far");
    let (to, heard) = curve[after];
    match after {
        0 => heard,
        _ if curve[after - 1].1 == heard => heard,
        _ => heard - (to - bits),
    }
}

/// The rows of a table for one circle, K left out.
type Rows = fn(&Circle) -> Vec<String>;

/// All tables.
pub fn text() -> String {
    let circles = SIZES.map(Circle::new);
    let tables: [(&str, Rows); 7] = [
        ("circle\tK\tR\tplaces\tbits\tquarter", circle),
        ("part\tK\tfrom\tto\tholds", parts),
        ("sent\tK\tversion\tstart\tbits\tplaces\theard", sent),
        ("alone\tK\tversion\tbits\theard", alone),
        ("needed\tK\tversion\tbits", needed),
        ("together\tK\tversions\tbits\theard", together),
        ("cut\tK\tcolumns\tplaces\tversion\tstart\tbits\tpassed\theard", cuts),
    ];
    let mut text = String::new();
    for (header, rows) in tables {
        text += &format!("{header}\n");
        let name = header.split('\t').next().unwrap_or(header);
        for circle in &circles {
            let lines = rows(circle).into_iter();
            text.extend(lines.map(|row| format!("{name}\t{}\t{row}\n", circle.k)));
        }
    }
    text + &columns() + &worst::text()
}

/// Table 5.1.4-1 as printed.
fn columns() -> String {
    let rows = rate::P.iter().enumerate().map(|(c, p)| format!("column\t{c}\t{p}\n"));
    format!("column\tc\tP\n{}", rows.collect::<String>())
}

fn circle(c: &Circle) -> Vec<String> {
    vec![format!("{}\t{}\t{}\t{}", c.rows(), c.places.len(), c.turn(), c.quarter())]
}

fn parts(c: &Circle) -> Vec<String> {
    c.parts().into_iter().map(|(from, to, kind)| format!("{from}\t{to}\t{kind}")).collect()
}

/// What each version sends with as many bits as the data, and with twice as many.
fn sent(c: &Circle) -> Vec<String> {
    let row = |version, bits| {
        let heard = heard_at(&c.alone(version), bits);
        format!("{version}\t{}\t{bits}\t{}\t{heard}", c.start(version), c.passed(version, bits))
    };
    (0..4).flat_map(|version| [row(version, c.k), row(version, 2 * c.k)]).collect()
}

/// The same on a circle that is cut.
fn cuts(c: &Circle) -> Vec<String> {
    let mut rows = Vec::new();
    for columns in CUTS {
        let cut = c.cut(columns);
        for (version, bits) in (0..4).flat_map(|version| [(version, c.k), (version, 2 * c.k)]) {
            let (start, passed) = (cut.start(version), cut.passed(version, bits));
            let heard = heard_at(&cut.curve(&cut.sent(version, bits)), bits);
            rows.push(format!("{columns}\t{}\t{version}\t{start}\t{bits}\t{passed}\t{heard}", cut.places.len()));
        }
    }
    rows
}

fn alone(c: &Circle) -> Vec<String> {
    let of_version = |version| {
        c.alone(version).into_iter().map(move |(bits, heard)| format!("{version}\t{bits}\t{heard}"))
    };
    (0..4).flat_map(of_version).collect()
}

fn needed(c: &Circle) -> Vec<String> {
    (0..4).map(|version| format!("{version}\t{}", c.needed(version))).collect()
}

/// The corners, each with the versions that have been sent or begun by then.
fn together(c: &Circle) -> Vec<String> {
    let row = |(bits, heard): (usize, usize)| {
        let begun = bits.div_up(c.quarter()).clamp(1, ORDER.len());
        let versions = ORDER[..begun].iter().map(|version| version.to_string()).collect::<Vec<String>>();
        format!("{}\t{bits}\t{heard}", versions.join(" "))
    };
    c.together().into_iter().map(row).collect()
}
