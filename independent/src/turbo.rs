//! Clause 5.1.3.2: turbo coding.

use crate::table::TABLE;

/// The three streams d^(0), d^(1), d^(2), each of D = K + 4 places; `None` is `<NULL>`.
pub type Streams = [Vec<Option<u8>>; 3];

/// One 8-state constituent encoder (5.1.3.2.1): the register's cells D, D^2, D^3.
#[derive(Default)]
pub struct Constituent {
    d1: u8,
    d2: u8,
    d3: u8,
}

impl Constituent {
    /// Takes one input bit, gives its parity bit: g_1(D) / g_0(D).
    pub fn encode(&mut self, c: u8) -> u8 {
        let entering = c ^ self.feedback();
        let z = entering ^ self.d1 ^ self.d3; // g_1 = 1 + D + D^3
        self.d3 = self.d2;
        self.d2 = self.d1;
        self.d1 = entering;
        z
    }

    /// Three steps with the switch in its lower position (5.1.3.2.2): the input is the
    /// feedback itself, so that zeros enter the register. Gives (x, z) of each step.
    pub fn terminate(&mut self) -> [(u8, u8); 3] {
        [(); 3].map(|_| {
            let x = self.feedback();
            (x, self.encode(x))
        })
    }

    /// What g_0 = 1 + D^2 + D^3 sends back to the input.
    fn feedback(&self) -> u8 {
        self.d2 ^ self.d3
    }
}

/// Pi(i) of 5.1.3.2.3 for i = 0 .. K-1: the place the second encoder's i-th bit is read from.
///
/// `k` is a size of table 5.1.3-3. In 64 bits, as f2 * i^2 passes 32 bits.
pub fn interleaver(k: usize) -> Vec<usize> {
    let row = TABLE.iter().find(|row| row.k == k).expect("a code block has a size of the table");
    let (k, f1, f2) = (row.k as u64, row.f1 as u64, row.f2 as u64);
    (0..k).map(|i| ((f1 * i + f2 * i * i) % k) as usize).collect()
}

/// The turbo encoder: the three streams of one code block whose first `filler` bits are
/// filler (given as 0).
pub fn encode(c: &[u8], filler: usize) -> Streams {
    let mut first = Constituent::default();
    let mut second = Constituent::default();
    let mut d: Streams = Default::default();
    let pi = interleaver(c.len());
    for k in 0..c.len() {
        let z = first.encode(c[k]);
        let z_prime = second.encode(c[pi[k]]);
        // The second encoder meets filler out of order and its parity is no filler:
        // only streams 0 and 1 have NULL places.
        d[0].push(if k < filler { None } else { Some(c[k]) });
        d[1].push(if k < filler { None } else { Some(z) });
        d[2].push(Some(z_prime));
    }
    append_tail(&mut d, first.terminate());
    append_tail(&mut d, second.terminate());
    d
}

/// The last four places of each stream are two such groups, first encoder then second:
/// x_K z_{K+1} / z_K x_{K+2} / x_{K+1} z_{K+2} in streams 0 / 1 / 2.
fn append_tail(d: &mut Streams, tail: [(u8, u8); 3]) {
    let [(x_k, z_k), (x_k1, z_k1), (x_k2, z_k2)] = tail;
    d[0].extend([Some(x_k), Some(z_k1)]);
    d[1].extend([Some(z_k), Some(x_k2)]);
    d[2].extend([Some(x_k1), Some(z_k2)]);
}
