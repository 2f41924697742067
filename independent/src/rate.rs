//! Clause 5.1.4.1: rate matching for turbo coded transport channels.
//!
//! What travels is of any type `T`, `None` being `<NULL>`: with bits it is the rate
//! matcher, with labels of places the same code tells where each bit comes from.

use crate::older::Upwards;

/// C_subblock^TC, number of columns of the sub-block interleaver's matrix.
pub const COLUMNS: usize = 32;

/// P(j) of table 5.1.4-1.
pub const P: [usize; COLUMNS] = [
    0, 16, 8, 24, 4, 20, 12, 28, 2, 18, 10, 26, 6, 22, 14, 30, //
    1, 17, 9, 25, 5, 21, 13, 29, 3, 19, 11, 27, 7, 23, 15, 31,
];

/// R_subblock^TC: the least number of rows that hold D places.
pub fn rows(d: usize) -> usize {
    d.div_up(COLUMNS)
}

/// y of step (3): dummies in front until the matrix is full.
fn padded<T: Copy>(stream: &[Option<T>]) -> Vec<Option<T>> {
    let dummies = rows(stream.len()) * COLUMNS - stream.len();
    let mut y = vec![None; dummies];
    y.extend_from_slice(stream);
    y
}

/// v^(0) or v^(1): written row by row, columns permuted, read column by column.
pub fn sub_block_01<T: Copy>(stream: &[Option<T>]) -> Vec<Option<T>> {
    let y = padded(stream);
    let matrix: Vec<&[Option<T>]> = y.chunks(COLUMNS).collect();
    let mut v = Vec::new();
    for column in P {
        for row in &matrix {
            v.push(row[column]);
        }
    }
    v
}

/// v^(2): the shifted rule v_k = y_pi(k).
pub fn sub_block_2<T: Copy>(stream: &[Option<T>]) -> Vec<Option<T>> {
    let y = padded(stream);
    let r = rows(stream.len());
    let k_pi = r * COLUMNS;
    let pi = |k: usize| (P[k / r] + COLUMNS * (k % r) + 1) % k_pi;
    (0..k_pi).map(|k| y[pi(k)]).collect()
}

/// The circular buffer w of 5.1.4.1.2: stream 0, then streams 1 and 2 by turns.
pub fn circle<T: Copy>(d: &[Vec<Option<T>>; 3]) -> Vec<Option<T>> {
    let mut w = sub_block_01(&d[0]);
    let v1 = sub_block_01(&d[1]);
    let v2 = sub_block_2(&d[2]);
    for k in 0..v1.len() {
        w.push(v1[k]);
        w.push(v2[k]);
    }
    w
}

/// k_0, where the walk round a whole circle starts. N_cb = K_w for UL-SCH.
pub fn start(n_cb: usize, version: usize) -> usize {
    start_in(n_cb, n_cb / (3 * COLUMNS), version)
}

/// k_0 on a circle of R rows that is cut at N_cb places.
pub fn start_in(n_cb: usize, r: usize, version: usize) -> usize {
    r * (2 * n_cb.div_up(8 * r) * version + 2)
}

/// e_0 .. e_{E-1}: round the circle from k_0, NULL places passed over.
///
/// At least one place must hold a bit; every coded block's tail does.
pub fn walk<T: Copy>(w: &[Option<T>], k_0: usize, e_length: usize) -> Vec<T> {
    let mut e = Vec::new();
    let mut j = 0;
    while e.len() < e_length {
        if let Some(bit) = w[(k_0 + j) % w.len()] {
            e.push(bit);
        }
        j += 1;
    }
    e
}

/// Rate matching of one code block's streams to `e_length` bits.
pub fn match_block<T: Copy>(d: &[Vec<Option<T>>; 3], version: usize, e_length: usize) -> Vec<T> {
    let w = circle(d);
    walk(&w, start(w.len(), version), e_length)
}

/// The same where the circle is cut at N_cb places.
pub fn match_cut<T: Copy>(d: &[Vec<Option<T>>; 3], n_cb: usize, version: usize, e_length: usize) -> Vec<T> {
    let w = circle(d);
    walk(&w[..n_cb], start_in(n_cb, rows(d[0].len()), version), e_length)
}

/// E of each code block: the larger shares, if any, go to the last blocks.
///
/// `per_symbol` is N_L * Q_m; `g` is a multiple of it.
pub fn shares(g: usize, per_symbol: usize, blocks: usize) -> Vec<usize> {
    let g_prime = g / per_symbol;
    let gamma = g_prime % blocks;
    let share = |r| {
        if r + gamma < blocks {
            per_symbol * (g_prime / blocks)
        } else {
            per_symbol * g_prime.div_up(blocks)
        }
    };
    (0..blocks).map(share).collect()
}
