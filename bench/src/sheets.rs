//! Numbers and sheets at random, the same in every run.
use crate::calls::*;

/// Numbers at random, repeatable from a seed (splitmix64).
pub struct Random(pub u64);

impl Random {
    pub fn next(&mut self) -> u64 {
        self.0 = self.0.wrapping_add(0x9E37_79B9_7F4A_7C15);
        let mut z = self.0;
        z = (z ^ (z >> 30)).wrapping_mul(0xBF58_476D_1CE4_E5B9);
        z = (z ^ (z >> 27)).wrapping_mul(0x94D0_49BB_1331_11EB);
        z ^ (z >> 31)
    }

    /// A number below a bound.
    pub fn below(&mut self, bound: usize) -> usize {
        (self.next() % bound as u64) as usize
    }

    /// A word over n cells.
    pub fn word(&mut self, n: usize) -> Word {
        self.next() as Word & all_cells(n)
    }

    /// A word over n cells with exactly so many ones.
    pub fn ones(&mut self, n: usize, count: usize) -> Word {
        let mut x: Word = 0;
        while (x.count_ones() as usize) < count {
            x |= 1 << self.below(n);
        }
        x
    }
}

/// Whether bit i of a word is 1.
fn bit(x: Word, i: usize) -> bool {
    x >> i & 1 == 1
}

/// The cells of the j with a property, moved up to `from`.
fn cells(from: usize, count: usize, has: impl Fn(usize) -> bool) -> Word {
    (0..count)
        .filter(|j| has(*j))
        .fold(0, |x, j| x | 1 << (from + j))
}

/// An admitted sheet: G1 = [I 0 P], G0 = [R I Q], H = [Pᵀ (Q + RP)ᵀ I], M = [I Rᵀ 0] for random P, R and Q, its cells shuffled.
pub fn random(n: usize, k: usize, l: usize, g: &mut Random) -> Sheet {
    let (r, check) = (n - k - l, k + l);
    let p: Vec<Word> = (0..k).map(|_| g.word(r)).collect();
    let rr: Vec<Word> = (0..l).map(|_| g.word(k)).collect();
    let q: Vec<Word> = (0..l).map(|_| g.word(r)).collect();
    let through = |j: usize| {
        (0..k)
            .filter(|i| bit(rr[j], *i))
            .fold(q[j], |x, i| x ^ p[i])
    };
    let mut rows: Vec<Word> = Vec::with_capacity(n + k);
    rows.extend((0..k).map(|i| 1 << i | cells(check, r, |c| bit(p[i], c))));
    rows.extend((0..l).map(|j| rr[j] | 1 << (k + j) | cells(check, r, |c| bit(q[j], c))));
    rows.extend((0..r).map(|c| {
        cells(0, k, |i| bit(p[i], c)) | cells(k, l, |j| bit(through(j), c)) | 1 << (check + c)
    }));
    rows.extend((0..k).map(|i| 1 << i | cells(k, l, |j| bit(rr[j], i))));
    let mut to: Vec<usize> = (0..n).collect();
    for i in (1..n).rev() {
        to.swap(i, g.below(i + 1));
    }
    for row in &mut rows {
        *row = (0..n)
            .filter(|i| bit(*row, *i))
            .fold(0, |x, i| x | 1 << to[i]);
    }
    Sheet { n, k, l, rows }
}
