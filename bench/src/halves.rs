//! The search of the fast program: words of weight v as a low and a high half, the low halves in a table by their column sum.
//! The number tried is not counted: within a weight, order by value is order by the highest cell first, so a word's place is a
//! sum of binomials.
use crate::calls::*;
use crate::fast::{sum, Columns};
use crate::programs::{Heard, Measured};

/// Row c has the ways to choose 0 to 9 of c things.
const BINOMIALS: [[u64; 10]; WIDTH + 1] = binomials();

const fn binomials() -> [[u64; 10]; WIDTH + 1] {
    let mut b = [[0; 10]; WIDTH + 1];
    b[0][0] = 1;
    let mut c = 1;
    while c <= WIDTH {
        b[c][0] = 1;
        let mut v = 1;
        while v < 10 {
            b[c][v] = b[c - 1][v - 1] + b[c - 1][v];
            v += 1;
        }
        c += 1;
    }
    b
}

/// The place of z, counted from 1, among the words of its own weight.
fn place_in_weight(z: Word) -> u64 {
    let (mut x, mut i, mut place) = (z, 1, 1);
    while x != 0 {
        place += BINOMIALS[x.trailing_zeros() as usize][i];
        i += 1;
        x &= x - 1;
    }
    place
}

/// How many words over n cells have a weight from `from` up to `to`, which is left out.
fn words(n: usize, from: u32, to: u32) -> u64 {
    (from..to).map(|v| BINOMIALS[n][v as usize]).sum()
}

/// No word of a table: none that is listed has all cells of the machine's word.
const NONE: Word = Word::MAX;

/// Sums of a few columns at the cells of H, each with the first listed word that has it; for d1 also the first word of that sum
/// whose sum at M is another. Open addressing.
struct Sums {
    mask: usize,
    shift: u32,
    with_m: bool,
    key: Vec<Word>,
    first: Vec<Word>,
    first_m: Vec<Word>,
    second: Vec<Word>,
}

impl Sums {
    fn new(count: usize, with_m: bool) -> Sums {
        let size = (count * 2).next_power_of_two().max(16);
        let m = if with_m { size } else { 0 };
        Sums {
            mask: size - 1,
            shift: 64 - size.trailing_zeros(),
            with_m,
            key: vec![0; size],
            first: vec![NONE; size],
            first_m: vec![0; m],
            second: vec![NONE; m],
        }
    }

    /// Where a sum is, or would be.
    #[inline]
    fn slot(&self, key: Word) -> usize {
        let mut i = ((key as u64).wrapping_mul(0x9E37_79B9_7F4A_7C15) >> self.shift) as usize;
        while self.first[i] != NONE && self.key[i] != key {
            i = (i + 1) & self.mask;
        }
        i
    }

    /// Puts the word z with its sums, if no earlier word stands for them.
    #[inline]
    fn put(&mut self, key: Word, m: Word, z: Word) {
        let i = self.slot(key);
        if self.first[i] == NONE {
            self.key[i] = key;
            self.first[i] = z;
            if self.with_m {
                self.first_m[i] = m;
            }
        } else if self.with_m && self.second[i] == NONE && self.first_m[i] != m {
            self.second[i] = z;
        }
    }

    /// The first word with this sum (with M: and a sum at M other than m), if it lies below the bound.
    #[inline]
    fn get(&self, key: Word, m: Word, bound: Word) -> Option<Word> {
        let i = self.slot(key);
        let mut z = self.first[i];
        if self.with_m && z != NONE && self.first_m[i] == m {
            z = self.second[i];
        }
        (z < bound).then_some(z)
    }
}

/// Calls f with each word of weight v over the cells from `from` up to `to`, in listed order, with z and the sum added, until it
/// answers true.
fn each(
    columns: &[Word],
    (from, to): (usize, usize),
    v: u32,
    (z, sum): (Word, Word),
    f: &mut dyn FnMut(Word, Word) -> bool,
) -> bool {
    if v == 0 {
        return f(z, sum);
    }
    for c in from + v as usize - 1..to {
        let next = (z | 1 << c, sum ^ columns[c]);
        let done = if v == 1 {
            f(next.0, next.1)
        } else {
            each(columns, (from, c), v - 1, next, f)
        };
        if done {
            return true;
        }
    }
    false
}

/// The table of the low halves of a weight.
fn table(columns: &[Word], h: Word, low: u32, with_m: bool) -> Sums {
    let mut sums = Sums::new(BINOMIALS[columns.len()][low as usize] as usize, with_m);
    each(columns, (0, columns.len()), low, (0, 0), &mut |z, s| {
        sums.put(s & h, s & !h, z);
        false
    });
    sums
}

/// The first listed word of weight low + high whose sum is `want` at the cells of h (with M: and not 0 off them).
fn by_halves(
    columns: &[Word],
    h: Word,
    sums: &Sums,
    low: u32,
    high: u32,
    want: Word,
) -> Option<Word> {
    let mut hit = None;
    let cells = (low as usize, columns.len());
    each(columns, cells, high, (0, want), &mut |z, s| {
        let bound = 1 << z.trailing_zeros();
        hit = sums.get(s & h, s & !h, bound).map(|x| z | x);
        hit.is_some()
    });
    hit
}

/// The first listed word up to the radius whose sum at H is `want`. A scan beats a table at weight 1.
fn nearest(columns: &[Word], h: Word, want: Word, radius: u32) -> Option<Word> {
    if want == 0 {
        return Some(0);
    }
    if radius == 0 {
        return None;
    }
    if let Some(i) = columns.iter().position(|x| x & h == want) {
        return Some(1 << i);
    }
    if radius == 1 {
        return None;
    }
    let one = table(columns, h, 1, false);
    let pair = by_halves(columns, h, &one, 1, 1, want);
    if pair.is_some() || radius == 2 {
        return pair;
    }
    let two = table(columns, h, 2, false);
    let three = by_halves(columns, h, &two, 2, 1, want);
    if three.is_some() || radius == 3 {
        return three;
    }
    by_halves(columns, h, &two, 2, 2, want)
}

/// The message of the nearest codeword, or the length of the list.
pub fn read(s: &Sheet, columns: &Columns, y: Word, radius: u32) -> Result<Heard, u64> {
    let (columns, h, total) = (&columns[..s.n], all_cells(s.r()), sum(columns, y));
    let all = || words(s.n, 0, radius.min(s.n as u32) + 1);
    let z = nearest(columns, h, total & h, radius).ok_or_else(all)?;
    let message = (sum(columns, z) ^ total) >> s.r();
    let tried = words(s.n, 0, z.count_ones()) + place_in_weight(z);
    Ok(Heard { message, z, tried })
}

/// The least weight of a word whose sum is 0 at the cells of h (with M: and not 0 off them).
pub fn measure(columns: &[Word], h: Word, cap: u32, with_m: bool) -> Measured {
    let n = columns.len();
    let top = cap.min(n as u32);
    let mut sums = None;
    for v in 1..=top {
        let low = v / 2;
        let hit = if low == 0 {
            let passes = |x: &Word| x & h == 0 && (!with_m || x & !h != 0);
            columns.iter().position(passes).map(|i| 1 << i)
        } else {
            let held = sums.take().filter(|(l, _)| *l == low);
            let (_, table) =
                sums.insert(held.unwrap_or_else(|| (low, table(columns, h, low, with_m))));
            by_halves(columns, h, table, low, v - low, 0)
        };
        if let Some(z) = hit {
            let tried = words(n, 1, v) + place_in_weight(z);
            return Measured {
                distance: Some(v),
                tried,
            };
        }
    }
    Measured {
        distance: None,
        tried: words(n, 1, top + 1),
    }
}
