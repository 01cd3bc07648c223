//! The obvious program: a product one cell at a time, every listed word tried.
use crate::calls::*;
use crate::programs::*;
use crate::slots::write_slots;

/// The plain program. Its admission finds nothing that the jobs could use.
pub struct Plain;

impl Program for Plain {
    type Found = ();
    const NAME: &'static str = "plain";

    fn admit(s: &Sheet) -> Result<(), Refusal> {
        if !s.is_shaped() {
            return Err(Refusal(1, None));
        }
        let (n, k, l) = (s.n, s.k, s.l);
        let at = |number, row: usize| Err(Refusal(number, Some(row as u64)));
        for (i, row) in s.rows.iter().enumerate() {
            if row & !all_cells(n) != 0 {
                return at(2, i);
            }
        }
        for i in 0..k + l {
            if s.h().iter().any(|h| product(s.rows[i], *h, n)) {
                return at(3, i);
            }
        }
        for i in 0..k + l {
            if (0..k).any(|j| product(s.rows[i], s.m()[j], n) != (i == j)) {
                return at(4, i);
            }
        }
        if let Some(i) = first_dependent(s.g0(), n) {
            return at(5, k + i);
        }
        if let Some(i) = first_dependent(s.h(), n) {
            return at(6, k + l + i);
        }
        Ok(())
    }

    fn write(s: &Sheet, message: Word, stuck: Word, levels: Word) -> Option<Written> {
        let base = sum(s.g1(), message);
        let mut equations: Vec<(Word, bool)> = Vec::new();
        for c in (0..s.n).filter(|c| (stuck >> c) & 1 == 1) {
            let bit = |j: usize| ((s.g0()[j] >> c) & 1) << j;
            let row = (0..s.l).fold(0, |a, j| a | bit(j));
            equations.push((row, ((base ^ levels) >> c) & 1 == 1));
        }
        let d = smallest(&mut equations, s.l)?;
        let word = base ^ sum(s.g0(), d);
        Some(Written { word, d })
    }

    fn read(s: &Sheet, _: &(), y: Word, radius: u32) -> Result<Heard, u64> {
        let mut tried = 0;
        for v in 0..=radius {
            if let Some(z) = first(s.n, v, 0, &mut tried, &|z| is_codeword(s, y ^ z)) {
                let message = message_of(s, y ^ z);
                return Ok(Heard { message, z, tried });
            }
        }
        Err(tried)
    }

    fn d0(s: &Sheet, cap: u32) -> Measured {
        measure(s, cap, &|z| s.g0().iter().all(|g| !product(z, *g, s.n)))
    }

    fn d1(s: &Sheet, _: &(), cap: u32) -> Measured {
        measure(s, cap, &|z| is_codeword(s, z) && message_of(s, z) != 0)
    }

    /// The write as it stands, for each slot.
    fn page(s: &Sheet, p: &mut Page) {
        write_slots(s, p, |message, stuck, levels| {
            <Self as Program>::write(s, message, stuck, levels)
        });
    }
}

/// The parity of the cells that are 1 in both.
fn product(a: Word, b: Word, n: usize) -> bool {
    let mut odd = false;
    for i in 0..n {
        if (a >> i) & 1 == 1 && (b >> i) & 1 == 1 {
            odd = !odd;
        }
    }
    odd
}

/// The first row that is a sum of earlier ones: elimination, one pivot a row.
fn first_dependent(rows: &[Word], n: usize) -> Option<usize> {
    let mut basis: Vec<(usize, Word)> = Vec::new();
    for (i, &row) in rows.iter().enumerate() {
        let mut x = row;
        for &(p, b) in &basis {
            if (x >> p) & 1 == 1 {
                x ^= b;
            }
        }
        match (0..n).find(|c| (x >> c) & 1 == 1) {
            None => return Some(i),
            Some(p) => basis.push((p, x)),
        }
    }
    None
}

/// The sum of the rows that the bits pick.
fn sum(rows: &[Word], bits: Word) -> Word {
    let picked = |i: &usize| (bits >> i) & 1 == 1;
    (0..rows.len()).filter(picked).fold(0, |x, i| x ^ rows[i])
}

/// The smallest d of l bits that meets the equations: Gauss and Jordan, with pivots at the lowest bits of d. Then each free bit
/// is higher than the pivots that it moves, so the smallest d has all free bits 0.
fn smallest(equations: &mut [(Word, bool)], l: usize) -> Option<Word> {
    let mut pivots: Vec<usize> = Vec::new();
    for j in 0..l {
        let used = pivots.len();
        let has = |e: &(Word, bool)| (e.0 >> j) & 1 == 1;
        let Some(e) = equations[used..].iter().position(has) else {
            continue;
        };
        equations.swap(used, used + e);
        let (row, right) = equations[used];
        for (i, other) in equations.iter_mut().enumerate() {
            if i != used && has(other) {
                other.0 ^= row;
                other.1 ^= right;
            }
        }
        pivots.push(j);
    }
    if equations[pivots.len()..].iter().any(|e| e.1) {
        return None;
    }
    let ones = pivots.iter().zip(equations.iter());
    Some(ones.filter(|(_, e)| e.1).fold(0, |d, (j, _)| d | 1 << j))
}

/// Whether x has product 0 with every row of H.
fn is_codeword(s: &Sheet, x: Word) -> bool {
    s.h().iter().all(|h| !product(x, *h, s.n))
}

/// The products of x with the rows of M.
fn message_of(s: &Sheet, x: Word) -> Word {
    let rows = s.m().iter().enumerate();
    rows.fold(0, |w, (i, m)| w | (product(x, *m, s.n) as Word) << i)
}

/// The first listed word of weight v over so many cells, with `high` added, that passes the test.
fn first(
    cells: usize,
    v: u32,
    high: Word,
    tried: &mut u64,
    test: &dyn Fn(Word) -> bool,
) -> Option<Word> {
    if v == 0 {
        *tried += 1;
        return test(high).then_some(high);
    }
    if cells == 0 {
        return None;
    }
    if let Some(z) = first(cells - 1, v, high, tried, test) {
        return Some(z);
    }
    first(cells - 1, v - 1, high | 1 << (cells - 1), tried, test)
}

/// The least weight of a word that passes the test.
fn measure(s: &Sheet, cap: u32, test: &dyn Fn(Word) -> bool) -> Measured {
    let mut tried = 0;
    let distance = (1..=cap).find(|v| first(s.n, *v, 0, &mut tried, test).is_some());
    Measured { distance, tried }
}
