//! What an expert would write. Admission: the columns of H and M at once, summed four cells at a time by tables. Writing: the
//! rows of G0 at the stuck cells, reduced as they come; for a whole page the rows of G1 are summed by tables too. Reading and
//! measuring: `halves`.
use crate::calls::*;
use crate::halves;
use crate::programs::*;
use crate::slots::write_slots;

/// The fast program. Its admission finds the columns of H and M.
pub struct Fast;

impl Program for Fast {
    type Found = Columns;
    const NAME: &'static str = "fast";

    fn admit(s: &Sheet) -> Result<Columns, Refusal> {
        if !s.is_shaped() {
            return Err(Refusal(1, None));
        }
        let over = !all_cells(s.n);
        if s.rows.iter().fold(0, |a, x| a | x) & over != 0 {
            let row = s.rows.iter().position(|x| x & over != 0);
            return Err(Refusal(2, row.map(|i| i as u64)));
        }
        let columns = transposed(&s.rows[s.k + s.l..]);
        if let Some(why) = off(s, &columns) {
            return Err(why);
        }
        if let Some(i) = first_dependent(s.g0()) {
            return Err(Refusal(5, Some((s.k + i) as u64)));
        }
        if let Some(i) = first_dependent(s.h()) {
            return Err(Refusal(6, Some((s.k + s.l + i) as u64)));
        }
        Ok(columns)
    }

    fn write(s: &Sheet, message: Word, stuck: Word, levels: Word) -> Option<Written> {
        fit(s.g0(), sum(s.g1(), message), stuck, levels)
    }

    fn read(s: &Sheet, columns: &Columns, y: Word, radius: u32) -> Result<Heard, u64> {
        halves::read(s, columns, y, radius)
    }

    fn d0(s: &Sheet, cap: u32) -> Measured {
        halves::measure(&transposed(s.g0())[..s.n], Word::MAX, cap, false)
    }

    fn d1(s: &Sheet, columns: &Columns, cap: u32) -> Measured {
        halves::measure(&columns[..s.n], all_cells(s.r()), cap, true)
    }

    /// The sums of four rows of G1 are made once, for all slots.
    fn page(s: &Sheet, p: &mut Page) {
        let sums = fours(&padded(s.g1()), s.k);
        write_slots(s, p, |message, stuck, levels| {
            fit(s.g0(), picked(&sums, s.k, message), stuck, levels)
        });
    }
}

/// A word for each cell: bit i is the cell in row i.
pub type Columns = [Word; WIDTH];

/// At most WIDTH rows, and zeros after them.
fn padded(rows: &[Word]) -> [Word; WIDTH] {
    let mut all = [0; WIDTH];
    all[..rows.len()].copy_from_slice(rows);
    all
}

/// The columns of at most WIDTH rows (Hacker's Delight, 7-3).
fn transposed(rows: &[Word]) -> Columns {
    let mut a = padded(rows);
    let (mut j, mut m) = (WIDTH / 2, Word::MAX >> (WIDTH / 2));
    while j != 0 {
        let mut k = 0;
        while k < WIDTH {
            let t = ((a[k] >> j) ^ a[k + j]) & m;
            a[k] ^= t << j;
            a[k + j] ^= t;
            k = (k + j + 1) & !j;
        }
        j >>= 1;
        m ^= m << j;
    }
    a
}

/// Sums of words in fours: of every choice among the four.
type Fours = [[Word; 16]; WIDTH / 4];

/// The sums of the first n words, in fours.
fn fours(words: &[Word; WIDTH], n: usize) -> Fours {
    let mut sums = [[0; 16]; WIDTH / 4];
    for (q, four) in sums.iter_mut().enumerate().take(n.div_ceil(4)) {
        for b in 0..4 {
            for x in 0..1 << b {
                four[x | 1 << b] = four[x] ^ words[4 * q + b];
            }
        }
    }
    sums
}

/// The sum of those of the first n words that the bits pick.
fn picked(sums: &Fours, n: usize, bits: Word) -> Word {
    let parts = sums[..n.div_ceil(4)].iter().enumerate();
    parts.fold(0, |x, (q, four)| x ^ four[(bits >> (4 * q)) as usize & 15])
}

/// The first row that is a sum of earlier ones. `min` clears a kept word's highest bit where x has it; the kept words are
/// cleared at each new one's highest bit, so that the order does not matter.
fn first_dependent(rows: &[Word]) -> Option<usize> {
    let mut basis = [0; WIDTH];
    for (i, &row) in rows.iter().enumerate() {
        let x = basis[..i].iter().fold(row, |x, b| x.min(x ^ b));
        if x == 0 {
            return Some(i);
        }
        let top = WIDTH as u32 - 1 - x.leading_zeros();
        for b in &mut basis[..i] {
            if *b >> top & 1 == 1 {
                *b ^= x;
            }
        }
        basis[i] = x;
    }
    None
}

/// The first row of G whose products with H and M are not those wanted: refusals 3 and 4. Column sums have H at the low r
/// bits and M above them.
fn off(s: &Sheet, columns: &Columns) -> Option<Refusal> {
    let sums = fours(columns, s.n);
    let mut four = None;
    for (i, &row) in s.rows[..s.k + s.l].iter().enumerate() {
        let own = if i < s.k { 1 << (s.r() + i) } else { 0 };
        let found = own ^ picked(&sums, s.n, row);
        if found & all_cells(s.r()) != 0 {
            return Some(Refusal(3, Some(i as u64)));
        }
        if found != 0 && four.is_none() {
            four = Some(Refusal(4, Some(i as u64)));
        }
    }
    four
}

/// The sum of the rows that the bits pick.
pub fn sum(rows: &[Word], mut bits: Word) -> Word {
    let mut x = 0;
    while bits != 0 {
        x ^= rows[bits.trailing_zeros() as usize];
        bits &= bits - 1;
    }
    x
}

/// The smallest d uses only rows of G0 that, seen at the stuck cells, are no sum of earlier ones: an elimination of the rows so
/// seen gives it.
fn fit(g0: &[Word], base: Word, stuck: Word, levels: Word) -> Option<Written> {
    let mut want = (base ^ levels) & stuck;
    if want == 0 {
        return Some(Written { word: base, d: 0 });
    }
    let (mut seen, mut by, mut at) = ([0; WIDTH], [0; WIDTH], [0; WIDTH]);
    let mut pivots = 0;
    for (j, g) in g0.iter().enumerate() {
        let (mut x, mut d): (Word, Word) = (g & stuck, 1 << j);
        for i in 0..pivots {
            if x >> at[i] & 1 == 1 {
                x ^= seen[i];
                d ^= by[i];
            }
        }
        if x != 0 {
            (at[pivots], seen[pivots], by[pivots]) = (x.trailing_zeros(), x, d);
            pivots += 1;
        }
    }
    let mut d = 0;
    for i in 0..pivots {
        if want >> at[i] & 1 == 1 {
            want ^= seen[i];
            d ^= by[i];
        }
    }
    let word = base ^ sum(g0, d);
    (want == 0).then_some(Written { word, d })
}
