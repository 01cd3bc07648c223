//! The sheet of document 01 and its admission: refusals 1 to 6.

use crate::sums::is_sum;
use crate::word::{above, product, Wide, Word, MOST_CELLS};

/// A sheet as it is lent: three numbers and any number of rows, nothing checked yet.
#[derive(Clone, Debug, PartialEq, Eq)]
pub struct Sheet {
    pub n: u32,
    pub k: u32,
    pub l: u32,
    pub rows: Vec<Word>,
}

/// The three tables of request 4 as they are lent, or rooms lent for them, nothing checked
/// yet: P (k by r), R (l by k) and Q (l by r), in this order. Bit c of a row is column c.
pub type Tables = [Vec<Word>; 3];

/// A line of the table "When the box says no": its number and what is given with it.
#[derive(Clone, Copy, Debug, PartialEq, Eq)]
pub struct Refusal {
    pub number: u32,
    pub place: Option<u32>,
}

/// The rows of a sheet in the document's order: k of G1, l of G0, r of H, k of M.
#[derive(Clone, Copy, Debug)]
pub struct Parts<'a> {
    pub n: u32,
    pub g1: &'a [Word],
    pub g0: &'a [Word],
    pub h: &'a [Word],
    pub m: &'a [Word],
}

/// A refusal that is given with nothing.
pub fn bare(number: u32) -> Refusal {
    Refusal {
        number,
        place: None,
    }
}

/// A refusal that is given with a row, a cell or a number tried.
pub fn placed(number: u32, place: u32) -> Refusal {
    Refusal {
        number,
        place: Some(place),
    }
}

/// "The code is the set of n-cell words whose product with each row of H is 0."
pub fn is_codeword(parts: &Parts, word: Word) -> bool {
    parts.h.iter().all(|row| !product(*row, word))
}

/// The message of a codeword: its bit i is the product with row i of M.
pub fn message_of(parts: &Parts, word: Word) -> Word {
    let bits = parts.m.iter().enumerate();
    bits.filter(|(_, row)| product(**row, word))
        .fold(0, |message, (i, _)| message | 1 << i)
}

/// Admits a sheet or gives the first of refusals 1 to 6: "a rule is tried on all
/// rows before the next rule".
pub fn admit(sheet: &Sheet) -> Result<Parts<'_>, Refusal> {
    let parts = sized(sheet).ok_or(bare(1))?;
    let rules: [(u32, Rule); 5] = [
        (2, stray_row),
        (3, row_against_h),
        (4, row_against_m),
        (5, dependent_g0_row),
        (6, dependent_h_row),
    ];
    for (number, first_breaking_row) in rules {
        if let Some(row) = first_breaking_row(&parts) {
            return Err(placed(number, row as u32));
        }
    }
    Ok(parts)
}

/// A rule answers the first row, in sheet order, at which it breaks.
type Rule = fn(&Parts) -> Option<usize>;

/// The numbers k, l and r = n - k - l, where 1 ≤ n ≤ 64, k ≥ 1 and k + l ≤ n, the sum taken
/// as a whole number that does not wrap; none where refusal 1 is due.
pub fn numbers(n: u32, k: u32, l: u32) -> Option<[usize; 3]> {
    let r = u64::from(n).checked_sub(u64::from(k) + u64::from(l))?;
    let right = (1..=MOST_CELLS).contains(&n) && k >= 1;
    right.then_some([k as usize, l as usize, r as usize])
}

/// Refusal 1: the numbers as they should be, and n + k lent rows.
fn sized(sheet: &Sheet) -> Option<Parts<'_>> {
    let [k, l, r] = numbers(sheet.n, sheet.k, sheet.l)?;
    if sheet.rows.len() != sheet.n as usize + k {
        return None;
    }
    let (g1, rest) = sheet.rows.split_at(k);
    let (g0, rest) = rest.split_at(l);
    let (h, m) = rest.split_at(r);
    Some(Parts {
        n: sheet.n,
        g1,
        g0,
        h,
        m,
    })
}

/// Refusal 2: a row has a bit at cell n or above.
fn stray_row(parts: &Parts) -> Option<usize> {
    let groups = [parts.g1, parts.g0, parts.h, parts.m].concat();
    groups.iter().position(|row| row & above(parts.n) != 0)
}

/// Refusal 3: a row of G1 or G0 has product 1 with a row of H.
fn row_against_h(parts: &Parts) -> Option<usize> {
    let rows = [parts.g1, parts.g0].concat();
    rows.iter().position(|row| !is_codeword(parts, *row))
}

/// Refusal 4: row i of G1 must have product 1 with row i of M and 0 with its other
/// rows, every row of G0 product 0 with every row of M.
fn row_against_m(parts: &Parts) -> Option<usize> {
    let rows = [parts.g1, parts.g0].concat();
    let breaks = |i: usize| {
        let mut m_rows = parts.m.iter().enumerate();
        m_rows.any(|(j, m_row)| product(rows[i], *m_row) != (i == j))
    };
    (0..rows.len()).find(|i| breaks(*i))
}

/// Refusal 5: a row of G0 is a sum of earlier ones.
fn dependent_g0_row(parts: &Parts) -> Option<usize> {
    dependent(parts.g0).map(|j| parts.g1.len() + j)
}

/// Refusal 6: a row of H is a sum of earlier ones.
fn dependent_h_row(parts: &Parts) -> Option<usize> {
    dependent(parts.h).map(|j| parts.g1.len() + parts.g0.len() + j)
}

/// The first of these rows that is a sum of earlier ones, the empty sum being 0.
fn dependent(rows: &[Word]) -> Option<usize> {
    let wide: Vec<Wide> = rows.iter().map(|row| Wide::from(*row)).collect();
    (0..wide.len()).find(|j| is_sum(wide[*j], &wide[..*j]))
}

#[cfg(test)]
mod tests {
    use super::*;

    /// Row 0 breaks rule 4 and row 3 breaks rule 3: rule 3 is tried on all rows first.
    #[test]
    fn a_rule_is_tried_on_all_rows_before_the_next() {
        let rows = vec![0, 82, 100, 126, 27, 45, 78, 9, 10, 12];
        let sheet = Sheet {
            n: 7,
            k: 3,
            l: 1,
            rows,
        };
        assert_eq!(admit(&sheet).err(), Some(placed(3, 3)));
    }

    /// k + l and n + k that would wrap at 32 bits are still refusal 1.
    #[test]
    fn sums_of_the_numbers_do_not_wrap() {
        let rows = vec![0; 6];
        let sheet = Sheet {
            n: 7,
            k: u32::MAX,
            l: 2,
            rows,
        };
        assert_eq!(admit(&sheet).err(), Some(bare(1)));
    }

    /// The numbers at their limits: no l, no r, the widest, and those that are just wrong.
    #[test]
    fn numbers_at_their_limits() {
        assert_eq!(numbers(1, 1, 0), Some([1, 0, 0]));
        assert_eq!(numbers(32, 10, 12), Some([10, 12, 10]));
        assert_eq!(numbers(33, 32, 1), Some([32, 1, 0]));
        assert_eq!(numbers(64, 64, 0), Some([64, 0, 0]));
        assert_eq!(numbers(64, 1, 63), Some([1, 63, 0]));
        for (n, k, l) in [(0, 0, 0), (65, 1, 0), (1, 0, 0), (1, 1, 1), (64, 64, 1)] {
            assert_eq!(numbers(n, k, l), None);
        }
        let most = u32::MAX;
        for (n, k, l) in [(7, most, 8), (7, 8, most), (64, most, most), (most, 1, 0)] {
            assert_eq!(numbers(n, k, l), None);
        }
    }
}
