//! Everything of a kind: every list of numbers below given limits, every sheet and all
//! tables with given n, k and l, and every short list of records.

use crate::sheet::{Sheet, Tables};
use crate::word::Word;

/// Every list with one number below each of these limits, in their order.
pub fn every_list(limits: Vec<Word>) -> impl Iterator<Item = Vec<Word>> {
    let count: Word = limits.iter().product();
    (0..count).map(move |number| {
        let mut rest = number;
        let digit = |limit: &Word| {
            let digit = rest % limit;
            rest /= limit;
            digit
        };
        limits.iter().map(digit).collect()
    })
}

/// Every sheet with these numbers whose n + k rows are all below the limit.
pub fn every_sheet(n: u32, k: u32, l: u32, limit: Word) -> impl Iterator<Item = Sheet> {
    let lists = every_list(vec![limit; (n + k) as usize]);
    lists.map(move |rows| Sheet { n, k, l, rows })
}

/// All P, R and Q with as many rows as these numbers ask for, every row being below 2 to
/// the number of its columns, or so much past it.
pub fn every_tables(n: u32, k: u32, l: u32, past: Word) -> impl Iterator<Item = Tables> {
    let r = n - k - l;
    let limits = [(k, r), (l, k), (l, r)].map(|(rows, columns)| {
        let limit = (1 << columns) + past;
        vec![limit; rows as usize]
    });
    let (k, l) = (k as usize, l as usize);
    every_list(limits.concat()).map(move |rows| {
        let (p, rest) = rows.split_at(k);
        let (big_r, q) = rest.split_at(l);
        [p, big_r, q].map(<[Word]>::to_vec)
    })
}

/// Every list of up to 2 records with slots 0 and 1, cells up to n and levels up to 2, each
/// record as its slot, cell and level.
pub fn every_records(n: u32) -> Vec<Vec<[Word; 3]>> {
    let mut records = Vec::new();
    for slot in 0..=1 {
        for cell in 0..=Word::from(n) {
            records.extend((0..=2).map(|level| [slot, cell, level]));
        }
    }
    let ones = records.iter().map(|record| vec![*record]);
    let pairs = records.iter().flat_map(|first| {
        let with_first = |second: &[Word; 3]| vec![*first, *second];
        records.iter().map(with_first)
    });
    [vec![]].into_iter().chain(ones).chain(pairs).collect()
}

#[cfg(test)]
mod tests {
    use super::*;
    use crate::sheet::admit;

    /// Lists below small limits, in their order; the empty one is a list too.
    #[test]
    fn lists_below_limits() {
        let lists = |limits: &[Word]| every_list(limits.to_vec()).collect::<Vec<_>>();
        assert_eq!(lists(&[2, 1]), [[0, 0], [1, 0]]);
        assert_eq!(lists(&[2, 2]), [[0, 0], [1, 0], [0, 1], [1, 1]]);
        assert_eq!(lists(&[]), [[0; 0]]);
        assert_eq!(lists(&[3, 0]), [[0; 0]; 0]);
    }

    /// The admitted sheets of 3 cells, one message and one mask, counted another way:
    /// 7 for G0, 3 for H, 2 for G1 and 2 for M.
    #[test]
    fn number_of_admitted_sheets() {
        let admitted = every_sheet(3, 1, 1, 8).filter(|sheet| admit(sheet).is_ok());
        assert_eq!(admitted.count(), 7 * 3 * 2 * 2);
    }

    /// The tables have a free bit for each entry, and one value more for each row with one
    /// past it.
    #[test]
    fn number_of_tables() {
        assert_eq!(every_tables(6, 2, 1, 0).count(), 1 << (2 * 3 + 2 + 3));
        assert_eq!(every_tables(6, 2, 1, 1).count(), 9 * 9 * 5 * 9);
        assert_eq!(every_tables(3, 3, 0, 0).count(), 1);
    }

    /// No record, one of 2 slots, n + 1 cells and 3 levels, and any two of these, no list
    /// twice.
    #[test]
    fn number_of_records() {
        for (n, ones) in [(0, 6), (2, 18), (3, 24)] {
            let mut lists = every_records(n);
            assert_eq!(lists.len(), 1 + ones + ones * ones);
            lists.sort();
            lists.dedup();
            assert_eq!(lists.len(), 1 + ones + ones * ones);
        }
    }
}
