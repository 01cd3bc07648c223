//! How many words the list has, and the place of a word in it, by binomials.

use crate::word::{Wide, Word};

/// The number of words of weight v over n cells: n over v.
pub fn of_weight(n: u32, v: u32) -> u64 {
    if v > n {
        return 0;
    }
    let (n, v) = (Wide::from(n), Wide::from(v));
    let count = (0..v).fold(1, |count, i| count * (n - i) / (i + 1));
    count as u64
}

/// The number of listed words over n cells from the first weight to the last; "weights above
/// n add no words". The list of all words over 64 cells has one word too many for it: no call
/// goes through that.
pub fn length(n: u32, first_weight: u32, last_weight: u32) -> u64 {
    let weights = first_weight..=last_weight.min(n);
    weights.map(|v| of_weight(n, v)).sum()
}

/// The place of a word in the list over n cells begun at a weight, counted from 1. Every
/// lighter word comes before it. A smaller one of its weight agrees with it above one of its
/// cells and has a 0 there: of the ones that the word has up to that cell, the smaller one has
/// as many, all below the cell.
pub fn place(n: u32, first_weight: u32, word: Word) -> u64 {
    let lighter = first_weight..word.count_ones();
    let lighter: u64 = lighter.map(|v| of_weight(n, v)).sum();
    let cells = (0..n).filter(|cell| word >> cell & 1 == 1);
    let smaller: u64 = (1..).zip(cells).map(|(v, cell)| of_weight(cell, v)).sum();
    lighter + smaller + 1
}

#[cfg(test)]
mod tests {
    use super::*;
    use crate::listing::listed;

    /// A weight has as many words as the document's second account of the list gives it: those
    /// over the lower n - 1 cells, and those of one weight less with cell n - 1 added.
    #[test]
    fn words_of_a_weight() {
        for v in 0..=70 {
            assert_eq!(of_weight(0, v), u64::from(v == 0));
            for n in 1..=64 {
                let without = of_weight(n - 1, v);
                let with = v.checked_sub(1).map_or(0, |less| of_weight(n - 1, less));
                assert_eq!(of_weight(n, v), without + with);
            }
        }
    }

    /// The lengths that document 01 and the requests print, and those of whole lists.
    #[test]
    fn lengths_of_lists() {
        assert_eq!(length(64, 1, 8), 5_130_659_560);
        assert_eq!(length(64, 0, 4), 679_121);
        assert_eq!([length(7, 1, 2), length(8, 1, 3)], [28, 92]);
        for n in 1..=63 {
            assert_eq!(length(n, 0, 70), 1 << n);
            assert_eq!(length(n, 1, n), (1 << n) - 1);
            assert_eq!(length(n, n + 1, 70), 0);
        }
    }

    /// Every word of the list has the place that stepping finds it at, whatever the weight that
    /// the list begins with.
    #[test]
    fn places_by_stepping() {
        for n in 1..=12 {
            for first in 0..=n {
                for (before, word) in listed(n, first, n).enumerate() {
                    assert_eq!(place(n, first, word), before as u64 + 1, "{n} {word}");
                }
            }
        }
    }

    /// The same over 33, 63 and 64 cells, up to weight 3, and weight 4 by itself.
    #[test]
    fn places_of_wide_words() {
        for n in [33, 63, 64] {
            for (before, word) in listed(n, 1, 3).enumerate() {
                assert_eq!(place(n, 1, word), before as u64 + 1);
            }
            for (before, word) in listed(n, 4, 4).enumerate() {
                assert_eq!(place(n, 1, word), length(n, 1, 3) + before as u64 + 1);
            }
        }
    }

    /// At the ends of weight 8 over 64 cells, and where its words begin to have cell 63.
    #[test]
    fn places_past_32_bits() {
        let (all, lighter) = (length(64, 1, 8), length(64, 1, 7));
        assert_eq!(place(64, 1, 255), lighter + 1);
        assert_eq!(place(64, 1, 255 << 56), all);
        assert_eq!(place(64, 0, 255 << 56), all + 1);
        let with_63 = of_weight(63, 7);
        assert_eq!(place(64, 1, 255 << 55), all - with_63);
        assert_eq!(place(64, 1, 1 << 63 | 127), all - with_63 + 1);
    }
}
