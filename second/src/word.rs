//! The word of up to 64 cells: its width, products and sums.

/// A word, a row or a message: bit i is cell i, or bit i of the message.
pub type Word = u64;

/// A number with more bits than a word has: 2 to the number of its cells, or a word with a
/// bit beside it.
pub type Wide = u128;

/// The most cells that a sheet may have, and the bits of a word.
pub const MOST_CELLS: u32 = Word::BITS;

/// The bits at cell n or above, which no word over n cells has.
pub fn above(n: u32) -> Word {
    Word::MAX.checked_shl(n).unwrap_or(0)
}

/// The word over n cells that is 1 at each of them.
pub fn all_ones(n: u32) -> Word {
    !above(n)
}

/// "The product of two words is the parity of the cells that are 1 in both."
pub fn product(a: Word, b: Word) -> bool {
    (a & b).count_ones() & 1 == 1
}

/// The sum of those rows whose bit is 1 in `chosen`, bit j for row j; sums are modulo 2.
/// There are at most as many rows as a word has bits.
pub fn sum_of(rows: &[Word], chosen: Word) -> Word {
    let bits = rows.iter().enumerate();
    bits.filter(|(j, _)| chosen >> j & 1 == 1)
        .fold(0, |sum, (_, row)| sum ^ row)
}

/// Column c of some rows, as a word with bit j for row j.
pub fn column(rows: &[Word], c: u32) -> Word {
    let bits = rows.iter().enumerate();
    bits.fold(0, |word, (j, row)| word | (row >> c & 1) << j)
}

#[cfg(test)]
mod tests {
    use super::*;

    /// At 64 cells no bit is above; at fewer cells exactly the others are.
    #[test]
    fn bits_above_the_cells() {
        assert_eq!((above(64), above(63)), (0, 1 << 63));
        assert_eq!((above(32), above(31)), (0xffff_ffff << 32, Word::MAX << 31));
        assert_eq!((above(1), above(0)), (Word::MAX - 1, Word::MAX));
        let ones = [64, 63, 32, 1, 0].map(all_ones);
        assert_eq!(ones, [Word::MAX, Word::MAX >> 1, 0xffff_ffff, 1, 0]);
    }

    /// The highest cell counts in a product, a sum and a column as any other does.
    #[test]
    fn highest_cell() {
        let top = 1 << 63;
        assert!(product(top, Word::MAX) && !product(top | 1, Word::MAX));
        assert!(!product(Word::MAX, Word::MAX) && product(Word::MAX, Word::MAX - 1));
        let units: Vec<Word> = (0..64).map(|cell| 1 << cell).collect();
        for chosen in [0, 1, top, top | 1, 1 << 32, Word::MAX] {
            assert_eq!(sum_of(&units, chosen), chosen);
        }
        assert_eq!((column(&units, 63), column(&units, 32)), (top, 1 << 32));
    }
}
