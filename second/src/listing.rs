//! The list of words over n cells: by weight, then by value.

use crate::word::{Wide, Word};

/// The listed words over n cells from one weight up to another, one after the other. The
/// word at hand has room for cell n, at which a step past the last word of a weight ends.
pub struct Listed {
    n: u32,
    weight: u32,
    last_weight: u32,
    word: Wide,
}

/// The list over n cells, from the first weight to the last; "weights above n add no
/// words".
pub fn listed(n: u32, first_weight: u32, last_weight: u32) -> Listed {
    Listed {
        n,
        weight: first_weight,
        last_weight: last_weight.min(n),
        word: least(first_weight),
    }
}

/// The least word of a weight: its lowest cells are 1.
fn least(weight: u32) -> Wide {
    (1 << weight) - 1
}

/// The next larger word of the same weight: the lowest run of ones gives its top one
/// to the next cell, and the others of the run fall to the lowest cells.
fn next_of_weight(word: Wide) -> Wide {
    let lowest = word & word.wrapping_neg();
    let carried = word + lowest;
    let run = (word & !carried).count_ones();
    carried | least(run - 1)
}

impl Iterator for Listed {
    type Item = Word;

    /// The word at hand; after the largest of a weight comes the least of the next.
    fn next(&mut self) -> Option<Word> {
        if self.weight > self.last_weight {
            return None;
        }
        let word = self.word;
        self.word = if word == 0 {
            1 << self.n
        } else {
            next_of_weight(word)
        };
        if self.word >> self.n != 0 {
            self.weight += 1;
            self.word = least(self.weight);
        }
        Some(word as Word)
    }
}

#[cfg(test)]
mod tests {
    use super::*;

    /// The document's second account of the list: the words of weight v over n cells
    /// are those over the lower n - 1 cells, then those with cell n - 1 added.
    fn of_weight(v: u32, n: u32) -> Vec<Word> {
        if n == 0 {
            return if v == 0 { vec![0] } else { vec![] };
        }
        let mut words = of_weight(v, n - 1);
        if v > 0 {
            let lower = of_weight(v - 1, n - 1);
            words.extend(lower.iter().map(|word| word | 1 << (n - 1)));
        }
        words
    }

    /// The list agrees with all words sorted by weight and value, and with the
    /// document's second account.
    #[test]
    fn listed_by_weight_then_value() {
        for n in 1..=10 {
            for last in 0..=12 {
                let mut sorted: Vec<Word> = (0..1 << n).collect();
                sorted.retain(|word| word.count_ones() <= last);
                sorted.sort_by_key(|word| (word.count_ones(), *word));
                let recursive: Vec<Word> = (0..=last).flat_map(|v| of_weight(v, n)).collect();
                assert_eq!(listed(n, 0, last).collect::<Vec<Word>>(), sorted);
                assert_eq!(recursive, sorted);
                let from_one: Vec<Word> = listed(n, 1, last).collect();
                assert_eq!(from_one, sorted[1..]);
            }
        }
    }

    /// At 32 cells the list ends with the highest cells and has the right length.
    #[test]
    fn listed_over_32_cells() {
        let words: Vec<Word> = listed(32, 0, 4).collect();
        assert_eq!(words.len(), 1 + 32 + 496 + 4960 + 35960);
        assert_eq!(words.last(), Some(&(0xf << 28)));
    }

    /// At 64 cells each weight has the right number of words and ends with the highest
    /// cells, and the first weights are those of the document's second account.
    #[test]
    fn listed_over_64_cells() {
        for (weight, count) in [1, 64, 2016, 41664, 635_376].into_iter().enumerate() {
            let weight = weight as u32;
            let words = || listed(64, weight, weight);
            assert_eq!(words().count(), count);
            let highest = (least(weight) << (64 - weight)) as Word;
            assert_eq!(words().last(), Some(highest));
        }
        let recursive: Vec<Word> = (0..=3).flat_map(|v| of_weight(v, 64)).collect();
        assert_eq!(listed(64, 0, 3).collect::<Vec<Word>>(), recursive);
    }

    /// The list ends with the word of all cells, at 63 and 64 cells too, be the last weight
    /// above n.
    #[test]
    fn last_words_of_the_list() {
        for n in [1, 31, 32, 33, 63, 64] {
            let last: Vec<Word> = listed(n, n - 1, n + 9).collect();
            assert_eq!(last.len(), n as usize + 1);
            assert!(last.is_sorted_by_key(|word| (word.count_ones(), *word)));
            assert_eq!(last.last(), Some(&(least(n) as Word)));
        }
    }
}
