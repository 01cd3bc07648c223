//! The first hit of the list and its place, in two ways: by stepping through the list where it
//! is short, and by halves of words where it is long.

use crate::counting::{length, place};
use crate::halves::{first_wanted, Wanted};
use crate::listing::listed;
use crate::word::Word;

/// A list of up to so many words is stepped through.
const STEPPED_UP_TO: u64 = 100_000;

/// The first hit, if there is one, and "how many listed words were tried": its place, counted
/// from 1, or the length of the list.
#[derive(Clone, Copy, Debug, PartialEq, Eq)]
pub struct Found {
    pub hit: Option<Word>,
    pub tried: u64,
}

/// The first hit of the list over n cells, from the first weight, 0 or 1, to the last. The
/// hits are given as a test of a word, and once more as the wanted words.
pub fn first_hit(
    n: u32,
    weights: [u32; 2],
    is_hit: impl Fn(Word) -> bool,
    wanted: &Wanted,
) -> Found {
    let [first, last] = weights;
    if length(n, first, last) <= STEPPED_UP_TO {
        by_stepping(n, weights, is_hit)
    } else {
        by_halves(n, weights, wanted)
    }
}

/// The first hit by a test of each listed word, one after the other.
pub fn by_stepping(n: u32, weights: [u32; 2], is_hit: impl Fn(Word) -> bool) -> Found {
    let [first, last] = weights;
    let mut tried = 0;
    for word in listed(n, first, last) {
        tried += 1;
        if is_hit(word) {
            let hit = Some(word);
            return Found { hit, tried };
        }
    }
    Found { hit: None, tried }
}

/// The first hit by halves of words, and its place by binomials.
pub fn by_halves(n: u32, weights: [u32; 2], wanted: &Wanted) -> Found {
    let [first, last] = weights;
    let hit = first_wanted(n, weights, wanted);
    let tried = match hit {
        Some(word) => place(n, first, word),
        None => length(n, first, last),
    };
    Found { hit, tried }
}

#[cfg(test)]
mod tests {
    use super::*;

    /// A list of up to 100,000 words is stepped through and a longer one is not: here the test
    /// of a word has no hit, and each word is wanted.
    #[test]
    fn the_way_for_each_length() {
        let any = Wanted {
            rows: &[],
            products: 0,
            some_one: None,
        };
        for (n, weights, stepped) in [
            (64, [0, 3], Some(43_745)),
            (16, [1, 8], Some(39_202)),
            (17, [1, 8], Some(65_535)),
            (18, [1, 8], None),
            (39, [1, 4], Some(92_170)),
            (40, [1, 4], None),
            (64, [0, 4], None),
            (64, [1, 8], None),
        ] {
            let found = first_hit(n, weights, |_| false, &any);
            let (hit, tried) = match stepped {
                Some(length) => (None, length),
                None => (Some(Word::from(weights[0])), 1),
            };
            assert_eq!(found, Found { hit, tried }, "{n} {weights:?}");
        }
    }
}
