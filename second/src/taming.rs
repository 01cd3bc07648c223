//! How long a list a call has to go through, radius and cap held to lists that are not too
//! long, and the sheets under which a page may be opened.

use crate::random::Random;
use crate::word::Word;

/// The longest list of any call, but for the distant ones.
const LONGEST_LIST: u64 = 20_000_000;

/// The longest list that a call has to go through, as a rule, on more than 20 cells.
const LONG_LIST: u64 = 50_000;

/// The longest list of one call in `LONGER_EVERY`: that of weight 4 over 64 cells fits.
const LONGER_LIST: u64 = 700_000;

/// One call in so many may go through a list longer than the rule has it.
const LONGER_EVERY: u64 = 20;

/// The number of listed words over n cells from weight 0 up to a weight.
pub fn list_length(n: u32, weight: u32) -> u64 {
    let (mut length, mut of_weight) = (1, 1);
    for v in 1..=u64::from(weight.min(n)) {
        of_weight = of_weight * (u64::from(n) + 1 - v) / v;
        length += of_weight;
    }
    length
}

/// The highest cap over n cells whose list is no longer than any may be, but for the distant
/// ones.
pub fn highest_cap(n: u32) -> u32 {
    let mut caps = (1..=8).rev();
    let fits = |cap: &u32| list_length(n, *cap) <= LONGEST_LIST;
    caps.find(fits).expect("a cap")
}

/// The longest list that this call may have to go through.
fn longest_list(random: &mut Random) -> u64 {
    match random.once_in(LONGER_EVERY) {
        true => LONGER_LIST,
        false => LONG_LIST,
    }
}

/// The radius, or a smaller one where a read could go through too long a list.
pub fn tame_radius(random: &mut Random, n: u32, radius: Word) -> Word {
    let longest = longest_list(random);
    let mut tame = radius;
    while radius <= 4 && list_length(n, tame as u32) > longest {
        tame -= 1;
    }
    tame
}

/// The cap, or a smaller one where a measurement on more than 20 cells could go through too
/// long a list. A distance that so many rows decide is never above their number and 1.
pub fn tame_cap(random: &mut Random, n: u32, rows: u32, cap: Word) -> Word {
    let longest = longest_list(random);
    let last = |cap: Word| rows.saturating_add(1).min(cap as u32);
    let mut tame = cap;
    while n > 20 && cap <= 8 && list_length(n, last(tame)) > longest {
        tame -= 1;
    }
    tame
}

/// Whether a page may be opened under a sheet of n cells whose d1 is at most so much: a
/// measurement of it at cap 8 does not go through too long a list.
pub fn may_open(random: &mut Random, n: u32, most: u32) -> bool {
    tame_cap(random, n, most - 1, 8) == 8
}

#[cfg(test)]
mod tests {
    use super::*;

    /// The length of the list, by its rule.
    #[test]
    fn lengths_of_lists() {
        assert_eq!(list_length(32, 4), 41_449);
        assert_eq!(list_length(32, 8), 15_033_173);
        assert_eq!(list_length(3, 8), 8);
        assert_eq!(list_length(64, 3), 1 + 64 + 2_016 + 41_664);
        assert_eq!(list_length(64, 4), 1 + 679_120);
        assert_eq!(list_length(64, 5), 1 + 8_303_632);
        assert_eq!(list_length(64, 8), 1 + 5_130_659_560);
    }

    /// The highest caps: 8 up to 32 cells, and 5 at 64.
    #[test]
    fn highest_caps() {
        assert_eq!([26, 32, 34, 48, 64].map(highest_cap), [8, 8, 7, 6, 5]);
    }

    /// A radius or cap that is refused stays, a small one too; others fall as far as they
    /// have to, once in a while less far.
    #[test]
    fn tame_ones() {
        let mut random = Random::new(91);
        let mut times = [0; 2];
        for _ in 0..1000 {
            for (radius, wanted) in [(0, 0), (3, 3), (5, 5), (1 << 31, 1 << 31)] {
                assert_eq!(tame_radius(&mut random, 64, radius), wanted);
            }
            assert_eq!(tame_radius(&mut random, 32, 4), 4);
            times[tame_radius(&mut random, 64, 4) as usize - 3] += 1;
            for (rows, cap, wanted) in [(0, 8, 8), (2, 8, 8), (60, 9, 9), (60, 0, 0)] {
                assert_eq!(tame_cap(&mut random, 64, rows, cap), wanted);
            }
            times[tame_cap(&mut random, 64, u32::MAX, 8) as usize - 3] += 1;
        }
        assert!(times[0] > 1800 && times[1] > 50, "{times:?}");
    }

    /// A page may be opened under any sheet of up to 20 cells, and under a wider one if its
    /// d1 is small: at 64 cells 3, and once in a while 4.
    #[test]
    fn sheets_to_open() {
        let mut random = Random::new(92);
        let mut times = 0;
        for _ in 0..1000 {
            for (n, most) in [(1, 2), (20, 20), (32, 4), (64, 1), (64, 3)] {
                assert!(may_open(&mut random, n, most));
            }
            for (n, most) in [(23, 9), (32, 6), (64, 5), (64, 64)] {
                assert!(!may_open(&mut random, n, most));
            }
            times += u32::from(may_open(&mut random, 64, 4));
        }
        assert!((20..100).contains(&times), "{times}");
    }
}
