//! Sums of rows modulo 2 by elimination: whether a word is a sum of given rows, and
//! the smallest d that meets given equations.

use crate::word::{Wide, Word};

/// The place of an equation's right side, above the places of d.
const RIGHT: Wide = 1 << Word::BITS;

/// One equation on d: the parity of the bits of d that are 1 in `of_d` is `right`.
pub fn equation(of_d: Word, right: bool) -> Wide {
    Wide::from(of_d) | if right { RIGHT } else { 0 }
}

/// Takes from the word every row of the basis whose top bit it has, largest row first.
/// The basis is in falling order and no two of its rows share a top bit.
fn reduced(word: Wide, basis: &[Wide]) -> Wide {
    let take = |rest: Wide, row: &Wide| {
        let top = row.ilog2();
        rest ^ if rest >> top & 1 == 1 { *row } else { 0 }
    };
    basis.iter().fold(word, take)
}

/// Whether the word is a sum of some of these rows; the empty sum is 0.
pub fn is_sum(word: Wide, rows: &[Wide]) -> bool {
    let mut basis: Vec<Wide> = Vec::new();
    for row in rows {
        let rest = reduced(*row, &basis);
        if rest != 0 {
            basis.push(rest);
            basis.sort_by(|a, b| b.cmp(a));
        }
    }
    reduced(word, &basis) == 0
}

/// Equations have no solution exactly when "0 is 1" is a sum of some of them.
fn contradictory(equations: &[Wide]) -> bool {
    is_sum(RIGHT, equations)
}

/// The smallest d of l bits that meets every equation, if any does. From the highest
/// bit down each bit is 0 if the equations so far allow it, and 1 if not.
pub fn smallest_d(l: usize, equations: &[Wide]) -> Option<Word> {
    let mut known = equations.to_vec();
    if contradictory(&known) {
        return None;
    }
    let mut d = 0;
    for j in (0..l).rev() {
        known.push(equation(1 << j, false));
        if contradictory(&known) {
            known.pop();
            known.push(equation(1 << j, true));
            d |= 1 << j;
        }
    }
    Some(d)
}

#[cfg(test)]
mod tests {
    use super::*;
    use crate::random::Random;
    use crate::word::{all_ones, product};

    /// The sum of the rows whose bit is 1 in `chosen`.
    fn sum_of(rows: &[Wide], chosen: u64) -> Wide {
        let bits = rows.iter().enumerate();
        let taken = bits.filter(|(j, _)| chosen >> j & 1 == 1);
        taken.fold(0, |sum, (_, row)| sum ^ row)
    }

    /// Any number of so many bits, 1 to 128.
    fn of_bits(random: &mut Random, width: u32) -> Wide {
        let high = Wide::from(random.next()) << 64;
        (high | Wide::from(random.next())) >> (128 - width)
    }

    /// The elimination agrees with trying all sums, on rows of few and of many bits, for
    /// any word and for a word that is a sum.
    #[test]
    fn elimination_agrees_with_all_sums() {
        let mut random = Random::new(11);
        let mut others = 0;
        for _ in 0..4000 {
            let width = random.between(1, 65);
            let count = random.below(8);
            let rows: Vec<Wide> = (0..count).map(|_| of_bits(&mut random, width)).collect();
            let word = of_bits(&mut random, width);
            let wanted = (0..1 << count).any(|chosen| sum_of(&rows, chosen) == word);
            assert_eq!(is_sum(word, &rows), wanted, "{word} of {rows:?}");
            assert!(is_sum(sum_of(&rows, random.next()), &rows), "{rows:?}");
            others += u32::from(!wanted);
        }
        assert!((500..3950).contains(&others), "{others}");
    }

    /// An equation: the bits of d and the right side.
    type Pair = (Word, bool);

    /// The pairs as equations.
    fn equations_of(pairs: &[Pair]) -> Vec<Wide> {
        pairs.iter().map(|(a, b)| equation(*a, *b)).collect()
    }

    /// Whether d meets every equation.
    fn meets(pairs: &[Pair], d: Word) -> bool {
        pairs.iter().all(|(a, b)| product(*a, d) == *b)
    }

    /// The smallest d agrees with trying every d from 0 up.
    #[test]
    fn smallest_d_agrees_with_every_d() {
        let mut random = Random::new(12);
        let mut solved = 0;
        for _ in 0..4000 {
            let l = random.between(0, 8);
            let pairs: Vec<Pair> = (0..random.below(9))
                .map(|_| (random.word(l), random.once_in(2)))
                .collect();
            let wanted = (0..1 << l).find(|d| meets(&pairs, *d));
            let told = smallest_d(l as usize, &equations_of(&pairs));
            assert_eq!(told, wanted, "{pairs:?}");
            solved += u32::from(wanted.is_some());
        }
        assert!((500..3500).contains(&solved));
    }

    /// Another account of the smallest d of l bits: each equation is solved for its lowest
    /// bit of d and put into the others; what the bits left over may add to a solution is
    /// taken from it wherever that takes its highest bit away.
    fn least_solution(l: u32, pairs: &[Pair]) -> Option<Word> {
        let mut solved: Vec<Pair> = Vec::new();
        let lowest = |a: Word| a & a.wrapping_neg();
        for pair in pairs {
            let put = |(a, b): Pair, (c, e): &Pair| match a & lowest(*c) {
                0 => (a, b),
                _ => (a ^ c, b ^ e),
            };
            let new = solved.iter().fold(*pair, put);
            if new == (0, true) {
                return None;
            }
            if new.0 != 0 {
                solved = solved.into_iter().map(|old| put(old, &new)).collect();
                solved.push(new);
            }
        }
        let heads = solved.iter().fold(0, |bits, (a, _)| bits | lowest(*a));
        let mut d = solved
            .iter()
            .filter(|(_, b)| *b)
            .fold(0, |d, (a, _)| d | lowest(*a));
        let free = (0..l).map(|j| 1 << j).filter(|bit| heads & bit == 0);
        let kernel = free.map(|bit: Word| {
            let moved = solved.iter().filter(|(a, _)| a & bit != 0);
            moved.fold(bit, |word, (a, _)| word ^ lowest(*a))
        });
        let mut steps: Vec<Word> = kernel.collect();
        while let Some(top) = steps.iter().copied().max().filter(|top| *top != 0) {
            d = d.min(d ^ top);
            steps = steps.into_iter().map(|step| step.min(step ^ top)).collect();
        }
        Some(d)
    }

    /// The smallest d agrees with the other account at any l up to 64, few equations or
    /// many, whether some d meets them or not.
    #[test]
    fn smallest_d_agrees_with_another_account() {
        let mut random = Random::new(13);
        let mut times = [0; 2];
        for _ in 0..400 {
            let l = random.one_of(&[1, 8, 21, 32, 33, 63, 64]);
            let some_d = random.word(l);
            let pairs: Vec<Pair> = (0..random.below(2 * u64::from(l) + 3))
                .map(|_| {
                    let of_d = random.word(l) & random.word(l);
                    let other = random.once_in(60);
                    (of_d, product(of_d, some_d) != other)
                })
                .collect();
            let told = smallest_d(l as usize, &equations_of(&pairs));
            assert_eq!(told, least_solution(l, &pairs), "{l} {pairs:?}");
            assert!(told.is_none_or(|d| d <= all_ones(l) && meets(&pairs, d)));
            times[usize::from(told.is_some())] += 1;
        }
        assert!(times.iter().all(|count| *count > 40), "{times:?}");
    }
}
