//! Tests of the two ways to the first hit: by stepping and by halves they agree; over as
//! many cells as take minutes to step through, the way by halves agrees with the sums of rows.

use super::*;
use crate::counting::{length, place};
use crate::distant::{planted_sheet, some_sheet_deciding};
use crate::finding::{by_halves, by_stepping};
use crate::listing::listed;
use crate::making::{loft, sheet_of_numbers};

/// What is looked for in a list: a word that d0 is of, one that d1 is of, or what brings this
/// word back to a codeword.
#[derive(Clone, Copy, Debug)]
enum Goal {
    D0,
    D1,
    Read(Word),
}

/// What each way finds, by stepping first.
fn both_ways(parts: &Parts, goal: Goal, weights: [u32; 2]) -> [Found; 2] {
    let wanted = wanted_of(parts, goal);
    let stepped = by_stepping(parts.n, weights, |word| is_hit(parts, goal, word));
    [stepped, by_halves(parts.n, weights, &wanted)]
}

/// The wanted words of a goal.
fn wanted_of<'a>(parts: &Parts<'a>, goal: Goal) -> Wanted<'a> {
    match goal {
        Goal::D0 => wanted_of_d0(parts),
        Goal::D1 => wanted_of_d1(parts),
        Goal::Read(y) => wanted_of_reading(parts, y),
    }
}

/// Whether a listed word is a hit.
fn is_hit(parts: &Parts, goal: Goal, word: Word) -> bool {
    match goal {
        Goal::D0 => is_hit_of_d0(parts, word),
        Goal::D1 => is_hit_of_d1(parts, word),
        Goal::Read(y) => is_codeword(parts, y ^ word),
    }
}

/// Some sheet over n cells: any, a far one for either verb, or one of those that are farthest.
fn some_sheet_over(random: &mut Random, n: u32) -> Sheet {
    match random.below(8) {
        0 => repeating(n),
        1 => loft(n),
        2 | 3 if n >= 4 => far_sheet(random, Verb::D0, n),
        4 | 5 if n >= 4 => far_sheet(random, Verb::D1, n),
        _ => {
            let k = random.between(1, n);
            let l = random.between(0, n - k);
            sheet_of_numbers(random, n, k, l)
        }
    }
}

/// Both ways agree on sheets of up to 14 cells: d0 and d1 at every cap, a read of any word at
/// every radius. For each there are hits of all weights, and lists without a hit.
#[test]
fn both_ways_agree_on_small_sheets() {
    let mut random = Random::new(24);
    let (mut hits, mut misses) = ([[0; 9]; 3], [0; 3]);
    for _ in 0..6000 {
        let n = random.between(1, 14);
        let sheet = some_sheet_over(&mut random, n);
        let parts = admit(&sheet).expect("an admitted sheet");
        let (cap, radius) = (random.between(1, 8), random.between(0, 4));
        let read = Goal::Read(random.word(n));
        let lists = [
            (Goal::D0, [1, cap]),
            (Goal::D1, [1, cap]),
            (read, [0, radius]),
        ];
        for (at, (goal, weights)) in lists.into_iter().enumerate() {
            let [stepped, by_halves] = both_ways(&parts, goal, weights);
            assert_eq!(by_halves, stepped, "{sheet:?} {goal:?} {weights:?}");
            match stepped.hit {
                Some(word) => hits[at][word.count_ones() as usize] += 1,
                None => misses[at] += 1,
            }
        }
    }
    assert!(misses.iter().all(|times| *times > 100), "{misses:?}");
    let of_all_weights = [&hits[0][1..], &hits[1][1..], &hits[2][..5]].concat();
    assert!(of_all_weights.iter().all(|times| *times > 5), "{hits:?}");
}

/// Both ways agree on sheets of 15 to 24 cells at the highest cap and radius, and on reads over
/// up to 64 cells.
#[test]
fn both_ways_agree_on_middle_sheets() {
    let mut random = Random::new(25);
    let mut hits = 0;
    for _ in 0..60 {
        let n = random.between(15, 24);
        let sheet = some_sheet_over(&mut random, n);
        let parts = admit(&sheet).expect("an admitted sheet");
        for goal in [Goal::D0, Goal::D1] {
            let [stepped, by_halves] = both_ways(&parts, goal, [1, 8]);
            assert_eq!(by_halves, stepped, "{sheet:?} {goal:?}");
            hits += u32::from(stepped.tried > 50_000 && stepped.hit.is_some());
        }
        let n = random.between(25, 64);
        let sheet = some_sheet_over(&mut random, n);
        let parts = admit(&sheet).expect("an admitted sheet");
        let goal = Goal::Read(random.word(n));
        let [stepped, by_halves] = both_ways(&parts, goal, [0, 4]);
        assert_eq!(by_halves, stepped, "{sheet:?} {goal:?}");
    }
    assert!(hits > 2, "{hits}");
}

/// The lowest cell of a word, as a word.
fn lowest(word: Word) -> Word {
    word & word.wrapping_neg()
}

/// Rows with the same sums, whose lowest cells are each 0 in every other row.
fn reduced(rows: &[Word]) -> Vec<Word> {
    let mut known: Vec<Word> = Vec::new();
    for row in rows {
        let take = |rest: Word, other: &Word| match rest & lowest(*other) {
            0 => rest,
            _ => rest ^ other,
        };
        let new = known.iter().fold(*row, take);
        if new != 0 {
            known = known.into_iter().map(|old| take(old, &new)).collect();
            known.push(new);
        }
    }
    known
}

/// The first by weight, then by value, of the words of weight up to 8 that a distance is the
/// least weight of. All sums of the rows of G1 and G0 are the codewords, and all sums of the
/// rows of H and M the words whose product with each row of G0 is 0. A sum of more than 8
/// reduced rows has more than 8 lowest cells of theirs.
fn first_of_the_sums(parts: &Parts, goal: Goal) -> Option<Word> {
    let rows = match goal {
        Goal::D0 => [parts.h, parts.m].concat(),
        _ => [parts.g1, parts.g0].concat(),
    };
    let rows = reduced(&rows);
    let sums = listed(rows.len() as u32, 1, 8).map(|chosen| sum_of(&rows, chosen));
    let light = sums.filter(|word| word.count_ones() <= 8);
    let hits = light.filter(|word| is_hit(parts, goal, *word));
    hits.min_by_key(|word| (word.count_ones(), *word))
}

/// A measurement at cap 8 finds the first of the sums, at its place, by which the word is known;
/// answers the weight, or 9, and the place.
fn check_first_of_the_sums(sheet: &Sheet, goal: Goal) -> (u32, u64) {
    let parts = admit(sheet).expect("an admitted sheet");
    let hit = first_of_the_sums(&parts, goal);
    let tried = hit.map_or(length(sheet.n, 1, 8), |word| place(sheet.n, 1, word));
    let distance = hit.map(Word::count_ones);
    let wanted = Measured { distance, tried };
    let measured = match goal {
        Goal::D0 => d0(sheet, 8).ok(),
        _ => d1(sheet, 8).ok(),
    };
    match measured {
        Some(Answer::D0(told) | Answer::D1 { measured: told, .. }) => assert_eq!(told, wanted),
        other => panic!("{sheet:?} is not measured: {other:?}"),
    }
    (distance.unwrap_or(9), tried)
}

/// Over 33 to 64 cells the first hit is the first of the sums of rows, and hits of weight 7 and
/// 8, places past 2^32 and distances of more than 8 come up, for d0 and for d1.
#[test]
fn first_hits_of_distant_sheets() {
    let mut random = Random::new(26);
    let (mut weights, mut past) = ([[0; 10]; 2], [0; 2]);
    for turn in 0..40 {
        let n = random.one_of(&[33, 48, 63, 64, 64, 64]);
        let at = turn % 2;
        let (goal, verb) = [(Goal::D0, Verb::D0), (Goal::D1, Verb::D1)][at];
        let rows = n - random.between(1, 12);
        let sheet = match random.below(4) {
            0 => some_sheet_deciding(&mut random, verb, n, rows),
            _ => planted_sheet(&mut random, verb, n, rows),
        };
        let (weight, tried) = check_first_of_the_sums(&sheet, goal);
        weights[at][weight as usize] += 1;
        past[at] += u32::from(weight <= 8 && tried > 1 << 32);
    }
    assert!(past.iter().all(|times| *times > 0), "{past:?}");
    let far = weights.iter().flat_map(|of_goal| &of_goal[7..]);
    assert!(far.min() > Some(&1), "{weights:?}");
}

/// The same over 64 cells with as many rows as make a distance of about 8, and with some fewer,
/// so that there are many codewords and hits.
#[test]
fn first_hits_of_large_codes() {
    let mut random = Random::new(27);
    for rows in [36, 32] {
        for (goal, verb) in [(Goal::D0, Verb::D0), (Goal::D1, Verb::D1)] {
            let sheet = some_sheet_deciding(&mut random, verb, 64, rows);
            let (weight, _) = check_first_of_the_sums(&sheet, goal);
            assert!((6..=9).contains(&weight), "{weight}");
        }
    }
}

/// Both ways agree over 64 cells where the first hit, of weight 8, comes after more than 2^32
/// words: on a sheet with two codewords, 0 and a word whose cells these are.
#[test]
#[ignore = "steps through some 5,000,000,000 words, which takes minutes"]
fn both_ways_agree_past_32_bits() {
    let cells = [7, 20, 33, 40, 41, 58, 62, 63];
    let word = cells.iter().fold(0, |word, cell| word | 1 << cell);
    let others = (0..64).filter(|cell| word >> cell & 1 == 0);
    let pairs = cells.windows(2).map(|pair| 1 << pair[0] | 1 << pair[1]);
    let checks = others.map(|cell| 1 << cell).chain(pairs);
    let rows = [word].into_iter().chain(checks).chain([1 << 63]).collect();
    let (n, k, l) = (64, 1, 0);
    let sheet = Sheet { n, k, l, rows };
    let parts = admit(&sheet).expect("an admitted sheet");
    let [stepped, by_halves] = both_ways(&parts, Goal::D1, [1, 8]);
    assert_eq!(stepped.hit, Some(word));
    assert!(stepped.tried > 1 << 32);
    assert_eq!(by_halves, stepped);
}
