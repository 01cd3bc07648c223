//! Tests of the calls: two ways to the smallest d, the words of a message, and the
//! printed radius, by brute force on small sheets. Those of the two ways to the first hit are
//! in `ways`.

use super::*;
use crate::asking::{far_sheet, Verb};
use crate::every::every_sheet;
use crate::listing::listed;
use crate::making::{attic, cellar, kitchen, random_sheet, repeating};
use crate::random::Random;
use crate::word::all_ones;
use std::collections::BTreeSet;

mod ways;

/// Both ways to the smallest d agree, whether the levels are those of a word or not.
#[test]
fn elimination_agrees_with_every_d() {
    let mut random = Random::new(21);
    for _ in 0..3000 {
        let sheet = random_sheet(&mut random);
        let parts = admit(&sheet).expect("an admitted sheet");
        if parts.g0.len() > 10 {
            continue;
        }
        let plain = sum_of(parts.g1, random.word(sheet.k));
        let stuck = random.word(sheet.n) & random.word(sheet.n);
        let some_word = plain ^ sum_of(parts.g0, random.word(sheet.l));
        for levels in [some_word & stuck, random.word(sheet.n) & stuck] {
            assert_eq!(
                eliminated_d(&parts, plain, stuck, levels),
                first_fitting_d(&parts, plain, stuck, levels)
            );
        }
    }
}

/// The words of a message by its definition are the sums wG1 + dG0, each from one d.
#[test]
fn words_of_a_message_are_the_sums() {
    let mut random = Random::new(22);
    for _ in 0..400 {
        let sheet = random_sheet(&mut random);
        if sheet.n > 9 {
            continue;
        }
        let parts = admit(&sheet).expect("an admitted sheet");
        let w = random.word(sheet.k);
        let is_of_w = |word: &Word| is_codeword(&parts, *word) && message_of(&parts, *word) == w;
        let defined: Vec<Word> = (0..1 << sheet.n).filter(is_of_w).collect();
        let sum = |d| sum_of(parts.g1, w) ^ sum_of(parts.g0, d);
        let mut sums: Vec<Word> = (0..1 << sheet.l).map(sum).collect();
        sums.sort_unstable();
        assert_eq!(defined, sums);
    }
}

/// A message and a word that a write of it answers.
type Written = (Word, Word);

/// Everything that can be written: each codeword comes from a write of its message with
/// every cell stuck at its levels, and a write answers codewords of its message only.
fn all_written(sheet: &Sheet) -> Vec<Written> {
    let parts = admit(sheet).expect("an admitted sheet");
    let every = all_ones(sheet.n);
    let codewords = (0..=every).filter(|word| is_codeword(&parts, *word));
    let written = |levels| {
        let message = message_of(&parts, levels);
        match write(sheet, message, every, levels) {
            Ok(Answer::Word { word, .. }) => (message, word),
            other => panic!("{sheet:?} {message} {levels}: {other:?}"),
        }
    };
    codewords.map(written).collect()
}

/// The first thing written, and the first z of these weights, for which a read at radius t
/// of the word with the cells of z turned over does not give the message.
fn lost(sheet: &Sheet, all: &[Written], weights: [u32; 2], t: u32) -> Option<(Written, Word)> {
    let [first, last] = weights;
    let disturbed = |of: &Written| {
        let of = *of;
        listed(sheet.n, first, last).map(move |z| (of, z))
    };
    let mut cases = all.iter().flat_map(disturbed);
    cases.find(|((wanted, word), z)| match read(sheet, word ^ z, t) {
        Ok(Answer::Message { message, .. }) => message != *wanted,
        _ => true,
    })
}

/// Checks the plate of a sheet at every cap and answers d1, by its definition. The
/// printed radius meets demand 3's premise and all that is written reads back at it;
/// where d1 is found, one error more can lose a message.
fn check_plate(sheet: &Sheet) -> u32 {
    let all = all_written(sheet);
    let others = all.iter().filter(|(message, _)| *message != 0);
    let weights = others.map(|(_, word)| word.count_ones());
    let distance = weights.min().expect("a message other than 0");
    let (mut printed, mut past) = (BTreeSet::new(), BTreeSet::new());
    for cap in 1..=8 {
        let Ok(Answer::D1 { measured, radius }) = d1(sheet, cap) else {
            panic!("{sheet:?} is not measured");
        };
        let t = radius.min(4);
        assert_eq!(measured.distance, (distance <= cap).then_some(distance));
        assert!(2 * t < measured.distance.unwrap_or(cap + 1), "{sheet:?}");
        printed.insert(t);
        past.extend(measured.distance.map(|_| radius + 1));
    }
    for t in printed {
        assert_eq!(lost(sheet, &all, [0, t], t), None, "{sheet:?} {t}");
    }
    for t in past {
        assert!(t <= 4, "no read takes {t}");
        assert!(lost(sheet, &all, [t, t], t).is_some(), "{sheet:?} {t}");
    }
    distance
}

/// The plate is right on every admitted sheet of up to 3 cells.
#[test]
fn plates_of_the_smallest_sheets() {
    for (n, k) in [(1, 1), (2, 1), (2, 2), (3, 1), (3, 2), (3, 3)] {
        for l in 0..=n - k {
            let admitted = every_sheet(n, k, l, 1 << n).filter(|sheet| admit(sheet).is_ok());
            for sheet in admitted {
                assert!((1..=n).contains(&check_plate(&sheet)));
            }
        }
    }
}

/// The plate is right on the bench sheets, on one sheet of each d1 from 1 to 9, and on
/// random sheets of up to 8 cells, among them some of each d1 from 1 to 5.
#[test]
fn plates_of_other_sheets() {
    let bench = [kitchen(), attic(), cellar()];
    assert_eq!(bench.map(|sheet| check_plate(&sheet)), [3, 1, 4]);
    for n in 1..=9 {
        assert_eq!(check_plate(&repeating(n)), n);
    }
    let mut random = Random::new(23);
    let mut times = [0; 9];
    for _ in 0..200 {
        let n = random.between(4, 8);
        let far = far_sheet(&mut random, Verb::D1, n);
        let any = random_sheet(&mut random);
        for sheet in [far, any].iter().filter(|sheet| sheet.n <= 8) {
            times[check_plate(sheet) as usize] += 1;
        }
    }
    assert!(times[1..=5].iter().all(|count| *count > 2), "{times:?}");
}
