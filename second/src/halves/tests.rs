//! Tests of the first wanted word: by a test of each listed word over few cells, with rows of
//! every kind, and by a word that is put among the wanted ones over 64 cells.

use super::*;
use crate::random::Random;
use crate::word::product;

/// Whether a word is wanted, by its products.
fn wants(wanted: &Wanted, word: Word) -> bool {
    let mut rows = wanted.rows.iter().enumerate();
    let right = rows.all(|(j, row)| product(*row, word) == (wanted.products >> j & 1 == 1));
    let mut some_one = wanted.some_one.into_iter().flatten();
    right && (wanted.some_one.is_none() || some_one.any(|row| product(*row, word)))
}

/// The words with these products with these rows, and no other rows.
fn wanted_by(rows: &[Word], products: Word) -> Wanted<'_> {
    Wanted {
        rows,
        products,
        some_one: None,
    }
}

/// So many rows over n cells at random, but that the word has product 0 with each.
fn rows_without(random: &mut Random, n: u32, word: Word, count: u32) -> Vec<Word> {
    let row = |_| {
        let row = random.word(n);
        row ^ Word::from(product(row, word)) << word.trailing_zeros()
    };
    (0..count).map(row).collect()
}

/// So many rows over n cells: dense, thin, such that a cell is 1 in the same rows as many
/// others are, or with product 0 with some word.
fn some_rows(random: &mut Random, n: u32, count: u32) -> Vec<Word> {
    let columns: [Word; 3] = [0; 3].map(|_| random.word(count));
    let cells: Vec<Word> = (0..n).map(|_| random.one_of(&columns)).collect();
    let kind = random.below(6);
    let row = |j| match kind {
        0 => random.word(n),
        1 => random.word(n) & random.word(n),
        _ => column(&cells, j),
    };
    match kind {
        0..=2 => (0..count).map(row).collect(),
        _ => {
            let word = random.word(n) | 1 << random.between(0, n - 1);
            rows_without(random, n, word, count)
        }
    }
}

/// The first wanted word agrees with a test of each listed word: with any rows and products,
/// with other rows, of which one at least is asked for a 1, and without, from weight 0 and 1 to
/// any weight. Hits of every weight come up, and lists without one.
#[test]
fn agrees_with_a_test_of_each_word() {
    let mut random = Random::new(121);
    let (mut hits, mut misses) = ([0; 9], 0);
    for _ in 0..12_000 {
        let n = random.between(1, 14);
        let (count, others) = (random.between(0, n + 4), random.between(0, 4));
        let rows = some_rows(&mut random, n, count);
        let other_rows = some_rows(&mut random, n, others);
        let some_one = random.one_of(&[None, Some(&other_rows[..])]);
        let products = random.one_of(&[0, Word::MAX]) & random.word(count);
        let wanted = Wanted {
            rows: &rows,
            products,
            some_one,
        };
        let last = random.between(0, 8);
        let weights = [random.between(0, 1), random.one_of(&[last, 8])];
        let told = first_wanted(n, weights, &wanted);
        let defined = listed(n, weights[0], weights[1]).find(|word| wants(&wanted, *word));
        assert_eq!(
            told, defined,
            "{n} {weights:?} {rows:?} {products} {some_one:?}"
        );
        match told {
            Some(word) => hits[word.count_ones() as usize] += 1,
            None => misses += 1,
        }
    }
    assert!(
        misses > 500 && hits.iter().all(|times| *times > 2),
        "{misses} {hits:?}"
    );
}

/// A word over n cells of this weight, the lowest or the highest cell among its own.
fn word_of_weight(random: &mut Random, n: u32, weight: u32) -> Word {
    loop {
        let word = random.light_word(n, weight) | 1 << random.one_of(&[0, n - 1]);
        if word.count_ones() == weight {
            return word;
        }
    }
}

/// Over 57 and over 64 cells a word of each weight is found that alone is wanted; and not
/// where the list ends before its weight, or where its products with other rows, of which one
/// is asked for a 1, are 0.
#[test]
fn one_word_of_each_weight() {
    let mut random = Random::new(122);
    for (n, weight) in [57, 64]
        .into_iter()
        .flat_map(|n| (1..=8).map(move |v| (n, v)))
    {
        let lone = word_of_weight(&mut random, n, weight);
        let rows = rows_without(&mut random, n, lone, 60);
        let with_it = [random.word(n), lone & lone.wrapping_neg()];
        let without_it = rows_without(&mut random, n, lone, 60);
        for (some_one, last, found) in [
            (None, 8, true),
            (None, weight - 1, false),
            (Some(&with_it[..]), weight, true),
            (Some(&without_it[..]), 8, false),
        ] {
            let wanted = Wanted {
                some_one,
                ..wanted_by(&rows, 0)
            };
            let told = first_wanted(n, [1, last], &wanted);
            assert_eq!(told, found.then_some(lone), "{n} {weight} {last}");
        }
    }
}

/// The same where its products are not all 0, as those of a word that is read: also of weight
/// 0, and up to weight 8.
#[test]
fn one_word_of_other_products() {
    let mut random = Random::new(123);
    for (n, weight) in [57, 64]
        .into_iter()
        .flat_map(|n| (0..=8).map(move |v| (n, v)))
    {
        let lone = match weight {
            0 => 0,
            _ => word_of_weight(&mut random, n, weight),
        };
        let rows: Vec<Word> = (0..62).map(|_| random.word(n)).collect();
        let each = rows.iter().enumerate();
        let products = each
            .map(|(j, row)| Word::from(product(*row, lone)) << j)
            .sum();
        let wanted = wanted_by(&rows, products);
        assert_eq!(first_wanted(n, [0, 8], &wanted), Some(lone));
        let shorter = weight
            .checked_sub(1)
            .and_then(|last| first_wanted(n, [0, last], &wanted));
        assert_eq!(shorter, None);
    }
}

/// The table of a weight: where each word has products of its own there are as many groups as
/// words, and where all have the same there is one, with the smallest word and the smallest that
/// is marked otherwise.
#[test]
fn tables_of_a_weight() {
    let units: Vec<Word> = (0..12).map(|cell| 1 << cell).collect();
    let marked = [0b1110_0000];
    for (weight, words, least, other) in [
        (0, 1, 0, None),
        (2, 66, 3, Some(33)),
        (4, 495, 15, Some(39)),
    ] {
        let columns = columns_of(12, &wanted_by(&units, 0));
        let table = table_of(12, weight, &columns);
        let mut leasts = table.iter().map(|group| group.least);
        assert!(leasts.all(|half| half.products == half.word && half.mark == half.word));
        assert_eq!(table.len(), words);
        let one_group = Wanted {
            some_one: Some(&marked),
            ..wanted_by(&[], 0)
        };
        let table = table_of(12, weight, &columns_of(12, &one_group));
        let words_of = |group: &Group| (group.least.word, group.other.map(|half| half.word));
        let told: Vec<_> = table.iter().map(words_of).collect();
        assert_eq!(told, [(least, other)]);
    }
}
