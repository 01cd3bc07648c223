//! The first wanted word of the list without a step through it. Weight by weight, a word is
//! taken as the sum of two halves, words of half its weight: these are few, and stand in
//! tables by their products.
//!
//! Where no lighter word but perhaps 0 is wanted, any two different halves whose sum is wanted
//! have no cell in common, since otherwise their sum would be lighter, and not 0. So the sum is
//! a sum of numbers too, and the smaller the halves, the smaller it is.

use crate::listing::listed;
use crate::word::{column, Word};

/// Which words are wanted: those whose products with the rows are the bits of `products`, bit
/// j for row j, and which have product 1 with some row of `some_one`, if there are such rows.
pub struct Wanted<'a> {
    pub rows: &'a [Word],
    pub products: Word,
    pub some_one: Option<&'a [Word]>,
}

/// Half of a word: its products with the rows, and its mark. That is its products with
/// `some_one`, or the word itself. The products and the mark of a sum are the sums of those of
/// its halves, so that it is wanted, and not 0, exactly if its products are and the marks of its
/// halves differ.
#[derive(Clone, Copy)]
struct Half {
    products: Word,
    mark: Word,
    word: Word,
}

/// The halves of one weight and with equal products: the smallest, and the smallest one with
/// another mark than that one's.
struct Group {
    least: Half,
    other: Option<Half>,
}

/// The groups of one weight, their products rising.
type Table = Vec<Group>;

/// The first wanted word of the list over n cells, from the first weight to the last. The
/// first weight is 0, or is 1, and then 0 is not listed.
pub fn first_wanted(n: u32, weights: [u32; 2], wanted: &Wanted) -> Option<Word> {
    let columns = columns_of(n, wanted);
    let mut tables: Vec<Table> = Vec::new();
    let [first, last] = weights;
    (first..=last.min(n)).find_map(|weight| {
        if weight == 0 {
            return wants_zero(wanted).then_some(0);
        }
        let (fewer, more) = (weight / 2, weight - weight / 2);
        for half_weight in tables.len() as u32..=more {
            tables.push(table_of(n, half_weight, &columns));
        }
        let tables = [more, fewer].map(|half_weight| &tables[half_weight as usize]);
        smallest_wanted(tables, wanted.products)
    })
}

/// Whether the word 0, all of whose products are 0, is wanted.
fn wants_zero(wanted: &Wanted) -> bool {
    wanted.products == 0 && wanted.some_one.is_none()
}

/// The words of a single cell as halves, in the order of the cells.
fn columns_of(n: u32, wanted: &Wanted) -> Vec<Half> {
    let half = |cell: u32| {
        let word = 1 << cell;
        Half {
            products: column(wanted.rows, cell),
            mark: wanted.some_one.map_or(word, |rows| column(rows, cell)),
            word,
        }
    };
    (0..n).map(half).collect()
}

/// A word as a half: the sum of its cells.
fn half_of(word: Word, columns: &[Half]) -> Half {
    let (mut products, mut mark, mut rest) = (0, 0, word);
    while rest != 0 {
        let cell = &columns[rest.trailing_zeros() as usize];
        products ^= cell.products;
        mark ^= cell.mark;
        rest ^= cell.word;
    }
    Half {
        products,
        mark,
        word,
    }
}

/// The table of a weight.
fn table_of(n: u32, weight: u32, columns: &[Half]) -> Table {
    let words = listed(n, weight, weight);
    let mut halves: Vec<Half> = words.map(|word| half_of(word, columns)).collect();
    halves.sort_unstable_by_key(|half| (half.products, half.word));
    let equal = halves.chunk_by(|a, b| a.products == b.products);
    equal.map(group_of).collect()
}

/// The group of halves with equal products, their words rising.
fn group_of(halves: &[Half]) -> Group {
    let least = halves[0];
    let mut others = halves.iter().filter(|half| half.mark != least.mark);
    let other = others.next().copied();
    Group { least, other }
}

/// The smallest wanted word that is the sum of a half of the first table and one of the
/// second, their weights being those of its halves, where no lighter word but 0 is wanted.
fn smallest_wanted(tables: [&Table; 2], products: Word) -> Option<Word> {
    let [first, second] = tables;
    let sums = first.iter().filter_map(|group| {
        let missing = group.least.products ^ products;
        let at = second.binary_search_by_key(&missing, |group| group.least.products);
        smallest_sum(group, &second[at.ok()?])
    });
    sums.min()
}

/// The smallest sum of a half of the one group and a half of the other whose marks differ. It is
/// that of the least two, if theirs do. If not, of any two whose marks differ one has another
/// mark than the least two, and its group keeps the smallest such half.
fn smallest_sum(one: &Group, two: &Group) -> Option<Word> {
    let halves = |group: &Group| [Some(group.least), group.other].into_iter().flatten();
    let with_each = |a: Half| {
        let apart = halves(two).filter(move |b| a.mark != b.mark);
        apart.map(move |b| joined(a, b))
    };
    halves(one).flat_map(with_each).min()
}

/// The sum of two halves, which have no cell in common.
fn joined(a: Half, b: Half) -> Word {
    assert_eq!(a.word & b.word, 0, "a lighter word would be wanted");
    a.word + b.word
}

#[cfg(test)]
mod tests;
