//! Calls at random that measure, or open a page, over 33 to 64 cells on sheets whose d0 or d1
//! is 7, 8 or more, as lines of the protocol. Their lists have up to 5,130,659,560 words.

use crate::asking::{call_text, Verb};
use crate::making::{
    loft, permute_cells, random_tables, repeating, sheet_in_order, sheet_of_tables,
};
use crate::opening::open_text;
use crate::random::Random;
use crate::sheet::{Sheet, Tables};
use crate::word::{column, Word};

/// A measurement of d0 or d1, at cap 8 mostly, or an `open`.
pub fn distant_call(random: &mut Random) -> String {
    let any = random.between(33, 64);
    let n = random.one_of(&[64, 64, 63, any, any]);
    let verb = random.one_of(&[Verb::D0, Verb::D1]);
    let sheet = distant_sheet(random, verb, n);
    if verb == Verb::D1 && random.once_in(2) {
        return open_text(&sheet);
    }
    let cap = match random.once_in(6) {
        true => random.between(1, 8),
        false => 8,
    };
    call_text(verb, &sheet, &[Word::from(cap)])
}

/// A sheet of 33 to 64 cells whose distance for this verb is 7, 8 or more, as a rule: 7 or 8 in
/// the most cases, of one word that is put into its code; somewhere there; or far above, up to
/// n.
fn distant_sheet(random: &mut Random, verb: Verb, n: u32) -> Sheet {
    let edge = rows_at_the_edge(n);
    match random.below(8) {
        0 if verb == Verb::D0 => loft(n),
        0 => repeating(n),
        1 => {
            let rows = random.between(edge + 8, n - 1);
            some_sheet_deciding(random, verb, n, rows)
        }
        2 | 3 => {
            let rows = random.between(edge, edge + 5);
            some_sheet_deciding(random, verb, n, rows)
        }
        _ => {
            let rows = random.between(edge + 6, n - 1);
            planted_sheet(random, verb, n, rows)
        }
    }
}

/// With so many rows of G0, d0 is 7 or 8 or a little less or more, as a rule, and with so many
/// of H, d1 is.
fn rows_at_the_edge(n: u32) -> u32 {
    17 + n / 5
}

/// An admitted sheet with so many rows of those that decide the verb's distance.
pub fn some_sheet_deciding(random: &mut Random, verb: Verb, n: u32, rows: u32) -> Sheet {
    let nkl = numbers_deciding(random, verb, n, rows);
    let tables = dense_tables(random, verb, nkl);
    sheet_of_tables(random, nkl, &tables)
}

/// The same with a word of weight 7 or 8 that the distance is of, if no other word is before
/// it; every second time the word is given cell n - 1, and comes late among those of its weight.
pub fn planted_sheet(random: &mut Random, verb: Verb, n: u32, rows: u32) -> Sheet {
    let nkl = numbers_deciding(random, verb, n, rows);
    let mut tables = dense_tables(random, verb, nkl);
    let weight = random.one_of(&[7, 8, 8, 8]);
    let planted = plant(random, verb, nkl, &mut tables, weight);
    let mut sheet = sheet_in_order(random, nkl, &tables);
    sheet.rows.push(planted);
    permute_cells(random, n, &mut sheet.rows);
    if random.once_in(2) {
        let lowest = sheet.rows.last().map_or(0, |word| word.trailing_zeros());
        swap_cells(&mut sheet.rows, lowest, n - 1);
    }
    sheet.rows.pop();
    sheet
}

/// n, k and l: d0 is decided by the l rows of G0, d1 by the r = n - k - l rows of H.
fn numbers_deciding(random: &mut Random, verb: Verb, n: u32, rows: u32) -> [u32; 3] {
    let (one, all) = (1, n - rows);
    let any = random.between(1, all);
    let k = random.one_of(&[one, any, any, all]);
    let l = match verb {
        Verb::D0 => rows,
        _ => all - k,
    };
    [n, k, l]
}

/// Tables whose part that decides the distance is dense: of R and Q each row for d0, of P for
/// d1. The others are dense, thin or all 0. So a word of message 0 may be light where d1 is not.
fn dense_tables(random: &mut Random, verb: Verb, nkl: [u32; 3]) -> Tables {
    let [n, k, l] = nkl;
    let r = n - k - l;
    let mut dense = |rows, columns| (0..rows).map(|_| random.word(columns)).collect();
    let [dense_p, dense_r, dense_q] = [dense(k, r), dense(l, k), dense(l, r)];
    let [p, big_r, q] = random_tables(random, n, k, l);
    match verb {
        Verb::D0 => [p, dense_r, dense_q],
        _ => [dense_p, big_r, q],
    }
}

/// Changes the tables so that a word of this weight is one that the verb's distance is the
/// least weight of, and answers the word: for d0 row 0 of M = [I R^T 0], for d1 row 0 of
/// G1 = [I 0 P].
fn plant(random: &mut Random, verb: Verb, nkl: [u32; 3], tables: &mut Tables, weight: u32) -> Word {
    let [n, k, l] = nkl;
    let [p, big_r, _] = tables;
    if verb == Verb::D0 {
        let ones = word_of_weight(random, l, weight - 1);
        for (j, row) in big_r.iter_mut().enumerate() {
            *row = *row & !1 | ones >> j & 1;
        }
        return 1 | column(big_r, 0) << k;
    }
    p[0] = word_of_weight(random, n - k - l, weight - 1);
    1 | p[0] << (k + l)
}

/// A word over so many cells with so many ones.
fn word_of_weight(random: &mut Random, cells: u32, ones: u32) -> Word {
    let mut word: Word = 0;
    while word.count_ones() < ones {
        word |= 1 << random.between(0, cells - 1);
    }
    word
}

/// Exchanges two cells of all rows.
fn swap_cells(rows: &mut [Word], a: u32, b: u32) {
    for row in rows {
        let differ = (*row >> a ^ *row >> b) & 1;
        *row ^= differ << a | differ << b;
    }
}

#[cfg(test)]
mod tests {
    use super::*;
    use crate::lines::answer_line;
    use crate::sheet::admit;

    /// Every call is answered; distances of 7, of 8 and of more come up for each verb, and
    /// places of a hit and lengths of a list past 2^32.
    #[test]
    fn answers_that_come_up() {
        let mut random = Random::new(131);
        let (mut times, mut past) = ([[0; 3]; 3], [0; 2]);
        for _ in 0..80 {
            let line = distant_call(&mut random);
            let answer = answer_line(line.as_bytes()).expect("an answer");
            let tokens: Vec<&str> = answer.split(' ').collect();
            let distance = match tokens[0] {
                "more" => 9,
                _ => tokens[1].parse().expect("a distance or a number"),
            };
            let verb = ["d0", "d1", "open"]
                .iter()
                .position(|verb| line.starts_with(verb));
            if (7..=9).contains(&distance) {
                times[verb.expect("a verb")][distance - 7] += 1;
            }
            let at = tokens.iter().position(|token| *token == "tried");
            let tried: u64 = at.map_or(0, |at| tokens[at + 1].parse().expect("a number"));
            past[usize::from(tokens[0] == "more")] += u32::from(tried > 1 << 32);
        }
        assert!(times.iter().flatten().min() > Some(&1), "{times:?}");
        assert!(past.iter().min() > Some(&1), "{past:?}");
    }

    /// The sheets are admitted, and the rows that decide the distance are not few.
    #[test]
    fn sheets_made() {
        let mut random = Random::new(132);
        for _ in 0..300 {
            let n = random.between(33, 64);
            let verb = random.one_of(&[Verb::D0, Verb::D1]);
            let sheet = distant_sheet(&mut random, verb, n);
            let parts = admit(&sheet).expect("an admitted sheet");
            let rows = match verb {
                Verb::D0 => parts.g0.len(),
                _ => parts.h.len(),
            };
            assert!((23..64).contains(&rows) && sheet.n == n);
        }
    }

    /// Cells are exchanged in every row, and a cell with itself changes nothing.
    #[test]
    fn cells_exchanged() {
        let mut rows = vec![1, 1 << 63, 1 << 63 | 1, 6];
        swap_cells(&mut rows, 63, 63);
        assert_eq!(rows, [1, 1 << 63, 1 << 63 | 1, 6]);
        swap_cells(&mut rows, 0, 63);
        assert_eq!(rows, [1 << 63, 1, 1 << 63 | 1, 6]);
    }
}
