//! Calls that open a page, at random, as lines of the protocol: under admitted sheets of
//! every plate number, and under broken ones. Opening takes no cap, so it is the sheet that
//! is chosen for a list that is not too long.

use crate::asking::{far_sheet, line_text, Verb};
use crate::breaking::broken_sheet;
use crate::making::{random_numbers, random_tables, repeating, sheet_of_tables, some_sheet};
use crate::random::Random;
use crate::sheet::{admit, Sheet};
use crate::taming::{highest_cap, may_open, tame_cap};

/// `open` as a line.
pub fn open_text(sheet: &Sheet) -> String {
    line_text("open", sheet, &[])
}

/// `open` under a sheet of any kind, one in four being a broken one.
pub fn open_call(random: &mut Random) -> String {
    if !random.once_in(4) {
        return good_open_call(random);
    }
    let sheet = broken_sheet(random);
    open_text(&tame_sheet(random, sheet))
}

/// `open` under an admitted sheet: a far one of up to 20 cells, a close one of any width, or
/// any other.
pub fn good_open_call(random: &mut Random) -> String {
    let sheet = match random.below(8) {
        0 => repeating(random.between(1, 12)),
        1 | 2 => {
            let n = random.between(4, 20);
            far_sheet(random, Verb::D1, n)
        }
        3 => {
            let sheet = some_sheet(random);
            tame_sheet(random, sheet)
        }
        _ => some_close_sheet(random),
    };
    open_text(&sheet)
}

/// `open` that may go through millions of words: under a far sheet of 21 to 32 cells, or a
/// wider one that is as far as the longest list allows, or up to 2 less far.
pub fn big_open_call(random: &mut Random) -> String {
    let (narrow, wide) = (random.between(21, 32), random.between(33, 64));
    let most = highest_cap(wide) - random.between(0, 2);
    let sheet = match random.once_in(2) {
        true => far_sheet(random, Verb::D1, narrow),
        false => close_sheet(random, [wide, 1, wide / 4], most),
    };
    open_text(&sheet)
}

/// The sheet, or a close one where it is admitted and could have too long a list: d1 is
/// never above r + 1.
fn tame_sheet(random: &mut Random, sheet: Sheet) -> Sheet {
    let most = admit(&sheet).ok().map(|parts| parts.h.len() as u32 + 1);
    match most {
        Some(most) if !may_open(random, sheet.n, most) => some_close_sheet(random),
        _ => sheet,
    }
}

/// A close sheet with any numbers, its d1 held to a list that is not too long.
fn some_close_sheet(random: &mut Random) -> Sheet {
    let (n, k, l) = random_numbers(random);
    let cap = random.between(1, 8);
    let most = tame_cap(random, n, n - k - l, cap.into());
    close_sheet(random, [n, k, l], most as u32)
}

/// An admitted sheet with these n, k and l whose d1 is at most so much, and often just that:
/// the first row of G1 begins with no more ones.
fn close_sheet(random: &mut Random, nkl: [u32; 3], most: u32) -> Sheet {
    let [n, k, l] = nkl;
    let r = n - k - l;
    let mut tables = random_tables(random, n, k, l);
    tables[0][0] = random.light_word(r, r.min(most - 1));
    sheet_of_tables(random, nkl, &tables)
}

#[cfg(test)]
mod tests {
    use super::*;
    use crate::calls::measured_d1;
    use crate::lines::answer_line;
    use crate::word::MOST_CELLS;

    /// The answer to a call.
    fn answer_to(line: &str) -> String {
        answer_line(line.as_bytes()).expect("an answer")
    }

    /// The number of listed words that a call to open goes through: those that a measurement
    /// of d1 at cap 8 tries.
    fn tried(line: &str) -> u64 {
        let answer = answer_to(&format!("{} 8", line.replacen("open", "d1", 1)));
        let tokens: Vec<&str> = answer.split(' ').collect();
        let at = tokens.iter().position(|token| *token == "tried");
        at.map_or(0, |at| tokens[at + 1].parse().expect("a number"))
    }

    /// Every plate number and every refusal of a sheet come up; of the answered calls many
    /// are on more than 32 cells, with numbers up to 4.
    #[test]
    fn numbers_and_refusals_that_come_up() {
        let mut random = Random::new(101);
        let (mut numbers, mut wide, mut refusals) = ([0; 10], [0; 10], [0; 7]);
        for _ in 0..3000 {
            let line = open_call(&mut random);
            let answer = answer_to(&line);
            let tokens: Vec<&str> = answer.split(' ').collect();
            let number: usize = tokens[1].parse().expect("a number");
            let cells: u32 = line.split(' ').nth(1).expect("n").parse().expect("n");
            match tokens[0] {
                "refused" => refusals[number] += 1,
                "number" => {
                    numbers[number] += 1;
                    wide[number] += u32::from(cells > 32);
                }
                _ => panic!("{line}: {answer}"),
            }
            let good = answer_to(&good_open_call(&mut random));
            assert!(good.starts_with("number "), "{good}");
        }
        assert!(numbers[1..].iter().all(|times| *times > 30), "{numbers:?}");
        assert!(wide[1..=4].iter().all(|times| *times > 5), "{wide:?}");
        assert!(
            refusals[1..].iter().all(|times| *times > 20),
            "{refusals:?}"
        );
    }

    /// No call goes through too long a list, and few go through a long one; a big one does
    /// mostly.
    #[test]
    fn lists_gone_through() {
        let mut random = Random::new(102);
        let lengths: Vec<u64> = (0..2000).map(|_| tried(&open_call(&mut random))).collect();
        let longer = |limit: u64| lengths.iter().filter(|length| **length > limit).count();
        assert_eq!(longer(700_000), 0);
        assert!((1..100).contains(&longer(50_000)), "{}", longer(50_000));
        let lengths: Vec<u64> = (0..8).map(|_| tried(&big_open_call(&mut random))).collect();
        assert!(lengths.iter().all(|length| *length <= 20_000_000));
        assert!(lengths.iter().any(|length| *length > 1_000_000));
    }

    /// A close sheet's d1 is at most what it is made for, and often just that.
    #[test]
    fn close_sheets() {
        let mut random = Random::new(103);
        let mut just = 0;
        for _ in 0..1000 {
            let n = random.between(1, MOST_CELLS);
            let k = random.between(1, n);
            let l = random.between(0, n - k);
            let most = random.between(1, 3);
            let sheet = close_sheet(&mut random, [n, k, l], most);
            let parts = admit(&sheet).expect("an admitted sheet");
            let measured = measured_d1(&parts, most).expect("a measurement");
            just += u32::from(measured.distance.expect("a distance") == most);
        }
        assert!(just > 200, "{just}");
    }
}
