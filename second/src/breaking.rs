//! Sheets that break the rules of admission, by one fault or by several.

use crate::making::some_sheet;
use crate::random::Random;
use crate::sheet::Sheet;
use crate::word::{sum_of, Word, MOST_CELLS};

/// A sheet with faults.
pub fn broken_sheet(random: &mut Random) -> Sheet {
    let sheet = some_sheet(random);
    broken(random, sheet)
}

/// An admitted sheet with a fault put in its numbers, in one row, in several rows, or in
/// both; a fault may happen to leave it admitted.
pub fn broken(random: &mut Random, mut sheet: Sheet) -> Sheet {
    let faults = match random.below(10) {
        0 | 1 => 0,
        2..=6 => 1,
        7 => 2,
        8 => 3,
        _ => random.between(2, 5),
    };
    for _ in 0..faults {
        break_row(random, &mut sheet);
    }
    if faults == 0 || random.once_in(20) {
        break_numbers(random, &mut sheet);
    }
    sheet
}

/// One fault in the rows of a sheet whose numbers are right.
fn break_row(random: &mut Random, sheet: &mut Sheet) {
    let (k, l) = (sheet.k as usize, sheet.l as usize);
    let all = sheet.rows.len();
    let (g1, g0, h, m) = (0..k, k..k + l, k + l..all - k, all - k..all);
    match random.below(15) {
        0 | 1 => stray_bit(random, &mut sheet.rows, sheet.n),
        2 => flip_bit(random, sheet, 0..all),
        3 => flip_bit(random, sheet, 0..k + l),
        4 => flip_bit(random, sheet, h),
        5 | 6 => earlier_sum(random, sheet, g0),
        7 | 8 => earlier_sum(random, sheet, h),
        9 => earlier_sum(random, sheet, g1),
        10 => earlier_sum(random, sheet, m),
        11 => add_g1_row(random, sheet),
        12 => {
            let (a, b) = (some_row(random, &(0..all)), some_row(random, &(0..all)));
            sheet.rows.swap(a, b);
        }
        13 => {
            let row = some_row(random, &(0..all));
            sheet.rows[row] = 0;
        }
        _ => {
            let row = some_row(random, &(0..all));
            sheet.rows[row] = random.word(sheet.n);
        }
    }
}

/// The number of one of these rows, of which there is at least one.
fn some_row(random: &mut Random, rows: &std::ops::Range<usize>) -> usize {
    rows.start + random.below(rows.len() as u64) as usize
}

/// Refusal 2: a bit in one of these rows at a cell at or above so many; where there is no
/// row, or no such cell, nothing is set.
pub fn stray_bit(random: &mut Random, rows: &mut [Word], cells: u32) {
    if cells < MOST_CELLS && !rows.is_empty() {
        let any = random.between(cells, 63);
        let cell = random.one_of(&[cells, any, cells.max(31), cells.max(32), 63]);
        let row = some_row(random, &(0..rows.len()));
        rows[row] |= 1 << cell;
    }
}

/// Refusals 3 and 4 mostly: one bit of one of these rows turned over.
fn flip_bit(random: &mut Random, sheet: &mut Sheet, rows: std::ops::Range<usize>) {
    if !rows.is_empty() {
        let row = some_row(random, &rows);
        sheet.rows[row] ^= 1 << random.between(0, sheet.n - 1);
    }
}

/// Refusals 5 and 6, or 4 in G1 and M: a row becomes a sum of earlier rows of its group.
fn earlier_sum(random: &mut Random, sheet: &mut Sheet, rows: std::ops::Range<usize>) {
    if !rows.is_empty() {
        let row = some_row(random, &rows);
        let earlier = &sheet.rows[rows.start..row];
        let chosen = match random.below(3) {
            0 => 1 << random.below(64),
            _ => random.word(64),
        };
        sheet.rows[row] = sum_of(earlier, chosen);
    }
}

/// Refusal 4 at a row of G0 or G1: a row of G1 is added to it.
fn add_g1_row(random: &mut Random, sheet: &mut Sheet) {
    let (k, l) = (sheet.k as usize, sheet.l as usize);
    let added = random.below(k as u64) as usize;
    let row = if l > 0 {
        some_row(random, &(k..k + l))
    } else {
        k - 1
    };
    sheet.rows[row] ^= sheet.rows[added];
}

/// Refusal 1 mostly: n, k, l or the number of rows, which are right ones, not as asked.
pub fn break_numbers(random: &mut Random, sheet: &mut Sheet) {
    match random.below(14) {
        0 => sheet.n = random.one_of(&[0, 33, 65, 128, 1 << 31, u32::MAX]),
        1 => sheet.n = sheet.n.wrapping_add(random.one_of(&[1, u32::MAX])),
        2 => sheet.k = random.one_of(&[0, 65, 1 << 31, u32::MAX, u32::MAX - 6]),
        3 => sheet.l = random.one_of(&[65, 1 << 31, u32::MAX, u32::MAX - sheet.k]),
        4 => sheet.l = sheet.n - sheet.k + random.between(1, 3),
        5 => sheet.l = (u32::MAX - sheet.k) + random.between(1, sheet.n.min(sheet.k)),
        6 => wrapped_k(random, sheet),
        7 => sheet.rows.truncate(sheet.rows.len() - 1),
        8 => sheet.rows.push(random.word(sheet.n)),
        9 => sheet.rows.clear(),
        10 => {
            let count = random.one_of(&[64, 128]);
            sheet.rows.resize(count, random.word(sheet.n));
        }
        11 => one_cell_fewer(random, sheet),
        12 => wide(random, sheet),
        _ => k_for_l(random, sheet),
    }
}

/// A k so large that n + k and k + l, wrapped at 32 bits, would both look right.
fn wrapped_k(random: &mut Random, sheet: &mut Sheet) {
    let short = random.between(1, sheet.n);
    sheet.k = short.wrapping_neg();
    sheet.l = short + random.between(0, sheet.n - 1);
    sheet.rows.truncate((sheet.n - short) as usize);
}

/// One cell and one row fewer, so that the number of rows is right again.
fn one_cell_fewer(random: &mut Random, sheet: &mut Sheet) {
    sheet.n -= 1;
    let row = random.below(sheet.rows.len() as u64) as usize;
    sheet.rows.remove(row);
}

/// More than 64 cells, every second time 65, with the number of rows that n + k asks for.
fn wide(random: &mut Random, sheet: &mut Sheet) {
    let any = random.between(66, 72);
    sheet.n = random.one_of(&[65, any]);
    if random.once_in(2) {
        sheet.k = random.between(1, sheet.n);
        sheet.l = random.between(0, sheet.n - sheet.k);
    }
    let count = (sheet.n + sheet.k) as usize;
    sheet.rows.resize(count, random.word(64));
}

/// One row of k handed to l or the other way, the rows made to match in number.
fn k_for_l(random: &mut Random, sheet: &mut Sheet) {
    if sheet.l > 0 && random.once_in(2) {
        sheet.k += 1;
        sheet.l -= 1;
        sheet.rows.push(random.word(sheet.n));
    } else {
        sheet.k -= 1;
        sheet.l += 1;
        sheet.rows.pop();
    }
}

#[cfg(test)]
mod tests {
    use super::*;
    use crate::sheet::admit;

    /// Every refusal of a sheet comes up often, and few sheets stay admitted.
    #[test]
    fn every_refusal_of_a_sheet_comes_up() {
        let mut random = Random::new(41);
        let mut times = [0; 7];
        for _ in 0..5000 {
            let sheet = broken_sheet(&mut random);
            let number = admit(&sheet).err().map_or(0, |refusal| refusal.number);
            times[number as usize] += 1;
        }
        assert!(times[1..].iter().all(|count| *count > 100), "{times:?}");
        assert!(times[0] < 1500, "{times:?}");
    }
}
