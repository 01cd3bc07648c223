//! The calls about tables of the small family.

use crate::every::{every_list, every_tables};
use crate::sheet::Sheet;
use crate::tabling::{to_sheet_text, to_tables_text};
use crate::word::Word;

/// What the rooms hold before a call: no row of a small table or sheet.
const HELD: [Word; 3] = [Word::MAX, 1 << 31, 9];

/// All tables for these numbers, their rows also one past those that their columns hold, in
/// rooms of the right size, of one row fewer and of one more.
pub fn sheets_to_make(n: u32, k: u32, l: u32) -> Vec<String> {
    let mut lines = Vec::new();
    for tables in every_tables(n, k, l, 1) {
        for size in n + k - 1..=n + k + 1 {
            lines.push(to_sheet_text([n, k, l], &tables, size, HELD[0]));
        }
    }
    lines
}

/// Every n, k and l of up to 2, with tables of up to 2 rows each, and a room of n + k rows:
/// refusal 1 but for few. The rows are 0, and no bit is stray.
pub fn sizes_to_judge() -> Vec<String> {
    let line = |numbers: Vec<Word>| {
        let nkl = [0, 1, 2].map(|place| numbers[place] as u32);
        let tables = [3, 4, 5].map(|place| vec![0; numbers[place] as usize]);
        to_sheet_text(nkl, &tables, nkl[0] + nkl[1], HELD[0])
    };
    every_list(vec![3; 6]).map(line).collect()
}

/// A sheet asked for its tables, in rooms of the right sizes.
pub fn tables_to_give(sheet: &Sheet) -> String {
    to_tables_text(sheet, [sheet.k, sheet.l, sheet.l], HELD)
}

/// A sheet asked for its tables in rooms of every three sizes of up to 2; and the same with
/// a row too few, and with a stray bit in its first row.
pub fn tables_in_any_rooms(sheet: &Sheet) -> Vec<String> {
    let (mut short, mut stray) = (sheet.clone(), sheet.clone());
    short.rows.pop();
    stray.rows[0] |= 1 << sheet.n;
    let asked = |sheet: &Sheet| -> Vec<String> {
        every_list(vec![3; 3])
            .map(|sizes| to_tables_text(sheet, [0, 1, 2].map(|room| sizes[room] as u32), HELD))
            .collect()
    };
    [sheet, &short, &stray].map(asked).concat()
}

#[cfg(test)]
mod tests {
    use super::*;
    use crate::lines::answer_line;
    use crate::making::attic;

    /// How many of these lines are answered with this beginning.
    fn answered(lines: &[String], beginning: &str) -> usize {
        let answers = lines.iter().map(|line| answer_line(line.as_bytes()));
        let texts = answers.map(|answer| answer.expect("an answer") + " ");
        texts.filter(|text| text.starts_with(beginning)).count()
    }

    /// Of the sheets to make, a third has a room of the right size; of these one for each
    /// choice of all entries is made, and all others have a stray bit.
    #[test]
    fn number_of_sheets_to_make() {
        let lines = sheets_to_make(3, 1, 1);
        assert_eq!(lines.len(), 3 * 27);
        assert_eq!(answered(&lines, "refused 1 "), 2 * 27);
        assert_eq!(answered(&lines, "done "), 8);
        assert_eq!(answered(&lines, "refused 2 "), 27 - 8);
    }

    /// Of the sizes to judge, one for each good choice of n, k and l of up to 2 is right:
    /// 1 1 0, 2 1 0, 2 1 1 and 2 2 0.
    #[test]
    fn number_of_sizes_to_judge() {
        let lines = sizes_to_judge();
        assert_eq!(lines.len(), 729);
        assert_eq!(answered(&lines, "done "), 4);
        assert_eq!(answered(&lines, "refused 1 "), 725);
    }

    /// Of the rooms for the tables of a sheet one choice of sizes is right.
    #[test]
    fn number_of_rooms() {
        let lines = tables_in_any_rooms(&attic());
        assert_eq!(lines.len(), 3 * 27);
        assert_eq!(answered(&lines, "refused 1 "), 26 + 27 + 26);
        assert_eq!(answered(&lines, "refused 2 0 "), 1);
        assert_eq!(answered(&lines, "done "), 1);
        assert_eq!(answered(&[tables_to_give(&attic())], "done "), 1);
    }
}
