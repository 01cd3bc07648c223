//! A small family of calls with nothing left out: all sheets of up to 3 cells, all tables
//! for them, the page calls of two of them, whole pages too, and a sheet of each plate number.

use crate::asking::{call_text, line_text, list, Verb};
use crate::every::{every_list, every_records, every_sheet};
use crate::making::{attic, repeating};
use crate::opening::open_text;
use crate::sheet::{admit, Sheet};
use crate::smalltables::{sheets_to_make, sizes_to_judge, tables_in_any_rooms, tables_to_give};
use crate::smallwholes::{lengths_to_judge, wholes_to_write};
use crate::word::Word;
use std::io::{self, Write};

/// Of the admitted sheets of 3 cells and one n, k and l, one in so many is written and read.
const WRITTEN_AND_READ: usize = 28;

/// The sheets of the page calls: n, k, l and rows. The one has 2 cells and no checks, the
/// other 3 cells and a check.
const PAGED: [(u32, u32, u32, &[Word]); 2] = [(2, 1, 1, &[1, 3, 3]), (3, 1, 1, &[3, 6, 7, 1])];

/// What the slots of a page hold before a write: no word of either sheet.
const HELD: [Word; 2] = [Word::MAX, 1 << 31];

/// Prints the family: every list of rows of up to 2 cells is asked to be admitted, for its
/// plate number, and for its tables; every admitted sheet of up to 3 cells is measured, and
/// asked for both; the attic sheet, those of up to 2 cells and some of those of 3 are written
/// and read in every way; two have page calls, whole pages to be written, and rooms of any
/// sizes for their tables. All tables of up to 3 cells are made into sheets. A sheet of each
/// d1 from 1 to 10 is asked for its plate number.
pub fn print_small(mut output: impl Write) -> io::Result<()> {
    let mut lines = writes_and_reads(&attic());
    lines.extend(sizes_to_judge());
    lines.extend((1..=10).map(|n| open_text(&repeating(n))));
    for (n, k, l, rows) in PAGED {
        let rows = rows.to_vec();
        let sheet = Sheet { n, k, l, rows };
        lines.extend(page_writes(&sheet));
        lines.extend(page_reads(&sheet));
        lines.extend(lengths_to_judge(&sheet));
        lines.extend(wholes_to_write(&sheet));
        lines.extend(tables_in_any_rooms(&sheet));
    }
    for n in 1..=3 {
        for k in 1..=n {
            for l in 0..=n - k {
                lines.extend(calls_of_numbers(n, k, l));
                lines.extend(sheets_to_make(n, k, l));
            }
        }
    }
    for line in lines {
        writeln!(output, "{line}")?;
    }
    output.flush()
}

/// The calls for one n, k and l.
fn calls_of_numbers(n: u32, k: u32, l: u32) -> Vec<String> {
    let mut lines = Vec::new();
    if n < 3 {
        for sheet in every_sheet(n, k, l, (1 << n) + 1) {
            lines.push(call_text(Verb::Admit, &sheet, &[]));
            lines.push(open_text(&sheet));
            lines.push(tables_to_give(&sheet));
        }
    }
    let admitted = every_sheet(n, k, l, 1 << n).filter(|sheet| admit(sheet).is_ok());
    for (place, sheet) in admitted.enumerate() {
        lines.extend(measurements(&sheet));
        lines.push(tables_to_give(&sheet));
        if n < 3 || place % WRITTEN_AND_READ == 0 {
            lines.extend(writes_and_reads(&sheet));
        }
    }
    lines
}

/// Admission, the plate number, and both distances at caps 1 to 4.
fn measurements(sheet: &Sheet) -> Vec<String> {
    let mut lines = vec![call_text(Verb::Admit, sheet, &[]), open_text(sheet)];
    for cap in 1..=4 {
        lines.push(call_text(Verb::D0, sheet, &[cap]));
        lines.push(call_text(Verb::D1, sheet, &[cap]));
    }
    lines
}

/// Every message with every stuck and levels below 2^n, and every y at radius 0 to n.
fn writes_and_reads(sheet: &Sheet) -> Vec<String> {
    let mut lines = Vec::new();
    let words = 1 << sheet.n;
    for message in 0..1 << sheet.k {
        for stuck in 0..words {
            for levels in 0..words {
                lines.push(call_text(Verb::Write, sheet, &[message, stuck, levels]));
            }
        }
    }
    for y in 0..words {
        for radius in 0..=sheet.n {
            lines.push(call_text(Verb::Read, sheet, &[y, Word::from(radius)]));
        }
    }
    lines
}

/// Every list of up to 2 records, of `every_records`, on a page of 2 slots: slots 0 to 2, and
/// every message and one past them. And no record, on pages of 0 and 1 slots. The number is
/// each of 0 to 10, but 1 with 2 records.
fn page_writes(sheet: &Sheet) -> Vec<String> {
    let mut lines = Vec::new();
    for slots in 0..=2 {
        let lists = match slots {
            2 => every_records(sheet.n),
            _ => vec![vec![]],
        };
        for records in lists {
            let count = records.len() as Word;
            let numbers = if count < 2 { 0..=10 } else { 1..=1 };
            for number in numbers {
                for slot_and_message in every_list(vec![3, (1 << sheet.k) + 1]) {
                    let before = [vec![number], list(&HELD[..slots]), vec![count]].concat();
                    let rest = [before, records.concat(), slot_and_message];
                    lines.push(line_text("pwrite", sheet, &rest.concat()));
                }
            }
        }
    }
    lines
}

/// Every page of up to 2 slots whose words are at most 2^n: numbers 0 to 10, slots 0 to 2,
/// and radius 0 to 5.
fn page_reads(sheet: &Sheet) -> Vec<String> {
    let limit = (1 << sheet.n) + 1;
    let mut lines = Vec::new();
    for slots in 0..=2 {
        for page in every_list(vec![limit; slots]) {
            for choice in every_list(vec![11, 3, 6]) {
                let (number, slot_and_radius) = choice.split_at(1);
                let rest = [number, &list(&page)[..], slot_and_radius];
                lines.push(line_text("pread", sheet, &rest.concat()));
            }
        }
    }
    lines
}

#[cfg(test)]
mod tests {
    use super::*;

    /// The sheets of the page calls are admitted, and their calls are counted another way.
    #[test]
    fn number_of_page_calls() {
        for ((n, k, l, rows), records) in PAGED.into_iter().zip([18, 24]) {
            let rows = rows.to_vec();
            let sheet = Sheet { n, k, l, rows };
            assert!(admit(&sheet).is_ok());
            let lists_and_numbers = (2 + 1 + records) * 11 + records * records;
            assert_eq!(page_writes(&sheet).len(), lists_and_numbers * 3 * 3);
            let words = (1 << n) + 1;
            let pages = 1 + words + words * words;
            assert_eq!(page_reads(&sheet).len(), pages * 11 * 3 * 6);
        }
    }
}
