//! The whole pages of the small family.

use crate::every::{every_list, every_records};
use crate::filling::{whole_text, Whole};
use crate::sheet::Sheet;
use crate::word::Word;

/// What the slots of a page hold before a call: no word of a small sheet.
const HELD: [Word; 2] = [Word::MAX, 1 << 31];

/// What the notes hold before a call: no note.
const STALE: Word = 77;

/// Pages of up to 2 slots with messages and notes of every length of up to 3, and no records:
/// numbers 0 to 10; and numbers 0 and 1 under a sheet with a row too few, and under one with a
/// stray bit in its first row.
pub fn lengths_to_judge(sheet: &Sheet) -> Vec<String> {
    let (mut short, mut stray) = (sheet.clone(), sheet.clone());
    short.rows.pop();
    stray.rows[0] |= 1 << sheet.n;
    let asked = |(sheet, numbers): (&Sheet, Word)| -> Vec<String> {
        every_list(vec![3, 4, 4, numbers])
            .map(|choice| whole_text(sheet, &of_lengths(&choice)))
            .collect()
    };
    [(sheet, 11), (&short, 2), (&stray, 2)].map(asked).concat()
}

/// A page, messages and notes of the first three lengths, and with the number after them.
fn of_lengths(choice: &[Word]) -> Whole {
    let [slots, messages, notes, number] = choice[..] else {
        unreachable!("three lengths and a number");
    };
    Whole {
        number,
        page: HELD[..slots as usize].to_vec(),
        records: vec![],
        messages: vec![0; messages as usize],
        notes: [notes, STALE],
    }
}

/// Every list of up to 2 records, of `every_records`, on a page of 2 slots with every two
/// messages. With up to one record each message may be one past them, too, and there is the
/// same on a page of 1 slot, which has no slot 1.
pub fn wholes_to_write(sheet: &Sheet) -> Vec<String> {
    let mut lines = Vec::new();
    let all = 1 << sheet.k;
    for records in every_records(sheet.n) {
        let (slots, limit) = match records.len() {
            2 => (2..=2, all),
            _ => (1..=2, all + 1),
        };
        for count in slots {
            for messages in every_list(vec![limit; count]) {
                let whole = Whole {
                    number: 1,
                    page: HELD[..count].to_vec(),
                    records: records.clone(),
                    messages,
                    notes: [count as Word, STALE],
                };
                lines.push(whole_text(sheet, &whole));
            }
        }
    }
    lines
}

#[cfg(test)]
mod tests {
    use super::*;
    use crate::lines::answer_line;
    use crate::making::attic;

    /// The answers to these lines.
    fn answers(lines: &[String]) -> Vec<String> {
        let answer = |line: &String| answer_line(line.as_bytes());
        lines.iter().filter_map(answer).collect()
    }

    /// How many of these texts begin so.
    fn beginning(texts: &[String], with: &str) -> usize {
        texts.iter().filter(|text| text.starts_with(with)).count()
    }

    /// Of the lengths to judge, those of each page with a number of 1 to 9 are right once.
    #[test]
    fn number_of_lengths() {
        let texts = answers(&lengths_to_judge(&attic()));
        assert_eq!(texts.len(), 48 * (11 + 2 + 2));
        assert_eq!(beginning(&texts, "done page "), 3 * 9);
        assert_eq!(beginning(&texts, "refused 25 page "), (48 - 3) * 9);
        assert_eq!(beginning(&texts, "refused 16 page "), 48 * 2);
        assert_eq!(beginning(&texts, "refused 1 page "), 48 * 2);
        assert_eq!(beginning(&texts, "refused 2 0 page "), 48 * 2);
    }

    /// Every whole page to write is written, and every note comes up, in each of 2 slots: on
    /// this sheet cell 0 cannot be got around.
    #[test]
    fn number_of_wholes() {
        let (n, k, l) = (3, 1, 1);
        let rows = vec![3, 6, 7, 1];
        let texts = answers(&wholes_to_write(&Sheet { n, k, l, rows }));
        assert_eq!(texts.len(), (1 + 24) * (3 + 9) + 24 * 24 * 4);
        assert_eq!(beginning(&texts, "done page "), texts.len());
        for note in ["0", "7", "9", "15"] {
            for notes in [format!("{note} 0"), format!("0 {note}")] {
                let end = format!(" notes 2 {notes}");
                assert!(texts.iter().any(|text| text.ends_with(&end)), "{end}");
            }
        }
    }
}
