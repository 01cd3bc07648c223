//! The page of requests 1 and 6: opening a page, which gives its plate number; the records
//! of one slot, judged in their order; writing to a slot and reading from one.

use crate::calls::{measured_d1, nearest, readable, write, Answer};
use crate::sheet::{admit, bare, placed, Parts, Refusal, Sheet};
use crate::word::Word;

/// "up to 256 of them": more records are refusal 13.
const MOST_RECORDS: usize = 256;

/// "One page holds up to 2,048 words": more slots are refusal 13.
const MOST_SLOTS: usize = 2_048;

/// Opening a page "measures with cap 8".
const OPENING_CAP: u32 = 8;

/// The largest plate number: "9 for "more than 8"".
const MORE_THAN_THE_CAP: u32 = OPENING_CAP + 1;

/// A record of a stuck cell: "each naming slot, cell and level".
#[derive(Clone, Copy, Debug, PartialEq, Eq)]
pub struct Record {
    pub slot: u32,
    pub cell: u32,
    pub level: u8,
}

/// Opens a page "by the sheet alone": its plate number is d1 as 1 to 8, or 9 where d1 is
/// more; refusals 1 to 6.
pub fn open(sheet: &Sheet) -> Result<Answer, Refusal> {
    let measured = measured_d1(&admit(sheet)?, OPENING_CAP)?;
    let number = measured.distance.unwrap_or(MORE_THAN_THE_CAP);
    Ok(Answer::Number(number))
}

/// What every call on a page begins with: refusals 1 to 6, and "straight after 6" refusal 16
/// for a number outside 1 to 9.
fn admit_page(sheet: &Sheet, number: u32) -> Result<Parts<'_>, Refusal> {
    let parts = admit(sheet)?;
    if !(1..=MORE_THAN_THE_CAP).contains(&number) {
        return Err(bare(16));
    }
    Ok(parts)
}

/// What every write to a page begins with, for a page of so many slots: refusals 1 to 6, 16
/// and, for records and slots, 13.
pub fn admit_writing<'a>(
    sheet: &'a Sheet,
    number: u32,
    slots: usize,
    records: &[Record],
) -> Result<Parts<'a>, Refusal> {
    let parts = admit_page(sheet, number)?;
    if records.len() > MOST_RECORDS || slots > MOST_SLOTS {
        return Err(bare(13));
    }
    Ok(parts)
}

/// Writes a message to a slot of the page around the stuck cells that the records name:
/// refusals 1 to 6, 16, 13, 14, 15, 7 and 9. Refused, it leaves the page as it was.
pub fn page_write(
    sheet: &Sheet,
    number: u32,
    page: &mut [Word],
    records: &[Record],
    slot: u32,
    message: Word,
) -> Result<Answer, Refusal> {
    let n = admit_writing(sheet, number, page.len(), records)?.n;
    let place = slot as usize;
    if place >= page.len() {
        return Err(bare(14));
    }
    let own = of_slot(records, slot);
    if let Some(first) = (0..own.len()).find(|i| breaks(n, &own[..*i], own[*i])) {
        return Err(placed(15, first as u32));
    }
    let (stuck, levels) = two_words(n, &own);
    let answer = write(sheet, message, stuck, levels)?;
    if let Answer::Word { word, .. } = answer {
        page[place] = word;
    }
    Ok(answer)
}

/// Reads a slot of the page: refusals 1 to 6, 16 for the number, 13 for slots, 14, 10, 11, 16
/// for a "radius doubled" that "is not below the number", and 12. It sees no records.
pub fn page_read(
    sheet: &Sheet,
    number: u32,
    page: &[Word],
    slot: u32,
    radius: u32,
) -> Result<Answer, Refusal> {
    let parts = admit_page(sheet, number)?;
    if page.len() > MOST_SLOTS {
        return Err(bare(13));
    }
    let y = *page.get(slot as usize).ok_or(bare(14))?;
    readable(&parts, y, radius)?;
    if 2 * radius >= number {
        return Err(bare(16));
    }
    nearest(&parts, y, radius)
}

/// This slot's records, in their order: "records for other slots are not judged".
fn of_slot(records: &[Record], slot: u32) -> Vec<Record> {
    let own = records.iter().filter(|record| record.slot == slot);
    own.copied().collect()
}

/// Refusal 15's rule: the record "names a cell at n or above, has a level other than 0
/// or 1, or disagrees with an earlier record for this slot and cell".
fn breaks(n: u32, earlier: &[Record], record: Record) -> bool {
    let disagrees = |other: &Record| other.cell == record.cell && other.level != record.level;
    record.cell >= n || record.level > 1 || earlier.iter().any(disagrees)
}

/// Which cells are stuck, and their levels, cell by cell: a cell is stuck if any record
/// names it, at the level that its first record gives.
fn two_words(n: u32, own: &[Record]) -> (Word, Word) {
    let level_of = |cell| own.iter().find(|record| record.cell == cell);
    let named = (0..n).filter_map(level_of);
    named.fold((0, 0), |(stuck, levels), record| {
        let worth = 1 << record.cell;
        (stuck + worth, levels + worth * Word::from(record.level))
    })
}

#[cfg(test)]
mod tests;
