//! The whole page of request 7: every slot is written by one call, and what a slot's write
//! tells is noted.

use crate::calls::Answer;
use crate::page::{admit_writing, page_write, Record};
use crate::sheet::{bare, Refusal, Sheet};
use crate::word::Word;

/// The note of a written slot.
const WRITTEN: Word = 0;

/// Writes a message to each slot of the page: "results equal the single writes made in slot
/// order", and so it makes them, one after the other on the same page. "Refusals that concern
/// the sheet or page stop it before any change to page or list": 1 to 6, 16, 13, and 25 for
/// messages or notes that do not "have one entry a slot".
pub fn whole_page_write(
    sheet: &Sheet,
    number: u32,
    page: &mut [Word],
    records: &[Record],
    messages: &[Word],
    notes: &mut [Word],
) -> Result<Answer, Refusal> {
    let slots = page.len();
    admit_writing(sheet, number, slots, records)?;
    if messages.len() != slots || notes.len() != slots {
        return Err(bare(25));
    }
    for (slot, message) in (0..).zip(messages) {
        let told = page_write(sheet, number, page, records, slot, *message);
        notes[slot as usize] = note_of(told);
    }
    Ok(Answer::Done)
}

/// "A written slot's note is 0, any other's its refusal number alone."
fn note_of(told: Result<Answer, Refusal>) -> Word {
    match told {
        Ok(_) => WRITTEN,
        Err(refusal) => Word::from(refusal.number),
    }
}

#[cfg(test)]
mod tests;
