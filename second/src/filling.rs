//! Calls at random that write a whole page, as lines of the protocol: good ones, and ones
//! with odd plate numbers, pages, records, messages and rooms for the notes.

use crate::asking::{cells, good_write, line_text, list, odd_message, some_word};
use crate::lines::MOST_OF_A_ROOM;
use crate::making::some_sheet;
use crate::paging::{bad_record, held_word, own_records, put_in, some_number, Triple, LONG_EVERY};
use crate::random::Random;
use crate::sheet::Sheet;
use crate::word::Word;

/// The slots of a page have at most so many records together; some more of others fit in.
const MOST_OWN: usize = 248;

/// What a whole-page write is handed after its sheet; of the room for the notes its size and
/// its fill.
pub struct Whole {
    pub number: Word,
    pub page: Vec<Word>,
    pub records: Vec<Triple>,
    pub messages: Vec<Word>,
    pub notes: [Word; 2],
}

/// `wpage` as a line: the sheet, the plate number, the page, the records, the messages and the
/// room for the notes.
pub fn whole_text(sheet: &Sheet, whole: &Whole) -> String {
    let count = vec![whole.records.len() as Word];
    let arguments = [
        vec![whole.number],
        list(&whole.page),
        count,
        whole.records.concat(),
        list(&whole.messages),
        whole.notes.to_vec(),
    ];
    line_text("wpage", sheet, &arguments.concat())
}

/// A whole-page write on an admitted sheet with arguments as they should be.
pub fn good_whole_call(random: &mut Random) -> String {
    let sheet = some_sheet(random);
    whole_call(random, &sheet, false)
}

/// A whole-page write on this sheet, its arguments good or odd ones.
pub fn whole_call(random: &mut Random, sheet: &Sheet, odd: bool) -> String {
    let slots = some_slots(random, odd);
    let page = (0..slots).map(|_| held_word(random, sheet)).collect();
    let (messages, own) = filled_slots(random, sheet, slots, odd);
    let mut whole = Whole {
        number: some_number(random, 1, odd),
        page,
        records: with_others(random, own, slots, odd),
        messages,
        notes: [Word::from(slots), some_word(random)],
    };
    if odd && random.once_in(4) {
        break_lengths(random, &mut whole);
    }
    whole_text(sheet, &whole)
}

/// The number of a page's slots: mostly few; of the odd pages some have none, or more than
/// 2,048.
fn some_slots(random: &mut Random, odd: bool) -> u32 {
    match random.below(LONG_EVERY) {
        0 if odd => random.one_of(&[2_047, 2_048, 2_049, 2_049, 2_050, 2_304]),
        0 => random.one_of(&[2_047, 2_048]),
        1..=10 => random.between(17, 80),
        11..=80 => random.between(5, 16),
        81..=90 if odd => 0,
        _ => random.between(1, 4),
    }
}

/// A message for each of so many slots, and records for some slots or, where there are few,
/// for all; those that would be too many together are left out.
fn filled_slots(
    random: &mut Random,
    sheet: &Sheet,
    slots: u32,
    odd: bool,
) -> (Vec<Word>, Vec<Triple>) {
    let with_records = random.one_of(&[12, 12, 120]);
    let (mut messages, mut records) = (Vec::new(), Vec::new());
    for slot in 0..slots {
        let (message, own) = filled_slot(random, sheet, slot, odd);
        messages.push(message);
        let taken = random.below(u64::from(slots)) < with_records;
        if taken && records.len() + own.len() <= MOST_OWN {
            for record in own {
                put_in(random, &mut records, record);
            }
        }
    }
    (messages, records)
}

/// A message for a slot and records of its own; an odd one may have a message around 2^k, or
/// records that break the rule.
fn filled_slot(random: &mut Random, sheet: &Sheet, slot: u32, odd: bool) -> (Word, Vec<Triple>) {
    let [good, stuck, levels] = good_write(random, sheet)[..] else {
        unreachable!("a message and two words");
    };
    let message = match odd && random.once_in(6) {
        true => odd_message(random, sheet),
        false => good,
    };
    let mut own = own_records(random, slot, stuck, levels);
    if odd && random.once_in(4) {
        for _ in 0..random.between(1, 2) {
            let bad = bad_record(random, cells(sheet), slot, &own);
            put_in(random, &mut own, bad);
        }
    }
    (message, own)
}

/// The slots' records among some for slots that the page does not have. Now and then the list
/// is filled up to 256 records, an odd one also past them; for that some are repeated.
fn with_others(random: &mut Random, own: Vec<Triple>, slots: u32, odd: bool) -> Vec<Triple> {
    let mut records = own.clone();
    for _ in 0..random.one_of(&[0, 0, 1, 2, 8]) {
        let outside = outside_record(random, slots);
        put_in(random, &mut records, outside);
    }
    let count = match random.below(LONG_EVERY) {
        0 if odd => random.one_of(&[255, 256, 257, 257, 258, 512]),
        0 => random.one_of(&[255, 256]),
        _ => 0,
    };
    while records.len() < count {
        let repeated = !own.is_empty() && random.once_in(2);
        let record = match repeated {
            true => random.one_of(&own),
            false => outside_record(random, slots),
        };
        put_in(random, &mut records, record);
    }
    records
}

/// A record, good or bad, for a slot that a page of so many does not have: the next one, one
/// of the page but for a high bit, or any other.
fn outside_record(random: &mut Random, slots: u32) -> Triple {
    let any = random.number().max(slots);
    let inside = random.between(0, slots.saturating_sub(1));
    let high = inside + random.one_of(&[1 << 16, 1 << 31]);
    let slot = random.one_of(&[slots, slots, slots + 1, high, u32::MAX, any]);
    match random.once_in(2) {
        true => [Word::from(slot), random.word(32), random.word(8)],
        false => [Word::from(slot), random.below(67), random.below(3)],
    }
}

/// Refusal 25 mostly: messages, notes or both with another length than the page, both with
/// the same every second time.
fn break_lengths(random: &mut Random, whole: &mut Whole) {
    let slots = whole.page.len() as u32;
    let (one, other) = (other_length(random, slots), other_length(random, slots));
    let (messages, notes) = match random.below(6) {
        0 | 1 => (one, slots),
        2 | 3 => (slots, one),
        4 => (one, other),
        _ => (one, one),
    };
    whole.messages.resize(messages as usize, 0);
    whole.notes[0] = Word::from(notes);
}

/// A length near so many slots, the same but for a high bit, the double, or another; a room may
/// have it.
fn other_length(random: &mut Random, slots: u32) -> u32 {
    let (less, more) = (slots.saturating_sub(1), slots + 1);
    let any = random.between(0, 90);
    let double = (2 * slots).min(MOST_OF_A_ROOM);
    random.one_of(&[less, less, more, more, slots + 256, double, 0, any])
}

#[cfg(test)]
mod tests;
