//! Page calls at random, as lines of the protocol: good ones, and ones with odd plate
//! numbers, pages, records, slots and other arguments.

use crate::asking::{
    cells, good_message, good_read, good_write, high_bits, line_text, list, odd_message,
    odd_radius, some_word, word_of,
};
use crate::making::some_sheet;
use crate::random::Random;
use crate::sheet::Sheet;
use crate::word::Word;

/// One page in so many, and one list of records, is about as long as may be.
pub const LONG_EVERY: u64 = 250;

/// A record as its three numbers: slot, cell and level.
pub type Triple = [Word; 3];

/// A page write on an admitted sheet with arguments as they should be.
pub fn good_page_write(random: &mut Random) -> String {
    let sheet = some_sheet(random);
    page_write_call(random, &sheet, false)
}

/// A page call on an admitted sheet with arguments as they should be.
pub fn good_page_call(random: &mut Random) -> String {
    let sheet = some_sheet(random);
    page_call(random, &sheet, false)
}

/// A page call on this sheet, its arguments good or odd ones.
pub fn page_call(random: &mut Random, sheet: &Sheet, odd: bool) -> String {
    if random.once_in(3) {
        page_read_call(random, sheet, odd)
    } else {
        page_write_call(random, sheet, odd)
    }
}

/// `pread` as a line: the plate number, the page, slot and radius.
fn page_read_call(random: &mut Random, sheet: &Sheet, odd: bool) -> String {
    let mut page = some_page(random, sheet, odd);
    let slot = some_slot(random, page.len() as u32, odd);
    let [y, good_radius] = good_read(random, sheet)[..] else {
        unreachable!("a word and a radius");
    };
    if let Some(word) = page.get_mut(slot as usize) {
        let stray = odd && random.once_in(4);
        *word = y | if stray {
            high_bits(random, cells(sheet))
        } else {
            0
        };
    }
    let radius = match odd && random.once_in(3) {
        true => odd_radius(random, cells(sheet)),
        false => good_radius,
    };
    let number = vec![number_of_read(random, radius, odd)];
    let arguments = [number, list(&page), vec![Word::from(slot), radius]];
    line_text("pread", sheet, &arguments.concat())
}

/// `pwrite` as a line: the plate number, the page, the records, slot and message.
fn page_write_call(random: &mut Random, sheet: &Sheet, odd: bool) -> String {
    let page = some_page(random, sheet, odd);
    let slot = some_slot(random, page.len() as u32, odd);
    let [good, stuck, levels] = good_write(random, sheet)[..] else {
        unreachable!("a message and two words");
    };
    let message = match odd && random.once_in(4) {
        true => odd_message(random, sheet),
        false => good,
    };
    let mut own = own_records(random, slot, stuck, levels);
    if odd && random.once_in(2) {
        for _ in 0..random.between(1, 3) {
            let bad = bad_record(random, cells(sheet), slot, &own);
            put_in(random, &mut own, bad);
        }
    }
    let records = with_others(random, own, slot, odd);
    let number = vec![some_number(random, 1, odd)];
    let count = vec![records.len() as Word];
    let ends = vec![Word::from(slot), message];
    let arguments = [number, list(&page), count, records.concat(), ends];
    line_text("pwrite", sheet, &arguments.concat())
}

/// The plate number of a read: one that permits the radius, as far as one of 1 to 9 does; of
/// the odd ones every second is the doubled radius, one less or one more.
fn number_of_read(random: &mut Random, radius: Word, odd: bool) -> Word {
    let doubled = 2 * radius.min(4) as u32;
    if odd && random.once_in(2) {
        let about = doubled + random.between(0, 2);
        return Word::from(about.saturating_sub(1));
    }
    some_number(random, doubled + 1, odd)
}

/// A plate number from the least up to 9; of the odd ones some are outside 1 to 9.
pub fn some_number(random: &mut Random, least: u32, odd: bool) -> Word {
    let number = match odd && random.once_in(8) {
        true => outside_number(random),
        false => random.between(least, 9),
    };
    Word::from(number)
}

/// A number outside 1 to 9: next to them, one of them but for a high bit, the largest of 32
/// bits, or any at all.
fn outside_number(random: &mut Random) -> u32 {
    let (inside, any) = (random.between(1, 9), random.number());
    let high = inside + random.one_of(&[16, 256, 65_536, 1 << 31]);
    random.one_of(&[0, 0, 10, 10, 11, high, high, u32::MAX, any])
}

/// A page: mostly few slots; of the odd ones some have none, or more than 2,048.
fn some_page(random: &mut Random, sheet: &Sheet, odd: bool) -> Vec<Word> {
    let slots = match random.below(LONG_EVERY) {
        0 if odd => random.one_of(&[2_047, 2_048, 2_049, 2_049, 2_050, 2_304, 4_096]),
        0 => random.one_of(&[2_047, 2_048]),
        1..=20 => random.between(17, 80),
        21..=80 => random.between(5, 16),
        81..=90 if odd => 0,
        _ => random.between(1, 4),
    };
    (0..slots).map(|_| held_word(random, sheet)).collect()
}

/// What a slot holds: mostly a word of a message, disturbed in some cells.
pub fn held_word(random: &mut Random, sheet: &Sheet) -> Word {
    match random.below(10) {
        0 | 1 => some_word(random),
        2 => random.word(cells(sheet)),
        _ => {
            let message = good_message(random, sheet);
            let errors = random.between(0, 4);
            word_of(random, sheet, message) ^ random.light_word(cells(sheet), errors)
        }
    }
}

/// A slot of a page with so many; an odd one may be at the length or past it.
fn some_slot(random: &mut Random, slots: u32, odd: bool) -> u32 {
    let inside = match random.below(4) {
        0 => 0,
        1 => slots.saturating_sub(1),
        _ => random.between(0, slots.saturating_sub(1)),
    };
    if !odd || !random.once_in(4) {
        return inside;
    }
    let any = random.number();
    let high = inside + random.one_of(&[256, 2_048, 65_536, 1 << 31]);
    random.one_of(&[slots, slots, slots + 1, high, 2_047, 2_048, u32::MAX, any])
}

/// The records of one slot for these stuck cells and levels, in any order, some of them
/// more than once.
pub fn own_records(random: &mut Random, slot: u32, stuck: Word, levels: Word) -> Vec<Triple> {
    let mut records = Vec::new();
    for cell in (0..64).filter(|cell| stuck >> cell & 1 == 1) {
        let record = [Word::from(slot), cell, levels >> cell & 1];
        put_in(random, &mut records, record);
        if random.once_in(8) {
            put_in(random, &mut records, record);
        }
    }
    records
}

/// Puts a record at any place of a list.
pub fn put_in(random: &mut Random, records: &mut Vec<Triple>, record: Triple) {
    let at = random.below(records.len() as u64 + 1) as usize;
    records.insert(at, record);
}

/// Refusal 15 mostly: a record for this slot with a cell at n or above, with a level
/// other than 0 or 1, or one that disagrees with another.
pub fn bad_record(random: &mut Random, n: u32, slot: u32, own: &[Triple]) -> Triple {
    let slot = Word::from(slot);
    let cell = Word::from(random.between(0, n - 1));
    let level = random.word(1);
    let wide = random.between(n, 72);
    let huge = random.one_of(&[wide, wide, 1 << 31, u32::MAX]);
    match random.below(8) {
        0 => [slot, Word::from(n), level],
        1 => [slot, Word::from(huge), level],
        2 => [
            slot,
            cell + random.one_of(&[32, 64, 64, 256, 1 << 16]),
            level,
        ],
        3 => [slot, cell, random.one_of(&[2, 2, 3, 128, 254, 255])],
        4 => [slot, random.word(32), random.word(8)],
        _ if own.is_empty() => [slot, cell, 2],
        _ => {
            let [_, cell, level] = random.one_of(own);
            [slot, cell, level ^ 1]
        }
    }
}

/// A record for another slot, which may be a bad one, or contradict a record of this
/// slot, or name a slot that is this one but for high bits.
fn other_record(random: &mut Random, slot: u32, own: &[Triple]) -> Triple {
    let any = random.number();
    let near = slot ^ 1 << random.between(0, 31);
    let other = random.one_of(&[slot ^ 1, slot ^ 1, near, near, u32::MAX, any]);
    let other = Word::from(if other == slot { slot ^ 1 } else { other });
    match random.below(4) {
        0 => [other, random.word(32), random.word(8)],
        1 | 2 if !own.is_empty() => {
            let [_, cell, level] = random.one_of(own);
            [other, cell, level ^ 1]
        }
        _ => [other, random.below(67), random.below(3)],
    }
}

/// A slot's records among those of others, all in any order but the slot's own in theirs.
/// Now and then the list is filled up to 256 records, an odd one also past them.
fn with_others(random: &mut Random, own: Vec<Triple>, slot: u32, odd: bool) -> Vec<Triple> {
    let mut records = own.clone();
    for _ in 0..random.one_of(&[0, 0, 1, 2, 3, 8]) {
        let other = other_record(random, slot, &own);
        put_in(random, &mut records, other);
    }
    let count = match random.below(LONG_EVERY) {
        0 if odd => random.one_of(&[255, 256, 257, 257, 258, 512]),
        0 => random.one_of(&[255, 256]),
        _ => 0,
    };
    while records.len() < count {
        let record = match own.last() {
            Some(last) if random.once_in(3) => *last,
            _ => other_record(random, slot, &own),
        };
        records.push(record);
    }
    records
}

#[cfg(test)]
mod tests;
