//! Tests of the whole page: its refusals and their order, the notes, that nothing is changed
//! where it is refused, and that it agrees with other accounts of the single writes.

use super::*;
use crate::breaking::broken_sheet;
use crate::calls::write;
use crate::making::{attic, kitchen, random_sheet};
use crate::page::page_read;
use crate::random::Random;
use crate::sheet::{admit, placed};

/// A word that no slot of these tests gets by a write.
const OLD: Word = 1_000_000_000_000_000_003;

/// What the notes hold before a call; no slot gets it as its note.
const STALE: Word = 77;

/// A record for a slot.
fn record(slot: u32, cell: u32, level: u8) -> Record {
    Record { slot, cell, level }
}

/// What a call tells, and page and notes after it.
type After = (Result<Answer, Refusal>, Vec<Word>, Vec<Word>);

/// A whole-page write to so many old words and so many stale notes, with a number.
fn whole_with(
    sheet: &Sheet,
    number: u32,
    [slots, notes]: [usize; 2],
    records: &[Record],
    messages: &[Word],
) -> After {
    let (mut page, mut notes) = (vec![OLD; slots], vec![STALE; notes]);
    let told = whole_page_write(sheet, number, &mut page, records, messages, &mut notes);
    (told, page, notes)
}

/// The page and the notes after a whole-page write of these messages, which is not refused.
fn whole(sheet: &Sheet, records: &[Record], messages: &[Word]) -> (Vec<Word>, Vec<Word>) {
    let lengths = [messages.len(); 2];
    let (told, page, notes) = whole_with(sheet, 1, lengths, records, messages);
    assert_eq!(told, Ok(Answer::Done), "{sheet:?} {records:?}");
    (page, notes)
}

/// What is left where a call with so many slots and notes is refused.
fn refused(refusal: Refusal, [slots, notes]: [usize; 2]) -> After {
    (Err(refusal), vec![OLD; slots], vec![STALE; notes])
}

/// Slots that are refused, one for each reason, stand between slots that are written; what
/// they held stays, and their notes have the numbers alone.
#[test]
fn refused_between_written() {
    let records = [
        record(7, 0, 0),
        record(9, 1, 0),
        record(3, 6, 1),
        record(1, 7, 0),
        record(9, 0, 0),
        record(3, 6, 0),
        record(5, 0, 2),
        record(10, 0, 0),
    ];
    let (page, notes) = whole(&kitchen(), &records, &[5, 5, 5, 5, 5, 5, 8, 5, 7, 5, 5]);
    assert_eq!(notes, [0, 15, 0, 15, 0, 15, 7, 0, 0, 9, 0]);
    let wanted = [85, OLD, 85, OLD, 85, OLD, OLD, 42, 7, OLD, 42];
    assert_eq!(page, wanted);
}

/// In one slot 15 comes before 7, and 7 before 9.
#[test]
fn order_in_a_slot() {
    let both = |slot| [record(slot, 0, 0), record(slot, 1, 0)];
    let bad = [record(0, 0, 255), record(1, u32::MAX, 0)];
    let records = [&bad[..], &both(0), &both(1), &both(2), &both(3)].concat();
    let (page, notes) = whole(&kitchen(), &records, &[8, 5, 8, 5, 5]);
    assert_eq!(notes, [15, 15, 7, 9, 0]);
    assert_eq!(page, [OLD, OLD, OLD, OLD, 85]);
}

/// Of two words that fit, a slot gets the one with the smaller d; records of one slot do not
/// go over to the next.
#[test]
fn smallest_d_in_each_slot() {
    let records = [
        record(0, 0, 0),
        record(1, 0, 0),
        record(1, 1, 0),
        record(3, 0, 0),
        record(3, 1, 0),
        record(3, 2, 0),
        record(4, 2, 0),
    ];
    let (page, notes) = whole(&attic(), &records, &[1, 1, 1, 1, 1]);
    assert_eq!(notes, [0, 0, 0, 9, 0]);
    assert_eq!(page, [2, 4, 1, OLD, 1]);
}

/// An empty page is done with nothing; its records are counted, and its messages and notes
/// are held to its length.
#[test]
fn empty_page() {
    let sheet = kitchen();
    let bad = vec![record(0, 9, 9); 257];
    let done = (Ok(Answer::Done), vec![], vec![]);
    assert_eq!(whole_with(&sheet, 1, [0, 0], &[], &[]), done);
    assert_eq!(whole_with(&sheet, 9, [0, 0], &bad[1..], &[]), done);
    for (number, notes, records, messages, wanted) in [
        (1, 0, &bad[..], &[][..], 13),
        (1, 0, &[], &[5], 25),
        (1, 1, &[], &[], 25),
        (1, 1, &[], &[5], 25),
        (0, 1, &bad, &[5], 16),
    ] {
        let after = whole_with(&sheet, number, [0, notes], records, messages);
        assert_eq!(after, refused(bare(wanted), [0, notes]));
    }
}

/// 2,048 slots and 256 records are taken; one more of either is refusal 13, though the
/// records be equal or of no slot.
#[test]
fn most_slots_and_records() {
    let sheet = kitchen();
    for one in [record(2_047, 0, 0), record(2_048, 9, 9)] {
        for (slots, count) in [(2_048, 256), (2_048, 257), (2_049, 256), (1, 257)] {
            let (records, messages) = (vec![one; count], vec![5; slots]);
            let after = whole_with(&sheet, 3, [slots; 2], &records, &messages);
            if slots > 2_048 || count > 256 {
                assert_eq!(after, refused(bare(13), [slots; 2]));
                continue;
            }
            let mut page = vec![85; slots];
            page[2_047] = if one.slot == 2_047 { 42 } else { 85 };
            assert_eq!(after, (Ok(Answer::Done), page, vec![0; slots]));
        }
    }
}

/// The order of refusals, with every choice of what is wrong: sheet, number, slots or records,
/// and lengths. Refused, it leaves page and notes as they were.
#[test]
fn order_of_refusals() {
    let mut broken = kitchen();
    broken.rows[3] = 126;
    let lengths = |slots: usize| [slots, slots - 1, slots + 1, 0, slots + 256];
    for (is_broken, sheet) in [(false, kitchen()), (true, broken)] {
        for number in [0, 1, 9, 10, 259, u32::MAX] {
            for (slots, count) in [(1, 0), (3, 256), (3, 257), (2_049, 0), (2_049, 257)] {
                let records = vec![record(9, 9, 9); count];
                for (messages, notes) in lengths(slots)
                    .iter()
                    .flat_map(|one| lengths(slots).map(|other| (*one, other)))
                {
                    let reasons = [
                        (is_broken, placed(3, 3)),
                        (number == 0 || number > 9, bare(16)),
                        (slots > 2_048 || count > 256, bare(13)),
                        (messages != slots || notes != slots, bare(25)),
                    ];
                    let wanted = match reasons.iter().find(|(holds, _)| *holds) {
                        Some((_, refusal)) => refused(*refusal, [slots, notes]),
                        None => (Ok(Answer::Done), vec![85; slots], vec![0; slots]),
                    };
                    let told = vec![5; messages];
                    let after = whole_with(&sheet, number, [slots, notes], &records, &told);
                    assert_eq!(after, wanted, "{number} {slots} {count} {messages} {notes}");
                }
            }
        }
    }
}

/// It is refused with a sheet's own refusal, whatever else is wrong.
#[test]
fn refused_sheets() {
    let mut random = Random::new(131);
    let mut times = [0; 7];
    let bad = vec![record(0, 99, 9); 257];
    for _ in 0..2000 {
        let sheet = broken_sheet(&mut random);
        let Err(refusal) = admit(&sheet) else {
            continue;
        };
        for number in [0, 1, 10] {
            for (records, messages) in [(&bad[..], 1), (&[], 2), (&bad[..1], 0)] {
                let messages = vec![Word::MAX; messages];
                let after = whole_with(&sheet, number, [2, 1], records, &messages);
                assert_eq!(after, refused(refusal, [2, 1]));
            }
        }
        times[refusal.number as usize] += 1;
    }
    assert!(times[1..].iter().all(|count| *count > 10), "{times:?}");
}

/// Random messages for so many slots, and records for these and the next two, most of them
/// good ones.
fn random_page(random: &mut Random, sheet: &Sheet, slots: u32) -> (Vec<Word>, Vec<Record>) {
    let beyond = u32::from(sheet.k < 64 && random.once_in(3));
    let messages = (0..slots).map(|_| random.word(sheet.k + beyond)).collect();
    let levels = random.word(sheet.n);
    let one = |random: &mut Random| {
        let last = sheet.n - u32::from(!random.once_in(60));
        let cell = random.between(0, last);
        let level = match random.below(30) {
            0 => random.below(256) as u8,
            _ => (levels.checked_shr(cell).unwrap_or(0) & 1) as u8,
        };
        record(random.between(0, slots + 1), cell, level)
    };
    let records = (0..random.below(40)).map(|_| one(random)).collect();
    (messages, records)
}

/// Which cells of a slot are stuck and their levels, or none where one of its records breaks
/// the rule.
type Gathered = Option<(Word, Word)>;

/// All slots' stuck cells and levels by one walk over the records, in place of one walk for
/// each slot.
fn gathered(n: u32, slots: usize, records: &[Record]) -> Vec<Gathered> {
    let mut of_slots = vec![Some((0, 0)); slots];
    for record in records.iter().filter(|one| (one.slot as usize) < slots) {
        let slot = &mut of_slots[record.slot as usize];
        *slot = slot.and_then(|(stuck, levels)| taken_in(n, stuck, levels, *record));
    }
    of_slots
}

/// Stuck cells and levels with one more record taken in, if that keeps the rule.
fn taken_in(n: u32, stuck: Word, levels: Word, record: Record) -> Gathered {
    if record.cell >= n || record.level > 1 {
        return None;
    }
    let (cell, level) = (1 << record.cell, Word::from(record.level) << record.cell);
    let agrees = stuck & cell == 0 || levels & cell == level;
    agrees.then_some((stuck | cell, levels | level))
}

/// The page and the notes agree with another account: all records gathered by one walk, and
/// then the call of document 01 for each slot, the last slot first.
#[test]
fn agrees_with_one_walk() {
    let mut random = Random::new(132);
    let mut times = [0; 16];
    for _ in 0..2000 {
        let sheet = random_sheet(&mut random);
        let slots = random.between(0, 7);
        let (messages, records) = random_page(&mut random, &sheet, slots);
        let of_slots = gathered(sheet.n, slots as usize, &records);
        let (mut page, mut notes) = (vec![OLD; of_slots.len()], vec![15; of_slots.len()]);
        for (slot, own) in of_slots.iter().enumerate().rev() {
            let Some((stuck, levels)) = own else {
                continue;
            };
            match write(&sheet, messages[slot], *stuck, *levels) {
                Ok(Answer::Word { word, .. }) => (page[slot], notes[slot]) = (word, 0),
                Ok(other) => panic!("{other:?}"),
                Err(refusal) => notes[slot] = refusal.number.into(),
            }
        }
        notes.iter().for_each(|note| times[*note as usize] += 1);
        assert_eq!(whole(&sheet, &records, &messages), (page, notes));
    }
    assert_eq!(
        times.iter().sum::<u32>(),
        times[0] + times[7] + times[9] + times[15]
    );
    for note in [0, 7, 9, 15] {
        assert!(times[note] > 300, "{times:?}");
    }
}

/// Each slot gets what it gets on a page of its own, with its own records alone.
#[test]
fn agrees_with_pages_of_one_slot() {
    let mut random = Random::new(133);
    for _ in 0..500 {
        let sheet = random_sheet(&mut random);
        let slots = random.between(1, 9);
        let (messages, records) = random_page(&mut random, &sheet, slots);
        let (page, notes) = whole(&sheet, &records, &messages);
        for (slot, message) in (0..slots).zip(messages) {
            let mut own = records.clone();
            own.retain(|one| one.slot == slot);
            own.iter_mut().for_each(|one| one.slot = 0);
            let place = slot as usize;
            let alone = whole(&sheet, &own, &[message]);
            assert_eq!(alone, (vec![page[place]], vec![notes[place]]));
        }
    }
}

/// A slot has note 0 exactly if its word is another than before, and is then read back at
/// radius 0; the number changes nothing; and the same call once more leaves all as it is.
#[test]
fn written_slots_read_back() {
    let mut random = Random::new(134);
    for _ in 0..500 {
        let sheet = random_sheet(&mut random);
        let slots = random.between(1, 9);
        let (messages, records) = random_page(&mut random, &sheet, slots);
        let (mut page, mut notes) = whole(&sheet, &records, &messages);
        for slot in 0..slots {
            let place = slot as usize;
            assert_eq!(page[place] != OLD, notes[place] == 0);
            if notes[place] == 0 {
                let (message, z, tried) = (messages[place], 0, 1);
                let wanted = Ok(Answer::Message { message, z, tried });
                assert_eq!(page_read(&sheet, 1, &page, slot, 0), wanted);
            }
        }
        let before = (page.clone(), notes.clone());
        let number = random.between(1, 9);
        let told = whole_page_write(&sheet, number, &mut page, &records, &messages, &mut notes);
        assert_eq!((told, (page, notes)), (Ok(Answer::Done), before));
    }
}
