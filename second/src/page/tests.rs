//! Tests of the page: its limits, its refusals and their order, and what other slots and
//! their records may not change. Those of the plate number are in `numbers`.

use super::*;
use crate::making::{attic, kitchen, random_sheet};
use crate::random::Random;
use crate::word::all_ones;

mod numbers;

/// A word that no slot of these tests gets by a write.
const OLD: Word = 1_000_000_000_000_000_003;

/// A record for a slot.
fn record(slot: u32, cell: u32, level: u8) -> Record {
    Record { slot, cell, level }
}

/// What a page write to so many old words answers, with a number that is good for any
/// sheet; checks that a refused call changes
/// nothing and that a good one changes its slot alone, to the word answered.
fn written(sheet: &Sheet, slots: usize, records: &[Record], slot: u32, message: Word) -> Told {
    let mut page = vec![OLD; slots];
    let result = page_write(sheet, 9, &mut page, records, slot, message);
    let mut wanted = vec![OLD; slots];
    if let Ok(Answer::Word { word, .. }) = result {
        wanted[slot as usize] = word;
    }
    assert_eq!(page, wanted);
    result
}

/// What a call tells.
type Told = Result<Answer, Refusal>;

/// The answer with this word and d.
fn word(word: Word, d: Word) -> Told {
    Ok(Answer::Word { word, d })
}

/// 256 records and 2,048 slots are taken, one more of either is refusal 13, though the
/// records be of other slots or equal; it comes before 14, and after refusals 1 to 6.
#[test]
fn most_records_and_slots() {
    let sheet = kitchen();
    for (count, slots, wanted) in [
        (256, 2_048, word(42, 1)),
        (257, 2_048, Err(bare(13))),
        (256, 2_049, Err(bare(13))),
        (257, 0, Err(bare(13))),
    ] {
        let own = vec![record(3, 0, 0); count];
        assert_eq!(written(&sheet, slots, &own, 3, 5), wanted);
        let others = vec![record(2, 0, 0); count];
        let wanted = wanted.and(word(85, 0));
        assert_eq!(written(&sheet, slots, &others, 3, 5), wanted);
    }
    let records = vec![record(0, 9, 9); 257];
    assert_eq!(written(&sheet, 1, &records, 1, 8), Err(bare(13)));
    let mut broken = sheet;
    broken.rows[3] = 126;
    assert_eq!(written(&broken, 1, &records, 1, 8), Err(placed(3, 3)));
}

/// A read takes 2,048 slots and gives refusal 13 at one more, before 14.
#[test]
fn most_slots_of_a_read() {
    let read_of = |slots: usize, slot| page_read(&kitchen(), 9, &vec![85; slots], slot, 1);
    let (message, z, tried) = (5, 0, 1);
    let answer = Ok(Answer::Message { message, z, tried });
    assert_eq!(read_of(2_048, 0), answer);
    assert_eq!(read_of(2_048, 2_047), answer);
    assert_eq!(read_of(2_048, 2_048), Err(bare(14)));
    assert_eq!(read_of(2_049, 0), Err(bare(13)));
    assert_eq!(read_of(2_049, 2_049), Err(bare(13)));
}

/// An empty page has no slot; a slot at the length is none, nor is any larger number.
#[test]
fn no_such_slot() {
    for (slots, slot) in [(0, 0), (1, 1), (3, 3), (3, 259), (3, 65_536), (3, u32::MAX)] {
        let bad = [record(slot, 9, 9)];
        assert_eq!(written(&kitchen(), slots, &bad, slot, 8), Err(bare(14)));
        let page = vec![Word::MAX; slots];
        assert_eq!(page_read(&kitchen(), 9, &page, slot, 9), Err(bare(14)));
    }
    assert_eq!(written(&kitchen(), 3, &[], 2, 5), word(85, 0));
}

/// Equal records count once and keep their places; the later of two that disagree is the
/// one named; cell n and level 2 break the rule, cell n - 1 and level 1 do not.
#[test]
fn records_judged_in_order() {
    let of_0 = |pairs: &[(u32, u8)]| {
        let records: Vec<Record> = pairs.iter().map(|(c, l)| record(0, *c, *l)).collect();
        written(&kitchen(), 2, &records, 0, 5)
    };
    assert_eq!(of_0(&[(0, 0)]), word(42, 1));
    assert_eq!(of_0(&[(0, 0), (0, 0), (0, 0)]), word(42, 1));
    assert_eq!(of_0(&[(0, 1), (0, 1), (9, 0)]), Err(placed(15, 2)));
    assert_eq!(of_0(&[(0, 1), (0, 0)]), Err(placed(15, 1)));
    assert_eq!(of_0(&[(0, 1), (1, 0), (0, 1), (0, 0)]), Err(placed(15, 3)));
    assert_eq!(of_0(&[(6, 1)]), word(85, 0));
    assert_eq!(of_0(&[(7, 0)]), Err(placed(15, 0)));
    assert_eq!(of_0(&[(0, 1), (u32::MAX, 0)]), Err(placed(15, 1)));
    assert_eq!(of_0(&[(32, 0)]), Err(placed(15, 0)));
    assert_eq!(of_0(&[(64, 0)]), Err(placed(15, 0)));
    assert_eq!(of_0(&[(0, 2)]), Err(placed(15, 0)));
    assert_eq!(of_0(&[(0, 255)]), Err(placed(15, 0)));
    assert_eq!(of_0(&[(0, 2), (0, 1)]), Err(placed(15, 0)));
}

/// A bad record of another slot does no harm and has no place, be its number equal to
/// this slot's but for high bits.
#[test]
fn records_of_other_slots() {
    for other in [1, 256, 2_048, 65_536, u32::MAX] {
        let records = [
            record(other, 0, 1),
            record(0, 0, 0),
            record(other, u32::MAX, 255),
            record(0, 0, 0),
            record(0, 7, 0),
        ];
        assert_eq!(written(&kitchen(), 2, &records[..4], 0, 5), word(42, 1));
        assert_eq!(written(&kitchen(), 2, &records, 0, 5), Err(placed(15, 2)));
    }
}

/// 15 comes before 7, and 7 before 9.
#[test]
fn order_of_a_write() {
    let sheet = kitchen();
    let (both, bad) = ([record(0, 0, 0), record(0, 1, 0)], [record(0, 7, 0)]);
    assert_eq!(written(&sheet, 1, &bad, 0, 8), Err(placed(15, 0)));
    assert_eq!(written(&sheet, 1, &both, 0, 8), Err(bare(7)));
    assert_eq!(written(&sheet, 1, &both, 0, 5), Err(bare(9)));
}

/// A read gives 14, 10, 11 and 12, in this order.
#[test]
fn order_of_a_read() {
    let read_of = |slot, radius| page_read(&kitchen(), 9, &[128 + 21, 21], slot, radius);
    assert_eq!(read_of(2, 9), Err(bare(14)));
    assert_eq!(read_of(0, 9), Err(placed(10, 7)));
    assert_eq!(read_of(1, 9), Err(bare(11)));
    assert_eq!(read_of(1, 0), Err(placed(12, 1)));
    let (message, z, tried) = (5, 64, 8);
    assert_eq!(read_of(1, 1), Ok(Answer::Message { message, z, tried }));
}

/// Of two words that fit, the attic sheet's slot gets the one with the smaller d; all 3
/// cells may be stuck, and at 32 and 64 cells all of them.
#[test]
fn smallest_d_in_a_slot() {
    let records: Vec<Record> = (0..3).map(|cell| record(0, cell, 0)).collect();
    assert_eq!(written(&attic(), 1, &records[..1], 0, 1), word(2, 1));
    assert_eq!(written(&attic(), 1, &records[..2], 0, 1), word(4, 2));
    assert_eq!(written(&attic(), 1, &records, 0, 1), Err(bare(9)));
    for n in [32, 63, 64] {
        let units: Vec<Word> = (0..n).map(|cell| 1 << cell).collect();
        let rows = [units.clone(), units].concat();
        let (k, l) = (n, 0);
        let widest = Sheet { n, k, l, rows };
        let most = all_ones(n);
        let mut ones: Vec<Record> = (0..n).map(|cell| record(7, cell, 1)).collect();
        assert_eq!(written(&widest, 8, &ones, 7, most), word(most, 0));
        assert_eq!(written(&widest, 8, &ones, 7, most - 1), Err(bare(9)));
        ones.push(record(7, n, 1));
        assert_eq!(written(&widest, 8, &ones, 7, most), Err(placed(15, n)));
    }
}

/// Another account of a slot's records: one walk over all of them that gathers the two
/// words and stops at the first record that breaks the rule.
fn gathered(n: u32, records: &[Record], slot: u32) -> Result<(Word, Word), u32> {
    let (mut stuck, mut levels, mut place): (Word, Word, u32) = (0, 0, 0);
    for record in records.iter().filter(|record| record.slot == slot) {
        if record.cell >= n || record.level > 1 {
            return Err(place);
        }
        let (known, level) = (stuck >> record.cell & 1, levels >> record.cell & 1);
        if known == 1 && level != Word::from(record.level) {
            return Err(place);
        }
        stuck |= 1 << record.cell;
        levels |= Word::from(record.level) << record.cell;
        place += 1;
    }
    Ok((stuck, levels))
}

/// Random records for few slots and few cells, most of them good ones.
fn random_records(random: &mut Random, n: u32, most: u64) -> Vec<Record> {
    let cells = random.between(1, n);
    let word = random.word(n);
    let one = |random: &mut Random| {
        let last = cells - u32::from(!random.once_in(40));
        let cell = random.between(0, last);
        let level = match random.below(30) {
            0 => random.below(256) as u8,
            1 => random.below(2) as u8,
            _ => (word.checked_shr(cell).unwrap_or(0) & 1) as u8,
        };
        record(random.between(0, 2), cell, level)
    };
    (0..random.below(most)).map(|_| one(random)).collect()
}

/// Judging by the rule and the cells taken one at a time agree with the walk; and a page
/// write answers as the call on two words does.
#[test]
fn judging_agrees_with_one_walk() {
    let mut random = Random::new(51);
    let (mut good, mut bad) = (0, 0);
    for _ in 0..4000 {
        let sheet = random_sheet(&mut random);
        let records = random_records(&mut random, sheet.n, 20);
        let message = random.word(sheet.k);
        let wanted = match gathered(sheet.n, &records, 1) {
            Ok((stuck, levels)) => write(&sheet, message, stuck, levels),
            Err(place) => Err(placed(15, place)),
        };
        let told = written(&sheet, 3, &records, 1, message);
        assert_eq!(told, wanted, "{sheet:?} {records:?}");
        good += u32::from(told.is_ok());
        bad += u32::from(told.is_err_and(|refusal| refusal.number == 15));
    }
    assert!(good > 1000 && bad > 300, "{good} {bad}");
}

/// "What other slots hold and the records for them never change my answer."
#[test]
fn other_slots_do_not_matter() {
    let mut random = Random::new(52);
    for _ in 0..2000 {
        let sheet = random_sheet(&mut random);
        let records = random_records(&mut random, sheet.n, 12);
        let (message, radius) = (random.word(sheet.k), random.between(0, 2));
        let mut others = records.clone();
        for one in others.iter_mut().filter(|one| one.slot != 1) {
            *one = record(random.one_of(&[0, 2, 257, u32::MAX]), random.number(), 255);
        }
        let y = random.word(sheet.n);
        let mut pages = [[0, y, 0], [random.word(64), y, random.word(64)]];
        let reads = pages.map(|page| page_read(&sheet, 9, &page, 1, radius));
        assert_eq!(reads[0], reads[1]);
        let [first, second] = &mut pages;
        assert_eq!(
            page_write(&sheet, 9, first, &records, 1, message),
            page_write(&sheet, 9, second, &others, 1, message)
        );
        assert_eq!(first[1], second[1]);
    }
}
