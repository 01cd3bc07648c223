//! Tests of the plate number: the one that opening gives is true, by brute force; refusal 16
//! has its two places in the order; and what was written reads back.

use super::*;
use crate::asking::{far_sheet, Verb};
use crate::breaking::broken_sheet;
use crate::every::every_sheet;
use crate::listing::listed;
use crate::making::{cellar, repeating};
use crate::sheet::{is_codeword, message_of};

/// The number that opening a page under an admitted sheet gives.
fn opened(sheet: &Sheet) -> u32 {
    match open(sheet) {
        Ok(Answer::Number(number)) => number,
        other => panic!("{sheet:?}: {other:?}"),
    }
}

/// d1 by its definition, from all words over the sheet's cells.
fn true_d1(sheet: &Sheet) -> u32 {
    let parts = admit(sheet).expect("an admitted sheet");
    let words = 0..=all_ones(sheet.n);
    let others = words.filter(|word| is_codeword(&parts, *word) && message_of(&parts, *word) != 0);
    others.map(Word::count_ones).min().expect("a message")
}

/// Every admitted sheet of up to 3 cells.
fn smallest_sheets() -> Vec<Sheet> {
    let mut sheets = Vec::new();
    for (n, k) in [(1, 1), (2, 1), (2, 2), (3, 1), (3, 2), (3, 3)] {
        for l in 0..=n - k {
            let every = every_sheet(n, k, l, 1 << n);
            sheets.extend(every.filter(|sheet| admit(sheet).is_ok()));
        }
    }
    sheets
}

/// A sheet of each d1 from 1 to the most, and so many random ones, far and any, of at most
/// as many cells.
fn other_sheets(random: &mut Random, most: u32, count: usize) -> Vec<Sheet> {
    let mut sheets: Vec<Sheet> = (1..=most).map(repeating).collect();
    while sheets.len() < count {
        let n = random.between(4, most);
        sheets.push(far_sheet(random, Verb::D1, n));
        let any = random_sheet(random);
        sheets.extend((any.n <= most).then_some(any));
    }
    sheets
}

/// Opening gives the true d1 where that is at most 8, else 9; every number comes up, and 9
/// for several d1.
#[test]
fn opening_gives_the_true_number() {
    let mut random = Random::new(111);
    let (mut numbers, mut above_8) = ([0; 10], [0; 14]);
    let others = other_sheets(&mut random, 13, 500);
    for sheet in smallest_sheets().iter().chain(&others) {
        let (number, d1) = (opened(sheet), true_d1(sheet));
        assert_eq!(number, if d1 > 8 { 9 } else { d1 }, "{sheet:?}");
        numbers[number as usize] += 1;
        above_8[d1 as usize] += u32::from(number == 9);
    }
    assert!(numbers[1..].iter().all(|times| *times > 0), "{numbers:?}");
    assert!(above_8[9..].iter().all(|times| *times > 0), "{above_8:?}");
}

/// Opening is refused exactly if the sheet is, with the same refusal, and so is every call on
/// a page, whatever the number.
#[test]
fn refused_sheets() {
    let mut random = Random::new(112);
    let mut times = [0; 7];
    for _ in 0..3000 {
        let sheet = broken_sheet(&mut random);
        let Err(refusal) = admit(&sheet) else {
            continue;
        };
        assert_eq!(open(&sheet), Err(refusal));
        for number in [0, 1, 9, 10, u32::MAX] {
            let read = page_read(&sheet, number, &[], 0, 9);
            assert_eq!(read, Err(refusal));
            let written = page_write(&sheet, number, &mut [], &[], 0, Word::MAX);
            assert_eq!(written, Err(refusal));
        }
        times[refusal.number as usize] += 1;
    }
    assert!(times[1..].iter().all(|count| *count > 20), "{times:?}");
}

/// The first refusal whose reason holds, of those in their order.
fn first_that_holds<const N: usize>(reasons: [(bool, Refusal); N]) -> Option<Refusal> {
    let mut holding = reasons.into_iter().filter(|(holds, _)| *holds);
    holding.next().map(|(_, refusal)| refusal)
}

/// Numbers within 1 to 9 and outside, next to both ends and far from them.
fn numbers() -> Vec<u32> {
    (0..=11).chain([256 + 3, 1 << 31, u32::MAX]).collect()
}

/// The sheet, and the same with row 3, of G0, as one that breaks the rule with H.
fn whole_and_broken(sheet: Sheet) -> [Sheet; 2] {
    let mut broken = sheet.clone();
    broken.rows[3] ^= 1;
    [sheet, broken]
}

/// A read's order: sheet, number, slots, slot, word, radius, radius against number, and no
/// codeword; with every choice of what is wrong. On the cellar sheet 85 is a codeword, 84 is
/// one cell from the next one, 68 is two, and 341 has a bit at cell 8.
#[test]
fn order_of_a_numbered_read() {
    let radii = [0, 1, 2, 3, 4, 5, 6, 1 << 31, u32::MAX];
    let words = [(85, 0), (84, 1), (68, 2), (341, 0)];
    for (is_broken, sheet) in [false, true].into_iter().zip(whole_and_broken(cellar())) {
        for (number, radius) in numbers()
            .iter()
            .flat_map(|n| radii.map(|radius| (*n, radius)))
        {
            for (slots, (y, cells)) in [1, 2_049].iter().flat_map(|s| words.map(|y| (*s, y))) {
                for slot in [0, slots] {
                    let wanted = first_that_holds([
                        (is_broken, placed(3, 3)),
                        (number == 0 || number > 9, bare(16)),
                        (slots > 2_048, bare(13)),
                        (slot == slots, bare(14)),
                        (y == 341, placed(10, 8)),
                        (radius > 4, bare(11)),
                        (radius > 4 || radius + radius >= number, bare(16)),
                        (cells > radius, placed(12, 1 + 8 * radius.min(1))),
                    ]);
                    let page = vec![y; slots as usize];
                    let told = page_read(&sheet, number, &page, slot, radius);
                    assert_eq!(told.err(), wanted, "{number} {slots} {slot} {y} {radius}");
                }
            }
        }
    }
}

/// A write's order: sheet, number, slots or records, slot, a record, message, and no word that
/// fits; with every choice of what is wrong. Refused, it leaves the page as it was.
#[test]
fn order_of_a_numbered_write() {
    let (bad, other) = (record(0, 7, 0), record(1, 0, 0));
    let both = vec![record(0, 0, 0), record(0, 1, 0)];
    let of_slot_0 = [vec![], both.clone(), [both, vec![bad]].concat()];
    for (is_broken, sheet) in [false, true].into_iter().zip(whole_and_broken(kitchen())) {
        for (number, slots) in numbers().iter().flat_map(|n| [1, 2_049].map(|s| (*n, s))) {
            for (place, own) in of_slot_0.iter().enumerate() {
                for (count, message) in [(0, 5), (0, 8), (257, 5), (257, 8)] {
                    let records = [own.clone(), vec![other; count]].concat();
                    for slot in [0, slots] {
                        let wanted = first_that_holds([
                            (is_broken, placed(3, 3)),
                            (number == 0 || number > 9, bare(16)),
                            (slots > 2_048 || count > 256, bare(13)),
                            (slot == slots, bare(14)),
                            (place == 2, placed(15, 2)),
                            (message == 8, bare(7)),
                            (place == 1, bare(9)),
                        ]);
                        let mut page = vec![OLD; slots as usize];
                        let told = page_write(&sheet, number, &mut page, &records, slot, message);
                        assert_eq!(told.err(), wanted, "{number} {slots} {slot} {message}");
                        assert_eq!(page[0] == OLD, wanted.is_some());
                    }
                }
            }
        }
    }
}

/// Writes to slot 1 of a page, with every cell stuck at the levels of a codeword: what the
/// page then holds is that codeword, and so everything that can be written comes up.
fn page_with(sheet: &Sheet, number: u32, codeword: Word, message: Word) -> [Word; 3] {
    let level = |cell: u32| (codeword >> cell & 1) as u8;
    let records: Vec<Record> = (0..sheet.n).map(|c| record(1, c, level(c))).collect();
    let mut page = [OLD; 3];
    let told = page_write(sheet, number, &mut page, &records, 1, message);
    assert!(told.is_ok(), "{sheet:?} {codeword}: {told:?}");
    assert_eq!(page, [OLD, codeword, OLD]);
    page
}

/// Checks that a page's slot, disturbed in at most t cells, reads back its message at radius t
/// with this number if 2t is below it, and is refused with 16 if not. Answers how many reads
/// were answered.
fn check_reading_back(sheet: &Sheet, number: u32, page: [Word; 3], message: Word, t: u32) -> u32 {
    let mut answered = 0;
    for z in listed(sheet.n, 0, t) {
        let disturbed = [page[0], page[1] ^ z, page[2]];
        let told = page_read(sheet, number, &disturbed, 1, t);
        let read = match told {
            Ok(Answer::Message { message, .. }) => Ok(message),
            Ok(other) => panic!("{other:?}"),
            Err(refusal) => Err(refusal),
        };
        let wanted = if 2 * t < number {
            Ok(message)
        } else {
            Err(bare(16))
        };
        assert_eq!(read, wanted, "{sheet:?} {number} {page:?} {t} {z}");
        answered += u32::from(read.is_ok());
    }
    answered
}

/// Demand 3's reading back on pages, with the number in the place of d1, "for any number that
/// is at most the true d1": every codeword, number, radius and disturbance on small sheets.
#[test]
fn written_slots_read_back() {
    let mut random = Random::new(113);
    let others = other_sheets(&mut random, 9, 100);
    let mut answered = [0; 5];
    for sheet in smallest_sheets().iter().chain(&others) {
        let parts = admit(sheet).expect("an admitted sheet");
        let codewords = (0..=all_ones(sheet.n)).filter(|word| is_codeword(&parts, *word));
        for codeword in codewords {
            let message = message_of(&parts, codeword);
            for number in 1..=opened(sheet) {
                let page = page_with(sheet, number, codeword, message);
                for t in 0..=4 {
                    answered[t as usize] += check_reading_back(sheet, number, page, message, t);
                }
            }
        }
    }
    assert!(answered.iter().all(|reads| *reads > 300), "{answered:?}");
}

/// The number changes no answer but by refusal 16: a write answers with each of 1 to 9 as
/// with 9, and a read as with 9 or by 16.
#[test]
fn answers_with_any_number() {
    let mut random = Random::new(114);
    for _ in 0..300 {
        let sheet = random_sheet(&mut random);
        let (y, message) = (random.word(sheet.n), random.word(sheet.k));
        let (radius, slot) = (random.between(0, 2), random.between(0, 2));
        let records = random_records(&mut random, sheet.n, 12);
        let written = |number: u32| {
            let mut page = [OLD, OLD];
            let told = page_write(&sheet, number, &mut page, &records, slot, message);
            (told, page)
        };
        for number in 1..=8 {
            assert_eq!(written(number), written(9));
            let [one, other] = [number, 9].map(|n| page_read(&sheet, n, &[y, y], slot, radius));
            let too_far = slot < 2 && 2 * radius >= number;
            assert_eq!(one, if too_far { Err(bare(16)) } else { other });
        }
    }
}
