//! Calls at random, as lines of the protocol: good ones, and ones with odd arguments.

use crate::making::{sheet_of_numbers, some_sheet};
use crate::random::Random;
use crate::sheet::Sheet;
use crate::taming::{tame_cap, tame_radius};
use crate::word::{above, all_ones, sum_of, Wide, Word, MOST_CELLS};

/// The verbs of the calls of document 01.
#[derive(Clone, Copy, PartialEq, Eq)]
pub enum Verb {
    Admit,
    Write,
    Read,
    D0,
    D1,
}

impl Verb {
    /// Every verb.
    pub const ALL: [Verb; 5] = [Verb::Admit, Verb::Write, Verb::Read, Verb::D0, Verb::D1];

    /// The verb as the protocol has it.
    fn name(self) -> &'static str {
        match self {
            Verb::Admit => "admit",
            Verb::Write => "write",
            Verb::Read => "read",
            Verb::D0 => "d0",
            Verb::D1 => "d1",
        }
    }
}

/// A call on an admitted sheet with arguments as they should be.
pub fn good_call(random: &mut Random) -> String {
    let verb = match random.below(11) {
        0 => Verb::Admit,
        1..=3 => Verb::Write,
        4..=6 => Verb::Read,
        7 | 8 => Verb::D0,
        _ => Verb::D1,
    };
    let sheet = match verb {
        Verb::D0 | Verb::D1 if random.once_in(2) => {
            let n = far_cells(random);
            far_sheet(random, verb, n)
        }
        _ => some_sheet(random),
    };
    any_call(random, verb, &sheet, false)
}

/// A call with this verb on this sheet, its arguments good or odd ones.
pub fn any_call(random: &mut Random, verb: Verb, sheet: &Sheet, odd: bool) -> String {
    let arguments = match (verb, odd) {
        (Verb::Admit, _) => vec![],
        (Verb::Write, false) => good_write(random, sheet),
        (Verb::Write, true) => odd_write(random, sheet),
        (Verb::Read, false) => good_read(random, sheet),
        (Verb::Read, true) => odd_read(random, sheet),
        (Verb::D0 | Verb::D1, false) => {
            let cap = Word::from(random.between(1, 8));
            vec![held_cap(random, verb, sheet, cap)]
        }
        (Verb::D0 | Verb::D1, true) => {
            let cap = odd_limit(random, 10);
            vec![held_cap(random, verb, sheet, cap)]
        }
    };
    call_text(verb, sheet, &arguments)
}

/// A call as a line of the protocol.
pub fn call_text(verb: Verb, sheet: &Sheet, arguments: &[Word]) -> String {
    line_text(verb.name(), sheet, arguments)
}

/// A line of the protocol: a verb, a sheet and the numbers after it.
pub fn line_text(verb: &str, sheet: &Sheet, arguments: &[Word]) -> String {
    let head = [sheet.n, sheet.k, sheet.l].map(Word::from);
    numbers_text(verb, &[&head, &list(&sheet.rows)[..], arguments].concat())
}

/// Any word: a small one, one at the edge of 32 bits, the largest, or any at all.
pub fn some_word(random: &mut Random) -> Word {
    let any = random.word(MOST_CELLS);
    let edge = 1 << 32;
    random.one_of(&[0, 1, 3, 9, 10, edge - 1, edge, 1 << 63, Word::MAX, any, any])
}

/// LIST as its numbers: the count, then the entries.
pub fn list(entries: &[Word]) -> Vec<Word> {
    [&[entries.len() as Word], entries].concat()
}

/// A line of the protocol: a verb and numbers.
pub fn numbers_text(verb: &str, numbers: &[Word]) -> String {
    let mut line = verb.to_string();
    for number in numbers {
        line.push(' ');
        line.push_str(&number.to_string());
    }
    line
}

/// The cells of a sheet, also of one whose n is wrong: 1 to 64.
pub fn cells(sheet: &Sheet) -> u32 {
    sheet.n.clamp(1, MOST_CELLS)
}

/// A message below 2^k, as far as k is a right one.
pub fn good_message(random: &mut Random, sheet: &Sheet) -> Word {
    random.word(sheet.k.min(MOST_CELLS))
}

/// Some word of a message: wG1 + dG0, with any d; 0 on a sheet with too few rows, or with
/// more of a group than a word has bits.
pub fn word_of(random: &mut Random, sheet: &Sheet, message: Word) -> Word {
    let (k, l) = (sheet.k as usize, sheet.l as usize);
    if k.saturating_add(l) > sheet.rows.len() || sheet.k.max(sheet.l) > MOST_CELLS {
        return 0;
    }
    let d = random.word(sheet.l);
    sum_of(&sheet.rows[..k], message) ^ sum_of(&sheet.rows[k..k + l], d)
}

/// Message, stuck and levels: none, few, many or all cells stuck, at the levels of a
/// word of the message, at such levels but for one cell, or at random levels.
pub fn good_write(random: &mut Random, sheet: &Sheet) -> Vec<Word> {
    let n = cells(sheet);
    let message = good_message(random, sheet);
    let every = all_ones(n);
    let stuck = match random.below(8) {
        0 => 0,
        1 | 2 => random.light_word(n, 3),
        3 => random.light_word(n, 8),
        4 | 5 => random.word(n),
        6 => every & !random.light_word(n, 3),
        _ => every,
    };
    let fitting = word_of(random, sheet, message);
    let levels = match random.below(8) {
        0 => random.word(n),
        1 => fitting ^ random.light_word(n, 1),
        2 => 0,
        _ => fitting,
    };
    vec![message, stuck, levels & stuck]
}

/// Message, stuck and levels of which one or more may be wrong: a message around 2^k,
/// bits at cell n and above, levels at cells that are not stuck.
fn odd_write(random: &mut Random, sheet: &Sheet) -> Vec<Word> {
    let mut arguments = good_write(random, sheet);
    let n = cells(sheet);
    if random.once_in(3) {
        arguments[0] = odd_message(random, sheet);
    }
    match random.below(8) {
        0 => arguments[1] |= high_bits(random, n),
        1 => arguments[2] |= high_bits(random, n),
        2 => {
            arguments[1] |= high_bits(random, n);
            arguments[2] |= arguments[1] & random.word(64);
        }
        3 => arguments[2] ^= 1 << random.between(0, n - 1),
        4 => arguments[2] = random.word(n),
        5 => arguments[1] &= random.word(64),
        6 => arguments[1..].copy_from_slice(&[some_word(random), some_word(random)]),
        _ => (),
    }
    arguments
}

/// A message around 2^k, as far as a word holds it, or any word at all.
pub fn odd_message(random: &mut Random, sheet: &Sheet) -> Word {
    let limit: Wide = 1 << sheet.k.min(MOST_CELLS);
    let held = |number: Wide| number.min(Wide::from(Word::MAX)) as Word;
    match random.below(6) {
        0 => held(limit - 1),
        1 => held(limit),
        2 => held(limit + 1),
        3 => held(limit << 1 | limit),
        _ => some_word(random),
    }
}

/// A word with bits at cell n or above only; at n = 64 there are none.
pub fn high_bits(random: &mut Random, n: u32) -> Word {
    let (all, any) = (above(n), random.word(MOST_CELLS));
    let lowest = all & all.wrapping_neg();
    all & random.one_of(&[lowest, 1 << 31, 1 << 32, 1 << 63, any, any])
}

/// y and radius: a codeword disturbed in 0 to 5 cells, or any word.
pub fn good_read(random: &mut Random, sheet: &Sheet) -> Vec<Word> {
    let n = cells(sheet);
    let message = good_message(random, sheet);
    let errors = random.between(0, 5);
    let y = match random.below(5) {
        0 => random.word(n),
        _ => word_of(random, sheet, message) ^ random.light_word(n, errors),
    };
    let radius = Word::from(random.between(0, 4));
    vec![y, tame_radius(random, n, radius)]
}

/// y and radius of which one or both may be wrong.
fn odd_read(random: &mut Random, sheet: &Sheet) -> Vec<Word> {
    let mut arguments = good_read(random, sheet);
    if random.once_in(2) {
        arguments[0] |= high_bits(random, cells(sheet));
    }
    if random.once_in(2) {
        arguments[1] = odd_radius(random, cells(sheet));
    }
    arguments
}

/// A radius or a cap from 0 to somewhat more than allowed, or a huge one of 32 bits.
fn odd_limit(random: &mut Random, last: u32) -> Word {
    let limit = match random.below(6) {
        0 => random.one_of(&[256, 257, 1 << 16, 1 << 31, u32::MAX]),
        1 => random.number(),
        _ => random.between(0, last),
    };
    Word::from(limit)
}

/// A radius from 0 to somewhat more than allowed, or a huge one.
pub fn odd_radius(random: &mut Random, n: u32) -> Word {
    let radius = odd_limit(random, 6);
    tame_radius(random, n, radius)
}

/// The cap, held to a list that is not too long: d0 is never above l + 1 and d1 never above
/// r + 1.
fn held_cap(random: &mut Random, verb: Verb, sheet: &Sheet, cap: Word) -> Word {
    let n = cells(sheet);
    let r = n.saturating_sub(sheet.k).saturating_sub(sheet.l);
    let rows = if verb == Verb::D0 { sheet.l } else { r };
    tame_cap(random, n, rows, cap)
}

/// The number of cells of a far sheet: 4 to 64, every second time at most 32.
fn far_cells(random: &mut Random) -> u32 {
    let (narrow, wide) = (random.between(4, 32), random.between(33, 64));
    random.one_of(&[narrow, wide])
}

/// An admitted sheet of at least 4 cells with a small k and, for the distance of this
/// verb, so many rows of G0 or of H that it tends to be a far one.
pub fn far_sheet(random: &mut Random, verb: Verb, n: u32) -> Sheet {
    let k = random.between(1, 2);
    let few = random.between(0, (n - k) / 4);
    let l = if verb == Verb::D0 { n - k - few } else { few };
    sheet_of_numbers(random, n, k, l)
}
