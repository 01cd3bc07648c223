//! The calls of document 01 on a lent sheet: writing, reading, and measuring d0 and d1,
//! the printed radius by request 3.

use crate::finding::{first_hit, Found};
use crate::halves::Wanted;
use crate::sheet::{admit, bare, is_codeword, message_of, placed, Parts, Refusal, Sheet};
use crate::sums::{equation, smallest_d};
use crate::word::{above, column, product, sum_of, Wide, Word};

/// Up to this l every d is tried from 0 up; above it the equations are eliminated.
const EVERY_D_UP_TO_L: usize = 20;

/// What a call answers when it does not refuse; of a call that fills lent rooms, that it
/// has done so.
#[derive(Clone, Copy, Debug, PartialEq, Eq)]
pub enum Answer {
    Admitted,
    Word { word: Word, d: Word },
    Message { message: Word, z: Word, tried: u64 },
    D0(Measured),
    D1 { measured: Measured, radius: u32 },
    Number(u32),
    Done,
}

/// A measurement: the distance, or none where it is more than the cap, and the tried.
#[derive(Clone, Copy, Debug, PartialEq, Eq)]
pub struct Measured {
    pub distance: Option<u32>,
    pub tried: u64,
}

/// Admits the sheet or gives refusal 1 to 6.
pub fn admitting(sheet: &Sheet) -> Result<Answer, Refusal> {
    admit(sheet).map(|_| Answer::Admitted)
}

/// Writing: "the fitting word of message w whose d is the smallest number, and that d";
/// refusals 7, 8 and 9 after those of the sheet.
pub fn write(sheet: &Sheet, message: Word, stuck: Word, levels: Word) -> Result<Answer, Refusal> {
    let parts = admit(sheet)?;
    if Wide::from(message) >= 1 << parts.g1.len() {
        return Err(bare(7));
    }
    let wrong = ((stuck | levels) & above(parts.n)) | (levels & !stuck);
    if wrong != 0 {
        return Err(placed(8, wrong.trailing_zeros()));
    }
    let plain = sum_of(parts.g1, message);
    let d = if parts.g0.len() <= EVERY_D_UP_TO_L {
        first_fitting_d(&parts, plain, stuck, levels)
    } else {
        eliminated_d(&parts, plain, stuck, levels)
    };
    let d = d.ok_or(bare(9))?;
    let word = plain ^ sum_of(parts.g0, d);
    Ok(Answer::Word { word, d })
}

/// The first d from 0 up whose word fits: it "equals the level at every stuck cell".
fn first_fitting_d(parts: &Parts, plain: Word, stuck: Word, levels: Word) -> Option<Word> {
    let fits = |d: &Word| (plain ^ sum_of(parts.g0, *d)) & stuck == levels;
    (0..1 << parts.g0.len()).find(fits)
}

/// The same d from one equation for each stuck cell: the rows of G0 chosen by d must
/// turn the plain word's level into the stuck one.
fn eliminated_d(parts: &Parts, plain: Word, stuck: Word, levels: Word) -> Option<Word> {
    let stuck_cells = (0..parts.n).filter(|cell| stuck >> cell & 1 == 1);
    let equations: Vec<Wide> = stuck_cells
        .map(|cell| equation(column(parts.g0, cell), (plain ^ levels) >> cell & 1 == 1))
        .collect();
    smallest_d(parts.g0.len(), &equations)
}

/// Reading: the nearest codeword's message; refusals 10, 11 and 12 after those of the sheet.
pub fn read(sheet: &Sheet, y: Word, radius: u32) -> Result<Answer, Refusal> {
    let parts = admit(sheet)?;
    readable(&parts, y, radius)?;
    nearest(&parts, y, radius)
}

/// Refusal 10, a bit of y at cell n or above, and then 11, a radius above 4.
pub fn readable(parts: &Parts, y: Word, radius: u32) -> Result<(), Refusal> {
    let stray = y & above(parts.n);
    if stray != 0 {
        return Err(placed(10, stray.trailing_zeros()));
    }
    if radius > 4 {
        return Err(bare(11));
    }
    Ok(())
}

/// The first z in the list, of weight at most the radius, for which y + z is a codeword, or
/// refusal 12; y and radius are readable ones.
pub fn nearest(parts: &Parts, y: Word, radius: u32) -> Result<Answer, Refusal> {
    let brings_back = |z| is_codeword(parts, y ^ z);
    let found = first_hit(
        parts.n,
        [0, radius],
        brings_back,
        &wanted_of_reading(parts, y),
    );
    let Some(z) = found.hit else {
        let all = u32::try_from(found.tried).expect("words of weight up to 4");
        return Err(placed(12, all));
    };
    let message = message_of(parts, y ^ z);
    let tried = found.tried;
    Ok(Answer::Message { message, z, tried })
}

/// Reading y wants the words z whose product with each row of H is that of y, so that those
/// of y + z are 0.
fn wanted_of_reading<'a>(parts: &Parts<'a>, y: Word) -> Wanted<'a> {
    let rows = parts.h.iter().enumerate();
    let failed = rows.filter(|(_, row)| product(**row, y));
    Wanted {
        rows: parts.h,
        products: failed.fold(0, |bits, (j, _)| bits | 1 << j),
        some_one: None,
    }
}

/// d0: "the least weight of a nonzero word whose product with every row of G0 is 0".
pub fn d0(sheet: &Sheet, cap: u32) -> Result<Answer, Refusal> {
    let parts = admit(sheet)?;
    let is_hit = |word| is_hit_of_d0(&parts, word);
    let measured = measure(parts.n, cap, is_hit, &wanted_of_d0(&parts))?;
    Ok(Answer::D0(measured))
}

/// Whether a word of weight 1 or more is one that d0 is the least weight of.
fn is_hit_of_d0(parts: &Parts, word: Word) -> bool {
    parts.g0.iter().all(|row| !product(*row, word))
}

/// d0 wants the words whose product with each row of G0 is 0.
fn wanted_of_d0<'a>(parts: &Parts<'a>) -> Wanted<'a> {
    Wanted {
        rows: parts.g0,
        products: 0,
        some_one: None,
    }
}

/// d1, and the radius for the plate by document 02, request 3: half of d1 - 1, or half of
/// the cap where d1 is more than the cap, rounded down.
pub fn d1(sheet: &Sheet, cap: u32) -> Result<Answer, Refusal> {
    let measured = measured_d1(&admit(sheet)?, cap)?;
    let radius = match measured.distance {
        Some(distance) => (distance - 1) / 2,
        None => cap / 2,
    };
    Ok(Answer::D1 { measured, radius })
}

/// The measurement of d1: "the least weight of a codeword with a message other than 0".
pub fn measured_d1(parts: &Parts, cap: u32) -> Result<Measured, Refusal> {
    let is_hit = |word| is_hit_of_d1(parts, word);
    measure(parts.n, cap, is_hit, &wanted_of_d1(parts))
}

/// Whether a word is one that d1 is the least weight of.
fn is_hit_of_d1(parts: &Parts, word: Word) -> bool {
    is_codeword(parts, word) && message_of(parts, word) != 0
}

/// d1 wants the words whose product with each row of H is 0, and with some row of M 1.
fn wanted_of_d1<'a>(parts: &Parts<'a>) -> Wanted<'a> {
    Wanted {
        rows: parts.h,
        products: 0,
        some_one: Some(parts.m),
    }
}

/// "A measurement takes a cap of 1 to 8 and tries listed words from weight 1 up to the
/// cap": refusal 11, the first hit and its place, or the length of the list.
fn measure(
    n: u32,
    cap: u32,
    is_hit: impl Fn(Word) -> bool,
    wanted: &Wanted,
) -> Result<Measured, Refusal> {
    if !(1..=8).contains(&cap) {
        return Err(bare(11));
    }
    let Found { hit, tried } = first_hit(n, [1, cap], is_hit, wanted);
    let distance = hit.map(Word::count_ones);
    Ok(Measured { distance, tried })
}

#[cfg(test)]
mod tests;
