//! What the programs in Rust share, so that they differ in their ways alone: a sheet is admitted in every call, then the call's own
//! numbers are judged, and what is found is told in the store's form.
use crate::calls::*;

/// The largest radius, the largest cap, and the largest number of a page.
const MOST_RADIUS: u32 = 4;
const MOST_CAP: u32 = 8;
const MOST_NUMBER: u32 = 9;

/// A refusal by its number, with its row, cell or count where it has one.
pub struct Refusal(pub u32, pub Option<u64>);

/// A word and the d that gives it.
pub struct Written {
    pub word: Word,
    pub d: Word,
}

/// A message, what was put right, and the number tried.
pub struct Heard {
    pub message: Word,
    pub z: Word,
    pub tried: u64,
}

/// A distance, or none where it is more than the cap, and the number tried.
pub struct Measured {
    pub distance: Option<u32>,
    pub tried: u64,
}

/// A program in Rust: an admission, and the jobs on an admitted sheet with numbers that are within their limits.
pub trait Program {
    /// What the admission finds that the jobs go on with.
    type Found;
    /// Its name in the table.
    const NAME: &'static str;
    /// Refusals 1 to 6.
    fn admit(s: &Sheet) -> Result<Self::Found, Refusal>;
    /// The word with the smallest d, if any fits.
    fn write(s: &Sheet, message: Word, stuck: Word, levels: Word) -> Option<Written>;
    /// The message of the nearest codeword, or the number tried.
    fn read(s: &Sheet, found: &Self::Found, y: Word, radius: u32) -> Result<Heard, u64>;
    fn d0(s: &Sheet, cap: u32) -> Measured;
    fn d1(s: &Sheet, found: &Self::Found, cap: u32) -> Measured;
    /// Every slot's word and note: `write_slots` with the program's own way to find a word.
    fn page(s: &Sheet, p: &mut Page);
}

/// Refuses with the lowest cell of a word that should be 0.
fn judge_cells(number: u32, bad: Word) -> Result<(), Refusal> {
    match bad {
        0 => Ok(()),
        _ => Err(Refusal(number, Some(bad.trailing_zeros() as u64))),
    }
}

/// Refuses with a number alone unless the fact holds.
fn judge(number: u32, fact: bool) -> Result<(), Refusal> {
    fact.then_some(()).ok_or(Refusal(number, None))
}

/// The kind, a refusal's number, and up to three values.
fn told(kind: u32, number: u32, values: &[u64]) -> Told {
    let value = |i: usize| values.get(i).copied().unwrap_or(0);
    Told {
        kind,
        number,
        count: values.len() as u32,
        a: value(0),
        b: value(1),
        c: value(2),
    }
}

/// What an answer tells, or a refusal.
fn tells(answer: Result<Told, Refusal>) -> Told {
    answer.unwrap_or_else(|why| match why.1 {
        None => told(2, why.0, &[]),
        Some(place) => told(2, why.0, &[place]),
    })
}

impl<P: Program> Calls for P {
    fn name(&self) -> &'static str {
        P::NAME
    }

    fn admit(&self, s: &Sheet) -> Told {
        tells(P::admit(s).map(|_| told(0, 0, &[])))
    }

    fn write(&self, s: &Sheet, message: Word, stuck: Word, levels: Word) -> Told {
        tells(P::admit(s).and_then(|_| {
            judge(7, message & !all_cells(s.k) == 0)?;
            judge_cells(8, ((stuck | levels) & !all_cells(s.n)) | (levels & !stuck))?;
            let x = P::write(s, message, stuck, levels).ok_or(Refusal(9, None))?;
            Ok(told(0, 0, &[x.word as u64, x.d as u64]))
        }))
    }

    fn read(&self, s: &Sheet, y: Word, radius: u32) -> Told {
        tells(P::admit(s).and_then(|found| {
            judge_cells(10, y & !all_cells(s.n))?;
            judge(11, radius <= MOST_RADIUS)?;
            let x = P::read(s, &found, y, radius).map_err(|tried| Refusal(12, Some(tried)))?;
            Ok(told(0, 0, &[x.message as u64, x.z as u64, x.tried]))
        }))
    }

    fn d0(&self, s: &Sheet, cap: u32) -> Told {
        tells(P::admit(s).and_then(|_| {
            judge(11, (1..=MOST_CAP).contains(&cap))?;
            let x = P::d0(s, cap);
            Ok(match x.distance {
                Some(d) => told(0, 0, &[d as u64, x.tried]),
                None => told(1, 0, &[x.tried]),
            })
        }))
    }

    /// With the radius to print: half of the distance less 1, or of the cap, rounded down.
    fn d1(&self, s: &Sheet, cap: u32) -> Told {
        tells(P::admit(s).and_then(|found| {
            judge(11, (1..=MOST_CAP).contains(&cap))?;
            let x = P::d1(s, &found, cap);
            Ok(match x.distance {
                Some(d) => told(0, 0, &[d as u64, x.tried, ((d - 1) / 2) as u64]),
                None => told(1, 0, &[x.tried, (cap / 2) as u64]),
            })
        }))
    }

    fn page(&self, s: &Sheet, p: &mut Page) -> Told {
        tells(P::admit(s).and_then(|_| {
            let slots = p.words.len();
            judge(16, (1..=MOST_NUMBER).contains(&p.number))?;
            judge(13, slots <= MOST_SLOTS && p.records.len() <= MOST_RECORDS)?;
            judge(25, p.messages.len() == slots && p.notes.len() == slots)?;
            P::page(s, p);
            Ok(told(0, 0, &[]))
        }))
    }
}
