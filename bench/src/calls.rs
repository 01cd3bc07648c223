//! The calls that are compared, five on a sheet and the write of a whole page, and what they tell, in one form for the store and for
//! Rust.

/// A word of cells, as wide as the store's own (`Word` of the crate `paper`).
pub type Word = u64;

/// The number of cells that a word has.
pub const WIDTH: usize = Word::BITS as usize;

/// The cells below n, as a word.
pub fn all_cells(n: usize) -> Word {
    if n == 0 {
        0
    } else {
        Word::MAX >> (WIDTH - n)
    }
}

/// A code sheet: the rows of G1, G0, H and M, one after the other.
#[derive(Clone, Debug)]
pub struct Sheet {
    pub n: usize,
    pub k: usize,
    pub l: usize,
    pub rows: Vec<Word>,
}

impl Sheet {
    /// The number of check rows.
    pub fn r(&self) -> usize {
        self.n - self.k - self.l
    }

    pub fn g1(&self) -> &[Word] {
        &self.rows[..self.k]
    }

    pub fn g0(&self) -> &[Word] {
        &self.rows[self.k..self.k + self.l]
    }

    pub fn h(&self) -> &[Word] {
        &self.rows[self.k + self.l..self.n]
    }

    pub fn m(&self) -> &[Word] {
        &self.rows[self.n..]
    }

    /// Rule 1: 1 ≤ n ≤ the width, 1 ≤ k, k + l ≤ n, and n + k rows.
    pub fn is_shaped(&self) -> bool {
        (1..=WIDTH).contains(&self.n)
            && self.k >= 1
            && self.k + self.l <= self.n
            && self.rows.len() == self.n + self.k
    }
}

/// The most slots that a page has, and the most records of its stuck cells.
pub const MOST_SLOTS: usize = 2048;
pub const MOST_RECORDS: usize = 256;

/// A record of a stuck cell. This is the store's `StuckCell`, of the crate `paper`, field by field.
#[repr(C)]
#[derive(Clone, Copy, Debug)]
pub struct StuckCell {
    pub slot: u32,
    pub cell: u32,
    pub level: u8,
}

/// What is lent to a write of a whole page: the page's number, the words of its slots, the records of its stuck cells, and a message
/// and a note for each slot. The write changes words and notes.
#[derive(Clone, Debug)]
pub struct Page {
    pub number: u32,
    pub words: Vec<Word>,
    pub records: Vec<StuckCell>,
    pub messages: Vec<Word>,
    pub notes: Vec<Word>,
}

/// What a call tells: the kind (0 an answer, 1 "more than the cap", 2 a refusal), a refusal's number, and the first `count` of
/// three values. This is the store's `Numbers`, of the crate `told`, field by field.
#[repr(C)]
#[derive(Clone, Copy, Debug, PartialEq, Eq)]
pub struct Told {
    pub kind: u32,
    pub number: u32,
    pub count: u32,
    pub a: u64,
    pub b: u64,
    pub c: u64,
}

/// One program that makes the calls.
pub trait Calls {
    /// Its name in the table.
    fn name(&self) -> &'static str;
    fn admit(&self, s: &Sheet) -> Told;
    fn write(&self, s: &Sheet, message: Word, stuck: Word, levels: Word) -> Told;
    fn read(&self, s: &Sheet, y: Word, radius: u32) -> Told;
    fn d0(&self, s: &Sheet, cap: u32) -> Told;
    fn d1(&self, s: &Sheet, cap: u32) -> Told;
    fn page(&self, s: &Sheet, p: &mut Page) -> Told;
}
