//! What is called: the inputs of each row of the table, which change from call to call, and calls at random to compare answers on.
use crate::calls::*;
use crate::fast::{sum, Fast};
use crate::pages::{any_page, timed_page};
use crate::sheets::{random, Random};

/// The radius and the cap of the table's longest searches, and the cap at which a list over all cells still ends in time.
const FAR: u32 = 4;
const CAP: u32 = 8;
const WIDE_CAP: u32 = 5;

/// A call's own numbers.
#[derive(Clone, Debug)]
pub enum Call {
    Admit,
    Write {
        message: Word,
        stuck: Word,
        levels: Word,
    },
    Read {
        y: Word,
        radius: u32,
    },
    D0 {
        cap: u32,
    },
    D1 {
        cap: u32,
    },
    Page(Page),
}

/// What a program answers, and what it leaves of a page that it was lent.
#[derive(Debug, PartialEq, Eq)]
pub struct Answer {
    pub told: Told,
    words: Vec<Word>,
    notes: Vec<Word>,
}

/// A call on a sheet.
#[derive(Clone, Debug)]
pub struct Case {
    pub sheet: Sheet,
    pub call: Call,
}

impl Case {
    /// What a program tells. The case keeps what the program leaves of its page.
    pub fn told(&mut self, by: &dyn Calls) -> Told {
        let s = &self.sheet;
        match self.call {
            Call::Admit => by.admit(s),
            Call::Write {
                message,
                stuck,
                levels,
            } => by.write(s, message, stuck, levels),
            Call::Read { y, radius } => by.read(s, y, radius),
            Call::D0 { cap } => by.d0(s, cap),
            Call::D1 { cap } => by.d1(s, cap),
            Call::Page(ref mut page) => by.page(s, page),
        }
    }

    /// What a program answers. The case stays as it is, so that every program begins with the same page.
    pub fn answer(&self, by: &dyn Calls) -> Answer {
        let mut own = self.clone();
        let told = own.told(by);
        let (words, notes) = match own.call {
            Call::Page(page) => (page.words, page.notes),
            _ => Default::default(),
        };
        Answer { told, words, notes }
    }

    /// How many listed words are tried, if the call lists any.
    pub fn tried(&self) -> u64 {
        let told = self.answer(&Fast).told;
        match (&self.call, told.kind) {
            (Call::Read { .. }, 0) => told.c,
            (Call::D0 { .. } | Call::D1 { .. }, 0) => told.b,
            (Call::Admit | Call::Write { .. } | Call::Page(_), _) => 0,
            _ => told.a,
        }
    }
}

/// A row of the table: its sheets and its call by name, and the calls that are timed.
pub struct Row {
    pub sheets: String,
    pub call: &'static str,
    pub cases: Vec<Case>,
    /// Whether `plain` takes part.
    pub stepped: bool,
}

/// The sizes of a family of sheets: n, k and l.
type Sizes = (usize, usize, usize);

/// A row of so many calls, each drawn with a sheet of its own.
fn row(
    sizes: Sizes,
    call: &'static str,
    count: usize,
    draw: impl Fn(Sizes, &mut Random) -> Case,
) -> Row {
    let mut g = Random(count as u64);
    let (n, k, l) = sizes;
    let cases = (0..count).map(|_| draw(sizes, &mut g)).collect();
    Row {
        sheets: format!("n {n}, k {k}, l {l}"),
        call,
        cases,
        stepped: true,
    }
}

/// The same for a list that `plain`, which steps through it, would take many minutes for.
fn row_unstepped(
    sizes: Sizes,
    call: &'static str,
    draw: impl Fn(Sizes, &mut Random) -> Case,
) -> Row {
    Row {
        stepped: false,
        ..row(sizes, call, 1, draw)
    }
}

/// An admission of a good sheet.
fn admit((n, k, l): Sizes, g: &mut Random) -> Case {
    Case {
        sheet: random(n, k, l, g),
        call: Call::Admit,
    }
}

/// A write of any message around as many stuck cells as half the rows of G0, at least one.
fn write((n, k, l): Sizes, g: &mut Random) -> Case {
    let stuck = g.ones(n, (l / 2).max(1));
    let (message, levels) = (g.word(k), g.word(n) & stuck);
    Case {
        sheet: random(n, k, l, g),
        call: Call::Write {
            message,
            stuck,
            levels,
        },
    }
}

/// A read at radius 2 of a codeword with two cells turned over.
fn hit((n, k, l): Sizes, g: &mut Random) -> Case {
    let sheet = random(n, k, l, g);
    let y = sum(sheet.g1(), g.word(k)) ^ g.ones(n, 2);
    Case {
        sheet,
        call: Call::Read { y, radius: 2 },
    }
}

/// A read at radius 4 of a word that no codeword is near to: drawn until one is found.
fn miss((n, k, l): Sizes, g: &mut Random) -> Case {
    loop {
        let sheet = random(n, k, l, g);
        let case = Case {
            sheet,
            call: Call::Read {
                y: g.word(n),
                radius: FAR,
            },
        };
        if case.answer(&Fast).told.kind == 2 {
            return case;
        }
    }
}

/// A measurement of d0 up to a cap.
fn d0(cap: u32) -> impl Fn(Sizes, &mut Random) -> Case {
    move |(n, k, l), g| Case {
        sheet: random(n, k, l, g),
        call: Call::D0 { cap },
    }
}

/// A measurement of d1 up to a cap.
fn d1(cap: u32) -> impl Fn(Sizes, &mut Random) -> Case {
    move |(n, k, l), g| Case {
        sheet: random(n, k, l, g),
        call: Call::D1 { cap },
    }
}

/// The first of the drawn calls that answers "more than the cap".
fn more(draw: impl Fn(Sizes, &mut Random) -> Case) -> impl Fn(Sizes, &mut Random) -> Case {
    move |sizes, g| loop {
        let case = draw(sizes, g);
        if case.answer(&Fast).told.kind == 1 {
            return case;
        }
    }
}

/// A write of a whole page with so many slots and records.
fn whole(slots: usize, records: usize) -> impl Fn(Sizes, &mut Random) -> Case {
    move |(n, k, l), g| {
        let sheet = random(n, k, l, g);
        let page = timed_page(&sheet, slots, records, g);
        Case {
            sheet,
            call: Call::Page(page),
        }
    }
}

/// The rows of whole pages, of an eighth of the slots that a page may have and of all; 16,384 slots in a row, as many as keep the
/// processor from learning them.
fn page_rows(wide: Sizes) -> Vec<Row> {
    let (some, all) = (whole(256, MOST_RECORDS), whole(MOST_SLOTS, MOST_RECORDS));
    let mut rows = Vec::new();
    for sizes in [(7, 3, 1), (32, 16, 8), wide] {
        rows.push(row(sizes, "whole page, 256 slots, 256 records", 64, &some));
        rows.push(row(sizes, "whole page, 2048 slots, 256 records", 8, &all));
    }
    let bare = whole(MOST_SLOTS, 0);
    rows.push(row(wide, "whole page, 2048 slots, no records", 8, bare));
    rows
}

/// The table, at n 7, n 32 and the largest n. Sheets with few codewords have words that no codeword is near to; d0 and d1 are more
/// than the cap only where l, or r, is most of n.
pub fn rows() -> Vec<Row> {
    let mut rows = Vec::new();
    let wide = (WIDTH, WIDTH / 2, WIDTH / 4);
    for sizes in [(7, 3, 1), (32, 16, 8), (32, 8, 4), wide] {
        rows.push(row(sizes, "admit", 64, admit));
        rows.push(row(sizes, "write", 64, write));
        rows.push(row(sizes, "read, radius 2, hit", 64, hit));
        rows.push(row(sizes, "d0, cap 8", 8, d0(CAP)));
        rows.push(row(sizes, "d1, cap 8", 8, d1(CAP)));
    }
    for sizes in [(7, 1, 0), (32, 8, 4), (WIDTH, WIDTH / 4, WIDTH / 8)] {
        rows.push(row(sizes, "read, radius 4, miss", 8, miss));
    }
    rows.push(row((32, 2, 24), "d0, cap 8, more", 1, more(d0(CAP))));
    rows.push(row((32, 4, 2), "d1, cap 8, more", 1, more(d1(CAP))));
    rows.push(row((WIDTH, 8, 4), "d1, cap 5, more", 1, more(d1(WIDE_CAP))));
    rows.push(row_unstepped(
        (WIDTH, 4, 56),
        "d0, cap 8, more",
        more(d0(CAP)),
    ));
    rows.push(row_unstepped(
        (WIDTH, 8, 4),
        "d1, cap 8, more",
        more(d1(CAP)),
    ));
    rows.extend(page_rows(wide));
    rows
}

/// A sheet of any sizes, about every other one damaged: a bit, the number of rows, one of n, k and l, or a row of G0
/// or H put in the place of another.
fn any_sheet(g: &mut Random) -> Sheet {
    let n = 1 + g.below(WIDTH);
    let k = 1 + g.below(n);
    let l = g.below(n - k + 1);
    let mut sheet = random(n, k, l, g);
    match g.below(12) {
        0..=2 => {
            let row = g.below(n + k);
            sheet.rows[row] ^= 1 << g.below(WIDTH);
        }
        3 => sheet.rows.truncate(g.below(n + k)),
        4 => {
            let numbers = [&mut sheet.n, &mut sheet.k, &mut sheet.l];
            *numbers[g.below(3)] = [0, 1, WIDTH, WIDTH + 1][g.below(4)];
        }
        5 if n > k => sheet.rows[k + g.below(n - k)] = sheet.rows[k + g.below(n - k)],
        _ => {}
    }
    sheet
}

/// A radius or a cap, within its limits and beyond them, at which the list over n cells is short.
fn any_limit(n: usize, g: &mut Random) -> u32 {
    let most = if n > 32 { 3 } else { 4 };
    [0, 1, 2, 3, most, 9][g.below(6)]
}

/// A call of any kind, its numbers within their limits and beyond them. The list that is searched is kept short.
pub fn any_case(g: &mut Random) -> Case {
    let sheet = any_sheet(g);
    let n = (sheet.n + g.below(2)).min(WIDTH);
    let limit = any_limit(n, g);
    let call = match g.below(6) {
        0 => Call::Admit,
        1 => {
            let stuck = g.word(n) & g.word(n);
            let levels = if g.below(8) == 0 {
                g.word(n)
            } else {
                g.word(n) & stuck
            };
            let k = (sheet.k + g.below(2)).min(WIDTH);
            let message = g.word(k);
            Call::Write {
                message,
                stuck,
                levels,
            }
        }
        2 => Call::Read {
            y: g.word(n),
            radius: limit,
        },
        3 => Call::D0 { cap: limit },
        4 => Call::D1 { cap: limit },
        _ => Call::Page(any_page(&sheet, g)),
    };
    Case { sheet, call }
}
