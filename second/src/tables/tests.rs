//! Tests of the tables: the bench sheets and document 002's example, every small choice of
//! tables, and the shape by another account. Those of the refusals are in `refusals`.

use super::*;
use crate::calls::{d0, d1};
use crate::every::{every_sheet, every_tables};
use crate::making::{attic, kitchen, near_sheet, random_numbers, random_tables, shaped_sheet};
use crate::random::Random;
use crate::word::all_ones;

mod refusals;

/// What the rooms of these tests hold before a call.
const OLD: Word = 1_000_000_000_000_000_003;

/// The kitchen sheet's numbers and tables.
fn kitchen_tables() -> ([u32; 3], Tables) {
    ([7, 3, 1], [vec![3, 5, 6], vec![7], vec![7]])
}

/// What `to_sheet` makes in a room of this size; checks that a refused call leaves the room
/// as it was.
fn made(nkl: [u32; 3], tables: &Tables, size: usize) -> Result<Vec<Word>, Refusal> {
    let mut room = vec![OLD; size];
    let told = to_sheet(nkl, tables, &mut room);
    if told.is_err() {
        assert_eq!(room, vec![OLD; size]);
    }
    told.map(|answer| {
        assert_eq!(answer, Answer::Done);
        room
    })
}

/// What `to_tables` gives in rooms of these sizes; checks that a refused call leaves the
/// rooms as they were.
fn given(sheet: &Sheet, sizes: [usize; 3]) -> Result<Tables, Refusal> {
    let mut rooms = sizes.map(|size| vec![OLD; size]);
    let told = to_tables(sheet, &mut rooms);
    if told.is_err() {
        assert_eq!(rooms, sizes.map(|size| vec![OLD; size]));
    }
    told.map(|answer| {
        assert_eq!(answer, Answer::Done);
        rooms
    })
}

/// The tables of a sheet in rooms of the right sizes.
fn tables_of(sheet: &Sheet) -> Result<Tables, Refusal> {
    given(sheet, [sheet.k, sheet.l, sheet.l].map(|size| size as usize))
}

/// The sheet that these tables make, in a room of the right size.
fn sheet_of(nkl: [u32; 3], tables: &Tables) -> Sheet {
    let [n, k, l] = nkl;
    let rows = made(nkl, tables, (n + k) as usize).expect("a sheet");
    Sheet { n, k, l, rows }
}

/// Checks that tables make an admitted sheet, and that it gives them back.
fn check_tables(nkl: [u32; 3], tables: &Tables) {
    let sheet = sheet_of(nkl, tables);
    assert!(admit(&sheet).is_ok(), "{sheet:?}");
    assert_eq!(tables_of(&sheet).as_ref(), Ok(tables));
}

/// A row as it is printed, column 0 first, blocks apart.
fn printed(rows: &[&str]) -> Vec<Word> {
    let bit = |(c, digit): (usize, char)| Word::from(digit == '1') << c;
    let cells = |row: &&str| {
        let digits = row.chars().filter(|digit| *digit != ' ');
        digits.enumerate().map(bit).sum()
    };
    rows.iter().map(cells).collect()
}

/// The bench sheets of document 01 are made from their tables, all rows alike; columns of
/// no width have rows that are 0.
#[test]
fn bench_sheets() {
    let (nkl, tables) = kitchen_tables();
    assert_eq!(sheet_of(nkl, &tables), kitchen());
    assert_eq!(tables_of(&kitchen()), Ok(tables));
    let tables = [vec![0], vec![1, 1], vec![0, 0]];
    assert_eq!(sheet_of([3, 1, 2], &tables), attic());
    assert_eq!(tables_of(&attic()), Ok(tables));
}

/// The example of document 002 with 15 cells: G1, G0, H and M as printed, but for the last
/// row of H, which is printed with a digit too many. It has d1 = 3 and d0 = 4.
#[test]
fn example_of_document_002() {
    let p = ["1100", "0110", "0011", "1101", "1010", "0101"];
    let big_r = ["110010", "011001", "011110", "101111", "100101"];
    let q = ["1110", "0111", "1101", "0110", "1101"];
    let tables = [printed(&p), printed(&big_r), printed(&q)];
    let sheet = sheet_of([15, 6, 5], &tables);
    let parts = admit(&sheet).expect("an admitted sheet");
    assert_eq!(parts.g1[3], printed(&["000100 00000 1101"])[0]);
    assert_eq!(parts.g0[4], printed(&["100101 00001 1101"])[0]);
    let h = [
        "100110 10111 1000",
        "110101 11100 0100",
        "011010 11110 0010",
        "001101 01111 0001",
    ];
    assert_eq!(parts.h, printed(&h));
    let m = [
        "100000 10011 0000",
        "010000 11100 0000",
        "001000 01110 0000",
        "000100 00111 0000",
        "000010 10110 0000",
        "000001 01011 0000",
    ];
    assert_eq!(parts.m, printed(&m));
    let far = |told| match told {
        Ok(Answer::D0(measured) | Answer::D1 { measured, .. }) => measured.distance,
        _ => None,
    };
    assert_eq!((far(d1(&sheet, 8)), far(d0(&sheet, 8))), (Some(3), Some(4)));
}

/// All tables of up to 6 cells make a sheet that is admitted and gives them back.
#[test]
fn every_small_choice_of_tables() {
    let mut count = 0;
    for n in 1..=6 {
        for k in 1..=n {
            for l in 0..=n - k {
                for tables in every_tables(n, k, l, 0) {
                    check_tables([n, k, l], &tables);
                    count += 1;
                }
            }
        }
    }
    assert!(count > 10_000, "{count}");
}

/// Random tables of any size do too, and so do all ones at the widest sheets: no l, no r,
/// one row of each group, and about as many of each.
#[test]
fn larger_tables() {
    let mut random = Random::new(91);
    for _ in 0..2000 {
        let (n, k, l) = random_numbers(&mut random);
        let tables = random_tables(&mut random, n, k, l);
        check_tables([n, k, l], &tables);
    }
    for n in [32, 63, 64] {
        let (last, third) = (n - 1, n / 3);
        let some = [(1, 0), (1, 1), (third, third + 1)];
        for (k, l) in [(n, 0), (1, last), (last, 1), (last, 0)]
            .into_iter()
            .chain(some)
        {
            let r = n - k - l;
            let ones = |(rows, columns): (u32, u32)| vec![all_ones(columns); rows as usize];
            check_tables([n, k, l], &[(k, r), (l, k), (l, r)].map(ones));
        }
    }
}

/// Another account of the shape: the first k + l cells of G1 are those of the unit rows,
/// and of G0 the l cells from k on.
fn has_shape(sheet: &Sheet) -> bool {
    let (k, l) = (sheet.k, sheet.l);
    let low = |cells: u32| (1u128 << cells) - 1;
    let part = |row: Word, mask: u128| u128::from(row) & mask;
    let g1 = (0..k).all(|i| part(sheet.rows[i as usize], low(k + l)) == 1 << i);
    let own = low(k + l) - low(k);
    g1 && (k..k + l).all(|cell| part(sheet.rows[cell as usize], own) == 1 << cell)
}

/// Another account of the tables: the rows of G1 and G0 moved down, and the low cells of
/// G0.
fn moved_down(sheet: &Sheet) -> Tables {
    let (k, l) = (sheet.k as usize, sheet.l as usize);
    let down = |row: &Word| (u128::from(*row) >> (k + l)) as Word;
    let low = |row: &Word| (u128::from(*row) & ((1 << k) - 1)) as Word;
    let (g1, g0) = sheet.rows[..k + l].split_at(k);
    [
        g1.iter().map(down).collect(),
        g0.iter().map(low).collect(),
        g0.iter().map(down).collect(),
    ]
}

/// Checks an admitted sheet against the other account; answers whether it has the shape.
fn check_shape(sheet: &Sheet) -> bool {
    let shaped = has_shape(sheet);
    let wanted = match shaped {
        true => Ok(moved_down(sheet)),
        false => Err(bare(24)),
    };
    assert_eq!(tables_of(sheet), wanted, "{sheet:?}");
    shaped
}

/// Every admitted sheet of up to 3 cells gives its tables if it has the shape, and is
/// refusal 24 if not, whatever H and M are.
#[test]
fn every_small_sheet() {
    let (mut shaped, mut others) = (0, 0);
    for (n, k) in [(1, 1), (2, 1), (2, 2), (3, 1), (3, 2), (3, 3)] {
        for l in 0..=n - k {
            let admitted = every_sheet(n, k, l, 1 << n).filter(|sheet| admit(sheet).is_ok());
            for sheet in admitted {
                match check_shape(&sheet) {
                    true => shaped += 1,
                    false => others += 1,
                }
            }
        }
    }
    assert!(shaped > 50 && others > 500, "{shaped} {others}");
}

/// The same of larger sheets, of the shape and few steps from it.
#[test]
fn larger_sheets() {
    let mut random = Random::new(92);
    let mut others = 0;
    for _ in 0..2000 {
        assert!(check_shape(&shaped_sheet(&mut random)));
        others += u32::from(!check_shape(&near_sheet(&mut random)));
    }
    assert!(others > 500, "{others}");
}

/// Only G1 and G0 are looked at: the kitchen sheet with another H, or another M, gives the
/// same tables, and they make the kitchen sheet again.
#[test]
fn another_h_or_m() {
    let (nkl, tables) = kitchen_tables();
    let mut sheet = kitchen();
    sheet.rows[4] = 27 ^ 45;
    assert_eq!(tables_of(&sheet), Ok(tables.clone()));
    sheet.rows[9] = 12 ^ 45;
    assert_eq!(tables_of(&sheet), Ok(tables.clone()));
    assert_eq!(sheet_of(nkl, &tables), kitchen());
}

/// Each of the three blocks that the shape fixes is looked at: one step that keeps the
/// sheet admitted and changes the I of G1, its 0, or the I of G0, is refusal 24.
#[test]
fn other_shapes() {
    let (nkl, tables) = ([5, 2, 2], [vec![1, 0], vec![3, 1], vec![0, 1]]);
    let sheet = sheet_of(nkl, &tables);
    let with = |changes: &[(usize, usize)]| {
        let mut other = sheet.clone();
        for (to, from) in changes {
            other.rows[*to] ^= other.rows[*from];
        }
        assert!(admit(&other).is_ok());
        tables_of(&other)
    };
    assert_eq!(with(&[]), Ok(tables));
    assert_eq!(with(&[(0, 1), (6, 5)]), Err(bare(24)));
    assert_eq!(with(&[(1, 2)]), Err(bare(24)));
    assert_eq!(with(&[(3, 2)]), Err(bare(24)));
}
