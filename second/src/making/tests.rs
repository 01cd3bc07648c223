//! Tests of the sheets made: they are admitted, of every size, and of the shape or near it.

use super::*;
use crate::sheet::{admit, bare};
use crate::tables::{to_sheet, to_tables};

/// Every sheet made is admitted, and every n, l = 0, r = 0, k = 32 and k = 64 come up;
/// about every second one has at most 32 cells.
#[test]
fn made_sheets_are_admitted() {
    let mut random = Random::new(31);
    let mut seen = [0; 65];
    let (mut no_l, mut no_r, mut widest) = (0, 0, [0; 2]);
    for _ in 0..5000 {
        let sheet = some_sheet(&mut random);
        assert!(admit(&sheet).is_ok(), "{sheet:?}");
        seen[sheet.n as usize] += 1;
        no_l += u32::from(sheet.l == 0);
        no_r += u32::from(sheet.k + sheet.l == sheet.n);
        widest[0] += u32::from((sheet.n, sheet.k) == (32, 32));
        widest[1] += u32::from((sheet.n, sheet.k) == (64, 64));
    }
    assert!(seen[1..].iter().all(|times| *times > 0), "{seen:?}");
    assert!(seen[63] > 100 && seen[64] > 400, "{seen:?}");
    let narrow: u32 = seen[..=32].iter().sum();
    assert!((2300..2900).contains(&narrow), "{narrow}");
    assert!(no_l > 0 && no_r > 0 && widest[0] > 0 && widest[1] > 0);
}

/// The first form of a sheet, made from whole words, is the one that the call makes
/// entry by entry.
#[test]
fn first_form_is_that_of_the_call() {
    let mut random = Random::new(32);
    for _ in 0..3000 {
        let (n, k, l) = random_numbers(&mut random);
        let tables = random_tables(&mut random, n, k, l);
        let form = systematic(n, k, l, &tables);
        let mut room = vec![Word::MAX; (n + k) as usize];
        assert!(to_sheet([n, k, l], &tables, &mut room).is_ok());
        assert_eq!(room, [form.g1, form.g0, form.h, form.m].concat());
    }
}

/// Sheets that keep the shape of G1 and G0 give tables, though many have another H or
/// M; of those few steps from it most give none, and some do. All are admitted.
#[test]
fn sheets_of_the_shape_and_near_it() {
    let mut random = Random::new(33);
    let gives = |sheet: &Sheet| {
        let mut rooms = [sheet.k, sheet.l, sheet.l].map(|size| vec![0; size as usize]);
        match to_tables(sheet, &mut rooms) {
            Ok(_) => Some(rooms),
            Err(refusal) => {
                assert_eq!(refusal, bare(24), "{sheet:?}");
                None
            }
        }
    };
    let (mut others, mut near) = (0, 0);
    for _ in 0..2000 {
        let sheet = shaped_sheet(&mut random);
        let tables = gives(&sheet).expect("tables");
        let mut again = vec![0; sheet.rows.len()];
        to_sheet([sheet.n, sheet.k, sheet.l], &tables, &mut again).expect("a sheet");
        others += u32::from(again != sheet.rows);
        near += u32::from(gives(&near_sheet(&mut random)).is_none());
    }
    assert!((500..1500).contains(&others), "{others}");
    assert!((800..1800).contains(&near), "{near}");
}
