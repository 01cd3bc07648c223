//! Tests of whole lines about the plate number: pages opened, refusal 16 and its places in
//! the order, and lines that are no calls.

use super::*;
use crate::making::{repeating, tower};

/// A page opened answers its number: those of the bench sheets, and the number of cells up to
/// 8, or 9 above it, where the codewords are all zeros and all ones.
#[test]
fn pages_opened() {
    for (sheet, wanted) in [
        (KITCHEN, "number 3"),
        (ATTIC, "number 1"),
        (CHIP, "number 4"),
        (&sheet_text(&tower()), "number 2"),
        ("1 1 0 2 1 1", "number 1"),
    ] {
        assert_eq!(answered(&format!("open {sheet}")).as_deref(), Some(wanted));
    }
    for n in (1..=20).chain([33, 64]) {
        let wanted = format!("number {}", n.min(9));
        let line = format!("open {}", sheet_text(&repeating(n)));
        assert_eq!(answered(&line), Some(wanted));
    }
}

/// Opening a page is refused as admitting its sheet is: one sheet for each refusal.
#[test]
fn pages_not_opened() {
    for (sheet, wanted) in [
        ("7 3 1 0", "refused 1"),
        ("65 1 0 0", "refused 1"),
        ("7 3 1 10 49 82 100 127 27 45 206 9 10 12", "refused 2 6"),
        ("7 3 1 10 49 82 100 126 27 45 78 9 10 12", "refused 3 3"),
        ("7 3 1 10 49 82 100 127 27 45 78 1 10 12", "refused 4 3"),
        ("7 3 1 10 49 82 100 0 27 45 78 9 10 12", "refused 5 3"),
        ("7 3 1 10 49 82 100 127 27 45 54 9 10 12", "refused 6 6"),
    ] {
        assert_eq!(answered(&format!("open {sheet}")).as_deref(), Some(wanted));
        assert_eq!(answered(&format!("admit {sheet}")).as_deref(), Some(wanted));
    }
}

/// Verb, sheet, arguments and answer of page calls whose number decides, and of those that
/// are refused before it does: numbers outside 1 to 9, and a radius whose double is below
/// the number, at it and above it.
const NUMBERED: [(&str, &str, &str, &str); 45] = [
    ("pwrite", KITCHEN, " 0 1 6 0 0 5", "refused 16 page 1 6"),
    ("pwrite", KITCHEN, " 1 1 6 0 0 5", "word 85 d 0 page 1 85"),
    ("pwrite", KITCHEN, " 9 1 6 0 0 5", "word 85 d 0 page 1 85"),
    ("pwrite", KITCHEN, " 009 1 6 0 0 5", "word 85 d 0 page 1 85"),
    ("pwrite", KITCHEN, " 10 1 6 0 0 5", "refused 16 page 1 6"),
    ("pwrite", KITCHEN, " 11 1 6 0 0 5", "refused 16 page 1 6"),
    ("pwrite", KITCHEN, " 16 1 6 0 0 5", "refused 16 page 1 6"),
    ("pwrite", KITCHEN, " 259 1 6 0 0 5", "refused 16 page 1 6"),
    ("pwrite", KITCHEN, " 65539 1 6 0 0 5", "refused 16 page 1 6"),
    (
        "pwrite",
        KITCHEN,
        " 2147483651 1 6 0 0 5",
        "refused 16 page 1 6",
    ),
    (
        "pwrite",
        KITCHEN,
        " 4294967295 1 6 0 0 5",
        "refused 16 page 1 6",
    ),
    ("pwrite", KITCHEN, " 0 0 0 0 5", "refused 16 page 0"),
    (
        "pwrite",
        KITCHEN,
        " 0 1 6 1 0 7 0 0 8",
        "refused 16 page 1 6",
    ),
    (
        "pwrite",
        KITCHEN,
        " 10 1 6 2 0 0 0 0 1 0 0 5",
        "refused 16 page 1 6",
    ),
    ("pwrite", "7 3 1 0", " 0 1 6 0 1 8", "refused 1 page 1 6"),
    (
        "pwrite",
        "7 3 1 10 49 82 100 127 27 45 54 9 10 12",
        " 10 0 0 0 5",
        "refused 6 6 page 0",
    ),
    ("pread", KITCHEN, " 0 1 85 0 0", "refused 16"),
    ("pread", KITCHEN, " 10 1 85 0 0", "refused 16"),
    ("pread", KITCHEN, " 11 1 85 0 0", "refused 16"),
    ("pread", KITCHEN, " 257 1 85 0 0", "refused 16"),
    ("pread", KITCHEN, " 65539 1 85 0 1", "refused 16"),
    ("pread", KITCHEN, " 2147483651 1 85 0 0", "refused 16"),
    ("pread", KITCHEN, " 4294967295 1 85 0 0", "refused 16"),
    ("pread", KITCHEN, " 0 0 0 9", "refused 16"),
    ("pread", KITCHEN, " 10 1 128 1 9", "refused 16"),
    ("pread", KITCHEN, " 0 1 128 0 9", "refused 16"),
    ("pread", "7 3 1 0", " 10 1 128 1 9", "refused 1"),
    ("pread", KITCHEN, " 1 1 85 0 0", "message 5 z 0 tried 1"),
    ("pread", KITCHEN, " 2 1 85 0 1", "refused 16"),
    ("pread", KITCHEN, " 3 1 21 0 1", "message 5 z 64 tried 8"),
    ("pread", KITCHEN, " 3 1 86 0 1", "message 2 z 4 tried 4"),
    ("pread", KITCHEN, " 3 1 21 0 2", "refused 16"),
    ("pread", KITCHEN, " 3 1 21 0 4", "refused 16"),
    ("pread", KITCHEN, " 9 1 21 0 4", "message 5 z 64 tried 8"),
    ("pread", KITCHEN, " 8 1 21 0 4", "refused 16"),
    ("pread", KITCHEN, " 3 1 21 1 2", "refused 14"),
    ("pread", KITCHEN, " 3 1 149 0 2", "refused 10 7"),
    ("pread", KITCHEN, " 1 1 21 0 5", "refused 11"),
    ("pread", KITCHEN, " 9 1 21 0 2147483648", "refused 11"),
    ("pread", KITCHEN, " 3 1 21 0 2147483649", "refused 11"),
    ("pread", CHIP, " 4 1 68 0 2", "refused 16"),
    ("pread", CHIP, " 4 1 68 0 1", "refused 12 9"),
    ("pread", CHIP, " 2 1 68 0 1", "refused 16"),
    ("pread", CHIP, " 5 1 68 0 2", "message 1 z 10 tried 14"),
    ("pread", ATTIC, " 1 1 6 0 1", "refused 16"),
];

/// Every call is answered as request 6 says.
#[test]
fn page_calls_with_numbers() {
    for (verb, sheet, arguments, wanted) in NUMBERED {
        let line = format!("{verb} {sheet}{arguments}");
        assert_eq!(answered(&line).as_deref(), Some(wanted), "{line}");
    }
}

/// Refusal 16 for the number comes before 13, with pages and lists of records that are too
/// long; with a good number it is 13, and so it is before a radius that the number forbids.
#[test]
fn number_before_length() {
    for (slots, records) in [(2_049, 0), (1, 257), (0, 257), (2_049, 257)] {
        let (page, list) = (counted(slots, "85"), counted(records, "9 9 9"));
        for (number, wanted) in [(0, 16), (10, 16), (1, 13), (9, 13)] {
            let line = format!("pwrite {KITCHEN} {number} {page} {list} 0 5");
            let whole = format!("refused {wanted} page {page}");
            assert_eq!(answered(&line), Some(whole));
            if slots > 2_048 {
                let line = format!("pread {KITCHEN} {number} {page} 0 4");
                assert_eq!(answered(&line), Some(format!("refused {wanted}")));
            }
        }
    }
}

/// A station's mistake: at radius 4 on the kitchen sheet, whose d1 is 3, other villages are
/// read than were written. With the number that opening gives each such read is refused.
#[test]
fn wrong_villages() {
    let mut wrong = 0;
    for z in 0..128_u32 {
        let page = format!("1 {}", 85 ^ z);
        let read_with = |number: u32| answered(&format!("pread {KITCHEN} {number} {page} 0 4"));
        let told = read_with(9).expect("an answer");
        wrong += u32::from(z.count_ones() <= 4 && !told.starts_with("message 5 "));
        assert_eq!(read_with(3).as_deref(), Some("refused 16"));
    }
    assert!(wrong > 0);
}

/// Calls go by the number that they are handed: on 64 cells and with the right number, 9, and
/// with a number that is wrong too.
#[test]
fn numbers_are_not_measured() {
    let sheet = sheet_text(&repeating(64));
    for (arguments, wanted) in [
        ("9 1 15 0 4", "message 0 z 15 tried 43746"),
        ("8 1 15 0 4", "refused 16"),
        ("1 1 0 0 0", "message 0 z 0 tried 1"),
    ] {
        let line = format!("pread {sheet} {arguments}");
        assert_eq!(answered(&line).as_deref(), Some(wanted));
    }
    let line = format!("pwrite {sheet} 2 1 7 1 0 63 1 0 1");
    let most = Word::MAX;
    let wanted = format!("word {most} d 0 page 1 {most}");
    assert_eq!(answered(&line), Some(wanted));
    let line = format!("pread {ATTIC} 9 1 6 0 4");
    assert_eq!(answered(&line).as_deref(), Some("message 0 z 0 tried 1"));
}

/// Lines about opening a page that are no calls: tokens missing or left over, another verb, a
/// number that its place cannot hold.
#[test]
fn lines_that_open_nothing() {
    for line in [
        "open",
        "open ",
        "open 3",
        "open 3 1 2",
        "open 3 1 2 4 1 3 5",
        "open 3 1 2 4 1 3 5 7 8",
        "open 3 1 2 4 1 3 5 7 ",
        "open  3 1 2 4 1 3 5 7",
        "open 3 1 2 5 1 3 5 7",
        "open 3 1 2 3 1 3 5 7",
        "open 3 1 2 4 1 3 5 18446744073709551616",
        "open 4294967299 1 2 4 1 3 5 7",
        "open 3 1 2 4 1 3 5 x",
        "Open 3 1 2 4 1 3 5 7",
        "opens 3 1 2 4 1 3 5 7",
        "ope 3 1 2 4 1 3 5 7",
    ] {
        assert_eq!(answered(line).as_deref(), Some(UNKNOWN), "{line}");
    }
}
