//! Tests of whole lines about pages: good calls, refusals, the longest pages, and lines that
//! are no calls.

use super::*;

/// Verb, sheet, arguments and answer of page calls: slots and their limits, records good
/// and bad, the order of refusals, and numbers at their limits.
const PAGES: [(&str, &str, &str, &str); 34] = [
    ("pwrite", KITCHEN, " 3 1 0 0 0 5", "word 85 d 0 page 1 85"),
    (
        "pwrite",
        KITCHEN,
        " 3 3 7 8 9 1 1 0 0 1 5",
        "word 42 d 1 page 3 7 42 9",
    ),
    (
        "pwrite",
        KITCHEN,
        " 9 1 4294967295 0 0 5",
        "word 85 d 0 page 1 85",
    ),
    ("pwrite", KITCHEN, " 3 0 0 0 5", "refused 14 page 0"),
    ("pwrite", KITCHEN, " 3 0 0 0 8", "refused 14 page 0"),
    (
        "pwrite",
        KITCHEN,
        " 3 2 4 4294967295 0 2 5",
        "refused 14 page 2 4 4294967295",
    ),
    (
        "pwrite",
        KITCHEN,
        " 3 1 6 0 4294967295 5",
        "refused 14 page 1 6",
    ),
    (
        "pwrite",
        KITCHEN,
        " 3 1 6 2 0 0 0 0 0 0 0 5",
        "word 42 d 1 page 1 42",
    ),
    (
        "pwrite",
        KITCHEN,
        " 3 1 0 3 0 0 1 0 0 1 0 9 0 0 5",
        "refused 15 2 page 1 0",
    ),
    (
        "pwrite",
        KITCHEN,
        " 3 1 6 2 0 0 0 0 0 1 0 5",
        "refused 15 1 page 1 6",
    ),
    (
        "pwrite",
        KITCHEN,
        " 3 1 6 1 0 0 2 0 5",
        "refused 15 0 page 1 6",
    ),
    (
        "pwrite",
        KITCHEN,
        " 3 1 6 1 0 0 255 0 5",
        "refused 15 0 page 1 6",
    ),
    (
        "pwrite",
        KITCHEN,
        " 3 1 6 1 0 0 0255 0 5",
        "refused 15 0 page 1 6",
    ),
    (
        "pwrite",
        KITCHEN,
        " 3 1 6 1 0 4294967295 0 0 5",
        "refused 15 0 page 1 6",
    ),
    (
        "pwrite",
        KITCHEN,
        " 3 1 6 2 1 4294967295 255 0 7 0 0 5",
        "refused 15 0 page 1 6",
    ),
    (
        "pwrite",
        KITCHEN,
        " 3 2 6 6 2 4294967295 9 9 1 9 9 0 5",
        "word 85 d 0 page 2 85 6",
    ),
    (
        "pwrite",
        KITCHEN,
        " 3 1 6 1 0 7 0 0 8",
        "refused 15 0 page 1 6",
    ),
    ("pwrite", KITCHEN, " 3 1 6 0 0 8", "refused 7 page 1 6"),
    (
        "pwrite",
        KITCHEN,
        " 3 1 6 2 0 0 0 0 1 0 0 8",
        "refused 7 page 1 6",
    ),
    (
        "pwrite",
        KITCHEN,
        " 3 1 6 2 0 0 0 0 1 0 0 5",
        "refused 9 page 1 6",
    ),
    (
        "pwrite",
        "7 3 1 10 49 82 100 126 27 45 78 9 10 12",
        " 3 1 6 1 0 9 9 1 8",
        "refused 3 3 page 1 6",
    ),
    (
        "pwrite",
        "7 3 1 0",
        " 3 2 6 4294967295 0 2 8",
        "refused 1 page 2 6 4294967295",
    ),
    ("pwrite", ATTIC, " 1 1 6 1 0 0 0 0 1", "word 2 d 1 page 1 2"),
    ("pread", KITCHEN, " 3 2 0 21 1 1", "message 5 z 64 tried 8"),
    ("pread", KITCHEN, " 1 1 85 0 0", "message 5 z 0 tried 1"),
    ("pread", KITCHEN, " 3 1 21 0 0", "refused 12 1"),
    ("pread", KITCHEN, " 3 0 0 9", "refused 14"),
    ("pread", KITCHEN, " 3 1 128 1 9", "refused 14"),
    ("pread", KITCHEN, " 3 1 128 4294967295 0", "refused 14"),
    ("pread", KITCHEN, " 3 1 128 0 9", "refused 10 7"),
    ("pread", KITCHEN, " 3 2 4294967295 85 0 4", "refused 10 7"),
    ("pread", KITCHEN, " 3 1 127 0 5", "refused 11"),
    ("pread", KITCHEN, " 3 1 127 0 4294967295", "refused 11"),
    ("pread", "7 3 1 0", " 3 1 128 1 9", "refused 1"),
];

/// Verb and arguments of page lines that are no calls: tokens missing or left over, numbers
/// that their places cannot hold, a level of 256 also in a record of another slot, and counts
/// that lie.
const NO_CALLS: [(&str, &str); 40] = [
    ("pwrite", ""),
    ("pwrite", " 3"),
    ("pwrite", " 3 0"),
    ("pwrite", " 3 0 0"),
    ("pwrite", " 3 1 0 0 5"),
    ("pwrite", " 3 1 0 0 0"),
    ("pwrite", " 3 1 0 0 0 5 0"),
    ("pwrite", " 4294967296 1 0 0 0 5"),
    ("pwrite", " 3 1 18446744073709551616 0 0 5"),
    ("pwrite", " 3 1 0 0 4294967296 5"),
    ("pwrite", " 3 1 0 0 0 18446744073709551616"),
    ("pwrite", " 3 1 0 1 0 0 256 0 5"),
    ("pwrite", " 3 1 0 1 9 0 256 0 5"),
    ("pwrite", " 3 1 0 1 0 0 65536 0 5"),
    ("pwrite", " 3 1 0 1 0 0 4294967295 0 5"),
    ("pwrite", " 3 1 0 1 4294967296 0 0 0 5"),
    ("pwrite", " 3 1 0 1 0 4294967296 0 0 5"),
    ("pwrite", " 3 1 0 1 0 0 0 5"),
    ("pwrite", " 3 1 0 2 0 0 0 0 5"),
    ("pwrite", " 3 1 0 0 0 0 0 0 5"),
    ("pwrite", " 3 1 0 4294967295 0 0 0 0 5"),
    ("pwrite", " 3 1 0 1431655766 0 0 0 0 5"),
    ("pwrite", " 3 1 0 6148914691236517206 0 0 0 0 5"),
    ("pwrite", " 3 4294967295 0 0 0 5"),
    ("pwrite", " 3 4294967297 0 0 0 5"),
    ("pwrite", " 3 2 0 0 0 5"),
    ("pread", ""),
    ("pread", " 3"),
    ("pread", " 3 0 0"),
    ("pread", " 3 1 0 0"),
    ("pread", " 3 1 0 0 1 1"),
    ("pread", " 3 1 0 0 0 1"),
    ("pread", " 3 2 0 0 1"),
    ("pread", " 3 4294967295 0 0 1"),
    ("pread", " 4294967296 1 0 0 1"),
    ("pread", " 3 1 0 4294967296 1"),
    ("pread", " 3 1 0 0 4294967296"),
    ("pread", " 3 1 18446744073709551616 0 1"),
    ("Pread", " 3 1 0 0 1"),
    ("pwrites", " 3 1 0 0 0 5"),
];

/// Every page call is answered as request 1 says; those that request 6 changed are in
/// `numbers`.
#[test]
fn page_calls() {
    for (verb, sheet, arguments, wanted) in PAGES {
        let line = format!("{verb} {sheet}{arguments}");
        assert_eq!(answered(&line).as_deref(), Some(wanted), "{line}");
    }
}

/// Page lines that are no calls are answered `unknown`.
#[test]
fn page_lines_that_are_no_calls() {
    for (verb, arguments) in NO_CALLS {
        let line = format!("{verb} {KITCHEN}{arguments}");
        assert_eq!(answered(&line).as_deref(), Some(UNKNOWN), "{line}");
    }
}

/// The longest pages and lists of records: 2,048 slots and 256 records are taken, one
/// more of either is refusal 13, and so is as much as the room for a line has.
#[test]
fn longest_pages() {
    let (most, held) = (u32::MAX.to_string(), Word::MAX.to_string());
    let other = format!("{most} {most} 255");
    for (slots, records, wanted) in [
        (2_048, 256, "word 85 d 0"),
        (2_049, 256, "refused 13"),
        (2_048, 257, "refused 13"),
        (0, 257, "refused 13"),
        (0, 256, "refused 14"),
        (6_100, 0, "refused 13"),
        (1, 5_000, "refused 13"),
    ] {
        let page = counted(slots, &held);
        let records = counted(records, &other);
        let line = format!("pwrite {KITCHEN} 3 {page} {records} 0 5");
        assert!(line.len() <= ROOM_FOR_LINE);
        let after = match wanted {
            "word 85 d 0" => page.replacen(&held, "85", 1),
            _ => page.clone(),
        };
        let whole = format!("{wanted} page {after}");
        assert_eq!(answered(&line), Some(whole));
        let line = format!("pread {KITCHEN} 3 {page} 0 1");
        let wanted = match slots {
            0 => "refused 14",
            1..=2_048 => "refused 10 7",
            _ => "refused 13",
        };
        assert_eq!(answered(&line).as_deref(), Some(wanted));
    }
}
