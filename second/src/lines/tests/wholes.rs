//! Tests of whole lines about whole pages: good calls, notes, refusals with what page and
//! notes hold, the longest pages, and lines that are no calls.

use super::*;

/// Sheet, arguments and answer of whole-page writes: those of the bench, each refusal and the
/// order of them, notes, records of no slot, and numbers at their limits.
const WHOLES: [(&str, &str, &str); 42] = [
    (
        KITCHEN,
        "3 3 1 2 3 0 3 5 6 7 3 77",
        "done page 3 85 54 7 notes 3 0 0 0",
    ),
    (
        KITCHEN,
        "3 3 1 2 3 2 0 0 0 0 1 0 3 5 8 7 3 77",
        "done page 3 1 2 7 notes 3 9 7 0",
    ),
    (
        KITCHEN,
        "3 3 1 2 3 2 1 7 0 2 0 2 3 5 8 9 3 77",
        "done page 3 85 2 3 notes 3 0 15 15",
    ),
    (
        KITCHEN,
        "3 3 1 2 3 0 2 5 6 3 77",
        "refused 25 page 3 1 2 3 notes 3 77 77 77",
    ),
    (
        KITCHEN,
        "3 3 1 2 3 0 3 5 6 7 2 77",
        "refused 25 page 3 1 2 3 notes 2 77 77",
    ),
    (KITCHEN, "3 0 0 0 0 0", "done page 0 notes 0"),
    (
        "7 6 0 13 13 21 6 76 22 69 32 15 73 91 7 89 71",
        "1 8 119 7 30 10 8 31 9 3 6 4 0 1 4 5 0 4 3 1 4 5 0 6 3 1 1 6 1 8 30 128 15 60 63 51 11 33 8 77",
        "done page 8 73 7 82 25 8 75 9 72 notes 8 0 7 0 0 9 0 9 0",
    ),
    (
        "5 5 0 10 29 4 16 3 18 8 12 19 9 11",
        "4294967295 1 17 4 0 4 3 0 2 0 0 0 0 0 4 0 1 25 1 0",
        "refused 16 page 1 17 notes 1 0",
    ),
    ("1 1 0 2 1 1", "2 2 1 1 0 2 1 0 2 0", "done page 2 1 0 notes 2 0 0"),
    (
        "3 1 2 4 1 3 6 7",
        "1 1 1 4 0 0 1 0 1 0 0 2 0 0 2 0 1 0 1 77",
        "done page 1 1 notes 1 9",
    ),
    (KITCHEN, "3 1 6 0 1 5 1 0", "done page 1 85 notes 1 0"),
    (
        KITCHEN,
        "9 1 18446744073709551615 0 1 7 1 18446744073709551615",
        "done page 1 7 notes 1 0",
    ),
    (
        KITCHEN,
        "1 1 18446744073709551615 0 1 18446744073709551615 1 15",
        "done page 1 18446744073709551615 notes 1 7",
    ),
    (KITCHEN, "3 1 6 1 0 0 0 1 5 1 9", "done page 1 42 notes 1 0"),
    (
        KITCHEN,
        "3 2 6 6 2 1 0 0 1 0 0 2 5 5 2 9",
        "done page 2 85 42 notes 2 0 0",
    ),
    (
        KITCHEN,
        "3 2 6 6 2 1 0 0 1 0 1 2 5 5 2 9",
        "done page 2 85 6 notes 2 0 15",
    ),
    (KITCHEN, "3 1 6 1 0 7 0 1 5 1 0", "done page 1 6 notes 1 15"),
    (KITCHEN, "3 1 6 1 0 0 2 1 5 1 0", "done page 1 6 notes 1 15"),
    (KITCHEN, "3 1 6 1 0 0 0255 1 5 1 0", "done page 1 6 notes 1 15"),
    (
        KITCHEN,
        "3 1 6 1 0 4294967295 0 1 5 1 0",
        "done page 1 6 notes 1 15",
    ),
    (KITCHEN, "3 1 6 1 1 99 255 1 5 1 0", "done page 1 85 notes 1 0"),
    (
        KITCHEN,
        "3 1 6 2 4294967295 9 9 256 9 9 1 5 1 0",
        "done page 1 85 notes 1 0",
    ),
    (KITCHEN, "3 1 6 1 0 7 0 1 8 1 0", "done page 1 6 notes 1 15"),
    (KITCHEN, "3 1 6 2 0 0 0 0 1 0 1 8 1 0", "done page 1 6 notes 1 7"),
    (KITCHEN, "3 1 6 2 0 0 0 0 1 0 1 5 1 0", "done page 1 6 notes 1 9"),
    (ATTIC, "1 1 6 1 0 0 0 1 1 1 3", "done page 1 2 notes 1 0"),
    (
        ATTIC,
        "1 3 6 6 6 6 2 0 0 0 0 0 1 0 0 2 1 0 1 1 0 1 2 0 3 1 1 1 3 5",
        "done page 3 2 6 4 notes 3 0 9 0",
    ),
    (CHIP, "4 2 0 0 0 2 5 5 2 1", "done page 2 85 85 notes 2 0 0"),
    (KITCHEN, "3 0 0 1 5 0 7", "refused 25 page 0 notes 0"),
    (KITCHEN, "3 0 0 0 1 7", "refused 25 page 0 notes 1 7"),
    (KITCHEN, "3 1 6 0 2 5 5 1 7", "refused 25 page 1 6 notes 1 7"),
    (KITCHEN, "3 1 6 0 1 5 2 7", "refused 25 page 1 6 notes 2 7 7"),
    (KITCHEN, "3 1 6 0 0 0 7", "refused 25 page 1 6 notes 0"),
    (KITCHEN, "3 1 6 0 2 5 5 2 7", "refused 25 page 1 6 notes 2 7 7"),
    (
        KITCHEN,
        "3 1 6 1 0 9 9 2 8 8 1 7",
        "refused 25 page 1 6 notes 1 7",
    ),
    (KITCHEN, "0 1 6 0 1 5 1 7", "refused 16 page 1 6 notes 1 7"),
    (KITCHEN, "10 1 6 0 2 5 5 1 7", "refused 16 page 1 6 notes 1 7"),
    (KITCHEN, "0 0 0 0 1 7", "refused 16 page 0 notes 1 7"),
    ("7 3 1 0", "0 1 6 0 0 1 7", "refused 1 page 1 6 notes 1 7"),
    (
        "7 3 1 10 49 82 100 127 27 45 206 9 10 12",
        "3 2 6 6 0 2 5 5 2 7",
        "refused 2 6 page 2 6 6 notes 2 7 7",
    ),
    (
        "7 3 1 10 49 82 100 126 27 45 78 9 10 12",
        "10 1 6 0 0 0 7",
        "refused 3 3 page 1 6 notes 0",
    ),
    (
        "7 3 1 10 49 82 100 127 27 45 54 9 10 12",
        "0 0 0 0 0 7",
        "refused 6 6 page 0 notes 0",
    ),
];

/// Arguments of lines about whole pages that are no calls: tokens missing or left over, a room
/// that lacks its fill, numbers that their places cannot hold, and counts that lie.
const NO_CALLS: [&str; 36] = [
    "",
    " 3",
    " 3 1",
    " 3 1 6",
    " 3 1 6 0",
    " 3 1 6 0 1",
    " 3 1 6 0 1 5",
    " 3 1 6 0 1 5 1",
    " 3 1 6 0 1 5 1 0 0",
    " 3 1 6 0 1 5 1 0 1 0",
    " 3 0 0 0 0",
    " 3 0 0 0",
    " 3 1 6 0 0 5",
    " 3 1 6 0 1 5 4097 0",
    " 3 1 6 0 1 5 04097 0",
    " 3 1 6 0 1 5 65536 0",
    " 3 1 6 0 1 5 4294967295 0",
    " 3 1 6 0 1 5 4294967297 0",
    " 0 0 0 0 4097 0",
    " 4294967299 1 6 0 1 5 1 0",
    " 3 1 18446744073709551616 0 1 5 1 0",
    " 3 1 6 0 1 18446744073709551616 1 0",
    " 3 1 6 0 1 5 1 18446744073709551616",
    " 3 1 6 1 0 0 256 1 5 1 0",
    " 3 1 6 1 9 0 256 1 5 1 0",
    " 3 1 6 1 4294967296 0 0 1 5 1 0",
    " 3 1 6 1 0 4294967296 0 1 5 1 0",
    " 3 2 6 0 1 5 1 0",
    " 3 1 6 1 0 1 5 1 0",
    " 3 1 6 1431655766 0 0 0 1 5 1 0",
    " 3 1 6 0 2 5 1 0",
    " 3 1 6 0 4294967297 5 1 0",
    " 3 1 6 0 4294967295 5 1 0",
    " 3 4294967297 6 0 1 5 1 0",
    " 3 1 6 0 1 5 1 x",
    " 3 1 6 0 1 5 1 0 ",
];

/// Every whole-page write is answered as request 7 says.
#[test]
fn whole_page_calls() {
    for (sheet, arguments, wanted) in WHOLES {
        let line = format!("wpage {sheet} {arguments}");
        assert_eq!(answered(&line).as_deref(), Some(wanted), "{line}");
    }
}

/// Lines about whole pages that are no calls are answered `unknown`, and so are other verbs.
#[test]
fn whole_page_lines_that_are_no_calls() {
    for arguments in NO_CALLS {
        let line = format!("wpage {KITCHEN}{arguments}");
        assert_eq!(answered(&line).as_deref(), Some(UNKNOWN), "{line}");
    }
    for verb in ["Wpage", "wpages", "wpag", "pwrite", "pread", "page"] {
        let line = format!("{verb} {KITCHEN} 3 1 6 0 1 5 1 0");
        assert_eq!(answered(&line).as_deref(), Some(UNKNOWN), "{line}");
    }
}

/// The longest pages: 2,048 slots and 256 records are taken, one more of either is refusal 13,
/// before 25, after 16, and with as much as the room for a line has. The room for the notes
/// may have 4,096 entries, and is told with a refusal all the same.
#[test]
fn longest_whole_pages() {
    let (most, held) = (u32::MAX.to_string(), Word::MAX.to_string());
    let other = format!("{most} {most} 255");
    for (number, slots, records, messages, size, wanted) in [
        (3, 2_048, 256, 2_048, 2_048, "done"),
        (3, 2_049, 256, 2_049, 2_049, "refused 13"),
        (3, 2_048, 257, 2_048, 2_048, "refused 13"),
        (3, 2_049, 257, 1, 4_096, "refused 13"),
        (3, 0, 257, 0, 0, "refused 13"),
        (3, 0, 257, 1, 1, "refused 13"),
        (3, 0, 256, 0, 0, "done"),
        (3, 2_048, 256, 2_047, 2_048, "refused 25"),
        (3, 2_048, 256, 2_049, 2_048, "refused 25"),
        (3, 2_048, 256, 2_048, 2_047, "refused 25"),
        (3, 2_048, 256, 2_048, 2_049, "refused 25"),
        (3, 2_048, 0, 2_048, 4_096, "refused 25"),
        (3, 1, 0, 1, 4_096, "refused 25"),
        (3, 0, 0, 6_000, 4_096, "refused 25"),
        (3, 6_000, 0, 0, 4_096, "refused 13"),
        (3, 1, 4_900, 1, 1, "refused 13"),
        (10, 2_049, 257, 1, 4_096, "refused 16"),
        (0, 0, 257, 0, 0, "refused 16"),
    ] {
        let page = counted(slots, &held);
        let (list, told) = (counted(records, &other), counted(messages, "5"));
        let line = format!("wpage {KITCHEN} {number} {page} {list} {told} {size} {held}");
        assert!(line.len() <= ROOM_FOR_LINE);
        let (page, notes) = match wanted {
            "done" => (counted(slots, "85"), counted(size, "0")),
            _ => (page, counted(size, &held)),
        };
        let whole = format!("{wanted} page {page} notes {notes}");
        assert_eq!(answered(&line), Some(whole));
    }
}

/// A slot's note and word on a long page do not depend on its place: every third slot of 2,048
/// is refused for its message, and 256 slots from the last on down have a record.
#[test]
fn slots_of_a_long_page() {
    let refused = |slot: usize| slot % 3 == 1;
    let with_record = |slot: usize| slot >= 2_048 - 256;
    let messages: Vec<Word> = (0..2_048).map(|s| 5 + 3 * Word::from(refused(s))).collect();
    let records: String = (2_048 - 256..2_048).map(|s| format!(" {s} 0 0")).collect();
    let line = format!(
        "wpage {KITCHEN} 3 {} 256{records} {} 2048 9",
        counted(2_048, "6"),
        list_text(&messages)
    );
    let word = |slot: usize| match (refused(slot), with_record(slot)) {
        (true, _) => 6,
        (false, true) => 42,
        (false, false) => 85,
    };
    let page: Vec<Word> = (0..2_048).map(word).collect();
    let notes: Vec<Word> = (0..2_048).map(|s| 7 * Word::from(refused(s))).collect();
    let wanted = format!("done page {} notes {}", list_text(&page), list_text(&notes));
    assert_eq!(answered(&line), Some(wanted));
}

/// A whole page is answered as the single writes made in slot order are, each on the page that
/// the last one left; a refused one leaves its number.
#[test]
fn single_writes_in_order() {
    let records = "5 1 0 0 2 0 0 2 1 0 3 7 0 4 6 0";
    let messages = [5, 5, 5, 5, 9, 6];
    let (mut page, mut notes) = ("6 1 2 3 4 5 6".to_string(), Vec::new());
    for (slot, message) in messages.iter().enumerate() {
        let line = format!("pwrite {KITCHEN} 3 {page} {records} {slot} {message}");
        let answer = answered(&line).expect("an answer");
        let (told, after) = answer.split_once(" page ").expect("a page");
        let refusal = told.strip_prefix("refused ").map(|tail| tail.split(' '));
        let number = refusal.and_then(|mut tokens| tokens.next()).unwrap_or("0");
        notes.push(number.parse::<Word>().expect("a number"));
        page = after.to_string();
    }
    assert_eq!(notes, [0, 0, 9, 15, 7, 0]);
    let whole = format!(
        "wpage {KITCHEN} 3 6 1 2 3 4 5 6 {records} {} 6 77",
        list_text(&messages)
    );
    let wanted = format!("done page {page} notes {}", list_text(&notes));
    assert_eq!(answered(&whole), Some(wanted));
}
