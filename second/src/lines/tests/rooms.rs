//! Tests of whole lines about tables: sheets made and tables given back, refusals with what
//! the rooms hold, and lines that are no calls.

use super::*;

/// `tosheet` for the kitchen sheet, without the room.
const KITCHEN_TABLES: &str = "tosheet 7 3 1 3 3 5 6 1 7 1 7";

/// Calls that make a sheet, and their answers: good ones, wrong sizes, stray bits, the order
/// of the two, and numbers at their limits.
const MADE: [(&str, &str); 25] = [
    (
        "tosheet 7 3 1 3 3 5 6 1 7 1 7 10 0",
        "done room 10 49 82 100 127 27 45 78 9 10 12",
    ),
    (
        "tosheet 7 3 1 3 3 5 6 1 7 1 7 010 4294967295",
        "done room 10 49 82 100 127 27 45 78 9 10 12",
    ),
    (
        "tosheet 8 3 1 3 11 13 14 1 7 1 15 11 9",
        "done room 11 177 210 228 255 27 45 78 135 9 10 12",
    ),
    ("tosheet 3 1 2 1 0 2 1 1 2 0 0 4 9", "done room 4 1 3 5 7"),
    ("tosheet 1 1 0 1 0 0 0 2 0", "done room 2 1 1"),
    ("tosheet 2 1 0 1 1 0 0 3 0", "done room 3 3 3 1"),
    ("tosheet 2 1 1 1 0 1 1 1 0 3 0", "done room 3 1 3 3"),
    (
        "tosheet 7 3 1 3 3 5 6 1 7 1 7 9 4",
        "refused 1 room 9 4 4 4 4 4 4 4 4 4",
    ),
    ("tosheet 7 3 1 3 3 5 6 1 7 1 7 0 4", "refused 1 room 0"),
    (
        "tosheet 7 3 1 3 3 5 8 1 7 1 7 2 4294967295",
        "refused 1 room 2 4294967295 4294967295",
    ),
    (
        "tosheet 7 3 1 3 3 5 8 1 8 1 8 10 4",
        "refused 2 2 room 10 4 4 4 4 4 4 4 4 4 4",
    ),
    (
        "tosheet 7 3 1 3 3 5 6 1 8 1 8 10 4",
        "refused 2 3 room 10 4 4 4 4 4 4 4 4 4 4",
    ),
    (
        "tosheet 7 3 1 3 3 5 6 1 7 1 8 10 4",
        "refused 2 4 room 10 4 4 4 4 4 4 4 4 4 4",
    ),
    ("tosheet 1 1 0 1 1 0 0 2 6", "refused 2 0 room 2 6 6"),
    ("tosheet 2 1 1 1 0 1 0 1 1 3 6", "refused 2 2 room 3 6 6 6"),
    ("tosheet 2 1 1 1 0 0 1 0 3 6", "refused 1 room 3 6 6 6"),
    ("tosheet 0 0 0 0 0 0 0 0", "refused 1 room 0"),
    ("tosheet 1 0 0 0 0 0 1 7", "refused 1 room 1 7"),
    ("tosheet 1 1 4294967295 1 0 0 0 2 0", "refused 1 room 2 0 0"),
    (
        "tosheet 7 4294967295 4 0 0 0 6 1",
        "refused 1 room 6 1 1 1 1 1 1",
    ),
    ("tosheet 4294967295 1 0 1 0 0 0 0 7", "refused 1 room 0"),
    ("tosheet 33 1 0 1 0 0 0 3 7", "refused 1 room 3 7 7 7"),
    ("tosheet 65 1 0 1 0 0 0 3 7", "refused 1 room 3 7 7 7"),
    (
        "tosheet 2 1 0 1 4294967296 0 0 3 4294967296",
        "refused 2 0 room 3 4294967296 4294967296 4294967296",
    ),
    (
        "tosheet 2 1 0 1 18446744073709551615 0 0 1 18446744073709551615",
        "refused 1 room 1 18446744073709551615",
    ),
];

/// Sheets asked for their tables, the rooms, and the answers: another H, rooms of wrong
/// sizes, also with a stray bit, sheets that are not admitted, another shape, and too few
/// rows.
const GIVEN: [(&str, &str, &str); 12] = [
    (KITCHEN, "3 9 1 9 1 9", "done P 3 3 5 6 R 1 7 Q 1 7"),
    (
        "7 3 1 10 49 82 100 127 54 45 78 9 10 12",
        "3 9 1 9 1 9",
        "done P 3 3 5 6 R 1 7 Q 1 7",
    ),
    (ATTIC, "1 9 2 8 2 7", "done P 1 0 R 2 1 1 Q 2 0 0"),
    ("1 1 0 2 1 1", "1 9 0 9 0 9", "done P 1 0 R 0 Q 0"),
    (CHIP, "3 0 1 0 1 0", "done P 3 11 13 14 R 1 7 Q 1 15"),
    (
        KITCHEN,
        "3 9 1 8 2 4294967295",
        "refused 1 P 3 9 9 9 R 1 8 Q 2 4294967295 4294967295",
    ),
    (KITCHEN, "0 9 0 8 0 7", "refused 1 P 0 R 0 Q 0"),
    (
        "7 3 1 10 128 82 100 127 27 45 78 9 10 12",
        "2 9 1 9 1 9",
        "refused 1 P 2 9 9 R 1 9 Q 1 9",
    ),
    (
        "7 3 1 10 177 82 100 127 27 45 78 9 10 12",
        "3 9 1 9 1 9",
        "refused 2 0 P 3 9 9 9 R 1 9 Q 1 9",
    ),
    (
        "7 3 1 10 48 82 100 127 27 45 78 9 10 12",
        "3 9 1 8 1 7",
        "refused 3 0 P 3 9 9 9 R 1 8 Q 1 7",
    ),
    (
        "7 3 1 10 78 82 100 127 27 45 78 9 10 12",
        "3 9 1 9 1 9",
        "refused 24 P 3 9 9 9 R 1 9 Q 1 9",
    ),
    (
        "7 3 1 3 3 5 6",
        "1 7 1 7 10 0",
        "refused 1 P 1 7 R 1 7 Q 10 0 0 0 0 0 0 0 0 0 0",
    ),
];

/// Every call about tables is answered as request 4 says.
#[test]
fn table_calls() {
    for (line, wanted) in MADE {
        assert_eq!(answered(line).as_deref(), Some(wanted), "{line}");
    }
    for (sheet, rooms, wanted) in GIVEN {
        let line = format!("totables {sheet} {rooms}");
        assert_eq!(answered(&line).as_deref(), Some(wanted), "{line}");
    }
}

/// The place of a room's size holds 4,096 and no more; the room's contents are told all the
/// same, be the answer longer than a line may be.
#[test]
fn largest_rooms() {
    let fill = Word::MAX.to_string();
    let room = counted(4_096, &fill);
    let line = format!("{KITCHEN_TABLES} 4096 {fill}");
    assert_eq!(answered(&line), Some(format!("refused 1 room {room}")));
    let line = format!("totables {KITCHEN} 4096 {fill} 04096 {fill} 4096 {fill}");
    let wanted = format!("refused 1 P {room} R {room} Q {room}");
    assert!(wanted.len() > ROOM_FOR_LINE);
    assert_eq!(answered(&line), Some(wanted));
    for size in [
        "4097",
        "04097",
        "65536",
        "4294967295",
        "4294967296",
        "4294967306",
    ] {
        for line in [
            format!("{KITCHEN_TABLES} {size} 0"),
            format!("totables {KITCHEN} {size} 0 1 0 1 0"),
            format!("totables {KITCHEN} 3 0 {size} 0 1 0"),
            format!("totables {KITCHEN} 3 0 1 0 {size} 0"),
            format!("totables 7 3 1 0 3 0 1 0 {size} 0"),
        ] {
            assert_eq!(answered(&line).as_deref(), Some(UNKNOWN), "{line}");
        }
    }
}

/// Lines that are no calls: tokens missing or left over, counts that lie, numbers that their
/// places cannot hold, and other verbs.
#[test]
fn table_lines_that_are_no_calls() {
    let kitchen_rooms = format!("totables {KITCHEN} 3 9 1 9 1 9");
    for line in [
        "tosheet",
        "tosheet 7",
        "tosheet 7 3 1",
        "tosheet 7 3 1 3 3 5 6",
        "tosheet 7 3 1 3 3 5 6 1 7",
        "tosheet 7 3 1 3 3 5 6 1 7 1 7",
        "tosheet 7 3 1 3 3 5 6 1 7 1 7 10",
        "tosheet 7 3 1 3 3 5 6 1 7 1 7 10 0 0",
        "tosheet 7 3 1 3 3 5 6 1 7 1 7 10 18446744073709551616",
        "tosheet 7 3 1 3 3 5 18446744073709551616 1 7 1 7 10 0",
        "tosheet 7 3 4294967296 3 3 5 6 1 7 1 7 10 0",
        "tosheet 4294967303 3 1 3 3 5 6 1 7 1 7 10 0",
        "tosheet 7 3 1 4 3 5 6 1 7 1 7 10 0",
        "tosheet 7 3 1 4294967299 3 5 6 1 7 1 7 10 0",
        "tosheet 7 3 1 3 3 5 6 4294967295 7 1 7 10 0",
        "tosheet 7 3 1 3 3 5 6 1 7 0 7 10 0",
        "Tosheet 7 3 1 3 3 5 6 1 7 1 7 10 0",
        "tosheets 7 3 1 3 3 5 6 1 7 1 7 10 0",
        "tosheet 7 3 1 10 49 82 100 127 27 45 78 9 10 12 3 9 1 9 1 9",
        &kitchen_rooms[..kitchen_rooms.len() - 2],
        &kitchen_rooms[..kitchen_rooms.len() - 4],
        &format!("{kitchen_rooms} 0"),
        &format!("{kitchen_rooms} 0 0"),
        &format!("totables {KITCHEN}"),
    ] {
        assert_eq!(answered(line).as_deref(), Some(UNKNOWN), "{line}");
    }
}

/// A table may be as long as its line has room for.
#[test]
fn longest_tables() {
    let long = counted(65_000, "0");
    for line in [
        format!("tosheet 7 3 1 {long} 1 7 1 7 2 6"),
        format!("tosheet 7 3 1 3 3 5 6 {long} 1 7 2 6"),
        format!("tosheet 7 3 1 3 3 5 6 1 7 {long} 2 6"),
    ] {
        assert!(line.len() <= ROOM_FOR_LINE);
        assert_eq!(answered(&line).as_deref(), Some("refused 1 room 2 6 6"));
    }
}
