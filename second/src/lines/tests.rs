//! Tests of whole lines: the bench cases of document 01 as one table, those of request 3
//! as another, and lines that are no calls. Those of request 1 are in `pages`, of request 4
//! in `rooms`, of request 5 in `towers`, of request 6 in `numbers`, and of request 7 in
//! `wholes`.

use super::*;

mod numbers;
mod pages;
mod rooms;
mod towers;
mod wholes;

const KITCHEN: &str = "7 3 1 10 49 82 100 127 27 45 78 9 10 12";
const ATTIC: &str = "3 1 2 4 1 3 5 7";

/// The bench sheet of request 3, with d1 = 4: the kitchen sheet and a cell of parity.
const CHIP: &str = "8 3 1 11 177 210 228 255 27 45 78 135 9 10 12";

/// Verb, sheet, arguments and answer of every bench case of document 01; the last five
/// are of the document's small program, the order of refusals and a sheet of one cell.
const BENCH: [(&str, &str, &str, &str); 34] = [
    ("admit", KITCHEN, "", "admitted"),
    ("admit", ATTIC, "", "admitted"),
    ("write", KITCHEN, " 5 0 0", "word 85 d 0"),
    ("write", KITCHEN, " 5 1 0", "word 42 d 1"),
    ("write", KITCHEN, " 5 3 1", "word 85 d 0"),
    ("write", KITCHEN, " 5 3 0", "refused 9"),
    ("d0", KITCHEN, " 8", "distance 2 tried 8"),
    ("d0", KITCHEN, " 1", "more tried 7"),
    ("d1", KITCHEN, " 8", "distance 3 tried 29 radius 1"),
    ("d1", KITCHEN, " 2", "more tried 28 radius 1"),
    ("read", KITCHEN, " 21 1", "message 5 z 64 tried 8"),
    ("read", KITCHEN, " 21 0", "refused 12 1"),
    ("read", KITCHEN, " 86 1", "message 2 z 4 tried 4"),
    ("write", ATTIC, " 1 1 0", "word 2 d 1"),
    ("write", ATTIC, " 1 3 0", "word 4 d 2"),
    ("write", ATTIC, " 1 7 0", "refused 9"),
    ("write", ATTIC, " 0 7 0", "word 0 d 0"),
    ("d0", ATTIC, " 8", "distance 3 tried 7"),
    ("d1", ATTIC, " 8", "distance 1 tried 1 radius 0"),
    ("write", KITCHEN, " 7 0 0", "word 7 d 0"),
    ("write", KITCHEN, " 8 0 0", "refused 7"),
    ("read", KITCHEN, " 127 0", "message 0 z 0 tried 1"),
    ("read", KITCHEN, " 128 0", "refused 10 7"),
    ("read", KITCHEN, " 21 4", "message 5 z 64 tried 8"),
    ("read", KITCHEN, " 21 5", "refused 11"),
    (
        "admit",
        "7 3 1 10 49 82 100 126 27 45 78 9 10 12",
        "",
        "refused 3 3",
    ),
    (
        "admit",
        "7 3 1 10 49 82 100 0 27 45 78 9 10 12",
        "",
        "refused 5 3",
    ),
    (
        "admit",
        "7 3 1 10 49 82 100 127 27 45 78 1 10 12",
        "",
        "refused 4 3",
    ),
    (
        "admit",
        "7 3 1 10 49 82 100 127 27 45 54 9 10 12",
        "",
        "refused 6 6",
    ),
    ("read", KITCHEN, " 42 1", "message 5 z 0 tried 1"),
    ("write", KITCHEN, " 5 128 1", "refused 8 0"),
    ("write", KITCHEN, " 8 128 1", "refused 7"),
    ("read", "1 1 0 2 1 1", " 1 4", "message 1 z 0 tried 1"),
    ("d0", "1 1 0 2 1 1", " 0", "refused 11"),
];

/// Verb, sheet, arguments and answer of request 3's bench case: its plate at caps below,
/// at and above d1, and a word that two errors turn into one that is read wrongly at
/// radius 2, which the plate no longer prints.
const PLATE: [(&str, &str, &str, &str); 9] = [
    ("admit", CHIP, "", "admitted"),
    ("d1", CHIP, " 8", "distance 4 tried 95 radius 1"),
    ("d1", CHIP, " 4", "distance 4 tried 95 radius 1"),
    ("d1", CHIP, " 3", "more tried 92 radius 1"),
    ("d1", CHIP, " 2", "more tried 36 radius 1"),
    ("d1", CHIP, " 1", "more tried 8 radius 0"),
    ("write", CHIP, " 5 0 0", "word 85 d 0"),
    ("read", CHIP, " 68 2", "message 1 z 10 tried 14"),
    ("read", CHIP, " 68 1", "refused 12 9"),
];

/// The answer to a line that is given as text.
fn answered(line: &str) -> Option<String> {
    answer_line(line.as_bytes())
}

/// A sheet as it stands on a line.
fn sheet_text(sheet: &Sheet) -> String {
    let Sheet { n, k, l, rows } = sheet;
    format!("{n} {k} {l} {}", list_text(rows))
}

/// Every bench case is answered as document 01 says or, of the plate, request 3.
#[test]
fn bench_cases() {
    for (verb, sheet, arguments, wanted) in BENCH.into_iter().chain(PLATE) {
        let line = format!("{verb} {sheet}{arguments}");
        assert_eq!(answered(&line).as_deref(), Some(wanted), "{line}");
    }
}

/// At the radius printed for request 3's sheet any one error in message 5's word is put
/// right; the word read wrongly at radius 2 is that word with cells 0 and 4 turned over.
#[test]
fn errors_of_the_plate_case() {
    for cell in 0..8 {
        let (y, z, tried) = (85 ^ (1 << cell), 1 << cell, cell + 2);
        let wanted = format!("message 5 z {z} tried {tried}");
        assert_eq!(answered(&format!("read {CHIP} {y} 1")), Some(wanted));
    }
    assert_eq!(85 ^ (1 << 0 | 1 << 4), 68);
}

/// Lines that are no calls are answered `unknown`.
#[test]
fn lines_that_are_no_calls() {
    let lines = [
        " ",
        "admit",
        "admit ",
        " admit 3 1 2 4 1 3 5 7",
        "admit 3 1 2 4 1 3 5 7 ",
        "admit  3 1 2 4 1 3 5 7",
        "admit 3 1 2 4 1 3 5 7\r",
        "\r",
        "\radmit 3 1 2 4 1 3 5 7",
        "admit\r 3 1 2 4 1 3 5 7",
        "admit 3 1 2 4 1 3 5",
        "admit 3 1 2 4 1 3 5 7 0",
        "admit 3 1 2 4294967295 1 3 5 7",
        "admit 3 1 2 4294967300 1 3 5 7",
        "admit 3 1 2 4 1 3 5 18446744073709551616",
        "admit 3 1 2 4 1 3 5 -7",
        "admit 3 1 2 4 1 3 5 +7",
        "0 admit 3 1 2 4 1 3 5 7",
        "ADMIT 3 1 2 4 1 3 5 7",
        "d0 3 1 2 4 1 3 5 7",
        "d0 3 1 2 4 1 3 5 7 8 8",
    ];
    for line in lines {
        assert_eq!(answered(line).as_deref(), Some(UNKNOWN), "{line:?}");
    }
    assert_eq!(answer_line(b"\xff\x00\xfe").as_deref(), Some(UNKNOWN));
}

/// So many times the same tokens, each time after a space, with their count before them.
fn counted(count: usize, tokens: &str) -> String {
    format!("{count}{}", format!(" {tokens}").repeat(count))
}

/// A line that just fits the console's room is a call; a byte more is too many. A list
/// of any length that fits is a call.
#[test]
fn room_of_the_console() {
    let tail = "1 1 0 2 0 1";
    for (length, wanted) in [
        (4096, "refused 4 0"),
        (ROOM_FOR_LINE, "refused 4 0"),
        (ROOM_FOR_LINE + 1, UNKNOWN),
    ] {
        let zeros = "0".repeat(length - "admit ".len() - tail.len());
        let line = format!("admit {zeros}{tail}");
        assert_eq!(line.len(), length);
        assert_eq!(answered(&line).as_deref(), Some(wanted));
    }
    for count in [0, 64, 257, 65_000] {
        let line = format!("admit 7 3 1 {}", counted(count, "0"));
        assert_eq!(answered(&line).as_deref(), Some("refused 1"));
    }
}

/// The answers to a whole input.
fn all_answered(input: &[u8]) -> String {
    let mut output = Vec::new();
    answer_all(input, &mut output).expect("answers");
    String::from_utf8(output).expect("text")
}

/// Empty lines and comments get no answer; a last line needs no newline.
#[test]
fn whole_input() {
    let input = b"\n# admit\nd1 3 1 2 4 1 3 5 7 8\nno call\n\nadmit 3 1 2 4 1 3 5 7";
    let wanted = "distance 1 tried 1 radius 0\nunknown\nadmitted\n";
    assert_eq!(all_answered(input), wanted);
}

/// One carriage return before a newline or the end of the input belongs to the end of
/// the line, also of one that just fits the room; a second one does not.
#[test]
fn carriage_returns() {
    let mut input =
        b"admit 3 1 2 4 1 3 5 7\r\n\r\n# x\r\n\r\r\nadmit 3 1 2 4 1 3 5 7\r\r\n".to_vec();
    let tail = "3 1 2 4 1 3 5 7\r\n";
    let zeros = "0".repeat(ROOM_FOR_LINE + 2 - "admit ".len() - tail.len());
    input.extend(format!("admit {zeros}{tail}admit {zeros}0{tail}").bytes());
    input.extend(b"admit 3 1 2 4 1 3 5 7\r");
    let wanted = "admitted\nunknown\nunknown\nadmitted\nunknown\nadmitted\n";
    assert_eq!(all_answered(&input), wanted);
}

/// At k = 32 a message may have 32 bits and no more; at k = 64 every message is below 2^k.
#[test]
fn widest_message() {
    for (k, message, wanted) in [
        (32, u32::MAX.into(), "word 4294967295 d 0"),
        (32, 1 << 32, "refused 7"),
        (63, Word::MAX >> 1, "word 9223372036854775807 d 0"),
        (63, 1 << 63, "refused 7"),
        (64, Word::MAX, "word 18446744073709551615 d 0"),
    ] {
        let units: String = (0..k).map(|i| format!(" {}", (1 as Word) << i)).collect();
        let line = format!("write {k} {k} 0 {}{units}{units} {message} 0 0", 2 * k);
        assert_eq!(answered(&line).as_deref(), Some(wanted));
    }
}
