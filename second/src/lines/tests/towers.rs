//! Tests of whole lines about words of 64 cells: the bench sheets of request 5, the lengths of
//! lists, places in them past 2^32, numbers at the edges of 32 and 64 bits, and what n may be.

use super::*;
use crate::making::{loft, repeating, tower};

/// The tower sheet's rows, by its own account.
#[test]
fn rows_of_the_tower() {
    let power = |i: u32| 2u128.pow(i);
    let g1 = (0..62).map(|i| power(i) + power(63));
    let ones = [power(64) - 1, power(64) - 1];
    let m = (0..62).map(|i| power(i) + power(62));
    let rows: Vec<String> = g1.chain(ones).chain(m).map(|row| row.to_string()).collect();
    assert_eq!(rows.len(), 126);
    let wanted = format!("64 62 1 126 {}", rows.join(" "));
    assert_eq!(sheet_text(&tower()), wanted);
}

/// Verb, arguments and answer of the tower sheet's bench cases.
const TOWER: [(&str, &str, &str); 18] = [
    ("admit", "", "admitted"),
    (
        "write",
        " 2305843009213693952 0 0",
        "word 11529215046068469760 d 0",
    ),
    (
        "write",
        " 2305843009213693952 9223372036854775808 0",
        "word 6917529027641081855 d 1",
    ),
    (
        "write",
        " 2305843009213693952 9223372036854775808 9223372036854775808",
        "word 11529215046068469760 d 0",
    ),
    (
        "write",
        " 2305843009213693952 9223372036854775809 0",
        "refused 9",
    ),
    ("write", " 4611686018427387904 0 0", "refused 7"),
    ("write", " 4611686018427387904 0 1", "refused 7"),
    (
        "write",
        " 0 4611686018427387904 9223372036854775808",
        "refused 8 63",
    ),
    (
        "read",
        " 11529215046068469761 1",
        "message 2305843009213693952 z 1 tried 2",
    ),
    (
        "read",
        " 6917529027641081855 0",
        "message 2305843009213693952 z 0 tried 1",
    ),
    ("read", " 18446744073709551615 0", "message 0 z 0 tried 1"),
    ("read", " 9223372036854775808 0", "refused 12 1"),
    ("read", " 1 5", "refused 11"),
    ("d0", " 8", "distance 2 tried 65"),
    ("d1", " 8", "distance 2 tried 65 radius 0"),
    ("d0", " 1", "more tried 64"),
    ("d1", " 1", "more tried 64 radius 0"),
    ("d1", " 9", "refused 11"),
];

/// Every bench case of request 5, on the tower sheet.
#[test]
fn bench_cases_of_the_tower() {
    let sheet = sheet_text(&tower());
    for (verb, arguments, wanted) in TOWER {
        let line = format!("{verb} {sheet}{arguments}");
        assert_eq!(
            answered(&line).as_deref(),
            Some(wanted),
            "{verb}{arguments}"
        );
    }
}

/// The loft sheet's rows by its own account, and the lists over 64 cells that are gone through
/// to their end: that of d0 on it, that of d1 where the codewords are all zeros and all ones,
/// whose pages are opened with number 9.
#[test]
fn bench_cases_of_the_loft() {
    let power = |i: u32| 2u128.pow(i);
    let g0 = (1..64).map(|i| 1 + power(i));
    let rows = [1].into_iter().chain(g0).chain([power(64) - 1]);
    let rows: Vec<String> = rows.map(|row| row.to_string()).collect();
    let sheet = format!("64 1 63 65 {}", rows.join(" "));
    assert_eq!(sheet_text(&loft(64)), sheet);
    let far = sheet_text(&repeating(64));
    for (line, wanted) in [
        (format!("d0 {sheet} 8"), "more tried 5130659560"),
        (format!("d0 {sheet} 7"), "more tried 704494192"),
        (format!("d0 {sheet} 5"), "more tried 8303632"),
        (format!("d1 {sheet} 8"), "distance 1 tried 1 radius 0"),
        (format!("open {sheet}"), "number 1"),
        (format!("d1 {far} 8"), "more tried 5130659560 radius 4"),
        (format!("d1 {far} 6"), "more tried 83278000 radius 3"),
        (format!("d0 {far} 8"), "distance 1 tried 1"),
        (format!("open {far}"), "number 9"),
    ] {
        assert_eq!(answered(&line).as_deref(), Some(wanted), "{line}");
    }
}

/// Words over 64 cells and their places in the list begun at weight 1: the ends of weight 7 and
/// of weight 8, the three places at 2^32, and where cell 63 comes in.
const PLACES: [(Word, u64); 8] = [
    (127, 83_278_001),
    (127 << 57, 704_494_192),
    (255, 704_494_193),
    (4_647_723_646_446_485_504, 4_294_967_295),
    (4_647_723_646_446_501_888, 4_294_967_296),
    (4_647_723_646_446_534_656, 4_294_967_297),
    (1 << 63 | 127, 4_577_388_890),
    (255 << 56, 5_130_659_560),
];

/// 63 rows over 64 cells with which this word alone, and 0, has product 0: the cells that it
/// has not, and any two that follow each other among its own.
fn checks_of(word: Word) -> Vec<Word> {
    let (own, others): (Vec<u32>, Vec<u32>) = (0..64).partition(|cell| word >> cell & 1 == 1);
    let pairs = own.windows(2).map(|pair| 1 << pair[0] | 1 << pair[1]);
    others.iter().map(|cell| 1 << cell).chain(pairs).collect()
}

/// A word that alone is a hit is found at its place: for d1 it is the one codeword but 0, and
/// for d0 the one word but 0 whose product with each row of G0 is 0. A cap below its weight
/// does not reach it.
#[test]
fn places_past_32_bits() {
    for (word, place) in PLACES {
        let weight = word.count_ones();
        let (checks, highest) = (checks_of(word), 1 << word.ilog2());
        let rows = [vec![word], checks.clone(), vec![highest]].concat();
        let of_d1 = format!("64 1 0 {}", list_text(&rows));
        let rows = [vec![highest], checks, vec![word]].concat();
        let of_d0 = format!("64 1 63 {}", list_text(&rows));
        let lighter = [83_278_000, 704_494_192][weight as usize - 7];
        let (below, radius) = (weight - 1, (weight - 1) / 2);
        for (line, wanted) in [
            (format!("admit {of_d0}"), "admitted".to_string()),
            (
                format!("d0 {of_d0} 8"),
                format!("distance {weight} tried {place}"),
            ),
            (
                format!("d1 {of_d1} 8"),
                format!("distance {weight} tried {place} radius {radius}"),
            ),
            (format!("open {of_d1}"), format!("number {weight}")),
            (
                format!("d0 {of_d0} {below}"),
                format!("more tried {lighter}"),
            ),
        ] {
            assert_eq!(answered(&line), Some(wanted), "{line}");
        }
    }
}

/// A page of the tower sheet: its highest cell is stuck, and cell 64 is none. d1 is 2, so that
/// radius 1 is read with a larger number only.
#[test]
fn page_of_the_tower() {
    let sheet = sheet_text(&tower());
    let (message, held) = ("2305843009213693952", "18446744073709551615");
    for (record, wanted) in [
        (
            "0 63 0",
            "word 6917529027641081855 d 1 page 2 6917529027641081855 18446744073709551615",
        ),
        (
            "1 63 0",
            "word 11529215046068469760 d 0 page 2 11529215046068469760 18446744073709551615",
        ),
        (
            "0 64 0",
            "refused 15 0 page 2 18446744073709551615 18446744073709551615",
        ),
    ] {
        let line = format!("pwrite {sheet} 2 2 {held} {held} 1 {record} 0 {message}");
        assert_eq!(answered(&line).as_deref(), Some(wanted));
    }
    assert_eq!(
        answered(&format!("open {sheet}")).as_deref(),
        Some("number 2")
    );
    for (number, wanted) in [
        (2, "refused 16".to_string()),
        (3, format!("message {message} z 1 tried 2")),
    ] {
        let line = format!("pread {sheet} {number} 1 11529215046068469761 0 1");
        assert_eq!(answered(&line), Some(wanted));
    }
}

/// n may be 64; 65 is refusal 1, with the n + k rows that it asks for and with others, and
/// so is a sheet to be made with 65 cells.
#[test]
fn most_cells() {
    for (n, wanted) in [(63, "admitted"), (64, "admitted"), (65, "refused 1")] {
        let units = |last: u32| (0..last).map(|i| (1 as Word).checked_shl(i).unwrap_or(0));
        let rows: Vec<Word> = units(n).chain(units(n)).collect();
        let line = format!("admit {n} {n} 0 {}", list_text(&rows));
        assert_eq!(answered(&line).as_deref(), Some(wanted));
    }
    let Sheet { mut rows, .. } = tower();
    rows.push(1);
    let line = format!("admit 65 62 1 {}", list_text(&rows));
    assert_eq!(answered(&line).as_deref(), Some("refused 1"));
    for (n, size, wanted) in [
        (64, 65, "done"),
        (65, 66, "refused 1"),
        (65, 65, "refused 1"),
    ] {
        let line = format!("tosheet {n} 1 0 1 0 0 0 {size} 7");
        let answer = answered(&line).expect("an answer");
        assert!(
            answer.starts_with(&format!("{wanted} room {size} ")),
            "{answer}"
        );
    }
}

/// The lists over 63 and 64 cells are gone through to their end, up to weight 4: the sheet's
/// codewords are all zeros and all ones, and half ones are far from both.
#[test]
fn lists_of_64_cells() {
    let of_64 = [64, 64 + 2_016, 64 + 2_016 + 41_664, 679_120];
    let of_63 = [63, 63 + 1_953, 63 + 1_953 + 39_711, 637_392];
    for (n, lengths) in [(63, of_63), (64, of_64)] {
        let sheet = sheet_text(&repeating(n));
        let half = Word::MAX >> 32;
        for (cap, length) in (1..).zip(lengths) {
            let wanted = format!("more tried {length} radius {}", cap / 2);
            assert_eq!(answered(&format!("d1 {sheet} {cap}")), Some(wanted));
            let wanted = format!("refused 12 {}", length + 1);
            assert_eq!(
                answered(&format!("read {sheet} {half} {cap}")),
                Some(wanted)
            );
        }
        let highest: Word = 0xf << (n - 4);
        let wanted = format!("message 0 z {highest} tried {}", lengths[3] + 1);
        assert_eq!(answered(&format!("read {sheet} {highest} 4")), Some(wanted));
    }
}

/// Words at the edges of 32 and 64 bits are words of a call, wherever it has one; 2^64 is
/// none.
#[test]
fn edges_of_words() {
    for (line, wanted) in [
        ("admit 3 1 2 4 1 3 5 #", "refused 2 3"),
        ("write 3 1 2 4 1 3 5 7 # 0 0", "refused 7"),
        ("write 3 1 2 4 1 3 5 7 0 # 0", "refused 8 "),
        ("write 3 1 2 4 1 3 5 7 0 7 #", "refused 8 "),
        ("read 3 1 2 4 1 3 5 7 # 0", "refused 10 "),
        ("open 3 1 2 4 1 3 5 #", "refused 2 3"),
        ("pwrite 3 1 2 4 1 3 5 7 1 1 # 0 0 0", "word 0 d 0 page 1 0"),
        ("pwrite 3 1 2 4 1 3 5 7 1 1 # 0 1 0", "refused 14 page 1 #"),
        ("pwrite 3 1 2 4 1 3 5 7 1 1 5 0 0 #", "refused 7 page 1 5"),
        ("pread 3 1 2 4 1 3 5 7 1 1 # 0 0", "refused 10 "),
        (
            "wpage 3 1 2 4 1 3 5 7 1 1 # 0 1 0 1 7",
            "done page 1 0 notes 1 0",
        ),
        (
            "wpage 3 1 2 4 1 3 5 7 1 1 5 0 1 # 1 7",
            "done page 1 5 notes 1 7",
        ),
        (
            "wpage 3 1 2 4 1 3 5 7 1 1 # 0 1 0 2 #",
            "refused 25 page 1 # notes 2 # #",
        ),
        ("tosheet 1 1 0 1 # 0 0 2 5", "refused 2 0 room 2 5 5"),
        ("tosheet 1 1 0 1 0 0 0 1 #", "refused 1 room 1 #"),
        (
            "totables 1 1 0 2 1 1 1 7 0 7 1 #",
            "refused 1 P 1 7 R 0 Q 1 #",
        ),
    ] {
        for word in [
            "4294967295",
            "4294967296",
            "4294967303",
            "18446744073709551615",
        ] {
            let answer = answered(&line.replace('#', word)).expect("an answer");
            let wanted = wanted.replace('#', word);
            assert!(answer.starts_with(&wanted), "{line} {word}: {answer}");
        }
        for word in ["18446744073709551616", "18446744073709551623"] {
            let answer = answered(&line.replace('#', word));
            assert_eq!(answer.as_deref(), Some(UNKNOWN), "{line} {word}");
        }
    }
}

/// Lines with a place of a number that is no word, and a number with which they are answered
/// and not refused.
const NUMBERS: [(&str, u128); 36] = [
    ("admit # 1 2 4 1 3 5 7", 3),
    ("admit 3 # 2 4 1 3 5 7", 1),
    ("admit 3 1 # 4 1 3 5 7", 2),
    ("admit 3 1 2 # 1 3 5 7", 4),
    ("read 3 1 2 4 1 3 5 7 0 #", 1),
    ("d0 3 1 2 4 1 3 5 7 #", 8),
    ("d1 3 1 2 4 1 3 5 7 #", 8),
    ("pwrite 3 1 2 4 1 3 5 7 # 1 5 1 0 0 0 0 0", 9),
    ("pwrite 3 1 2 4 1 3 5 7 9 # 5 1 0 0 0 0 0", 1),
    ("pwrite 3 1 2 4 1 3 5 7 9 1 5 # 0 0 0 0 0", 1),
    ("pwrite 3 1 2 4 1 3 5 7 9 1 5 1 # 0 0 0 0", 0),
    ("pwrite 3 1 2 4 1 3 5 7 9 1 5 1 0 # 0 0 0", 2),
    ("pwrite 3 1 2 4 1 3 5 7 9 1 5 1 0 0 # 0 0", 1),
    ("pwrite 3 1 2 4 1 3 5 7 9 1 5 1 0 0 0 # 0", 0),
    ("pread 3 1 2 4 1 3 5 7 # 1 5 0 0", 9),
    ("pread 3 1 2 4 1 3 5 7 9 # 5 0 0", 1),
    ("pread 3 1 2 4 1 3 5 7 9 1 5 # 0", 0),
    ("pread 3 1 2 4 1 3 5 7 9 1 5 0 #", 4),
    ("wpage 3 1 2 4 1 3 5 7 # 1 5 1 0 0 0 1 0 1 7", 9),
    ("wpage 3 1 2 4 1 3 5 7 9 # 5 1 0 0 0 1 0 1 7", 1),
    ("wpage 3 1 2 4 1 3 5 7 9 1 5 # 0 0 0 1 0 1 7", 1),
    ("wpage 3 1 2 4 1 3 5 7 9 1 5 1 # 0 0 1 0 1 7", 0),
    ("wpage 3 1 2 4 1 3 5 7 9 1 5 1 0 # 0 1 0 1 7", 2),
    ("wpage 3 1 2 4 1 3 5 7 9 1 5 1 0 0 # 1 0 1 7", 1),
    ("wpage 3 1 2 4 1 3 5 7 9 1 5 1 0 0 0 # 0 1 7", 1),
    ("wpage 3 1 2 4 1 3 5 7 9 1 5 1 0 0 0 1 0 # 7", 1),
    ("open # 1 2 4 1 3 5 7", 3),
    ("open 3 # 2 4 1 3 5 7", 1),
    ("open 3 1 # 4 1 3 5 7", 2),
    ("open 3 1 2 # 1 3 5 7", 4),
    ("tosheet # 1 0 1 0 0 0 2 7", 1),
    ("tosheet 1 # 0 1 0 0 0 2 7", 1),
    ("tosheet 1 1 # 1 0 0 0 2 7", 0),
    ("tosheet 1 1 0 1 0 0 0 # 7", 2),
    ("totables 1 1 0 2 1 1 # 7 0 7 0 7", 1),
    ("totables 1 1 0 2 1 1 1 7 0 7 # 7", 0),
];

/// A number that is no word holds 32 bits: 2^32, or the right number and 2^32 or 2^64, make
/// the line no call.
#[test]
fn edges_of_other_numbers() {
    for (line, right) in NUMBERS {
        let at = |number: u128| answered(&line.replace('#', &number.to_string()));
        let answer = at(right).expect("an answer");
        assert!(
            answer != UNKNOWN && !answer.starts_with("refused"),
            "{line}: {answer}"
        );
        for number in [
            1 << 32,
            right + (1 << 32),
            right + (1 << 33),
            right + (1 << 64),
        ] {
            assert_eq!(at(number).as_deref(), Some(UNKNOWN), "{line} {number}");
        }
    }
}
