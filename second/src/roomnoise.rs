//! Lines about tables that are no calls, or hardly calls: rooms whose size their place
//! cannot hold or just can, rooms that lack a number or have one too many, counts of tables
//! that lie, and tables as long as a line. What is done to a room can be done to any call that
//! ends with one.

use crate::lines::MOST_OF_A_ROOM;
use crate::making::kitchen;
use crate::random::Random;
use crate::tabling::{good_table_call, to_sheet_call, to_sheet_text, to_tables_text};
use crate::tokens::{after_list, joined, long_line, miscount, tokens_of};
use crate::word::Word;

/// One line of noise about tables.
pub fn room_noise(random: &mut Random) -> Vec<u8> {
    match random.below(12) {
        0..=4 => {
            let tokens = tokens_of(good_table_call(random));
            wrong_size(random, tokens)
        }
        5..=7 => {
            let tokens = tokens_of(good_table_call(random));
            room_cut_or_added(random, tokens)
        }
        8 | 9 => wrong_table_count(random),
        10 => many_table_rows(random),
        _ => largest_rooms(random),
    }
}

/// The places of the sizes of a call's rooms: `totables` has three rooms, any other call one,
/// at its end.
fn size_places(tokens: &[String]) -> Vec<usize> {
    let rooms = if tokens[0] == "totables" { 3 } else { 1 };
    (1..=rooms).map(|room| tokens.len() - 2 * room).collect()
}

/// A good call but for the size of a room: as large as its place holds, or larger, also
/// with leading zeros.
pub fn wrong_size(random: &mut Random, mut tokens: Vec<String>) -> Vec<u8> {
    let at = random.one_of(&size_places(&tokens));
    let most = u64::from(MOST_OF_A_ROOM);
    let size = match random.below(10) {
        0 | 1 => most,
        2..=4 => most + 1,
        5 => most + 2 + random.below(3 * most),
        6 => random.one_of(&[1 << 16, 1 << 31, (1 << 32) - 1, 1 << 32, u64::MAX]),
        7 => random.one_of(&[1 << 32, 1 << 63]) + tokens[at].parse::<u64>().expect("a size"),
        8 => most - random.below(most),
        _ => 0,
    };
    let zeros = random.one_of(&["", "", "", "0", "000000000"]);
    tokens[at] = format!("{zeros}{size}");
    joined(tokens)
}

/// A good call with a room that lacks its fill, its size or both, or with a number or a
/// whole room too many.
pub fn room_cut_or_added(random: &mut Random, mut tokens: Vec<String>) -> Vec<u8> {
    let at = random.one_of(&size_places(&tokens));
    let room = [tokens[at].clone(), tokens[at + 1].clone()];
    match random.below(5) {
        0 => {
            tokens.pop();
        }
        1 => {
            tokens.remove(at + random.below(2) as usize);
        }
        2 => {
            tokens.drain(at..at + 2);
        }
        3 => tokens.insert(at, "0".to_string()),
        _ => {
            tokens.splice(at..at, room);
        }
    }
    joined(tokens)
}

/// A sheet to be made from tables of which one has a count that is not its number of rows.
fn wrong_table_count(random: &mut Random) -> Vec<u8> {
    let mut tokens = tokens_of(to_sheet_call(random, false));
    let p = 4;
    let big_r = after_list(&tokens, p, 1);
    let q = after_list(&tokens, big_r, 1);
    let at = random.one_of(&[p, big_r, q]);
    miscount(random, &mut tokens, at);
    joined(tokens)
}

/// The kitchen sheet to be made from its tables, of which one has many rows too many.
fn many_table_rows(random: &mut Random) -> Vec<u8> {
    let long = random.below(3) as usize;
    let usual = 30 + random.below(300) as usize;
    long_line(random, usual, " 0".len(), |count| {
        let mut tables = [vec![3, 5, 6], vec![7], vec![7]];
        tables[long] = vec![0; count];
        to_sheet_text([7, 3, 1], &tables, 10, 4)
    })
}

/// The kitchen sheet asked for its tables with one room, or all, as large as may be, or a
/// row larger, filled with a long number.
fn largest_rooms(random: &mut Random) -> Vec<u8> {
    let size = MOST_OF_A_ROOM + u32::from(random.once_in(3));
    let mut sizes = [3, 1, 1];
    match random.below(4) {
        0 => sizes = [size; 3],
        room => sizes[room as usize - 1] = size,
    }
    to_tables_text(&kitchen(), sizes, [Word::MAX; 3]).into_bytes()
}

#[cfg(test)]
mod tests {
    use super::*;
    use crate::lines::answer_line;

    /// Many lines are unknown and many are calls, some with an answer longer than the room
    /// for a line; no line is too short to be answered.
    #[test]
    fn unknown_and_known_lines() {
        let mut random = Random::new(81);
        let (mut unknown, mut longest) = (0, 0);
        for _ in 0..1500 {
            let line = room_noise(&mut random);
            let answer = answer_line(&line).expect("an answer");
            unknown += u32::from(answer == "unknown");
            longest = longest.max(answer.len());
        }
        assert!((500..1300).contains(&unknown), "{unknown}");
        let all = 3 * MOST_OF_A_ROOM as usize * " 18446744073709551615".len();
        assert_eq!(longest, "refused 1 P 4096 R 4096 Q 4096".len() + all);
    }
}
