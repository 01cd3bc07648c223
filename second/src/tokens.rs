//! Lines taken apart into their tokens and put together again, with counts that lie and
//! with lists as long as a line.

use crate::lines::ROOM_FOR_LINE;
use crate::random::Random;
use crate::word::Word;

/// The tokens of a line.
pub fn tokens_of(line: String) -> Vec<String> {
    line.split(' ').map(str::to_string).collect()
}

/// One line from its tokens.
pub fn joined(tokens: Vec<String>) -> Vec<u8> {
    tokens.join(" ").into_bytes()
}

/// The place after a list whose count is at this place of a line's tokens, the entries
/// having so many tokens each.
pub fn after_list(tokens: &[String], at: usize, each: usize) -> usize {
    let count: usize = tokens[at].parse().expect("a count");
    at + 1 + each * count
}

/// The places of the counts of a page write, also of one of a whole page: of its page, and of
/// its records.
pub fn page_counts(tokens: &[String]) -> (usize, usize) {
    let page = after_list(tokens, 4, 1) + 1;
    (page, after_list(tokens, page, 1))
}

/// Puts another count, mostly a wrong one, at the place of a count; among them are counts
/// that, or whose threefold, are small numbers once they are wrapped at 32 or 64 bits.
pub fn miscount(random: &mut Random, tokens: &mut [String], at: usize) {
    let count: Word = tokens[at].parse().expect("a count");
    let wraps = [
        0x5555_5556,
        0xaaaa_aaab,
        1 << 32,
        1 << 63,
        0x5555_5555_5555_5556,
        0xaaaa_aaaa_aaaa_aaab,
    ];
    let other = match random.below(10) {
        0 | 1 => count.saturating_sub(1),
        2 => count + 1,
        3 => count + 2,
        4 => count + 3,
        5 => 0,
        6 => random.one_of(&[64, 65, 128, 129, 256, 257, 2_048, 2_049]),
        7 | 8 => count + random.one_of(&wraps),
        _ => random.one_of(&[Word::from(u32::MAX), Word::MAX]),
    };
    tokens[at] = other.to_string();
}

/// A line with a list that has the usual number of entries, of so many bytes each; now and
/// then with as many as the room for a line has, or more.
pub fn long_line(
    random: &mut Random,
    usual: usize,
    each: usize,
    line: impl Fn(usize) -> String,
) -> Vec<u8> {
    let most = (ROOM_FOR_LINE - line(10_000).len()) / each + 10_000;
    let count = match random.below(30) {
        0 => most - random.below(3) as usize,
        1 => most + 1 + random.below(3) as usize,
        _ => usual,
    };
    line(count).into_bytes()
}
