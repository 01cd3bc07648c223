//! Lines about whole pages that are no calls, or hardly calls: the room for the notes at its
//! largest, past it or without a number, counts that lie, and lists as long as a line.

use crate::filling::{good_whole_call, whole_text, Whole};
use crate::lines::MOST_OF_A_ROOM;
use crate::making::kitchen;
use crate::random::Random;
use crate::roomnoise::{room_cut_or_added, wrong_size};
use crate::tokens::{after_list, joined, long_line, miscount, page_counts, tokens_of};
use crate::word::Word;

/// One line of noise about whole pages.
pub fn whole_noise(random: &mut Random) -> Vec<u8> {
    let tokens = tokens_of(good_whole_call(random));
    match random.below(8) {
        0 | 1 => wrong_size(random, tokens),
        2 => room_cut_or_added(random, tokens),
        3..=5 => wrong_whole_count(random, tokens),
        _ => many_entries(random),
    }
}

/// A good call but for the count of its page, of its records or of its messages.
fn wrong_whole_count(random: &mut Random, mut tokens: Vec<String>) -> Vec<u8> {
    let (page, records) = page_counts(&tokens);
    let messages = after_list(&tokens, records, 3);
    let at = random.one_of(&[page, records, messages, messages]);
    miscount(random, &mut tokens, at);
    joined(tokens)
}

/// A call on the kitchen sheet about as long as may be, or longer than any: with many slots
/// and as much else for them, with many slots alone, with many records, or with many messages;
/// now and then as many as the room for a line has, or more.
fn many_entries(random: &mut Random) -> Vec<u8> {
    let kind = random.below(4);
    let (usual, each) = match kind {
        0 => (2_046 + random.below(5), " 0 0".len()),
        2 => (255 + random.below(4), " 0 0 0".len()),
        _ => (2_046 + random.below(5), " 0".len()),
    };
    long_line(random, usual as usize, each, |count| {
        let slots = [count, count, 0, 1][kind as usize];
        let messages = [count, 1, 0, count][kind as usize];
        let records = if kind == 2 { count } else { 0 };
        let size = slots.min(MOST_OF_A_ROOM as usize);
        let whole = Whole {
            number: 3,
            page: vec![0; slots],
            records: vec![[0; 3]; records],
            messages: vec![0; messages],
            notes: [size as Word, 1],
        };
        whole_text(&kitchen(), &whole)
    })
}

#[cfg(test)]
mod tests {
    use super::*;
    use crate::lines::answer_line;

    /// Many lines are unknown and many are calls: pages are written, and refused with 13 and
    /// 25.
    #[test]
    fn unknown_and_known_lines() {
        let mut random = Random::new(121);
        let mut times = [0; 4];
        for _ in 0..1500 {
            let line = whole_noise(&mut random);
            let answer = answer_line(&line).expect("an answer");
            let kinds = [
                "unknown",
                "done page ",
                "refused 13 page ",
                "refused 25 page ",
            ];
            let kind = kinds.iter().position(|kind| answer.starts_with(kind));
            times[kind.expect("one of these kinds")] += 1;
        }
        assert!((500..1300).contains(&times[0]), "{times:?}");
        assert!(times.iter().all(|count| *count > 50), "{times:?}");
    }
}
