//! Tests of the whole-page writes made: the refusals, the notes and the lengths that come up.

use super::*;
use crate::lines::answer_line;
use crate::making::kitchen;
use crate::tokens::{after_list, page_counts, tokens_of};

/// So many calls of each kind are answered.
const CALLS: u32 = 1_200;

/// How often each refusal comes up, 0 being a page that is written, and how often each note
/// on a page that is. No line is `unknown`.
fn kinds(odd: bool) -> ([u32; 26], [u32; 16]) {
    let mut random = Random::new(141);
    let (mut times, mut noted) = ([0; 26], [0; 16]);
    for _ in 0..CALLS {
        let sheet = some_sheet(&mut random);
        let line = whole_call(&mut random, &sheet, odd);
        let answer = answer_line(line.as_bytes()).expect("an answer");
        if let Some(number) = answer.strip_prefix("refused ") {
            let number = number.split(' ').next().expect("a number");
            times[number.parse::<usize>().expect("a number")] += 1;
            continue;
        }
        assert!(answer.starts_with("done page "), "{line}: {answer}");
        times[0] += 1;
        let (_, notes) = answer.split_once(" notes ").expect("notes");
        for note in notes.split(' ').skip(1) {
            noted[note.parse::<usize>().expect("a note")] += 1;
        }
    }
    (times, noted)
}

/// Good calls are never refused, and of their slots some for want of a word only; odd ones
/// meet every refusal of a whole page, and every note.
#[test]
fn refusals_and_notes_that_come_up() {
    let (good, noted) = kinds(false);
    assert_eq!((good[0], good.iter().sum()), (CALLS, CALLS));
    assert_eq!(noted.iter().sum::<u32>(), noted[0] + noted[9]);
    assert!(noted[0] > 3000 && noted[9] > 300, "{noted:?}");
    let (odd, noted) = kinds(true);
    assert_eq!(
        odd.iter().sum::<u32>(),
        odd[0] + odd[13] + odd[16] + odd[25]
    );
    assert!(odd[0] > 500 && odd[16] > 50 && odd[25] > 100, "{odd:?}");
    assert!(odd[13] > 2, "{odd:?}");
    for note in [0, 7, 9, 15] {
        assert!(noted[note] > 200, "{noted:?}");
    }
}

/// The numbers of slots, records, messages and notes of a call.
fn lengths(line: String) -> [usize; 4] {
    let tokens = tokens_of(line);
    let (page, records) = page_counts(&tokens);
    let messages = after_list(&tokens, records, 3);
    let notes = after_list(&tokens, messages, 1);
    [page, records, messages, notes].map(|at| tokens[at].parse().expect("a count"))
}

/// The longest good pages have 2,048 slots, and the longest good lists of records 256; odd ones
/// have more of both. Messages and notes that are one too few and one too many come up, and
/// both of one wrong length.
#[test]
fn lengths_that_come_up() {
    let mut random = Random::new(142);
    let (mut good, mut odd) = ([0; 2], [0; 2]);
    let (mut next, mut same) = ([[0; 2]; 2], 0);
    for _ in 0..3000 {
        let [slots, records, messages, notes] = lengths(good_whole_call(&mut random));
        assert_eq!([messages, notes], [slots; 2]);
        good = [good[0].max(slots), good[1].max(records)];
        let [slots, records, messages, notes] = lengths(whole_call(&mut random, &kitchen(), true));
        odd = [odd[0].max(slots), odd[1].max(records)];
        for (place, length) in [messages, notes].into_iter().enumerate() {
            next[place][0] += u32::from(length + 1 == slots);
            next[place][1] += u32::from(length == slots + 1);
        }
        same += u32::from(messages == notes && messages != slots);
    }
    assert_eq!(good, [2_048, 256]);
    assert!(odd[0] > 2_048 && odd[1] > 256, "{odd:?}");
    assert!(next.concat().iter().all(|times| *times > 50), "{next:?}");
    assert!(same > 50, "{same}");
}
