//! Numbers at the edges of 8, 32 and 64 bits, at every kind of place that a call has: some
//! places hold them, and where one does not, the line is no call.

use crate::random::Random;
use crate::tokens::joined;
use crate::word::Wide;

/// What a place of a line holds: a word, another number, the count of a list, the level of
/// a record, or the size of a room.
#[derive(Clone, Copy, Debug, PartialEq, Eq)]
enum Place {
    Word,
    Number,
    Count,
    Level,
    Size,
}

/// Every kind of place, as often as it is to be picked before the others: a line whose count
/// is another is no call anyway.
const PICKED: [Place; 9] = [
    Place::Word,
    Place::Word,
    Place::Number,
    Place::Number,
    Place::Count,
    Place::Level,
    Place::Level,
    Place::Size,
    Place::Size,
];

/// The verbs and the shapes of their calls, a letter for each part: `w` a word, `n` another
/// number, `S` a sheet, `L` a list of words, `R` records, `M` a room.
const SHAPES: [(&str, &str); 11] = [
    ("admit", "S"),
    ("write", "Swww"),
    ("read", "Swn"),
    ("d0", "Sn"),
    ("d1", "Sn"),
    ("open", "S"),
    ("pwrite", "SnLRnw"),
    ("pread", "SnLnn"),
    ("wpage", "SnLRLM"),
    ("tosheet", "nnnLLLM"),
    ("totables", "SMMM"),
];

/// The places of a call's tokens after the verb, in their order.
fn places_of(tokens: &[String]) -> Vec<Place> {
    let (_, shape) = SHAPES
        .iter()
        .find(|(verb, _)| tokens[0] == *verb)
        .expect("a verb");
    let mut places = Vec::new();
    for part in shape.replace('S', "nnnL").chars() {
        let count = |places: &[Place]| tokens[1 + places.len()].parse().expect("a count");
        match part {
            'w' => places.push(Place::Word),
            'n' => places.push(Place::Number),
            'M' => places.extend([Place::Size, Place::Word]),
            'L' => {
                let entries = vec![Place::Word; count(&places)];
                places.extend([vec![Place::Count], entries].concat());
            }
            _ => {
                let record = [Place::Number, Place::Number, Place::Level];
                let entries = vec![record; count(&places)].concat();
                places.extend([vec![Place::Count], entries].concat());
            }
        }
    }
    places
}

/// A number at an edge, or the one that stands there moved past an edge, so that it would be
/// the same once it is wrapped.
fn edge_number(random: &mut Random, standing: Wide) -> Wide {
    let bits = random.one_of(&[8, 8, 16, 32, 32, 32, 63, 64, 64, 64]);
    let edge = 1 << bits;
    match random.below(6) {
        0 => edge - 1,
        1 => edge,
        2 => edge + Wide::from(random.below(3)),
        3 => edge - 1 - standing.min(edge - 1),
        _ => edge + standing,
    }
}

/// A good call with a number at an edge in one place, of any kind that the call has; every
/// second time in one of the last three, which are no rows as a rule. Now and then the number
/// has leading zeros.
pub fn edge_line(random: &mut Random, mut tokens: Vec<String>) -> Vec<u8> {
    let places = places_of(&tokens);
    let kinds = PICKED.into_iter().filter(|kind| places.contains(kind));
    let kind = random.one_of(&kinds.collect::<Vec<Place>>());
    let of_kind = (1..tokens.len()).filter(|at| places[at - 1] == kind);
    let of_kind: Vec<usize> = of_kind.collect();
    let from = match random.once_in(2) {
        true => of_kind.len().saturating_sub(3),
        false => 0,
    };
    let at = random.one_of(&of_kind[from..]);
    let standing = tokens[at].parse().expect("a number");
    let zeros = random.one_of(&["", "", "", "0", "00000000000000000000"]);
    tokens[at] = format!("{zeros}{}", edge_number(random, standing));
    joined(tokens)
}

#[cfg(test)]
mod tests {
    use super::*;
    use crate::asking::good_call;
    use crate::filling::good_whole_call;
    use crate::lines::{answer_line, MOST_OF_A_ROOM};
    use crate::opening::good_open_call;
    use crate::paging::good_page_call;
    use crate::tabling::good_table_call;
    use crate::tokens::tokens_of;

    /// The largest number that a place holds.
    fn most(place: Place) -> Wide {
        match place {
            Place::Word => Wide::from(u64::MAX),
            Place::Number | Place::Count => Wide::from(u32::MAX),
            Place::Level => Wide::from(u8::MAX),
            Place::Size => Wide::from(MOST_OF_A_ROOM),
        }
    }

    /// A line is unknown exactly if its number is more than the place holds, or if it is
    /// another count; at each kind of place both come up.
    #[test]
    fn edges_of_places() {
        let mut random = Random::new(92);
        let mut times = [[0; 2]; 5];
        let makers = [
            good_call,
            good_page_call,
            good_table_call,
            good_open_call,
            good_whole_call,
        ];
        for turn in 0..15_000 {
            let make = makers[turn % 5];
            let tokens = tokens_of(make(&mut random));
            let line = edge_line(&mut random, tokens.clone());
            let changed = tokens_of(String::from_utf8(line.clone()).expect("text"));
            let Some(at) = (1..tokens.len()).find(|at| tokens[*at] != changed[*at]) else {
                continue;
            };
            let (was, is): (Wide, Wide) = (value(&tokens[at]), value(&changed[at]));
            let place = places_of(&tokens)[at - 1];
            let held = is <= most(place) && (place != Place::Count || is == was);
            let answer = answer_line(&line).expect("an answer");
            assert_eq!(answer != "unknown", held, "{place:?} {is}: {answer}");
            times[place as usize][usize::from(held)] += 1;
        }
        for place in PICKED.into_iter().filter(|place| *place != Place::Count) {
            let [unknown, held] = times[place as usize];
            assert!(unknown > 100 && held > 20, "{times:?}");
        }
    }

    /// The number that a token is.
    fn value(token: &str) -> Wide {
        token.parse().expect("a number")
    }
}
