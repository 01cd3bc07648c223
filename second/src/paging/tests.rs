//! Tests of the page calls made: the refusals and the plate numbers that come up.

use super::*;
use crate::lines::answer_line;

/// How often each kind of answer comes up: by the refusal's number, and 0 where a
/// call is not refused. No line is `unknown`.
fn kinds(odd: bool) -> [u32; 17] {
    let mut random = Random::new(61);
    let mut times = [0; 17];
    for _ in 0..3000 {
        let sheet = some_sheet(&mut random);
        let line = page_call(&mut random, &sheet, odd);
        let answer = answer_line(line.as_bytes()).expect("an answer");
        let tokens: Vec<&str> = answer.split(' ').collect();
        let number = match tokens[0] {
            "refused" => tokens[1].parse().expect("a number"),
            "word" | "message" => 0,
            _ => panic!("{line}: {answer}"),
        };
        times[number] += 1;
    }
    times
}

/// Good page calls are refused for want of a word or a codeword only; odd ones meet
/// every refusal of a page, and some of them none.
#[test]
fn refusals_that_come_up() {
    let good = kinds(false);
    assert_eq!(good.iter().sum::<u32>(), good[0] + good[9] + good[12]);
    assert!(good[0] > 1500 && good[9] > 150 && good[12] > 50, "{good:?}");
    let odd = kinds(true);
    for number in [0, 7, 9, 10, 11, 12, 14, 15, 16] {
        assert!(odd[number] > 30, "{odd:?}");
    }
    assert!(odd[13] > 5, "{odd:?}");
}

/// The number of a good read permits its radius; of the odd ones many are outside 1 to 9, and
/// many are the doubled radius, one less or one more. A write has every number of 1 to 9.
#[test]
fn numbers_that_come_up() {
    let mut random = Random::new(62);
    let (mut outside, mut about, mut written) = ([0; 3], [0; 3], [0; 10]);
    for turn in 0..6000 {
        let radius = turn % 5;
        let good = number_of_read(&mut random, radius, false);
        assert!((2 * radius + 1..=9).contains(&good));
        match number_of_read(&mut random, radius, true) {
            0 => outside[0] += 1,
            10 => outside[1] += 1,
            11.. => outside[2] += 1,
            odd if odd.abs_diff(2 * radius) <= 1 => about[(odd + 1 - 2 * radius) as usize] += 1,
            _ => (),
        }
        written[some_number(&mut random, 1, false) as usize] += 1;
    }
    for times in [&outside[..], &about, &written[1..]].concat() {
        assert!(times > 60, "{outside:?} {about:?} {written:?}");
    }
}

/// Of the odd reads many are refused with 16 for their radius, the number being one of 1 to
/// 9.
#[test]
fn radius_against_the_number() {
    let mut random = Random::new(63);
    let mut times = 0;
    for _ in 0..2000 {
        let sheet = some_sheet(&mut random);
        let line = page_read_call(&mut random, &sheet, true);
        let tokens: Vec<&str> = line.split(' ').collect();
        let number: u32 = tokens[5 + sheet.rows.len()].parse().expect("a number");
        let answer = answer_line(line.as_bytes()).expect("an answer");
        times += u32::from(answer == "refused 16" && (1..=9).contains(&number));
    }
    assert!(times > 200, "{times}");
}
