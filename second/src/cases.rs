//! Cases repeatable from a seed: good calls, on pages and whole ones, to open them, about
//! tables and others, distant ones, calls with broken sheets or odd arguments, and lines that
//! are no calls.

use crate::asking::{any_call, call_text, far_sheet, good_call, Verb};
use crate::breaking::broken_sheet;
use crate::distant::distant_call;
use crate::filling::whole_call;
use crate::making::some_sheet;
use crate::noise::noise_line;
use crate::opening::{big_open_call, open_call};
use crate::paging::page_call;
use crate::random::Random;
use crate::sheet::Sheet;
use crate::tabling::table_call;
use crate::taming::highest_cap;
use crate::word::Word;
use std::io::{self, Write};

/// One call in so many measures, and may go through millions of words.
const BIG_EVERY: u64 = 2_000;

/// One line in so many, in the place of another one, is a call over 33 to 64 cells with a list
/// of any length.
const DISTANT_EVERY: u64 = 1_000;

/// Prints so many lines. Those with lists of any length come from numbers of their own.
pub fn print_cases(seed: u64, count: u64, mut output: impl Write) -> io::Result<()> {
    let mut random = Random::new(seed);
    let mut random_of_distant = Random::new(!seed);
    for index in 0..count {
        let mut line = if index % BIG_EVERY == BIG_EVERY / 2 {
            big_measurement(&mut random).into_bytes()
        } else {
            case_line(&mut random)
        };
        if index % DISTANT_EVERY == DISTANT_EVERY / 4 {
            line = distant_call(&mut random_of_distant).into_bytes();
        }
        output.write_all(&line)?;
        output.write_all(b"\n")?;
    }
    output.flush()
}

/// One line of any kind; of the calls one in eight is about tables, one in thirty opens a
/// page, and of the others one in three is a call on a page or on a whole one.
fn case_line(random: &mut Random) -> Vec<u8> {
    let paged = random.once_in(3);
    match random.below(100) {
        0..=8 => noise_line(random),
        9..=19 => table_call(random).into_bytes(),
        20..=22 => open_call(random).into_bytes(),
        23..=43 if paged => {
            let sheet = broken_sheet(random);
            let odd = random.once_in(3);
            any_page_call(random, &sheet, odd).into_bytes()
        }
        44..=99 if paged => {
            let sheet = some_sheet(random);
            let odd = random.once_in(2);
            any_page_call(random, &sheet, odd).into_bytes()
        }
        23..=43 => {
            let sheet = broken_sheet(random);
            let verb = random.one_of(&Verb::ALL);
            let odd = random.once_in(3);
            any_call(random, verb, &sheet, odd).into_bytes()
        }
        44..=58 => {
            let sheet = some_sheet(random);
            let verb = random.one_of(&Verb::ALL[1..]);
            any_call(random, verb, &sheet, true).into_bytes()
        }
        _ => good_call(random).into_bytes(),
    }
}

/// A call on a page of this sheet, its arguments good or odd ones; one in four writes a whole
/// page.
fn any_page_call(random: &mut Random, sheet: &Sheet, odd: bool) -> String {
    match random.once_in(4) {
        true => whole_call(random, sheet, odd),
        false => page_call(random, sheet, odd),
    }
}

/// A measurement of a far distance on 26 to 64 cells, at a cap of at most 8 and as high as
/// the longest list allows, or up to 2 lower; one in three opens a page.
fn big_measurement(random: &mut Random) -> String {
    if random.once_in(3) {
        return big_open_call(random);
    }
    let verb = random.one_of(&[Verb::D0, Verb::D1]);
    let (narrow, wide) = (random.between(26, 32), random.between(33, 64));
    let n = random.one_of(&[narrow, wide]);
    let sheet = far_sheet(random, verb, n);
    let cap = highest_cap(n) - random.between(0, 2);
    call_text(verb, &sheet, &[Word::from(cap)])
}

#[cfg(test)]
mod tests {
    use super::*;
    use crate::lines::answer_line;

    /// Equal seeds give equal lines, other seeds others, and as many as asked for.
    #[test]
    fn cases_are_repeatable() {
        let cases = |seed| {
            let mut output = Vec::new();
            print_cases(seed, 500, &mut output).expect("cases");
            output
        };
        assert_eq!(cases(1), cases(1));
        assert_ne!(cases(1), cases(2));
        let newlines = cases(1).iter().filter(|byte| **byte == b'\n').count();
        assert_eq!(newlines, 500);
    }

    /// Every verb comes up often.
    #[test]
    fn verbs_that_come_up() {
        let mut output = Vec::new();
        print_cases(4, 2_000, &mut output).expect("cases");
        let lines: Vec<&[u8]> = output.split(|byte| *byte == b'\n').collect();
        for verb in [
            "admit", "write", "read", "d0", "d1", "open", "pwrite", "pread", "wpage", "tosheet",
            "totables",
        ] {
            let start = format!("{verb} ").into_bytes();
            let times = lines.iter().filter(|line| line.starts_with(&start));
            assert!(times.count() > 40, "{verb}");
        }
    }

    /// Few calls go through a list that is longer than the rule has it, and none but the
    /// distant ones through one that is longer than any other may be. Opening a page goes
    /// through that of d1 at cap 8.
    #[test]
    fn lists_gone_through() {
        let mut output = Vec::new();
        print_cases(3, 4_000, &mut output).expect("cases");
        let lines = output.split(|byte| *byte == b'\n').enumerate();
        let length = |line: &[u8]| -> Option<u64> {
            let answer = match line.strip_prefix(b"open ") {
                Some(sheet) => answer_line(&[b"d1 ", sheet, b" 8"].concat())?,
                None => answer_line(line)?,
            };
            let (_, after) = answer
                .rsplit_once("tried ")
                .or(answer.split_once("refused 12 "))?;
            after.split(' ').next()?.parse().ok()
        };
        let is_distant = |place: &usize| place % 1_000 == 250;
        let (distant, others): (Vec<_>, Vec<_>) = lines.partition(|(at, _)| is_distant(at));
        let lengths = |lines: Vec<(usize, &[u8])>| -> Vec<u64> {
            let answered = lines.into_iter().filter_map(|(_, line)| length(line));
            answered.collect()
        };
        let (distant, lengths) = (lengths(distant), lengths(others));
        let longer = |limit: u64| lengths.iter().filter(|length| **length > limit).count();
        assert!(lengths.len() > 800 && longer(20_000_000) == 0);
        assert!(longer(700_000) <= 4 && (1..30).contains(&longer(50_000)));
        assert!(distant.len() == 4 && distant.iter().max() > Some(&20_000_000));
    }

    /// But for the distant calls the lines are those of the seed's numbers: an equal seed with
    /// another number of lines begins with the same ones, and each distant one is a call.
    #[test]
    fn distant_calls_among_the_lines() {
        let cases = |count| {
            let mut output = Vec::new();
            print_cases(5, count, &mut output).expect("cases");
            output
        };
        let (all, some) = (cases(1_300), cases(300));
        assert_eq!(all[..some.len()], some);
        let lines: Vec<&[u8]> = all.split(|byte| *byte == b'\n').collect();
        for line in [lines[250], lines[1_250]] {
            let verb = line.split(|byte| *byte == b' ').next();
            let verbs: [&[u8]; 3] = [b"d0", b"d1", b"open"];
            assert!(verbs.contains(&verb.expect("a verb")));
        }
    }
}
