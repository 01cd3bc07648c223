//! Lines that are no calls, or hardly calls: they get no answer, `unknown`, or, at the
//! very edge of what a call may be, the answer of a call.

use crate::asking::{good_call, line_text, list};
use crate::edges::edge_line;
use crate::filling::good_whole_call;
use crate::lines::ROOM_FOR_LINE;
use crate::making::kitchen;
use crate::opening::good_open_call;
use crate::paging::{good_page_call, good_page_write};
use crate::random::Random;
use crate::roomnoise::room_noise;
use crate::tabling::good_table_call;
use crate::tokens::{after_list, joined, long_line, miscount, page_counts, tokens_of};
use crate::wholenoise::whole_noise;
use crate::word::Word;

/// One line of noise.
pub fn noise_line(random: &mut Random) -> Vec<u8> {
    match random.below(26) {
        0 => silent_line(random),
        1 => wrong_verb(random),
        2..=4 => wrong_token(random),
        5 => token_missing_or_left_over(random),
        6 | 7 => wrong_count(random),
        8 => wrong_space(random),
        9 => padded_line(random),
        10 => many_rows(random),
        11 => carriage_return(random),
        12 | 13 => wrong_level(random),
        14 => wrong_page_count(random),
        15 => many_slots(random),
        16..=18 => room_noise(random),
        19 | 20 => whole_noise(random),
        21..=24 => {
            let tokens = good_tokens(random);
            edge_line(random, tokens)
        }
        _ => garbage(random),
    }
}

/// A good call, on a page or on a whole one, to open one, about tables or none of these.
fn some_call(random: &mut Random) -> String {
    match random.below(13) {
        0..=3 => good_page_call(random),
        4 => good_open_call(random),
        5 | 6 => good_table_call(random),
        7 => good_whole_call(random),
        _ => good_call(random),
    }
}

/// The tokens of a good call.
fn good_tokens(random: &mut Random) -> Vec<String> {
    tokens_of(some_call(random))
}

/// An empty line or a comment, which get no answer.
fn silent_line(random: &mut Random) -> Vec<u8> {
    let call = some_call(random);
    match random.below(6) {
        0 | 1 => vec![],
        2 => b"#".to_vec(),
        3 => b"\r".to_vec(),
        4 => format!("# {call}\r").into_bytes(),
        _ => format!("# {call}").into_bytes(),
    }
}

/// A call under another verb or under none; `open` is not among them, since the sheet of
/// another call may have too long a list for it.
fn wrong_verb(random: &mut Random) -> Vec<u8> {
    let mut tokens = good_tokens(random);
    let verbs = [
        "",
        "Admit",
        "ADMIT",
        "admitted",
        "admi",
        "writ",
        "write0",
        "reads",
        "red",
        "d",
        "d2",
        "d00",
        "D0",
        "0",
        "1",
        "pwrite",
        "pread",
        "pwrit",
        "preads",
        "Pwrite",
        "wpage",
        "wpages",
        "wpag",
        "WPage",
        "Open",
        "opens",
        "ope",
        "tosheet",
        "totables",
        "tosheets",
        "totable",
        "ToSheet",
        "walk",
        "unknown",
        "d0\t",
        "\u{e9}crire",
    ];
    tokens[0] = random.one_of(&verbs).to_string();
    if random.once_in(4) {
        tokens.truncate(1);
    }
    joined(tokens)
}

/// A call with one token that is no number, or a number that its place cannot hold; or
/// with leading zeros, which are fine.
fn wrong_token(random: &mut Random) -> Vec<u8> {
    let mut tokens = good_tokens(random);
    let at = 1 + random.below(tokens.len() as u64 - 1) as usize;
    let token = tokens[at].clone();
    tokens[at] = match random.below(14) {
        0 => "x".to_string(),
        1 => format!("-{token}"),
        2 => format!("+{token}"),
        3 => format!("{token}."),
        4 => format!("0x{token}"),
        5 => format!("{token}a"),
        6 => "18446744073709551616".to_string(),
        7 => "4294967297".to_string(),
        8 => "9".repeat(random.between(10, 30) as usize),
        9 => format!("18446744073709551616{token}"),
        10 => "340282366920938463463374607431768211457".to_string(),
        11 => String::new(),
        12 => format!("{}{token}", "0".repeat(random.between(1, 30) as usize)),
        _ => format!("{token}\u{663}"),
    };
    joined(tokens)
}

/// A call with a token taken out, one put in, or its end cut off.
fn token_missing_or_left_over(random: &mut Random) -> Vec<u8> {
    let mut tokens = good_tokens(random);
    let at = random.below(tokens.len() as u64) as usize;
    match random.below(4) {
        0 => {
            tokens.pop();
        }
        1 => tokens.push("1".to_string()),
        2 => tokens.truncate(at),
        _ => {
            tokens.remove(at);
        }
    }
    joined(tokens)
}

/// A call whose first LIST, of rows of a sheet or of P, has a count that is not its number.
fn wrong_count(random: &mut Random) -> Vec<u8> {
    let mut tokens = good_tokens(random);
    miscount(random, &mut tokens, 4);
    joined(tokens)
}

/// A write to a page, or to a whole one, with a record whose level its place cannot hold; or
/// one with the largest that it can, or with leading zeros.
fn wrong_level(random: &mut Random) -> Vec<u8> {
    let write = match random.once_in(3) {
        true => good_whole_call(random),
        false => good_page_write(random),
    };
    let mut tokens = tokens_of(write);
    let (_, at) = page_counts(&tokens);
    let end = after_list(&tokens, at, 3);
    let levels = [
        "256",
        "256",
        "257",
        "512",
        "65536",
        "4294967295",
        "4294967296",
        "255",
        "0255",
        "0256",
        "01",
    ];
    let level = random.one_of(&levels).to_string();
    if at + 1 == end {
        let slot = tokens[end].clone();
        tokens[at] = "1".to_string();
        tokens.splice(end..end, [slot, "0".to_string(), level]);
    } else {
        let record = random.below((end - at) as u64 / 3) as usize;
        tokens[at + 3 + 3 * record] = level;
    }
    joined(tokens)
}

/// A page write whose count of slots or of records is not their number.
fn wrong_page_count(random: &mut Random) -> Vec<u8> {
    let mut tokens = tokens_of(good_page_write(random));
    let (page, records) = page_counts(&tokens);
    let at = random.one_of(&[page, records]);
    miscount(random, &mut tokens, at);
    joined(tokens)
}

/// A page call, with the kitchen sheet's number, with more slots than any page has, or a page
/// write with more records; now and then as many as the room for a line has, or more.
fn many_slots(random: &mut Random) -> Vec<u8> {
    let kind = random.below(3);
    let slots = |count: usize| [vec![3], list(&vec![0; count])].concat();
    let records = |count: usize| [vec![3, 0, count as Word], vec![0; 3 * count]].concat();
    let line = |count: usize| match kind {
        0 => line_text("pread", &kitchen(), &[slots(count), vec![0, 1]].concat()),
        1 => line_text(
            "pwrite",
            &kitchen(),
            &[slots(count), vec![0, 0, 5]].concat(),
        ),
        _ => line_text("pwrite", &kitchen(), &[records(count), vec![0, 5]].concat()),
    };
    let (usual, each) = match kind {
        2 => (255 + random.below(4), " 0 0 0".len()),
        _ => (2_046 + random.below(5), " 0".len()),
    };
    long_line(random, usual as usize, each, line)
}

/// A call with a space too many, or with something else at the place of a space.
fn wrong_space(random: &mut Random) -> Vec<u8> {
    let call = some_call(random);
    let line = match random.below(7) {
        0 => format!(" {call}"),
        1 => format!("{call} "),
        2 => call.replacen(' ', "  ", 1),
        3 => call.replacen(' ', "\t", 1),
        4 => " ".to_string(),
        5 => format!("0 {call}"),
        _ => {
            let at = call.rfind(' ').expect("a space");
            format!("{} {}", &call[..at], &call[at..])
        }
    };
    line.into_bytes()
}

/// A call with a carriage return: one at the line's end, which belongs to that end, or
/// another, which does not.
fn carriage_return(random: &mut Random) -> Vec<u8> {
    let call = some_call(random);
    let line = match random.below(6) {
        0..=2 => format!("{call}\r"),
        3 => format!("{call}\r\r"),
        4 => format!("\r{call}"),
        _ => {
            let at = random.below(call.len() as u64) as usize;
            format!("{}\r{}", &call[..at], &call[at..])
        }
    };
    line.into_bytes()
}

/// A call whose last number is padded with zeros to some length; now and then to the
/// room for a line, or past it.
fn padded_line(random: &mut Random) -> Vec<u8> {
    let call = some_call(random);
    let length = match random.below(40) {
        0 => ROOM_FOR_LINE - 1,
        1 => ROOM_FOR_LINE,
        2 => ROOM_FOR_LINE + 1,
        3 => ROOM_FOR_LINE + 1 + random.below(4000) as usize,
        4..=9 => 4094 + random.below(4) as usize,
        _ => 1000 + random.below(9000) as usize,
    };
    let at = call.rfind(' ').expect("a space") + 1;
    let zeros = "0".repeat(length.saturating_sub(call.len()));
    let end = if random.once_in(4) { "\r" } else { "" };
    format!("{}{zeros}{}{end}", &call[..at], &call[at..]).into_bytes()
}

/// More rows than any sheet has, with the right count; now and then as many as the room
/// for a line has, or more.
fn many_rows(random: &mut Random) -> Vec<u8> {
    let most = ((ROOM_FOR_LINE - "admit 64 64 0 65000".len()) / " 0".len()) as u64;
    let n = random.one_of(&[32, 64]);
    let count = match random.below(40) {
        0 => most - random.below(4),
        1 => most + 1 + random.below(4),
        _ => 2 * n + 1 + random.below(400),
    };
    let row = if count > 1000 { 1 } else { 128 };
    let rows = (0..count).map(|_| format!(" {}", random.below(row)));
    let line = format!("admit {n} {n} 0 {count}{}", rows.collect::<String>());
    line.into_bytes()
}

/// Any bytes but newlines.
fn garbage(random: &mut Random) -> Vec<u8> {
    let length = random.between(1, 60);
    let bytes = (0..length).map(|_| random.below(256) as u8);
    bytes.filter(|byte| *byte != b'\n').collect()
}
