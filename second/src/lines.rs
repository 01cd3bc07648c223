//! The line protocol: a call from a line, an answer to a line.

use crate::calls::{admitting, d0, d1, read, write, Answer, Measured};
use crate::page::{open, page_read, page_write, Record};
use crate::sheet::{Refusal, Sheet};
use crate::tables::{to_sheet, to_tables};
use crate::whole::whole_page_write;
use crate::word::Word;
use std::io::{self, BufRead, Write};

/// The room of the console for a line, its end not counted: a longer line is no call.
/// A list may have any length that fits.
pub const ROOM_FOR_LINE: usize = 131_071;

/// The largest size that the place of a room's size holds.
pub const MOST_OF_A_ROOM: u32 = 4_096;

/// What a line is answered that is no call.
const UNKNOWN: &str = "unknown";

/// Answers every line of the input that asks for an answer, in order. A last line
/// without a newline counts as a line.
pub fn answer_all(mut input: impl BufRead, mut output: impl Write) -> io::Result<()> {
    let mut line = Vec::new();
    while input.read_until(b'\n', &mut line)? != 0 {
        if let Some(answer) = answer_line(without_end(&line)) {
            writeln!(output, "{answer}")?;
        }
        line.clear();
    }
    output.flush()
}

/// A line without its end: the newline, if it has one, and one carriage return right
/// before the newline or the end of the input.
fn without_end(line: &[u8]) -> &[u8] {
    let line = line.strip_suffix(b"\n").unwrap_or(line);
    line.strip_suffix(b"\r").unwrap_or(line)
}

/// The answer to one line without its end. "Empty lines and lines that begin with
/// `#` are no calls and get no answer."
pub fn answer_line(line: &[u8]) -> Option<String> {
    if line.is_empty() || line[0] == b'#' {
        return None;
    }
    let answer = if line.len() > ROOM_FOR_LINE {
        None
    } else {
        answer_call(line)
    };
    Some(answer.unwrap_or(UNKNOWN.to_string()))
}

/// The answer to a call, or none where the line is no call: a verb, then numbers, and
/// one space between any two tokens.
fn answer_call(line: &[u8]) -> Option<String> {
    let mut tokens = line.split(|byte| *byte == b' ');
    let verb = tokens.next()?;
    let numbers: Vec<Word> = tokens.map(number).collect::<Option<_>>()?;
    if verb == b"tosheet" {
        return making_a_sheet(&numbers);
    }
    let (sheet, rest) = sheet_and_rest(&numbers)?;
    let result = match (verb, rest) {
        (b"admit", []) => admitting(&sheet),
        (b"write", [message, stuck, levels]) => write(&sheet, *message, *stuck, *levels),
        (b"read", [y, radius]) => read(&sheet, *y, narrow(*radius)?),
        (b"d0", [cap]) => d0(&sheet, narrow(*cap)?),
        (b"d1", [cap]) => d1(&sheet, narrow(*cap)?),
        (b"open", []) => open(&sheet),
        (b"pread", rest) => page_reading(&sheet, rest)?,
        (b"pwrite", rest) => return page_writing(&sheet, rest),
        (b"wpage", rest) => return whole_page_writing(&sheet, rest),
        (b"totables", rest) => return giving_tables(&sheet, rest),
        _ => return None,
    };
    Some(result_text(result))
}

/// `pread` after the sheet: the plate number, the page, slot and radius.
fn page_reading(sheet: &Sheet, numbers: &[Word]) -> Option<Result<Answer, Refusal>> {
    let (number, rest) = narrow_and_rest(numbers)?;
    let (page, rest) = list_and_rest(rest)?;
    let [slot, radius] = rest else {
        return None;
    };
    let (slot, radius) = (narrow(*slot)?, narrow(*radius)?);
    Some(page_read(sheet, number, page, slot, radius))
}

/// `pwrite` after the sheet: the plate number, the page, the records, slot and message. Its
/// answer, also a refusal, ends with the page as it is after the call.
fn page_writing(sheet: &Sheet, numbers: &[Word]) -> Option<String> {
    let (number, rest) = narrow_and_rest(numbers)?;
    let (page, rest) = list_and_rest(rest)?;
    let (records, rest) = records_and_rest(rest)?;
    let [slot, message] = rest else {
        return None;
    };
    let mut page = page.to_vec();
    let slot = narrow(*slot)?;
    let result = page_write(sheet, number, &mut page, &records, slot, *message);
    Some(lent_text(result, ["page"], &[page]))
}

/// `wpage` after the sheet: the plate number, the page, the records, the messages and the room
/// for the notes. Its answer, also a refusal, ends with page and notes as they are after the
/// call.
fn whole_page_writing(sheet: &Sheet, numbers: &[Word]) -> Option<String> {
    let (number, rest) = narrow_and_rest(numbers)?;
    let (page, rest) = list_and_rest(rest)?;
    let (records, rest) = records_and_rest(rest)?;
    let (messages, rest) = list_and_rest(rest)?;
    let (mut notes, []) = room_and_rest(rest)? else {
        return None;
    };
    let mut page = page.to_vec();
    let result = whole_page_write(sheet, number, &mut page, &records, messages, &mut notes);
    Some(lent_text(result, ["page", "notes"], &[page, notes]))
}

/// `tosheet`: n, k and l, the tables P, R and Q, and the room for the sheet. Its answer,
/// also a refusal, ends with what the room holds after the call.
fn making_a_sheet(numbers: &[Word]) -> Option<String> {
    let (nkl, rest) = nkl_and_rest(numbers)?;
    let (p, rest) = list_and_rest(rest)?;
    let (r, rest) = list_and_rest(rest)?;
    let (q, rest) = list_and_rest(rest)?;
    let (mut room, []) = room_and_rest(rest)? else {
        return None;
    };
    let tables = [p, r, q].map(<[Word]>::to_vec);
    let result = to_sheet(nkl, &tables, &mut room);
    Some(lent_text(result, ["room"], &[room]))
}

/// `totables` after the sheet: the rooms for P, R and Q. Its answer, also a refusal, ends
/// with what the rooms hold after the call.
fn giving_tables(sheet: &Sheet, numbers: &[Word]) -> Option<String> {
    let (p, rest) = room_and_rest(numbers)?;
    let (r, rest) = room_and_rest(rest)?;
    let (q, []) = room_and_rest(rest)? else {
        return None;
    };
    let mut rooms = [p, r, q];
    let result = to_tables(sheet, &mut rooms);
    Some(lent_text(result, ["P", "R", "Q"], &rooms))
}

/// A number token: one or more decimal digits whose value a word can hold.
fn number(token: &[u8]) -> Option<Word> {
    if token.is_empty() {
        return None;
    }
    let mut value: Word = 0;
    for byte in token {
        if !byte.is_ascii_digit() {
            return None;
        }
        let digit = Word::from(byte - b'0');
        value = value.checked_mul(10)?.checked_add(digit)?;
    }
    Some(value)
}

/// A number that is no word: its place holds 32 bits, and more make the line no call.
fn narrow(number: Word) -> Option<u32> {
    u32::try_from(number).ok()
}

/// A number that is no word, then the numbers that are left.
fn narrow_and_rest(numbers: &[Word]) -> Option<(u32, &[Word])> {
    let (first, rest) = numbers.split_first()?;
    Some((narrow(*first)?, rest))
}

/// n, k and l, then the numbers that are left.
fn nkl_and_rest(numbers: &[Word]) -> Option<([u32; 3], &[Word])> {
    let (n, rest) = narrow_and_rest(numbers)?;
    let (k, rest) = narrow_and_rest(rest)?;
    let (l, rest) = narrow_and_rest(rest)?;
    Some(([n, k, l], rest))
}

/// LIST: a count and so many words, then the numbers that are left.
fn list_and_rest(numbers: &[Word]) -> Option<(&[Word], &[Word])> {
    let (count, after) = narrow_and_rest(numbers)?;
    let count = count as usize;
    (count <= after.len()).then(|| after.split_at(count))
}

/// SHEET: n k l and a LIST of rows, then the numbers that are left for the call.
fn sheet_and_rest(numbers: &[Word]) -> Option<(Sheet, &[Word])> {
    let ([n, k, l], after) = nkl_and_rest(numbers)?;
    let (rows, rest) = list_and_rest(after)?;
    let rows = rows.to_vec();
    Some((Sheet { n, k, l, rows }, rest))
}

/// RECS: a count and so many times slot, cell and level, then the numbers that are left.
/// A level that 8 bits cannot hold makes the line no call.
fn records_and_rest(numbers: &[Word]) -> Option<(Vec<Record>, &[Word])> {
    let (count, mut rest) = narrow_and_rest(numbers)?;
    let mut records = Vec::new();
    for _ in 0..count {
        let [slot, cell, level, after @ ..] = rest else {
            return None;
        };
        records.push(Record {
            slot: narrow(*slot)?,
            cell: narrow(*cell)?,
            level: u8::try_from(*level).ok()?,
        });
        rest = after;
    }
    Some((records, rest))
}

/// ROOM: a size and a fill, as lent memory of so many entries, each with this fill; then
/// the numbers that are left. A size that its place cannot hold makes the line no call.
fn room_and_rest(numbers: &[Word]) -> Option<(Vec<Word>, &[Word])> {
    let (size, rest) = narrow_and_rest(numbers)?;
    let (fill, rest) = rest.split_first()?;
    let room = || vec![*fill; size as usize];
    (size <= MOST_OF_A_ROOM).then(|| (room(), rest))
}

/// An answer or a refusal, and after it each list of lent memory behind its name.
fn lent_text<const N: usize>(
    result: Result<Answer, Refusal>,
    names: [&str; N],
    lists: &[Vec<Word>; N],
) -> String {
    let mut text = result_text(result);
    for (name, list) in names.iter().zip(lists) {
        text.push_str(&format!(" {name} {}", list_text(list)));
    }
    text
}

/// An answer or a refusal.
fn result_text(result: Result<Answer, Refusal>) -> String {
    match result {
        Ok(answer) => answer_text(answer),
        Err(refusal) => refusal_text(refusal),
    }
}

/// LIST, of a page or a room.
fn list_text(words: &[Word]) -> String {
    let tokens = std::iter::once(words.len().to_string())
        .chain(words.iter().map(Word::to_string))
        .collect::<Vec<String>>();
    tokens.join(" ")
}

/// `refused NUMBER` or `refused NUMBER PLACE`.
fn refusal_text(refusal: Refusal) -> String {
    match refusal.place {
        Some(place) => format!("refused {} {place}", refusal.number),
        None => format!("refused {}", refusal.number),
    }
}

/// The answers that are no refusals, as the protocol's table gives them.
fn answer_text(answer: Answer) -> String {
    match answer {
        Answer::Admitted => "admitted".to_string(),
        Answer::Word { word, d } => format!("word {word} d {d}"),
        Answer::Message { message, z, tried } => format!("message {message} z {z} tried {tried}"),
        Answer::D0(measured) => measured_text(measured),
        Answer::D1 { measured, radius } => format!("{} radius {radius}", measured_text(measured)),
        Answer::Number(number) => format!("number {number}"),
        Answer::Done => "done".to_string(),
    }
}

/// `distance D tried T` or `more tried T`.
fn measured_text(measured: Measured) -> String {
    let tried = measured.tried;
    match measured.distance {
        Some(distance) => format!("distance {distance} tried {tried}"),
        None => format!("more tried {tried}"),
    }
}

#[cfg(test)]
mod tests;
