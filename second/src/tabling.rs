//! Calls about tables at random, as lines of the protocol: sheets to be made and tables to
//! be given back, with good and odd tables, numbers, sheets and rooms.

use crate::asking::{line_text, list, numbers_text, some_word};
use crate::breaking::{break_numbers, broken, broken_sheet, stray_bit};
use crate::making::{near_sheet, random_numbers, random_tables, shaped_sheet, some_sheet};
use crate::random::Random;
use crate::sheet::{Sheet, Tables};
use crate::word::Word;

/// Lent rooms and tables have at most so many rows here, whatever k and l are.
const MOST_ROWS: u32 = 130;

/// A call about tables of any kind: `tosheet` good or odd, or `totables` on a sheet of the
/// shape, near it, of any other or broken, in good rooms or odd ones.
pub fn table_call(random: &mut Random) -> String {
    if random.once_in(2) {
        let odd = random.once_in(2);
        return to_sheet_call(random, odd);
    }
    let sheet = match random.below(10) {
        0..=3 => shaped_sheet(random),
        4 | 5 => near_sheet(random),
        6 => some_sheet(random),
        7 | 8 => {
            let sheet = shaped_sheet(random);
            broken(random, sheet)
        }
        _ => broken_sheet(random),
    };
    let odd = random.once_in(5);
    to_tables_call(random, &sheet, odd)
}

/// A call about tables with everything as it should be.
pub fn good_table_call(random: &mut Random) -> String {
    if random.once_in(2) {
        return to_sheet_call(random, false);
    }
    let sheet = shaped_sheet(random);
    to_tables_call(random, &sheet, false)
}

/// `tosheet` as a line: the numbers, the tables and the room, its size and fill.
pub fn to_sheet_text(nkl: [u32; 3], tables: &Tables, size: u32, fill: Word) -> String {
    let lists = tables.each_ref().map(|table| list(table)).concat();
    let room = [Word::from(size), fill];
    numbers_text(
        "tosheet",
        &[&nkl.map(Word::from), &lists[..], &room].concat(),
    )
}

/// `totables` as a line: the sheet, and the sizes and fills of the rooms for P, R and Q.
pub fn to_tables_text(sheet: &Sheet, sizes: [u32; 3], fills: [Word; 3]) -> String {
    let rooms = [0, 1, 2].map(|room| [Word::from(sizes[room]), fills[room]]);
    line_text("totables", sheet, &rooms.concat())
}

/// `tosheet` with random tables. The room is a blank sheet, so that its numbers are broken
/// as those of a sheet are.
pub fn to_sheet_call(random: &mut Random, odd: bool) -> String {
    let (n, k, l) = random_numbers(random);
    let mut tables = random_tables(random, n, k, l);
    let rows = vec![0; (n + k) as usize];
    let mut blank = Sheet { n, k, l, rows };
    if odd {
        let faults = random.below(4);
        for _ in 0..faults {
            break_table(random, &blank, &mut tables);
        }
        if faults == 0 || random.once_in(10) {
            break_numbers(random, &mut blank);
            resize_some(random, &blank, &mut tables);
        }
    }
    let size = blank.rows.len() as u32;
    to_sheet_text(
        [blank.n, blank.k, blank.l],
        &tables,
        size,
        some_word(random),
    )
}

/// One fault in the tables of a sheet with right numbers: mostly a stray bit, else a row
/// too few, one too many, one moved to another table, or two tables exchanged.
fn break_table(random: &mut Random, blank: &Sheet, tables: &mut Tables) {
    let r = blank.n - blank.k - blank.l;
    let (one, other) = (random.below(3) as usize, random.below(3) as usize);
    match random.below(16) {
        0 => {
            tables[one].pop();
        }
        1 => tables[one].push(0),
        2 => {
            let moved = tables[one].pop();
            tables[other].extend(moved);
        }
        3 => tables.swap(one, other),
        _ => stray_bit(random, &mut tables[one], [r, blank.k, r][one]),
    }
}

/// Every second time the tables get the numbers of rows that broken numbers ask for, as
/// far as these are small.
fn resize_some(random: &mut Random, blank: &Sheet, tables: &mut Tables) {
    if random.once_in(2) {
        for (table, size) in tables.iter_mut().zip(right_sizes(blank)) {
            table.resize(size as usize, 0);
        }
    }
}

/// The sizes of the rooms for the tables of a sheet, as far as they are small.
fn right_sizes(sheet: &Sheet) -> [u32; 3] {
    [sheet.k, sheet.l, sheet.l].map(|size| size.min(MOST_ROWS))
}

/// `totables` on this sheet, in rooms of the right sizes or of odd ones.
pub fn to_tables_call(random: &mut Random, sheet: &Sheet, odd: bool) -> String {
    let mut sizes = right_sizes(sheet);
    if odd {
        for _ in 0..random.between(1, 2) {
            let room = random.below(3) as usize;
            sizes[room] = odd_size(random, sheet, sizes[room]);
        }
    }
    let one = some_word(random);
    let fills = match random.once_in(2) {
        true => [one; 3],
        false => [one, some_word(random), some_word(random)],
    };
    to_tables_text(sheet, sizes, fills)
}

/// A size near the right one, one that another table or room has, or any other.
fn odd_size(random: &mut Random, sheet: &Sheet, right: u32) -> u32 {
    let r = sheet.n.saturating_sub(sheet.k).saturating_sub(sheet.l);
    let any = random.between(0, MOST_ROWS);
    let [k, l, _] = right_sizes(sheet);
    let near = [right.saturating_sub(1), right + 1, right + 1];
    let others = [k, l, r.min(MOST_ROWS), sheet.rows.len() as u32, 0, any];
    match random.once_in(2) {
        true => random.one_of(&near),
        false => random.one_of(&others),
    }
}

#[cfg(test)]
mod tests {
    use super::*;
    use crate::lines::answer_line;
    use crate::tokens::tokens_of;

    /// The tokens of the answer to a line that is a call.
    fn answer_of(line: &str) -> Vec<String> {
        let answer = answer_line(line.as_bytes()).expect("an answer");
        assert_ne!(answer, "unknown", "{line}");
        tokens_of(answer)
    }

    /// The number of a refusal, or 0 where a call is not refused.
    fn number(line: &str) -> usize {
        let tokens = answer_of(line);
        match tokens[0].as_str() {
            "refused" => tokens[1].parse().expect("a number"),
            "done" => 0,
            _ => panic!("{line}: {tokens:?}"),
        }
    }

    /// Calls of any kind meet every refusal of a call about tables, and often none; good
    /// ones meet none.
    #[test]
    fn refusals_that_come_up() {
        let mut random = Random::new(71);
        let mut times = [[0; 25]; 2];
        for _ in 0..4000 {
            let line = table_call(&mut random);
            let verb = usize::from(line.starts_with("totables"));
            times[verb][number(&line)] += 1;
            assert_eq!(number(&good_table_call(&mut random)), 0);
        }
        let [made, given] = times;
        assert_eq!(made.iter().sum::<u32>(), made[0] + made[1] + made[2]);
        for count in [made[0], made[1], made[2], given[0], given[1], given[24]] {
            assert!(count > 200, "{times:?}");
        }
        assert!(given[2..=6].iter().all(|count| *count > 20), "{times:?}");
        assert_eq!(given[7..24].iter().sum::<u32>(), 0);
    }

    /// The first stray bit is often in P, often in R and often in Q.
    #[test]
    fn stray_bits_in_each_table() {
        let mut random = Random::new(72);
        let mut times = [0; 3];
        let value = |token: &str| token.parse::<u32>().expect("a number");
        for _ in 0..2000 {
            let line = to_sheet_call(&mut random, true);
            let (tokens, answer) = (tokens_of(line.clone()), answer_of(&line));
            if answer[1] == "2" {
                let (row, k, l) = (value(&answer[2]), value(&tokens[2]), value(&tokens[3]));
                let ends = [k, k + l, k + 2 * l];
                let table = ends.iter().position(|end| row < *end);
                times[table.expect("a table")] += 1;
            }
        }
        assert!(times.iter().all(|count| *count > 100), "{times:?}");
    }
}
