//! The tables of request 4: a whole sheet made from P, R and Q, and the tables of a sheet
//! of that shape given back.

use crate::calls::Answer;
use crate::sheet::{admit, bare, numbers, placed, Refusal, Sheet, Tables};
use crate::word::{above, Word};

/// A matrix by its entries: whether there is a 1 in a row, at a column.
type Block<'a> = &'a dyn Fn(usize, usize) -> bool;

/// Makes the whole sheet with these n, k and l in the room: refusal 1 for the numbers and
/// all sizes, then 2 for a stray bit. Refused, it leaves the room as it was.
pub fn to_sheet(nkl: [u32; 3], tables: &Tables, room: &mut [Word]) -> Result<Answer, Refusal> {
    let [n, k, l] = nkl;
    let sizes = numbers(n, k, l).ok_or(bare(1))?;
    if lengths(tables) != wanted_lengths(sizes) || room.len() != n as usize + sizes[0] {
        return Err(bare(1));
    }
    if let Some(row) = stray_row(sizes, tables) {
        return Err(placed(2, row as u32));
    }
    room.copy_from_slice(&built(sizes, tables));
    Ok(Answer::Done)
}

/// Gives the tables of a sheet in the rooms for P, R and Q: refusal 1, also for a room of
/// another size, then 2 to 6, then 24 for another shape. Refused, it leaves the rooms as
/// they were.
pub fn to_tables(sheet: &Sheet, rooms: &mut Tables) -> Result<Answer, Refusal> {
    let sizes = numbers(sheet.n, sheet.k, sheet.l).ok_or(bare(1))?;
    if lengths(rooms) != wanted_lengths(sizes) {
        return Err(bare(1));
    }
    admit(sheet)?;
    let tables = tables_of_shape(sizes, &sheet.rows).ok_or(bare(24))?;
    for (room, table) in rooms.iter_mut().zip(&tables) {
        room.copy_from_slice(table);
    }
    Ok(Answer::Done)
}

/// The numbers of rows of P, R and Q.
fn lengths(tables: &Tables) -> [usize; 3] {
    tables.each_ref().map(Vec::len)
}

/// "k, l and l for tables given back", and the same for tables handed in.
fn wanted_lengths([k, l, _]: [usize; 3]) -> [usize; 3] {
    [k, l, l]
}

/// Refusal 2: the first row with a bit at a column that its table does not have, "counted
/// through P, then R, then Q". P and Q have r columns, R has k.
fn stray_row([k, _, r]: [usize; 3], tables: &Tables) -> Option<usize> {
    let strays = |(table, columns): (&Vec<Word>, usize)| -> Vec<bool> {
        let past = above(columns as u32);
        table.iter().map(|row| row & past != 0).collect()
    };
    let mut rows = tables.iter().zip([r, k, r]).flat_map(strays);
    rows.position(|stray| stray)
}

/// The sheet, entry by entry: "G1 = [I 0 P], G0 = [R I Q], M = [I R^T 0] and
/// H = [P^T (Q + RP)^T I]", its groups of rows in the order of a sheet.
fn built([k, l, r]: [usize; 3], tables: &Tables) -> Vec<Word> {
    let [p, big_r, q] = tables
        .each_ref()
        .map(|table| |row: usize, column: usize| table[row] >> column & 1 == 1);
    let identity = |row: usize, column: usize| row == column;
    let zero = |_: usize, _: usize| false;
    let rp = |j: usize, c: usize| (0..k).filter(|i| big_r(j, *i) && p(*i, c)).count() % 2 == 1;
    let p_turned = |c: usize, i: usize| p(i, c);
    let sum_turned = |c: usize, j: usize| q(j, c) != rp(j, c);
    let r_turned = |i: usize, j: usize| big_r(j, i);
    let groups: [(usize, [Block; 3]); 4] = [
        (k, [&identity, &zero, &p]),
        (l, [&big_r, &identity, &q]),
        (r, [&p_turned, &sum_turned, &identity]),
        (k, [&identity, &r_turned, &zero]),
    ];
    let rows_of = |(count, blocks): (usize, [Block; 3])| -> Vec<Word> {
        (0..count)
            .map(|row| row_of(row, blocks, [k, l, r]))
            .collect()
    };
    groups.into_iter().flat_map(rows_of).collect()
}

/// A row of three blocks side by side, which have so many columns each.
fn row_of(row: usize, blocks: [Block; 3], columns: [usize; 3]) -> Word {
    let entries = blocks.iter().zip(columns).flat_map(|(block, count)| {
        let entry = move |column| block(row, column);
        (0..count).map(entry)
    });
    let ones = entries.enumerate().filter(|(_, one)| *one);
    ones.fold(0, |word, (cell, _)| word | 1 << cell)
}

/// The tables of a sheet with these rows, if G1 and G0 have the shape: what stands at the
/// places of P, R and Q is cut out, and the sheet made from it has the same G1 and G0.
fn tables_of_shape([k, l, r]: [usize; 3], rows: &[Word]) -> Option<Tables> {
    let (g1, g0) = rows[..k + l].split_at(k);
    let tables = [cut(g1, k + l, r), cut(g0, 0, k), cut(g0, k + l, r)];
    let again = built([k, l, r], &tables);
    (again[..k + l] == rows[..k + l]).then_some(tables)
}

/// So many columns of some rows, from this cell on.
fn cut(rows: &[Word], from: usize, columns: usize) -> Vec<Word> {
    let entry = |row: Word, column: usize| (row >> (from + column) & 1) << column;
    let part = |row: &Word| (0..columns).map(|column| entry(*row, column)).sum();
    rows.iter().map(part).collect()
}

#[cfg(test)]
mod tests;
