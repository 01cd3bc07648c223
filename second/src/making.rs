//! Admitted sheets at random, of every n, k and l, and the tables that they begin with.
//!
//! A sheet begins in the form G1 = [I 0 P], G0 = [R I Q], M = [I R^T 0],
//! H = [P^T (Q + RP)^T I], which meets every rule; steps that keep the rules mix it.

use crate::random::Random;
use crate::sheet::{Sheet, Tables};
use crate::word::{all_ones, column, sum_of, Word, MOST_CELLS};

/// The four groups of rows of a sheet in the making.
struct Groups {
    g1: Vec<Word>,
    g0: Vec<Word>,
    h: Vec<Word>,
    m: Vec<Word>,
}

/// A step that keeps a sheet admitted.
type Step = fn(&mut Random, &mut Groups);

/// A random admitted sheet with random n, k and l.
pub fn random_sheet(random: &mut Random) -> Sheet {
    let (n, k, l) = random_numbers(random);
    sheet_of_numbers(random, n, k, l)
}

/// A random admitted sheet whose G1 and G0 have the shape that they began with; its H and
/// M are those of the first form, or others.
pub fn shaped_sheet(random: &mut Random) -> Sheet {
    let (n, k, l) = random_numbers(random);
    let steps = random.one_of(&[0, 1, 4 * n]);
    let tables = random_tables(random, n, k, l);
    stepped(random, [n, k, l], &tables, steps, mix_checks)
}

/// A random admitted sheet that is few steps from its first form.
pub fn near_sheet(random: &mut Random) -> Sheet {
    let (n, k, l) = random_numbers(random);
    let steps = random.between(1, 3);
    let tables = random_tables(random, n, k, l);
    stepped(random, [n, k, l], &tables, steps, mix)
}

/// A bench sheet now and then, else a random admitted one.
pub fn some_sheet(random: &mut Random) -> Sheet {
    match random.below(40) {
        0 | 1 => kitchen(),
        2 => attic(),
        3 => tower(),
        4 => cellar(),
        _ => random_sheet(random),
    }
}

/// The kitchen sheet of document 01.
pub fn kitchen() -> Sheet {
    let rows = vec![49, 82, 100, 127, 27, 45, 78, 9, 10, 12];
    let (n, k, l) = (7, 3, 1);
    Sheet { n, k, l, rows }
}

/// The attic sheet of document 01.
pub fn attic() -> Sheet {
    let rows = vec![1, 3, 5, 7];
    let (n, k, l) = (3, 1, 2);
    Sheet { n, k, l, rows }
}

/// The cellar sheet, with d1 = 4: the kitchen sheet and a cell of parity.
pub fn cellar() -> Sheet {
    let rows = vec![177, 210, 228, 255, 27, 45, 78, 135, 9, 10, 12];
    let (n, k, l) = (8, 3, 1);
    Sheet { n, k, l, rows }
}

/// The tower sheet: 64 cells, 62 bits of a message, and all ones as the row of G0 and of H.
pub fn tower() -> Sheet {
    let (n, k, l) = (64, 62, 1);
    let units_and = |cell: u32| (0..k).map(move |i| 1 << i | 1 << cell);
    let ones = [Word::MAX; 2];
    let rows = units_and(63).chain(ones).chain(units_and(62)).collect();
    Sheet { n, k, l, rows }
}

/// The loft sheet for any n, the attic's for 3: every word is a codeword, and d0 is n.
pub fn loft(n: u32) -> Sheet {
    let g0 = (1..n).map(|cell| 1 | 1 << cell);
    let rows = [1].into_iter().chain(g0).chain([all_ones(n)]).collect();
    let (k, l) = (1, n - 1);
    Sheet { n, k, l, rows }
}

/// The sheet of n cells with two codewords, all zeros and all ones: d1 is n.
pub fn repeating(n: u32) -> Sheet {
    let checks = (1..n).map(|cell| 3 << (cell - 1));
    let rows = [all_ones(n)].into_iter().chain(checks).chain([1]).collect();
    let (k, l) = (1, 0);
    Sheet { n, k, l, rows }
}

/// n from 1 to 64, every second time at most 32, k from 1, and l with k + l at most n;
/// l = 0, r = 0, small k and the widest sheets come more often than the others.
pub fn random_numbers(random: &mut Random) -> (u32, u32, u32) {
    let n = match random.below(16) {
        0 => random.between(31, 32),
        1 => random.between(1, 4),
        2 | 3 => random.between(5, 16),
        4..=7 => random.between(1, 32),
        8 => random.between(33, 34),
        9 => random.between(63, 64),
        10 => MOST_CELLS,
        _ => random.between(33, 64),
    };
    let k = match random.below(8) {
        0..=3 => random.between(1, n.min(4)),
        4 => n - random.between(0, (n - 1).min(2)),
        _ => random.between(1, n),
    };
    let l = match random.below(8) {
        0 => 0,
        1 => n - k,
        2 => (n - k).saturating_sub(random.between(1, 3)),
        _ => random.between(0, n - k),
    };
    (n, k, l)
}

/// A random admitted sheet with these numbers.
pub fn sheet_of_numbers(random: &mut Random, n: u32, k: u32, l: u32) -> Sheet {
    let tables = random_tables(random, n, k, l);
    sheet_of_tables(random, [n, k, l], &tables)
}

/// A random admitted sheet that begins with these tables for n, k and l. It has the code
/// that they give, but for the order of the cells.
pub fn sheet_of_tables(random: &mut Random, nkl: [u32; 3], tables: &Tables) -> Sheet {
    let mut sheet = sheet_in_order(random, nkl, tables);
    if !random.once_in(6) {
        permute_cells(random, sheet.n, &mut sheet.rows);
    }
    sheet
}

/// A random admitted sheet that begins with these tables for n, k and l, and has the code that
/// they give.
pub fn sheet_in_order(random: &mut Random, nkl: [u32; 3], tables: &Tables) -> Sheet {
    let n = nkl[0];
    let steps = random.one_of(&[0, n, 4 * n, 8 * n]);
    stepped(random, nkl, tables, steps, mix)
}

/// A sheet with these n, k and l that has gone so many steps from the first form of these
/// tables.
fn stepped(random: &mut Random, nkl: [u32; 3], tables: &Tables, steps: u32, step: Step) -> Sheet {
    let [n, k, l] = nkl;
    let mut groups = systematic(n, k, l, tables);
    for _ in 0..steps {
        step(random, &mut groups);
    }
    let rows = [groups.g1, groups.g0, groups.h, groups.m].concat();
    Sheet { n, k, l, rows }
}

/// Random tables P, R and Q for these numbers; bit c of their rows is column c.
pub fn random_tables(random: &mut Random, n: u32, k: u32, l: u32) -> Tables {
    let r = n - k - l;
    [(k, r), (l, k), (l, r)].map(|(rows, columns)| table(random, rows, columns))
}

/// The sheet's first form, of these tables.
fn systematic(n: u32, k: u32, l: u32, tables: &Tables) -> Groups {
    let [p, big_r, q] = tables;
    let r = n - k - l;
    let unit = |cell: usize| 1 << cell;
    let (k, l) = (k as usize, l as usize);
    let s: Vec<Word> = (0..l).map(|j| q[j] ^ sum_of(p, big_r[j])).collect();
    Groups {
        g1: (0..k).map(|i| unit(i) | shifted(p[i], k + l)).collect(),
        g0: (0..l)
            .map(|j| big_r[j] | unit(k + j) | shifted(q[j], k + l))
            .collect(),
        h: (0..r as usize)
            .map(|c| column(p, c as u32) | shifted(column(&s, c as u32), k) | unit(k + l + c))
            .collect(),
        m: (0..k)
            .map(|i| unit(i) | shifted(column(big_r, i as u32), k))
            .collect(),
    }
}

/// Random rows over some columns: dense, thin or all 0.
fn table(random: &mut Random, rows: u32, columns: u32) -> Vec<Word> {
    let kind = random.below(8);
    let row = |_| match kind {
        0 => 0,
        1 => random.word(columns) & random.word(columns),
        _ => random.word(columns),
    };
    (0..rows).map(row).collect()
}

/// The word moved up by so many cells; 64 cells up nothing of it is left.
fn shifted(word: Word, cells: usize) -> Word {
    word.checked_shl(cells as u32).unwrap_or(0)
}

/// One step that keeps a sheet admitted: a change of basis of G1 with M kept dual to
/// it, or of G0, a row of G0 added to G1, or a step of H or M.
fn mix(random: &mut Random, groups: &mut Groups) {
    match random.below(5) {
        0 => {
            if let Some((a, b)) = add_one_to_another(random, &mut groups.g1) {
                groups.m[a] ^= groups.m[b];
            }
        }
        1 => add_from(random, &mut groups.g1, &groups.g0),
        2 => {
            add_one_to_another(random, &mut groups.g0);
        }
        _ => mix_checks(random, groups),
    }
}

/// One step that keeps G1 and G0 too: a change of basis of H, or a row of H added to M.
fn mix_checks(random: &mut Random, groups: &mut Groups) {
    if random.once_in(2) {
        add_one_to_another(random, &mut groups.h);
    } else {
        add_from(random, &mut groups.m, &groups.h);
    }
}

/// Adds a row to another row of the same group, and tells which (a) to which (b).
fn add_one_to_another(random: &mut Random, rows: &mut [Word]) -> Option<(usize, usize)> {
    if rows.len() < 2 {
        return None;
    }
    let a = random.below(rows.len() as u64) as usize;
    let b = (a + 1 + random.below(rows.len() as u64 - 1) as usize) % rows.len();
    rows[b] ^= rows[a];
    Some((a, b))
}

/// Adds some row of one group to some row of another.
fn add_from(random: &mut Random, to: &mut [Word], from: &[Word]) {
    if !from.is_empty() {
        let at = random.below(to.len() as u64) as usize;
        to[at] ^= random.one_of(from);
    }
}

/// Puts the cells of all rows in one other order.
pub fn permute_cells(random: &mut Random, n: u32, rows: &mut [Word]) {
    let mut places: Vec<u32> = (0..n).collect();
    for i in (1..n as usize).rev() {
        places.swap(i, random.below(i as u64 + 1) as usize);
    }
    for row in rows {
        let cells = (0..n).filter(|cell| *row >> cell & 1 == 1);
        *row = cells.fold(0, |word, cell| word | 1 << places[cell as usize]);
    }
}

#[cfg(test)]
mod tests;
