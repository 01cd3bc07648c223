//! Pages at random, the same in every run: those of the table, and any to compare answers on.
use crate::calls::*;
use crate::sheets::Random;

/// A record that breaks the rule, by its cell, its level or an earlier record; or one of a slot far past every page.
fn odd_record(n: usize, earlier: &[StuckCell], own: StuckCell, g: &mut Random) -> StuckCell {
    let (slot, cell) = (u32::MAX - g.below(2) as u32, n as u32);
    match g.below(4) {
        0 => StuckCell {
            cell: [cell, cell + 1, u32::MAX][g.below(3)],
            ..own
        },
        1 => StuckCell {
            level: [2, 3, u8::MAX][g.below(3)],
            ..own
        },
        2 => {
            let other = *earlier.get(g.below(earlier.len() + 1)).unwrap_or(&own);
            StuckCell {
                level: other.level ^ 1,
                ..other
            }
        }
        _ => StuckCell { slot, ..own },
    }
}

/// So many records at random slots and cells, about one in `odds` an odd one; the others agree with each other. Two slots are worn:
/// every fourth record is of one of them, so that a message may not fit there.
fn records(slots: usize, n: usize, count: usize, odds: usize, g: &mut Random) -> Vec<StuckCell> {
    let levels: Vec<Word> = (0..slots).map(|_| g.word(n)).collect();
    let worn = [g.below(slots), g.below(slots)];
    let mut all = Vec::with_capacity(count);
    for i in 0..count {
        let slot = if i % 4 == 0 {
            worn[g.below(2)]
        } else {
            g.below(slots)
        };
        let cell = g.below(n);
        let own = StuckCell {
            slot: slot as u32,
            cell: cell as u32,
            level: (levels[slot] >> cell & 1) as u8,
        };
        let odd = g.below(odds) == 0;
        all.push(if odd {
            odd_record(n, &all, own, g)
        } else {
            own
        });
    }
    all
}

/// A message of k bits; about one in `odds` is too large, where a word can be.
fn message(k: usize, odds: usize, g: &mut Random) -> Word {
    if g.below(odds) == 0 {
        g.word(WIDTH) | 1 << k.min(WIDTH - 1)
    } else {
        g.word(k)
    }
}

/// A page of so many slots with these records, about one in `odds` of its messages too large. What slots and notes hold is any word.
fn page(slots: usize, k: usize, records: Vec<StuckCell>, odds: usize, g: &mut Random) -> Page {
    Page {
        number: 1 + g.below(9) as u32,
        words: (0..slots).map(|_| g.word(WIDTH)).collect(),
        records,
        messages: (0..slots).map(|_| message(k, odds, g)).collect(),
        notes: (0..slots).map(|_| g.word(WIDTH)).collect(),
    }
}

/// A page of the table. Most of its notes are 0; where it has records, a row of such pages has 7, 9 and 15 too.
pub fn timed_page(s: &Sheet, slots: usize, count: usize, g: &mut Random) -> Page {
    let records = records(slots, s.n, count, 32, g);
    page(slots, s.k, records, 32, g)
}

/// How many slots and how many records: mostly few, now and then no slots, or as many of one as may be or one more.
fn any_sizes(g: &mut Random) -> (usize, usize) {
    let (slots, count) = (1 + g.below(8), g.below(32));
    match g.below(12) {
        0 => (MOST_SLOTS + g.below(2), count),
        1 | 2 => (slots, MOST_RECORDS + g.below(2)),
        3 => (0, count),
        _ => (slots, count),
    }
}

/// A length, now and then one more or one less.
fn about(len: usize, g: &mut Random) -> usize {
    match g.below(16) {
        0 => len + 1,
        1 => len.saturating_sub(1),
        _ => len,
    }
}

/// A page of any kind: its number and its lengths within their limits and beyond them, records of slots that it has and of others.
pub fn any_page(s: &Sheet, g: &mut Random) -> Page {
    let (slots, count) = any_sizes(g);
    let (n, k) = (s.n.clamp(1, WIDTH), s.k.min(WIDTH));
    let records = records(slots + 2, n, count, 16, g);
    let mut page = page(slots, k, records, 8, g);
    if g.below(8) == 0 {
        page.number = [0, 10, u32::MAX][g.below(3)];
    }
    page.messages.resize(about(slots, g), 0);
    page.notes.resize(about(slots, g), 0);
    page
}
