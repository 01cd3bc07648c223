//! The slots of a page, for both programs in Rust: what the records say of each, and its word and note. They differ in how a word is
//! found.
use crate::calls::*;
use crate::programs::Written;

/// The stuck cells of a slot with their levels, and whether one of its records breaks the rule.
#[derive(Clone, Copy, Default)]
struct Gathered {
    broken: bool,
    stuck: Word,
    levels: Word,
}

impl Gathered {
    /// One record more. It breaks the rule by a cell at n or above, a level above 1, or a level that an earlier record does not give
    /// that cell.
    fn add(&mut self, n: usize, record: &StuckCell) {
        if record.cell as usize >= n || record.level > 1 {
            self.broken = true;
            return;
        }
        let (cell, level) = (1 << record.cell, (record.level as Word) << record.cell);
        self.broken |= self.stuck & cell != 0 && self.levels & cell != level;
        self.stuck |= cell;
        self.levels |= level;
    }
}

/// What the records gather to, for each slot of a page: one pass over them. A record of no slot is passed over.
fn gather(n: usize, slots: usize, records: &[StuckCell]) -> Vec<Gathered> {
    let mut all = vec![Gathered::default(); slots];
    for record in records {
        if let Some(gathered) = all.get_mut(record.slot as usize) {
            gathered.add(n, record);
        }
    }
    all
}

/// Writes every slot of a page under an admitted sheet, in turn, by a way to find a word. A slot's note is 0, or its refusal's number:
/// 15, 7 or 9.
pub fn write_slots(s: &Sheet, p: &mut Page, find: impl Fn(Word, Word, Word) -> Option<Written>) {
    let over = !all_cells(s.k);
    let all = gather(s.n, p.words.len(), &p.records);
    for (slot, gathered) in all.iter().enumerate() {
        let message = p.messages[slot];
        p.notes[slot] = if gathered.broken {
            15
        } else if message & over != 0 {
            7
        } else if let Some(x) = find(message, gathered.stuck, gathered.levels) {
            p.words[slot] = x.word;
            0
        } else {
            9
        };
    }
}
