//! The store, by the static library of the crate `exports`.
use crate::calls::*;

extern "C" {
    fn namestore_admit(n: u32, k: u32, l: u32, rows: *const Word, len: usize) -> Told;
    fn namestore_write(
        n: u32,
        k: u32,
        l: u32,
        rows: *const Word,
        len: usize,
        message: Word,
        stuck: Word,
        levels: Word,
    ) -> Told;
    fn namestore_read(
        n: u32,
        k: u32,
        l: u32,
        rows: *const Word,
        len: usize,
        y: Word,
        radius: u32,
    ) -> Told;
    fn namestore_d0(n: u32, k: u32, l: u32, rows: *const Word, len: usize, cap: u32) -> Told;
    fn namestore_d1(n: u32, k: u32, l: u32, rows: *const Word, len: usize, cap: u32) -> Told;
    fn namestore_page_write_all(
        n: u32,
        k: u32,
        l: u32,
        rows: *const Word,
        len: usize,
        number: u32,
        page: *mut Word,
        page_len: usize,
        records: *const StuckCell,
        records_len: usize,
        messages: *const Word,
        messages_len: usize,
        notes: *mut Word,
        notes_len: usize,
    ) -> Told;
}

/// A sheet as it is lent: its numbers, and its rows as a pointer and a length.
fn lent(s: &Sheet) -> (u32, u32, u32, *const Word, usize) {
    let (rows, len) = (s.rows.as_ptr(), s.rows.len());
    (s.n as u32, s.k as u32, s.l as u32, rows, len)
}

/// The store. Its calls ask nothing of what they are handed and keep nothing, so each is safe for any numbers and any slice.
pub struct Store;

impl Calls for Store {
    fn name(&self) -> &'static str {
        "store"
    }

    fn admit(&self, s: &Sheet) -> Told {
        let (n, k, l, rows, len) = lent(s);
        unsafe { namestore_admit(n, k, l, rows, len) }
    }

    fn write(&self, s: &Sheet, message: Word, stuck: Word, levels: Word) -> Told {
        let (n, k, l, rows, len) = lent(s);
        unsafe { namestore_write(n, k, l, rows, len, message, stuck, levels) }
    }

    fn read(&self, s: &Sheet, y: Word, radius: u32) -> Told {
        let (n, k, l, rows, len) = lent(s);
        unsafe { namestore_read(n, k, l, rows, len, y, radius) }
    }

    fn d0(&self, s: &Sheet, cap: u32) -> Told {
        let (n, k, l, rows, len) = lent(s);
        unsafe { namestore_d0(n, k, l, rows, len, cap) }
    }

    fn d1(&self, s: &Sheet, cap: u32) -> Told {
        let (n, k, l, rows, len) = lent(s);
        unsafe { namestore_d1(n, k, l, rows, len, cap) }
    }

    fn page(&self, s: &Sheet, p: &mut Page) -> Told {
        let (n, k, l, rows, len) = lent(s);
        unsafe {
            namestore_page_write_all(
                n,
                k,
                l,
                rows,
                len,
                p.number,
                p.words.as_mut_ptr(),
                p.words.len(),
                p.records.as_ptr(),
                p.records.len(),
                p.messages.as_ptr(),
                p.messages.len(),
                p.notes.as_mut_ptr(),
                p.notes.len(),
            )
        }
    }
}
