//! The calls of the built static library, as safe functions over slices.

use std::cell::Cell;

use second::calls::Calls;

#[link(name = "changeover", kind = "static")]
extern "C" {
    fn changeover_look_over(book: *const u8, book_len: usize, form: u32) -> u64;
    fn changeover_learn(
        book: *const u8,
        book_len: usize,
        form: u32,
        sheet: *mut u8,
        sheet_len: usize,
    ) -> u64;
    fn changeover_check(
        book: *const u8,
        book_len: usize,
        form: u32,
        order: *const u8,
        order_len: usize,
        end: *mut u8,
        end_len: usize,
    ) -> u64;
    fn changeover_add(
        book: *const u8,
        book_len: usize,
        form: u32,
        record: *const u8,
        record_len: usize,
        out: *mut u8,
        out_len: usize,
    ) -> u64;
    fn changeover_to_short(book: *const u8, book_len: usize, out: *mut u8, out_len: usize) -> u64;
    fn changeover_to_full(book: *const u8, book_len: usize, out: *mut u8, out_len: usize) -> u64;
}

/// The built library. An empty slice is lent as NULL every second time.
#[derive(Default)]
pub struct Library {
    empty: Cell<usize>,
}

impl Library {
    /// How often NULL was lent.
    #[allow(dead_code, reason = "not every bin tells it")]
    pub fn nulls(&self) -> usize {
        self.empty.get() / 2
    }

    fn as_null(&self, length: usize) -> bool {
        if length > 0 {
            return false;
        }
        self.empty.set(self.empty.get() + 1);
        self.empty.get().is_multiple_of(2)
    }

    fn input(&self, bytes: &[u8]) -> *const u8 {
        if self.as_null(bytes.len()) {
            std::ptr::null()
        } else {
            bytes.as_ptr()
        }
    }

    fn output(&self, bytes: &mut [u8]) -> *mut u8 {
        if self.as_null(bytes.len()) {
            std::ptr::null_mut()
        } else {
            bytes.as_mut_ptr()
        }
    }
}

// SAFETY, of each call: pointer and length are those of one slice, or NULL and
// 0; the slice written is borrowed alone, so it overlaps no other.
impl Calls for Library {
    fn look_over(&self, book: &[u8], form: u32) -> u64 {
        unsafe { changeover_look_over(self.input(book), book.len(), form) }
    }

    fn learn(&self, book: &[u8], form: u32, sheet: &mut [u8]) -> u64 {
        let (book_at, sheet_at) = (self.input(book), self.output(sheet));
        unsafe { changeover_learn(book_at, book.len(), form, sheet_at, sheet.len()) }
    }

    fn check(&self, book: &[u8], form: u32, order: &[u8], end: &mut [u8]) -> u64 {
        let (book_at, order_at, end_at) = (self.input(book), self.input(order), self.output(end));
        let (book_len, order_len) = (book.len(), order.len());
        unsafe { changeover_check(book_at, book_len, form, order_at, order_len, end_at, end.len()) }
    }

    fn add(&self, book: &[u8], form: u32, record: &[u8], out: &mut [u8]) -> u64 {
        let (book_at, record_at, out_at) = (self.input(book), self.input(record), self.output(out));
        let (book_len, record_len) = (book.len(), record.len());
        unsafe { changeover_add(book_at, book_len, form, record_at, record_len, out_at, out.len()) }
    }

    fn to_short(&self, book: &[u8], out: &mut [u8]) -> u64 {
        let (book_at, out_at) = (self.input(book), self.output(out));
        unsafe { changeover_to_short(book_at, book.len(), out_at, out.len()) }
    }

    fn to_full(&self, book: &[u8], out: &mut [u8]) -> u64 {
        let (book_at, out_at) = (self.input(book), self.output(out));
        unsafe { changeover_to_full(book_at, book.len(), out_at, out.len()) }
    }
}
