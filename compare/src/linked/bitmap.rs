//! Rows as packed pixels, by the library that is linked in.

use crate::call::Answer;

unsafe extern "C" {
    #[rustfmt::skip]
    fn ccitt_paint(
        answer: *mut Answer,
        columns: u32,
        changes: *const u32,
        changes_len: usize,
        ends: *const u64,
        ends_len: usize,
        one: bool,
        stride: u64,
        out: *mut u8,
        out_len: usize,
    ) -> *mut Answer;
}

/// The rows of a store, black as 1, each behind the one before it.
pub fn paint(columns: u32, changes: &[u32], ends: &[u64], out: &mut [u8]) -> Answer {
    let mut answer = Answer::default();
    let stride = u64::from(columns.div_ceil(8));
    // SAFETY: each pointer stands with the length of its slice, and what is lent and the answer are apart.
    unsafe {
        let (changes, entries, ends, rows) = (changes.as_ptr(), changes.len(), ends.as_ptr(), ends.len());
        ccitt_paint(&mut answer, columns, changes, entries, ends, rows, true, stride, out.as_mut_ptr(), out.len());
    }
    answer
}
