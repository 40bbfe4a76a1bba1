//! The library's functions, lent Rust's slices and vectors: all of this package that is unsafe.
//!
//! Each function of the library tests for itself, takes any bytes, numbers and arrays, reads and writes within the lengths that it is given, and
//! keeps nothing; include/ccitt.h says what it answers and which entries it has then written. That is proved of its source. Its frames are touched page
//! by page, as Rust's are, so that a stack which is too short ends the program at its guard page.
#![allow(unsafe_code)]

use crate::room::Room;
use crate::settings::{DecodeSettings, EncodingMode, Settings};
use alloc::vec;
use alloc::vec::Vec;

// Its lengths and counts have 64 bits.
const _: () = assert!(usize::BITS == 64);

/// The answer as C has it (include/ccitt.h).
#[repr(C)]
#[derive(Clone, Copy, Debug, Default)]
pub(crate) struct Answer {
    pub(crate) number: u32,
    pub(crate) mark: u32,
    pub(crate) rows: u64,
    pub(crate) entries: u64,
    pub(crate) loose: u64,
    pub(crate) bytes: u64,
    pub(crate) place: u64,
}

/// The numbers of an answer, as include/ccitt.h names them.
impl Answer {
    pub(crate) const COMPLETE: u32 = 0;
    pub(crate) const INVALID_CODE: u32 = 1;
    pub(crate) const UNEXPECTED_EOF: u32 = 2;
    pub(crate) const OVERFLOW: u32 = 3;
    /// No entry left for a change.
    pub(crate) const NO_ENTRY: u32 = 4;
    /// No place left for a row's end with its mark.
    pub(crate) const NO_ROW_END: u32 = 5;
    pub(crate) const BAD_WIDTH: u32 = 6;
    pub(crate) const TOO_LONG: u32 = 7;
    pub(crate) const BAD_ROWS: u32 = 8;
    /// The bits do not fit.
    pub(crate) const NO_FIT: u32 = 9;
    pub(crate) const BAD_NUMBER: u32 = 10;
    pub(crate) const BAD_FORM: u32 = 11;
    pub(crate) const NOT_ONE_TICK: u32 = 12;
    pub(crate) const MENDED_ROW: u32 = 13;
    pub(crate) const TOO_FEW_ROWS: u32 = 14;
    /// A row, or the units that were asked for, were read, and there may be more.
    pub(crate) const MORE_TO_COME: u32 = 15;
}

/// An answer of the unit form, as C has it.
#[repr(C)]
#[derive(Clone, Copy, Debug, Default)]
pub(crate) struct UnitAnswer {
    pub(crate) answer: Answer,
    pub(crate) units: u64,
}

/// A page that was read and checked, as C has it.
#[repr(C)]
#[derive(Clone, Copy, Debug, Default)]
pub(crate) struct CheckedAnswer {
    pub(crate) answer: Answer,
    pub(crate) parts: u64,
    pub(crate) gave_up: bool,
    pub(crate) proper: bool,
}

/// What is on a form, as C has it.
#[repr(C)]
#[derive(Clone, Copy, Debug)]
pub(crate) struct HeadsAnswer {
    pub(crate) number: u32,
    pub(crate) heads: u32,
    pub(crate) left: i32,
}

/// A verdict on a faxed form, as C has it.
#[repr(C)]
#[derive(Clone, Copy, Debug, Default)]
pub(crate) struct VerdictAnswer {
    pub(crate) number: u32,
    pub(crate) heads: u32,
    pub(crate) which: u32,
    pub(crate) line: u32,
    pub(crate) rows: u64,
    pub(crate) bytes: u64,
    pub(crate) place: u64,
    pub(crate) row: u64,
    pub(crate) count: u64,
    pub(crate) least: u64,
    pub(crate) most: u64,
}

/// The numbers of a verdict, as include/ccitt.h names them; up to 15 they are those of an answer.
impl VerdictAnswer {
    pub(crate) const COUNTED: u32 = 0;
    pub(crate) const OTHER_COLUMNS: u32 = 16;
    pub(crate) const BYTES_BEHIND: u32 = 17;
    pub(crate) const OTHER_ROWS: u32 = 18;
    pub(crate) const UNCLEAN_ROW: u32 = 19;
    pub(crate) const NOT_BLACK: u32 = 20;
    pub(crate) const NOT_WHITE: u32 = 21;
    pub(crate) const IN_DOUBT: u32 = 22;
    pub(crate) const GAVE_UP: u32 = 23;
    pub(crate) const NOT_PROPER: u32 = 24;
    pub(crate) const OTHER_TICKS: u32 = 25;
    pub(crate) const NO_FORM_LINE: u32 = 32;
    pub(crate) const SAID_TWICE: u32 = 33;
    pub(crate) const BAD_NUMBERS: u32 = 34;
    pub(crate) const TOO_MANY_PLACES: u32 = 35;
    pub(crate) const MISSING_LINE: u32 = 36;
    pub(crate) const OUTSIDE_PAGE: u32 = 37;
    pub(crate) const OVERLAPPING: u32 = 38;
    pub(crate) const LONG_FORM: u32 = 40;
    pub(crate) const UNFIT_FORM: u32 = 41;
}

// In the order of include/ccitt.h. An answer of that size goes through a pointer before the other arguments, as x86-64 has it (System V); so declared,
// a library that was compiled for another processor is called alike.
#[rustfmt::skip]
unsafe extern "C" {
    fn ccitt_decode_group4(answer: *mut Answer, src: *const u8, src_len: usize, columns: u32, rows: u32, end_of_block: bool, rows_are_byte_aligned: bool,
        strict: bool, exact: bool, plain: bool,
        changes: *mut u32, changes_len: usize, ends: *mut u64, ends_len: usize, marks: *mut u8, marks_len: usize);
    fn ccitt_decode_group3_1d(answer: *mut Answer, src: *const u8, src_len: usize, columns: u32, rows: u32, end_of_block: bool, end_of_line: bool,
        rows_are_byte_aligned: bool, strict: bool, exact: bool, plain: bool,
        changes: *mut u32, changes_len: usize, ends: *mut u64, ends_len: usize, marks: *mut u8, marks_len: usize);
    fn ccitt_decode_group3_2d(answer: *mut Answer, src: *const u8, src_len: usize, columns: u32, rows: u32, end_of_block: bool, end_of_line: bool,
        rows_are_byte_aligned: bool, strict: bool, exact: bool, plain: bool,
        changes: *mut u32, changes_len: usize, ends: *mut u64, ends_len: usize, marks: *mut u8, marks_len: usize);
    fn ccitt_check_group4(answer: *mut CheckedAnswer, src: *const u8, src_len: usize, columns: u32, rows: u32, end_of_block: bool, rows_are_byte_aligned: bool,
        strict: bool, exact: bool, plain: bool,
        changes: *mut u32, changes_len: usize, ends: *mut u64, ends_len: usize, marks: *mut u8, marks_len: usize);
    fn ccitt_check_group3_1d(answer: *mut CheckedAnswer, src: *const u8, src_len: usize, columns: u32, rows: u32, end_of_block: bool, end_of_line: bool,
        rows_are_byte_aligned: bool, strict: bool, exact: bool, plain: bool,
        changes: *mut u32, changes_len: usize, ends: *mut u64, ends_len: usize, marks: *mut u8, marks_len: usize);
    fn ccitt_check_group3_2d(answer: *mut CheckedAnswer, src: *const u8, src_len: usize, columns: u32, rows: u32, end_of_block: bool, end_of_line: bool,
        rows_are_byte_aligned: bool, strict: bool, exact: bool, plain: bool,
        changes: *mut u32, changes_len: usize, ends: *mut u64, ends_len: usize, marks: *mut u8, marks_len: usize);
    fn ccitt_read_line(answer: *mut Answer, src: *const u8, src_len: usize, at: u64, columns: u32, strict: bool,
        reference: *const u32, reference_len: usize, changes: *mut u32, changes_len: usize);
    fn ccitt_read_row(answer: *mut Answer, src: *const u8, src_len: usize, columns: u32, rows: u32, end_of_block: bool, end_of_line: bool,
        rows_are_byte_aligned: bool, encoding: u32, strict: bool, exact: bool, plain: bool, state: *mut u64, state_len: usize,
        first: *mut u32, first_len: usize, second: *mut u32, second_len: usize);
    fn ccitt_read_units(answer: *mut UnitAnswer, src: *const u8, src_len: usize, columns: u32, rows: u32, end_of_block: bool, rows_are_byte_aligned: bool,
        strict: bool, exact: bool, plain: bool, changes: *mut u32, changes_len: usize, ends: *mut u64, ends_len: usize, marks: *mut u8, marks_len: usize,
        state: *mut u64, state_len: usize, n: u64);
    fn ccitt_write_line(answer: *mut Answer, columns: u32, reference: *const u32, reference_len: usize, row: *const u32, row_len: usize,
        out: *mut u8, out_len: usize, at: u64);
    fn ccitt_write_page(answer: *mut Answer, columns: u32, changes: *const u32, changes_len: usize, ends: *const u64, ends_len: usize,
        out: *mut u8, out_len: usize);
    fn ccitt_write_group3_1d(answer: *mut Answer, columns: u32, changes: *const u32, changes_len: usize, ends: *const u64, ends_len: usize,
        eols: bool, fill: u32, out: *mut u8, out_len: usize);
    fn ccitt_write_group3_2d(answer: *mut Answer, columns: u32, changes: *const u32, changes_len: usize, ends: *const u64, ends_len: usize,
        k: u32, out: *mut u8, out_len: usize);
    fn ccitt_paint(answer: *mut Answer, columns: u32, changes: *const u32, changes_len: usize, ends: *const u64, ends_len: usize,
        black_is_one: bool, stride: u64, out: *mut u8, out_len: usize);
    fn ccitt_unpaint(answer: *mut Answer, columns: u32, rows: u64, black_is_one: bool, stride: u64, src: *const u8, src_len: usize,
        changes: *mut u32, changes_len: usize, ends: *mut u64, ends_len: usize);
    fn ccitt_heads(columns: u32, changes: *const u32, changes_len: usize, ends: *const u64, ends_len: usize, marks: *const u8, marks_len: usize,
        boxes: *const u32, boxes_len: usize, least: u64, quota: i32) -> HeadsAnswer;
    fn ccitt_verdict(answer: *mut VerdictAnswer, form: *const u8, form_len: usize, src: *const u8, src_len: usize, how: u32, encoding: u32,
        columns: u32, rows: u32, end_of_block: bool, end_of_line: bool, rows_are_byte_aligned: bool, plain: bool,
        boxes: *mut u32, boxes_len: usize, places: *mut u32, places_len: usize,
        changes: *mut u32, changes_len: usize, ends: *mut u64, ends_len: usize, marks: *mut u8, marks_len: usize);
}

/// The library's number of an encoding, for the row form and the verdict.
fn number_of(encoding: EncodingMode) -> u32 {
    match encoding {
        EncodingMode::Group4 => 0,
        EncodingMode::Group3_1D => 1,
        EncodingMode::Group3_2D => 2,
    }
}

/// A page's rows: row n's changes lie from `ends[n - 1]`, or 0, to `ends[n]`, and `marks[n]` says how it was read.
#[derive(Default)]
pub(crate) struct Rows {
    pub(crate) changes: Vec<u32>,
    pub(crate) ends: Vec<u64>,
    pub(crate) marks: Vec<u8>,
}

/// Reads a page by the page form into `rows`, which has its kept rows afterwards. At most `changes` entries and `places` rows are lent, and fewer
/// where there is no memory for them.
pub(crate) fn read_page(data: &[u8], settings: &Settings, rows: &mut Rows, changes: usize, places: usize) -> Answer {
    let changes = emptied(&mut rows.changes, changes);
    let places = emptied(&mut rows.ends, places).min(emptied(&mut rows.marks, places));
    // SAFETY: so many entries of each vector are its own, and the three are apart.
    let answer = unsafe { page_into(data, settings, rows, changes, places) };
    let (entries, kept) = (answer.entries as usize, answer.rows as usize);
    assert!(entries <= changes && kept <= places, "the library keeps what there is room for");
    // SAFETY: the entries of kept rows, their ends and their marks are written.
    unsafe {
        rows.changes.set_len(entries);
        rows.ends.set_len(kept);
        rows.marks.set_len(kept);
    }
    answer
}

/// Empties a vector and makes room for so many entries. How many of them there is room for: less room is no error, the page is then read on otherwise.
fn emptied<T>(list: &mut Vec<T>, most: usize) -> usize {
    list.clear();
    let _ = list.try_reserve_exact(most);
    list.capacity().min(most)
}

/// # Safety
/// Of each vector so many entries belong to it.
#[rustfmt::skip]
unsafe fn page_into(data: &[u8], settings: &Settings, rows: &mut Rows, changes: usize, places: usize) -> Answer {
    let DecodeSettings { columns, rows: count, end_of_block, end_of_line, rows_are_byte_aligned: aligned, encoding, strict } = settings.settings;
    let (src, exact, plain) = (data.as_ptr(), settings.exact, settings.plain);
    let (to, ends, marks) = (rows.changes.as_mut_ptr(), rows.ends.as_mut_ptr(), rows.marks.as_mut_ptr());
    // SAFETY: each pointer stands with the length of what it points at, and what it points at is apart. The library reads no entry that it has not written.
    told(|answer| unsafe {
        match encoding {
            EncodingMode::Group4 => ccitt_decode_group4(answer, src, data.len(), columns, count, end_of_block, aligned, strict, exact, plain,
                to, changes, ends, places, marks, places),
            EncodingMode::Group3_1D => ccitt_decode_group3_1d(answer, src, data.len(), columns, count, end_of_block, end_of_line, aligned, strict, exact, plain,
                to, changes, ends, places, marks, places),
            EncodingMode::Group3_2D => ccitt_decode_group3_2d(answer, src, data.len(), columns, count, end_of_block, end_of_line, aligned, strict, exact, plain,
                to, changes, ends, places, marks, places),
        }
    })
}

/// Reads a page by the page form and checks it. The page is read into `rows`, which is empty afterwards; at most so much room is lent, and less where
/// there is no memory for it.
#[rustfmt::skip]
pub(crate) fn check(data: &[u8], settings: &Settings, rows: &mut Rows, room: Room) -> CheckedAnswer {
    let DecodeSettings { columns, rows: count, end_of_block, end_of_line, rows_are_byte_aligned: aligned, encoding, strict } = settings.settings;
    let (src, exact, plain) = (data.as_ptr(), settings.exact, settings.plain);
    let changes = emptied(&mut rows.changes, room.changes);
    let places = emptied(&mut rows.ends, room.rows).min(emptied(&mut rows.marks, room.rows));
    let (to, ends, marks) = (rows.changes.as_mut_ptr(), rows.ends.as_mut_ptr(), rows.marks.as_mut_ptr());
    // SAFETY: each pointer stands with so many entries that are its vector's own, and the three and the answer are apart. The library reads no entry that
    // it has not written.
    told(|answer| unsafe {
        match encoding {
            EncodingMode::Group4 => ccitt_check_group4(answer, src, data.len(), columns, count, end_of_block, aligned, strict, exact, plain,
                to, changes, ends, places, marks, places),
            EncodingMode::Group3_1D => ccitt_check_group3_1d(answer, src, data.len(), columns, count, end_of_block, end_of_line, aligned, strict, exact, plain,
                to, changes, ends, places, marks, places),
            EncodingMode::Group3_2D => ccitt_check_group3_2d(answer, src, data.len(), columns, count, end_of_block, end_of_line, aligned, strict, exact, plain,
                to, changes, ends, places, marks, places),
        }
    })
}

/// Reads one row by the row form, into one of two line arrays.
#[rustfmt::skip]
pub(crate) fn read_row(data: &[u8], settings: &Settings, state: &mut [u64; 10], first: &mut [u32], second: &mut [u32]) -> Answer {
    let DecodeSettings { columns, rows, end_of_block, end_of_line, rows_are_byte_aligned, encoding, strict } = settings.settings;
    // SAFETY: each pointer stands with the length of its slice, and the three lent arrays and the answer are apart.
    told(|answer| unsafe {
        ccitt_read_row(answer, data.as_ptr(), data.len(), columns, rows, end_of_block, end_of_line, rows_are_byte_aligned, number_of(encoding), strict, settings.exact, settings.plain,
            state.as_mut_ptr(), state.len(), first.as_mut_ptr(), first.len(), second.as_mut_ptr(), second.len());
    })
}

/// Reads at most `n` units of a Group 4 page into `rows`, which has room for as much as its vectors have entries.
#[rustfmt::skip]
pub(crate) fn read_units(data: &[u8], settings: &Settings, rows: &mut Rows, state: &mut [u64; 16], n: u64) -> UnitAnswer {
    let DecodeSettings { columns, rows: count, end_of_block, rows_are_byte_aligned: aligned, strict, .. } = settings.settings;
    let (src, exact, plain) = (data.as_ptr(), settings.exact, settings.plain);
    let Rows { changes, ends, marks } = rows;
    // SAFETY: each pointer stands with the length of its slice, and the four lent arrays and the answer are apart.
    told(|answer| unsafe {
        ccitt_read_units(answer, src, data.len(), columns, count, end_of_block, aligned, strict, exact, plain,
            changes.as_mut_ptr(), changes.len(), ends.as_mut_ptr(), ends.len(), marks.as_mut_ptr(), marks.len(), state.as_mut_ptr(), state.len(), n);
    })
}

/// Reads one 2D line that begins at bit `at`, under a reference.
pub(crate) fn read_line(data: &[u8], at: u64, columns: u32, strict: bool, reference: &[u32], changes: &mut [u32]) -> Answer {
    let (src, under, to) = (data.as_ptr(), reference.as_ptr(), changes.as_mut_ptr());
    // SAFETY: each pointer stands with the length of its slice, and the answer is apart.
    told(|answer| unsafe { ccitt_read_line(answer, src, data.len(), at, columns, strict, under, reference.len(), to, changes.len()) })
}

/// Writes a row as one T.6 line under a reference, from bit `at` of `out` on.
pub(crate) fn write_line(columns: u32, reference: &[u32], row: &[u32], out: &mut [u8], at: u64) -> Answer {
    let (under, from) = (reference.as_ptr(), row.as_ptr());
    // SAFETY: each pointer stands with the length of its slice, and the answer is apart.
    told(|answer| unsafe { ccitt_write_line(answer, columns, under, reference.len(), from, row.len(), out.as_mut_ptr(), out.len(), at) })
}

/// A page to be written: row n's changes lie from `ends[n - 1]`, or 0, to `ends[n]`.
#[derive(Clone, Copy)]
pub(crate) struct Page<'a> {
    pub(crate) columns: u32,
    pub(crate) changes: &'a [u32],
    pub(crate) ends: &'a [u64],
}

/// What the lines of a page are, and what stands between them.
#[derive(Clone, Copy)]
pub(crate) enum Layout {
    /// T.6.
    Group4,
    /// T.4, 1D lines.
    OneD { eols: bool, fill: u32 },
    /// T.4, 1D and 2D lines.
    TwoD { k: u32 },
}

/// Writes a page from byte 0 of `out` on.
pub(crate) fn write_page(layout: Layout, page: Page<'_>, out: &mut [u8]) -> Answer {
    let Page { columns, changes, ends } = page;
    let (from, count, of, rows) = (changes.as_ptr(), changes.len(), ends.as_ptr(), ends.len());
    let (to, room) = (out.as_mut_ptr(), out.len());
    // SAFETY: each pointer stands with the length of its slice, and the answer is apart.
    told(|answer| unsafe {
        match layout {
            Layout::Group4 => ccitt_write_page(answer, columns, from, count, of, rows, to, room),
            Layout::OneD { eols, fill } => ccitt_write_group3_1d(answer, columns, from, count, of, rows, eols, fill, to, room),
            Layout::TwoD { k } => ccitt_write_group3_2d(answer, columns, from, count, of, rows, k, to, room),
        }
    })
}

/// Paints a page's rows into packed rows, a stride from one to the next.
pub(crate) fn paint(page: Page<'_>, black_is_one: bool, stride: u64, out: &mut [u8]) -> Answer {
    let Page { columns, changes, ends } = page;
    let (from, of, to) = (changes.as_ptr(), ends.as_ptr(), out.as_mut_ptr());
    // SAFETY: each pointer stands with the length of its slice, and the answer is apart.
    told(|answer| unsafe { ccitt_paint(answer, columns, from, changes.len(), of, ends.len(), black_is_one, stride, to, out.len()) })
}

/// Reads so many packed rows into lists, which have room for as much as they have entries.
pub(crate) fn unpaint(
    columns: u32,
    rows: u64,
    black_is_one: bool,
    stride: u64,
    bytes: &[u8],
    changes: &mut [u32],
    ends: &mut [u64],
) -> Answer {
    let (src, to, of) = (bytes.as_ptr(), changes.as_mut_ptr(), ends.as_mut_ptr());
    // SAFETY: each pointer stands with the length of its slice, and the two lists and the answer are apart.
    told(|answer| unsafe {
        ccitt_unpaint(answer, columns, rows, black_is_one, stride, src, bytes.len(), to, changes.len(), of, ends.len());
    })
}

/// The heads on a form: a page with its marks, the twenty boxes' edges, the count from which a box is ticked, and a quota.
pub(crate) fn heads(page: Page<'_>, marks: &[u8], boxes: &[u32; 80], least: u64, quota: i32) -> HeadsAnswer {
    let Page { columns, changes, ends } = page;
    let (from, of) = (changes.as_ptr(), ends.as_ptr());
    // SAFETY: each pointer stands with the length of its slice, and nothing is written.
    unsafe {
        ccitt_heads(columns, from, changes.len(), of, ends.len(), marks.as_ptr(), marks.len(), boxes.as_ptr(), boxes.len(), least, quota)
    }
}

/// How many numbers a form's boxes take, and its places: 256 of them, of seven numbers each, are as many as the library reads.
const BOXES: usize = 80;
const PLACES: usize = 7 * 256;

/// The verdict on a faxed form. The page is read into `rows`, which is empty afterwards; at most so much room is lent, and less where there is no memory
/// for it.
#[rustfmt::skip]
pub(crate) fn verdict(form: &[u8], data: &[u8], how: u32, settings: &Settings, rows: &mut Rows, room: Room) -> VerdictAnswer {
    let DecodeSettings { columns, rows: count, end_of_block, end_of_line, rows_are_byte_aligned: aligned, encoding, .. } = settings.settings;
    let (mut boxes, mut places) = ([0; BOXES], vec![0; PLACES]);
    let changes = emptied(&mut rows.changes, room.changes);
    let held = emptied(&mut rows.ends, room.rows).min(emptied(&mut rows.marks, room.rows));
    // SAFETY: each pointer stands with the length of its slice, or with so many entries that are its vector's own; what is lent to be written and the
    // answer are apart. The library reads no entry of the vectors that it has not written.
    told(|answer| unsafe {
        ccitt_verdict(answer, form.as_ptr(), form.len(), data.as_ptr(), data.len(), how, number_of(encoding),
            columns, count, end_of_block, end_of_line, aligned, settings.plain,
            boxes.as_mut_ptr(), boxes.len(), places.as_mut_ptr(), places.len(),
            rows.changes.as_mut_ptr(), changes, rows.ends.as_mut_ptr(), held, rows.marks.as_mut_ptr(), held);
    })
}

/// Calls the library, which tells its answer through a pointer.
fn told<A: Default>(call: impl FnOnce(*mut A)) -> A {
    let mut answer = A::default();
    call(&mut answer);
    answer
}
