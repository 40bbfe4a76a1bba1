//! The library, linked into this program.
#![allow(unsafe_code)]

use crate::by_row::{self, Page, RowForm, Store};
use crate::by_unit::{self, Turn, UnitForm};
use crate::call::{Answer, BYTE_MARGIN, Call, Form, Layout, MARGIN, Replies, Room, Steps, with_zeros};
use crate::ours::Ours;
use crate::settings::{Encoding, Settings};
use repeated::Repeated;
use std::io;

pub mod bitmap;
pub mod heads;
#[cfg(feature = "libtiff")]
pub mod libtiff;
pub mod marks;
pub mod repeated;
pub mod verdict;

// The answer goes through a pointer before the other arguments, as x86-64 has it for a struct of that size. So declared, a library
// that was compiled for another processor is called alike.
#[rustfmt::skip]
unsafe extern "C" {
    fn ccitt_decode_group4(answer: *mut Answer, src: *const u8, src_len: usize, columns: u32, rows: u32, end_of_block: bool, rows_are_byte_aligned: bool, strict: bool, exact: bool, plain: bool,
        changes: *mut u32, changes_len: usize, ends: *mut u64, ends_len: usize, marks: *mut u8, marks_len: usize) -> *mut Answer;
    fn ccitt_decode_group3_1d(answer: *mut Answer, src: *const u8, src_len: usize, columns: u32, rows: u32, end_of_block: bool, end_of_line: bool, rows_are_byte_aligned: bool, strict: bool, exact: bool, plain: bool,
        changes: *mut u32, changes_len: usize, ends: *mut u64, ends_len: usize, marks: *mut u8, marks_len: usize) -> *mut Answer;
    fn ccitt_decode_group3_2d(answer: *mut Answer, src: *const u8, src_len: usize, columns: u32, rows: u32, end_of_block: bool, end_of_line: bool, rows_are_byte_aligned: bool, strict: bool, exact: bool, plain: bool,
        changes: *mut u32, changes_len: usize, ends: *mut u64, ends_len: usize, marks: *mut u8, marks_len: usize) -> *mut Answer;
    fn ccitt_read_line(answer: *mut Answer, src: *const u8, src_len: usize, at: u64, columns: u32, strict: bool,
        reference: *const u32, reference_len: usize, changes: *mut u32, changes_len: usize) -> *mut Answer;
    fn ccitt_read_row(answer: *mut Answer, src: *const u8, src_len: usize, columns: u32, rows: u32, end_of_block: bool, end_of_line: bool, rows_are_byte_aligned: bool, encoding: u32,
        strict: bool, exact: bool, plain: bool, state: *mut u64, state_len: usize, first: *mut u32, first_len: usize, second: *mut u32, second_len: usize) -> *mut Answer;
    fn ccitt_read_units(turn: *mut Turn, src: *const u8, src_len: usize, columns: u32, rows: u32, end_of_block: bool, rows_are_byte_aligned: bool, strict: bool, exact: bool, plain: bool,
        changes: *mut u32, changes_len: usize, ends: *mut u64, ends_len: usize, marks: *mut u8, marks_len: usize, state: *mut u64, state_len: usize, n: u64) -> *mut Turn;
    fn ccitt_write_line(answer: *mut Answer, columns: u32, reference: *const u32, reference_len: usize, row: *const u32, row_len: usize,
        out: *mut u8, out_len: usize, at: u64) -> *mut Answer;
    fn ccitt_write_page(answer: *mut Answer, columns: u32, changes: *const u32, changes_len: usize, ends: *const u64, ends_len: usize,
        out: *mut u8, out_len: usize) -> *mut Answer;
    fn ccitt_write_group3_1d(answer: *mut Answer, columns: u32, changes: *const u32, changes_len: usize, ends: *const u64, ends_len: usize,
        eols: bool, fill: u32, out: *mut u8, out_len: usize) -> *mut Answer;
    fn ccitt_write_group3_2d(answer: *mut Answer, columns: u32, changes: *const u32, changes_len: usize, ends: *const u64, ends_len: usize,
        k: u32, out: *mut u8, out_len: usize) -> *mut Answer;
}

/// One 2D line at a bit, under a reference.
pub fn line_at(src: &[u8], at: u64, columns: u32, strict: bool, reference: &[u32], changes: &mut [u32]) -> Answer {
    let mut answer = Answer::default();
    let (under, to) = (reference.as_ptr(), changes.as_mut_ptr());
    // SAFETY: each pointer stands with the length of its slice, and the answer is apart.
    unsafe { ccitt_read_line(&mut answer, src.as_ptr(), src.len(), at, columns, strict, under, reference.len(), to, changes.len()) };
    answer
}

pub struct Linked;

/// What the library may use of the stack, in bytes.
const STACK: usize = 128 * 1024;

impl Ours for Linked {
    /// In a thread that has no more stack than the library may use: a call that used more would end the run.
    fn answer(&mut self, calls: &[Call]) -> io::Result<Replies> {
        std::thread::scope(|scope| {
            let thread = std::thread::Builder::new().stack_size(STACK).spawn_scoped(scope, || answer_all(calls))?;
            thread.join().map_err(|_| io::Error::other("a call ended in a panic"))
        })
    }
}

fn answer_all(calls: &[Call]) -> Replies {
    let mut replies = Replies::default();
    let mut wide = Vec::new();
    for call in calls {
        replies.lend(call, |words, bytes| one(call, words, bytes, &mut wide));
    }
    replies
}

/// `wide` is lent for the row ends, from call to call.
fn one(call: &Call, words: &mut [u32], bytes: &mut [u8], wide: &mut Vec<u64>) -> Answer {
    match call.room {
        Room::Rows { .. } => {
            let (changes, ends) = call.room.places();
            let (front, back) = words.split_at_mut(ends.start - MARGIN);
            wide.clear();
            wide.extend(back.iter().copied().map(widened));
            let marks = BYTE_MARGIN..bytes.len() - BYTE_MARGIN;
            let answer = read(call, &mut front[changes], &mut wide[MARGIN..MARGIN + ends.len()], &mut bytes[marks]);
            for (word, end) in back.iter_mut().zip(wide) {
                *word = narrowed(*word, *end);
            }
            answer
        }
        Room::Bytes(_) => write(call, bytes),
    }
}

/// Row ends have 64 bits, and the words that are compared 32. What an end holds before the call: its high
/// half shows a write of the low half alone.
fn widened(word: u32) -> u64 {
    u64::from(word) | u64::from(!word) << 32
}

/// The word for an end after the call: as it was if the end was not written. An end of more than 32 bits,
/// which no page here has, shows as another word.
fn narrowed(before: u32, end: u64) -> u32 {
    if end == widened(before) { before } else { u32::try_from(end).unwrap_or(!before) }
}

fn read(call: &Call, changes: &mut [u32], ends: &mut [u64], marks: &mut [u8]) -> Answer {
    let ask = call.ask;
    if ask.lead == 0 && ask.tail == 0 {
        return read_from(call, &ask.src, changes, ends, marks);
    }
    read_from(call, &ask.data(), changes, ends, marks)
}

fn read_from(call: &Call, src: &[u8], changes: &mut [u32], ends: &mut [u64], marks: &mut [u8]) -> Answer {
    let (settings, exact, plain) = (&call.ask.settings, call.exact, call.plain);
    match (call.ask.form, call.steps) {
        (Form::ReadLine, _) => read_line(call, src, changes),
        (_, Steps::Whole) => page(settings, exact, plain, src, changes, ends, marks),
        (_, Steps::Rows(first, second)) => {
            let page = Page { settings, exact, plain, src, encoding: settings.encoding.number() };
            by_row::read(&mut Linked, &page, (first, second), call.fill, Store::new(changes, ends, marks))
        }
        (_, Steps::Units(total)) => {
            let page = by_unit::Page { settings, exact, plain, src };
            by_unit::read(&mut Linked, &page, total, call.fill, by_unit::Store { changes, ends, marks })
        }
    }
}

/// The page form.
pub fn page(s: &Settings, exact: bool, plain: bool, src: &[u8], changes: &mut [u32], ends: &mut [u64], marks: &mut [u8]) -> Answer {
    // SAFETY: the arrays are lent whole.
    unsafe { page_into(s, exact, plain, src, changes, ends, marks) }
}

/// The page form with arrays that repeat: only the last entries that were written can be looked at, which is all that it looks at itself.
pub fn page_repeated(s: &Settings, src: &[u8], changes: &Repeated, ends: &Repeated, marks: &Repeated) -> Answer {
    // SAFETY: the arrays are there to be written, and apart. An entry of them is another's too, and so is not kept; the page form
    // writes ends and marks and reads none, and of the changes it reads the row before, which is shorter than the block that repeats.
    unsafe { page_into(s, false, false, src, changes.entries(), ends.entries(), marks.entries()) }
}

/// The page form into three arrays, which must be there to be written, and apart.
#[rustfmt::skip]
unsafe fn page_into(s: &Settings, exact: bool, plain: bool, src: &[u8], changes: *mut [u32], ends: *mut [u64], marks: *mut [u8]) -> Answer {
    let mut answer = Answer::default();
    // SAFETY: each pointer stands with the length of its slice, and the three lent arrays and the answer are apart.
    unsafe {
        match s.encoding {
            Encoding::Group4 => ccitt_decode_group4(&mut answer, src.as_ptr(), src.len(), s.columns, s.rows, s.end_of_block, s.aligned, s.strict, exact, plain,
                changes.cast(), changes.len(), ends.cast(), ends.len(), marks.cast(), marks.len()),
            Encoding::Group3OneD => ccitt_decode_group3_1d(&mut answer, src.as_ptr(), src.len(), s.columns, s.rows, s.end_of_block, s.end_of_line, s.aligned, s.strict, exact, plain,
                changes.cast(), changes.len(), ends.cast(), ends.len(), marks.cast(), marks.len()),
            Encoding::Group3TwoD => ccitt_decode_group3_2d(&mut answer, src.as_ptr(), src.len(), s.columns, s.rows, s.end_of_block, s.end_of_line, s.aligned, s.strict, exact, plain,
                changes.cast(), changes.len(), ends.cast(), ends.len(), marks.cast(), marks.len()),
        }
    };
    answer
}

impl RowForm for Linked {
    #[rustfmt::skip]
    fn read_row(&mut self, page: &Page, state: &mut [u64], first: &mut [u32], second: &mut [u32]) -> Answer {
        let s = page.settings;
        let mut answer = Answer::default();
        // SAFETY: each pointer stands with the length of its slice, and the three lent arrays and the answer are apart.
        unsafe {
            ccitt_read_row(&mut answer, page.src.as_ptr(), page.src.len(), s.columns, s.rows, s.end_of_block, s.end_of_line, s.aligned, page.encoding, s.strict, page.exact, page.plain,
                state.as_mut_ptr(), state.len(), first.as_mut_ptr(), first.len(), second.as_mut_ptr(), second.len())
        };
        answer
    }
}

impl UnitForm for Linked {
    #[rustfmt::skip]
    fn read_units(&mut self, page: &by_unit::Page, store: by_unit::Store, state: &mut [u64], n: u64) -> Turn {
        let (s, by_unit::Store { changes, ends, marks }) = (page.settings, store);
        let mut turn = Turn::default();
        // SAFETY: each pointer stands with the length of its slice, and the four lent arrays and the answer are apart.
        unsafe {
            ccitt_read_units(&mut turn, page.src.as_ptr(), page.src.len(), s.columns, s.rows, s.end_of_block, s.aligned, s.strict, page.exact, page.plain,
                changes.as_mut_ptr(), changes.len(), ends.as_mut_ptr(), ends.len(), marks.as_mut_ptr(), marks.len(), state.as_mut_ptr(), state.len(), n)
        };
        turn
    }
}

#[rustfmt::skip]
fn read_line(call: &Call, src: &[u8], changes: &mut [u32]) -> Answer {
    let ask = call.ask;
    let mut answer = Answer::default();
    // SAFETY: each pointer stands with the length of its slice, and the answer is apart.
    unsafe {
        ccitt_read_line(&mut answer, src.as_ptr(), src.len(), ask.at, ask.settings.columns, ask.settings.strict,
            ask.first.as_ptr(), ask.first.len(), changes.as_mut_ptr(), changes.len())
    };
    answer
}

fn write(call: &Call, bytes: &mut [u8]) -> Answer {
    let lent = BYTE_MARGIN..bytes.len() - BYTE_MARGIN;
    if call.ask.tail == 0 {
        return write_to(call, &mut bytes[lent]);
    }
    let mut long = with_zeros(0, &bytes[lent.clone()], call.ask.tail);
    let answer = write_to(call, &mut long);
    bytes[lent.clone()].copy_from_slice(&long[..lent.len()]);
    if long[lent.len()..].chunks(1 << 16).any(|part| part.iter().fold(0, |all, byte| all | byte) != 0) {
        // a write into the tail shows as one into the margin
        bytes[0] ^= 255;
    }
    answer
}

#[rustfmt::skip]
fn write_to(call: &Call, out: &mut [u8]) -> Answer {
    let ask = call.ask;
    let ends = || -> Vec<u64> { ask.second.iter().copied().map(u64::from).collect() };
    match ask.form {
        Form::WritePage => return write_page(None, ask.settings.columns, &ask.first, &ends(), out),
        Form::WriteGroup3(layout) => return write_page(Some(layout), ask.settings.columns, &ask.first, &ends(), out),
        _ => {}
    }
    let mut answer = Answer::default();
    // SAFETY: each pointer stands with the length of its slice, and the answer is apart.
    unsafe {
        ccitt_write_line(&mut answer, ask.settings.columns, ask.first.as_ptr(), ask.first.len(),
            ask.second.as_ptr(), ask.second.len(), out.as_mut_ptr(), out.len(), ask.at)
    };
    answer
}

/// The page writers: of Group 4, and of Group 3 in some layout.
#[rustfmt::skip]
pub fn write_page(layout: Option<Layout>, columns: u32, changes: &[u32], ends: &[u64], out: &mut [u8]) -> Answer {
    let mut answer = Answer::default();
    // SAFETY: each pointer stands with the length of its slice, and the answer is apart.
    unsafe {
        match layout {
            None => ccitt_write_page(&mut answer, columns, changes.as_ptr(), changes.len(), ends.as_ptr(), ends.len(), out.as_mut_ptr(), out.len()),
            Some(Layout::OneD { eols, fill }) => ccitt_write_group3_1d(&mut answer, columns, changes.as_ptr(), changes.len(), ends.as_ptr(), ends.len(),
                eols, fill, out.as_mut_ptr(), out.len()),
            Some(Layout::TwoD { k }) => ccitt_write_group3_2d(&mut answer, columns, changes.as_ptr(), changes.len(), ends.as_ptr(), ends.len(),
                k, out.as_mut_ptr(), out.len()),
        }
    };
    answer
}
