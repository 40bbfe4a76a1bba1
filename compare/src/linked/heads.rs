//! The heads on a form, asked of the library that is linked in.

use super::STACK;
use crate::heads::Reader;
use crate::heads::ask::{Ask, HeadsAnswer};

#[rustfmt::skip]
unsafe extern "C" {
    fn ccitt_heads(columns: u32, changes: *const u32, changes_len: usize, ends: *const u64, ends_len: usize, marks: *const u8, marks_len: usize,
        boxes: *const u32, boxes_len: usize, least: u64, quota: i32) -> HeadsAnswer;
}

pub struct LinkedHeads;

impl Reader for LinkedHeads {
    /// In a thread that has no more stack than the library may use.
    fn heads(&self, asks: &[Ask]) -> Vec<Option<HeadsAnswer>> {
        std::thread::scope(|scope| {
            let thread =
                std::thread::Builder::new().stack_size(STACK).spawn_scoped(scope, || asks.iter().map(|ask| Some(one(ask))).collect());
            thread.expect("a thread can be started").join().expect("no call ends in a panic")
        })
    }
}

fn one(ask: &Ask) -> HeadsAnswer {
    heads_of(ask.columns, &ask.changes, &ask.ends, &ask.marks, &ask.boxes, ask.least, ask.quota)
}

/// The heads on the rows of a store.
#[rustfmt::skip]
pub fn heads_of(columns: u32, changes: &[u32], ends: &[u64], marks: &[u8], boxes: &[u32], least: u64, quota: i32) -> HeadsAnswer {
    // SAFETY: each pointer stands with the length of its slice, and nothing is written.
    unsafe {
        ccitt_heads(columns, changes.as_ptr(), changes.len(), ends.as_ptr(), ends.len(), marks.as_ptr(), marks.len(),
            boxes.as_ptr(), boxes.len(), least, quota)
    }
}
