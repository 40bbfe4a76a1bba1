//! The verdict on a booking form, asked of the library that is linked in; and the tests that were there before it.

use super::heads::heads_of;
use super::{STACK, page};
use crate::forms::ask::{Ask, Desk, Judged, OLD_READINGS, READINGS, Told, Verdict};
use crate::settings::Settings;

#[rustfmt::skip]
unsafe extern "C" {
    fn ccitt_verdict(answer: *mut Verdict, form: *const u8, form_len: usize, src: *const u8, src_len: usize, how: u32, encoding: u32, columns: u32, rows: u32,
        end_of_block: bool, end_of_line: bool, rows_are_byte_aligned: bool, plain: bool, boxes: *mut u32, boxes_len: usize, places: *mut u32, places_len: usize,
        changes: *mut u32, changes_len: usize, ends: *mut u64, ends_len: usize, marks: *mut u8, marks_len: usize) -> *mut Verdict;
}

pub struct LinkedDesk;

/// The numbers of a form's boxes, and of a place.
const BOXES: usize = 80;
const PLACE: usize = 7;
/// A form file may have so many places.
const PLACES: usize = 256;

impl Desk for LinkedDesk {
    /// In a thread that has no more stack than the library may use.
    fn judge(&self, asks: &[Ask]) -> Vec<Judged> {
        let mut room = Room::of(asks);
        std::thread::scope(|scope| {
            let thread =
                std::thread::Builder::new().stack_size(STACK).spawn_scoped(scope, || asks.iter().map(|ask| room.judged(ask)).collect());
            thread.expect("a thread can be started").join().expect("no call ends in a panic")
        })
    }
}

/// The arrays that are lent, from call to call.
struct Room {
    boxes: Vec<u32>,
    places: Vec<u32>,
    changes: Vec<u32>,
    ends: Vec<u64>,
    marks: Vec<u8>,
}

impl Room {
    /// No page has more rows or changes than bits, but for one.
    fn of(asks: &[Ask]) -> Self {
        let most = 8 * asks.iter().map(|ask| ask.src.len()).max().unwrap_or(0) + 1;
        Room { boxes: vec![0; BOXES], places: vec![0; PLACE * PLACES], changes: vec![0; most], ends: vec![0; most], marks: vec![0; most] }
    }

    fn judged(&mut self, ask: &Ask) -> Judged {
        let mut desk = [Told { number: 0, heads: 0 }; READINGS.len()];
        for (how, told) in desk.iter_mut().enumerate() {
            let verdict = self.verdict(ask, how as u32);
            *told = Told { number: verdict.number, heads: verdict.heads };
        }
        Judged { desk, old: OLD_READINGS.map(|(_, strict)| self.by_old_tests(ask, strict)) }
    }

    #[rustfmt::skip]
    fn verdict(&mut self, ask: &Ask, how: u32) -> Verdict {
        let s = &ask.settings;
        let mut verdict = Verdict::default();
        // SAFETY: each pointer stands with the length of its slice, and the five lent arrays and the verdict are apart.
        unsafe {
            ccitt_verdict(&mut verdict, ask.text.as_ptr(), ask.text.len(), ask.src.as_ptr(), ask.src.len(), how, s.encoding.number(), 0, s.rows,
                s.end_of_block, s.end_of_line, s.aligned, false, self.boxes.as_mut_ptr(), self.boxes.len(), self.places.as_mut_ptr(), self.places.len(),
                self.changes.as_mut_ptr(), self.changes.len(), self.ends.as_mut_ptr(), self.ends.len(), self.marks.as_mut_ptr(), self.marks.len())
        };
        verdict
    }

    /// The reading's answer, and then A11's: what the tool asked for before there was a verdict.
    fn by_old_tests(&mut self, ask: &Ask, strict: bool) -> Told {
        let settings = Settings { strict, ..ask.settings };
        let read = page(&settings, false, false, ask.src, &mut self.changes, &mut self.ends, &mut self.marks);
        if read.number != 0 {
            return Told { number: read.number, heads: 0 };
        }
        let rows = read.rows as usize;
        let answer = heads_of(settings.columns, &self.changes, &self.ends[..rows], &self.marks[..rows], ask.boxes, ask.tick, 0);
        Told { number: answer.number, heads: answer.heads }
    }
}
