//! A page a row at a time, into two line arrays that grow.

use crate::library::{self, Answer};
use crate::room::{WIDE, at_least, longer};
use crate::settings::Settings;
use alloc::vec::Vec;

/// A page that is being read: the library's ten numbers, and the two line arrays.
#[derive(Default)]
pub(crate) struct ByRow {
    state: [u64; 10],
    lines: [Vec<u32>; 2],
}

impl ByRow {
    /// Begins a page. The line arrays are kept.
    pub(crate) fn begin(&mut self) {
        self.state = [0; 10];
    }

    /// Reads the next row; 4 is never answered. A row that its array does not hold is read again, from the state before it, into a longer one: as many
    /// entries as the page is wide, or as the data has bits, hold any row. Arrays that are as long as the page is wide let the library read swiftly.
    pub(crate) fn read(&mut self, data: &[u8], settings: &Settings) -> Answer {
        for line in &mut self.lines {
            at_least(line, (settings.settings.columns as usize).min(WIDE));
        }
        loop {
            let before = self.state;
            let [first, second] = &mut self.lines;
            let answer = library::read_row(data, settings, &mut self.state, first, second);
            if answer.number != Answer::NO_ENTRY {
                return answer;
            }
            self.state = before;
            let other = self.other();
            longer(&mut self.lines[other]);
        }
    }

    /// The row that was read last.
    pub(crate) fn row(&self) -> &[u32] {
        &self.lines[1 - self.other()][..self.state[1] as usize]
    }

    /// The first entries of the array that the next row goes to: after the page's end, what an unfinished row has.
    pub(crate) fn loose(&self, count: u64) -> &[u32] {
        &self.lines[self.other()][..count as usize]
    }

    /// Which array the next row goes to: the first one, unless that holds the row that was read last.
    fn other(&self) -> usize {
        usize::from(self.state[0] == 1)
    }
}
