//! A whole page, its rows handed over one after the other.

use crate::by_row::ByRow;
use crate::library::{self, Answer};
use crate::room::{Room, changes_of, rows_of};
use crate::row::{Mark, Row};
use crate::settings::Settings;

/// The memory of a reading, kept from page to page.
#[derive(Default)]
pub(crate) struct Memory {
    rows: library::Rows,
    by_row: ByRow,
}

impl Memory {
    /// Reads a page, and hands over its rows before it says how it ended; 4 and 5 are never answered. The page form is quicker, and has every row in
    /// memory. What is more than that goes on by the row form, which has two.
    pub(crate) fn read(&mut self, data: &[u8], settings: &Settings, room: Room, mut push: impl FnMut(Row<'_>)) -> Answer {
        let answer = library::read_page(
            data,
            settings,
            &mut self.rows,
            changes_of(data, settings).min(room.changes),
            rows_of(data, settings).min(room.rows),
        );
        let mut start = 0;
        for (&end, &mark) in self.rows.ends.iter().zip(&self.rows.marks) {
            let end = end as usize;
            push(Row { changes: &self.rows.changes[start..end], mark: Mark::of(mark.into()) });
            start = end;
        }
        match answer.number {
            Answer::NO_ENTRY | Answer::NO_ROW_END => self.read_on(data, settings, answer.rows, push),
            _ => answer,
        }
    }

    /// The same page from its first row, of which so many have been handed over.
    fn read_on(&mut self, data: &[u8], settings: &Settings, pushed: u64, mut push: impl FnMut(Row<'_>)) -> Answer {
        self.by_row.begin();
        loop {
            let answer = self.by_row.read(data, settings);
            if answer.number != Answer::MORE_TO_COME {
                return answer;
            }
            if answer.rows > pushed {
                push(Row { changes: self.by_row.row(), mark: Mark::of(answer.mark) });
            }
        }
    }
}
