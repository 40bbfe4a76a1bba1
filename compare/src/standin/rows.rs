//! The stand-in's row form: it gives the rows of an outcome, one a call.

use super::fault::Fault;
use crate::by_row::{AT, END, ENTRIES, EOLS, HELD, PLACE, Page, ROWS, RowForm, SIDE, STATE};
use crate::call::Answer;
use crate::truth::{LIMIT, Outcome, ascends_below};

pub struct Rows<'a> {
    pub fault: Fault,
    pub outcome: &'a Outcome,
}

impl RowForm for Rows<'_> {
    fn read_row(&mut self, page: &Page, state: &mut [u64], first: &mut [u32], second: &mut [u32]) -> Answer {
        if is_state(state) && state[END] != 0 {
            return self.repeated(state, first);
        }
        if page.settings.columns == u32::MAX {
            return Answer::bare(6);
        }
        if page.src.len() > LIMIT {
            return Answer::bare(7);
        }
        if self.refuses(page, state, if state.first() == Some(&1) { first } else { second }) {
            return Answer::bare(8);
        }
        let (reference, row) = if state[SIDE] == 1 { (first, second) } else { (second, first) };
        self.next(page, state, reference, row)
    }
}

/// Whether the numbers are those of a state.
fn is_state(state: &[u64]) -> bool {
    state.len() == STATE && state[SIDE] <= 1 && state[EOLS] <= 1 && is_end(&state[END..])
}

/// Whether an end's place, bytes and loose entries are such as its number has.
fn is_end(end: &[u64]) -> bool {
    matches!(end, [0 | 15, 0, 0, 0] | [1, 0, _, 0] | [2..=4, _, 0, _] | [5, 0, 0, _])
}

impl Rows<'_> {
    fn refuses(&self, page: &Page, state: &[u64], reference: &[u32]) -> bool {
        let bits = 8 * page.src.len() as u64;
        if !is_state(state) || page.encoding > 2 || state[HELD] > reference.len() as u64 {
            return true;
        }
        let late = state[AT] > bits && self.fault != Fault::ForgedTaken;
        let many = [HELD, ROWS, ENTRIES].iter().any(|&count| state[count] > bits + 1);
        late || many || !ascends_below(&reference[..state[HELD] as usize], page.settings.columns)
    }

    fn repeated(&self, state: &[u64], first: &mut [u32]) -> Answer {
        if self.fault == Fault::RepetitionWrites
            && let Some(entry) = first.first_mut()
        {
            *entry = 0;
        }
        let loose = if self.fault == Fault::RepeatsOtherwise { 0 } else { state[PLACE + 2] };
        Answer {
            number: state[END] as u32 - 1,
            mark: 0,
            rows: state[ROWS],
            entries: state[ENTRIES],
            loose,
            bytes: state[PLACE + 1],
            place: state[PLACE],
        }
    }

    fn next(&self, page: &Page, state: &mut [u64], reference: &mut [u32], row: &mut [u32]) -> Answer {
        let rows = state[ROWS] as usize;
        let base = if rows == 0 { 0 } else { self.outcome.ends[rows - 1] as usize };
        let Some(&end) = self.outcome.ends.get(rows) else {
            return self.end(self.outcome.number, &self.outcome.changes[base..], page, state, row);
        };
        let changes = &self.outcome.changes[base..end as usize];
        if changes.len() > row.len() {
            return self.end(4, changes, page, state, row);
        }
        row[..changes.len()].copy_from_slice(changes);
        self.spoil(page, reference, row, changes.len());
        state[SIDE] = if self.fault == Fault::SameArray && rows == 2 { state[SIDE] } else { 1 - state[SIDE] };
        state[HELD] = changes.len() as u64;
        state[ROWS] += if self.fault == Fault::RowTwice && rows == 1 { 2 } else { 1 };
        state[ENTRIES] += state[HELD];
        Answer { number: 15, mark: u32::from(self.outcome.marks[rows]), rows: state[ROWS], entries: state[ENTRIES], ..Answer::default() }
    }

    fn spoil(&self, page: &Page, reference: &mut [u32], row: &mut [u32], count: usize) {
        match self.fault {
            Fault::PlainRow if page.plain && count > 2 => row[1] -= 1,
            Fault::BehindARow if count < row.len() => row[count] = 0,
            Fault::ReferenceTouched if !reference.is_empty() => reference[0] ^= 1,
            _ => {}
        }
    }

    /// What there is room for of the unfinished row, or of the row that does not fit.
    fn end(&self, number: u32, changes: &[u32], page: &Page, state: &mut [u64], row: &mut [u32]) -> Answer {
        let fits = changes.len() <= row.len();
        let (number, loose) = if fits { (number, changes.len()) } else { (4, row.len()) };
        row[..loose].copy_from_slice(&changes[..loose]);
        if page.settings.columns == 0 {
            (state[ROWS], state[ENTRIES]) = (0, 0);
        }
        state[END] = u64::from(number) + 1;
        state[PLACE] = if fits { self.outcome.place } else { 0 };
        state[PLACE + 1] = if number == 0 { self.outcome.bytes } else { 0 };
        state[PLACE + 2] = loose as u64;
        let told = if self.fault == Fault::LooseLost { 0 } else { loose as u64 };
        Answer { number, mark: 0, rows: state[ROWS], entries: state[ENTRIES], loose: told, bytes: state[PLACE + 1], place: state[PLACE] }
    }
}
