//! A page read a row at a time (A1), to its end. What each call says and leaves is looked at, and its rows are laid out as the page form
//! lays them, so that they are compared as a page is.

use crate::call::{Answer, MARGIN, pattern};
use crate::complaint::Complaint;
use crate::settings::Settings;
use crate::truth::refusal_of_a_state;

/// The state's numbers, and what they are.
pub const STATE: usize = 10;
pub const SIDE: usize = 0;
pub const HELD: usize = 1;
pub const AT: usize = 2;
pub const ROWS: usize = 3;
pub const ENTRIES: usize = 4;
pub const EOLS: usize = 5;
pub const END: usize = 6;
pub const PLACE: usize = 7;

/// What a call is given besides the state and the two arrays.
#[derive(Clone, Copy)]
pub struct Page<'a> {
    pub settings: &'a Settings,
    pub exact: bool,
    pub plain: bool,
    pub src: &'a [u8],
    pub encoding: u32,
}

/// Ends that no page has: one more than a number of the list, and a place, bytes or loose entries that it never has.
const ENDS: [[u64; STATE - END]; 10] = [
    [1, 1, 0, 0],
    [1, 0, 0, 1],
    [2, 0, 1, 0],
    [3, 1, 1, 1],
    [4, 0, 1, 0],
    [5, 1, 0, 0],
    [5, 0, 1, 1],
    [15, 1, 0, 0],
    [15, 0, 1, 0],
    [15, 0, 0, 1],
];

/// The row form, however it is reached.
pub trait RowForm {
    fn read_row(&mut self, page: &Page, state: &mut [u64], first: &mut [u32], second: &mut [u32]) -> Answer;
}

/// The arrays of a page, into which the rows are gathered.
pub struct Store<'a> {
    pub changes: &'a mut [u32],
    pub ends: &'a mut [u64],
    pub marks: &'a mut [u8],
    rows: usize,
    entries: usize,
}

impl<'a> Store<'a> {
    pub fn new(changes: &'a mut [u32], ends: &'a mut [u64], marks: &'a mut [u8]) -> Self {
        Store { changes, ends, marks, rows: 0, entries: 0 }
    }

    /// Lays changes behind the rows.
    fn put(&mut self, changes: &[u32]) -> Result<(), Complaint> {
        let room = self.changes.get_mut(self.entries..self.entries + changes.len()).ok_or(Complaint::TooManyRows)?;
        room.copy_from_slice(changes);
        Ok(())
    }

    fn row(&mut self, changes: &[u32], mark: u32) -> Result<(), Complaint> {
        self.put(changes)?;
        self.entries += changes.len();
        *self.ends.get_mut(self.rows).ok_or(Complaint::TooManyRows)? = self.entries as u64;
        *self.marks.get_mut(self.rows).ok_or(Complaint::TooManyRows)? = u8::try_from(mark).map_err(|_| Complaint::WrongCounts)?;
        self.rows += 1;
        Ok(())
    }
}

/// The two line arrays, laid out as margin, first, margin, second, margin.
#[derive(Clone, PartialEq, Eq)]
struct Lines {
    words: Vec<u32>,
    first: usize,
    second: usize,
}

impl Lines {
    fn new((first, second): (usize, usize), fill: u32) -> Self {
        Lines { words: (0..first + second + 3 * MARGIN).map(|index| pattern(fill, index)).collect(), first, second }
    }

    fn range(&self, side: u64) -> std::ops::Range<usize> {
        let second = 2 * MARGIN + self.first;
        if side == 1 { MARGIN..MARGIN + self.first } else { second..second + self.second }
    }

    fn array(&self, side: u64) -> &[u32] {
        &self.words[self.range(side)]
    }

    fn call(&mut self, form: &mut dyn RowForm, page: &Page, state: &mut [u64]) -> Answer {
        let (first, second) = (self.range(1), self.range(0));
        let (front, back) = self.words.split_at_mut(second.start - MARGIN);
        form.read_row(page, state, &mut front[first], &mut back[MARGIN..MARGIN + second.len()])
    }

    /// Whether nothing was written but the first `count` entries of an array.
    fn wrote_only(&self, before: &Lines, side: u64, count: usize) -> bool {
        let range = self.range(side);
        let end = range.start + count;
        count <= range.len() && self.words[..range.start] == before.words[..range.start] && self.words[end..] == before.words[end..]
    }
}

/// Reads a page a row at a time into arrays of so many entries. `fill` says what they hold before, and which forged states are tried.
pub fn read(form: &mut dyn RowForm, page: &Page, lengths: (usize, usize), fill: u32, store: Store) -> Answer {
    Reading { form, page, fill, lines: Lines::new(lengths, fill), state: [0; STATE], store }.read().unwrap_or_else(Complaint::answer)
}

struct Reading<'a> {
    form: &'a mut dyn RowForm,
    page: &'a Page<'a>,
    fill: u32,
    lines: Lines,
    state: [u64; STATE],
    store: Store<'a>,
}

impl Reading<'_> {
    fn read(mut self) -> Result<Answer, Complaint> {
        let forged_at = self.fill as usize >> 8 & 3;
        loop {
            if self.store.rows == forged_at {
                self.forge(self.fill as usize)?;
            }
            let (state, lines) = (self.state, self.lines.clone());
            let answer = self.lines.call(self.form, self.page, &mut self.state);
            match answer.number {
                15 => self.row(&answer, &lines)?,
                6..=8 if self.state == state && self.lines == lines => return Ok(answer),
                6..=8 => return Err(Complaint::RefusalChanges),
                _ => return self.end(answer, &state, &lines),
            }
        }
    }

    /// A row: where it lies, and what is counted.
    fn row(&mut self, answer: &Answer, before: &Lines) -> Result<(), Complaint> {
        let (rows, entries) = (self.store.rows as u64, self.store.entries as u64);
        let (side, count) = (self.state[SIDE], self.state[HELD] as usize);
        if side != 1 - rows % 2 {
            return Err(Complaint::WrongArray);
        }
        if !self.lines.wrote_only(before, side, count) {
            return Err(Complaint::WritesBeside);
        }
        let counted = Answer { mark: answer.mark, rows: rows + 1, entries: entries + count as u64, ..Answer::bare(15) };
        let ended = self.state[END..] != [0; STATE - END];
        if *answer != counted || (self.state[ROWS], self.state[ENTRIES]) != (counted.rows, counted.entries) || ended {
            return Err(Complaint::WrongCounts);
        }
        self.store.row(&self.lines.array(side)[..count], answer.mark)
    }

    /// The page's end: where the loose entries lie, and that it is repeated.
    fn end(&mut self, answer: Answer, state: &[u64; STATE], before: &Lines) -> Result<Answer, Complaint> {
        let (side, loose) = (1 - state[SIDE].min(1), answer.loose as usize);
        if self.state[SIDE] != state[SIDE] || self.state[HELD] != state[HELD] {
            return Err(Complaint::WrongArray);
        }
        if !self.lines.wrote_only(before, side, loose) {
            return Err(Complaint::WritesBeside);
        }
        self.store.put(&self.lines.array(side)[..loose])?;
        self.again(&answer)?;
        Ok(answer)
    }

    /// A call after the end, with other settings, data and arrays.
    fn again(&mut self, answer: &Answer) -> Result<(), Complaint> {
        let s = self.page.settings;
        let settings = Settings { columns: !s.columns, strict: !s.strict, rows: s.rows ^ 1, end_of_block: !s.end_of_block, ..*s };
        let page = Page { settings: &settings, exact: !self.page.exact, src: &[0x35, 0xC0], encoding: self.fill % 5, ..*self.page };
        let lines = Lines::new((self.fill as usize % 3, self.fill as usize / 3 % 3), !self.fill);
        let (mut state, mut after) = (self.state, lines.clone());
        let repeated = after.call(self.form, &page, &mut state);
        if repeated == *answer && state == self.state && after == lines { Ok(()) } else { Err(Complaint::NotRepeated) }
    }

    /// Numbers of the state, and what none of them can be.
    fn forged_numbers(&self) -> [(usize, u64); 15] {
        let bits = 8 * self.page.src.len() as u64;
        let held = self.lines.array(self.state[SIDE]).len() as u64;
        [
            (AT, bits + 1),
            (AT, u64::MAX),
            (ROWS, bits + 2),
            (ENTRIES, bits + 2),
            (HELD, held + 1),
            (HELD, u64::MAX),
            (SIDE, 2),
            (EOLS, 2),
            (END, 6),
            (END, 14),
            (END, 16),
            (END, u64::MAX),
            (PLACE, 1),
            (PLACE + 1, 1),
            (PLACE + 2, 1),
        ]
    }

    /// One of the states that no call leaves, by its number; it is 8, behind 6 and 7.
    fn forge(&mut self, which: usize) -> Result<(), Complaint> {
        let numbers = self.forged_numbers();
        let (mut state, mut lines, mut page) = (self.state.to_vec(), self.lines.clone(), *self.page);
        match which % (4 + numbers.len() + ENDS.len()) {
            0 => state.push(0),
            1 => state.truncate(STATE - 1),
            2 => page.encoding = 3 + self.fill % 7,
            3 if self.state[HELD] > 0 => {
                let last = lines.range(self.state[SIDE]).start + self.state[HELD] as usize - 1;
                lines.words[last] = page.settings.columns;
            }
            3 => state.clear(),
            index => match numbers.get(index - 4) {
                Some(&(place, number)) => state[place] = number,
                None => state[END..].copy_from_slice(&ENDS[index - 4 - numbers.len()]),
            },
        }
        let (before, lent) = (state.clone(), lines.clone());
        let answer = lines.call(self.form, &page, &mut state);
        if answer == Answer::bare(refusal_of_a_state(page.settings, page.src)) && state == before && lines == lent {
            Ok(())
        } else {
            Err(Complaint::ForgedTaken)
        }
    }
}
