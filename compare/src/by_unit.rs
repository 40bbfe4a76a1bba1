//! A Group 4 page read a little at a time (A9), to its end. What each call says, takes and leaves is looked at; the arrays are the page's own, so that
//! what is in them at the end is compared as a page is.

use crate::call::Answer;
use crate::complaint::Complaint;
use crate::random::Random;
use crate::settings::Settings;
use crate::truth::refusal_of_a_state;
use std::ops::Range;

/// The state's numbers, and what they are.
pub const STATE: usize = 16;
pub const PHASE: usize = 0;
pub const AT: usize = 1;
pub const EOLS: usize = 2;
pub const ROWS: usize = 3;
pub const POSITION: usize = 4;
pub const BLACK: usize = 5;
pub const LOOSE: usize = 6;
pub const CUT: usize = 7;
pub const RUN: usize = 8;
pub const RUN_AT: usize = 9;
pub const MODE_AT: usize = 10;
pub const BLANK: usize = 11;
pub const END: usize = 12;
pub const ENTRIES: usize = 13;
pub const BYTES: usize = 14;
pub const PLACE: usize = 15;

/// What a call is given besides the state, the arrays and its number.
#[derive(Clone, Copy)]
pub struct Page<'a> {
    pub settings: &'a Settings,
    pub exact: bool,
    pub plain: bool,
    pub src: &'a [u8],
}

/// An answer, and the units that were taken, as C has them.
#[repr(C)]
#[derive(Clone, Copy, Debug, Default, PartialEq, Eq)]
pub struct Turn {
    pub answer: Answer,
    pub units: u64,
}

/// The unit form, however it is reached.
pub trait UnitForm {
    fn read_units(&mut self, page: &Page, store: Store, state: &mut [u64], n: u64) -> Turn;
}

/// The arrays of a page, as they are lent.
pub struct Store<'a> {
    pub changes: &'a mut [u32],
    pub ends: &'a mut [u64],
    pub marks: &'a mut [u8],
}

impl Store<'_> {
    /// The same arrays for one call.
    fn lend(&mut self) -> Store<'_> {
        Store { changes: self.changes, ends: self.ends, marks: self.marks }
    }
}

/// Arrays of its own: as they were before a call, or for a call that is not the page's.
#[derive(Clone, PartialEq, Eq)]
struct Held {
    changes: Vec<u32>,
    ends: Vec<u64>,
    marks: Vec<u8>,
}

impl Held {
    fn of(store: &Store) -> Self {
        Held { changes: store.changes.to_vec(), ends: store.ends.to_vec(), marks: store.marks.to_vec() }
    }

    fn store(&mut self) -> Store<'_> {
        Store { changes: &mut self.changes, ends: &mut self.ends, marks: &mut self.marks }
    }

    fn is(&self, store: &Store) -> bool {
        self.changes == store.changes && self.ends == store.ends && self.marks == store.marks
    }

    /// Where so many rows end among the changes.
    fn base(&self, rows: usize) -> usize {
        if rows == 0 { 0 } else { self.ends[rows - 1] as usize }
    }

    /// Whether nothing was written but from some rows and entries on, and up to others.
    fn wrote_only(&self, after: &Store, rows: Range<usize>, entries: Range<usize>) -> bool {
        apart(&self.changes, after.changes, entries) && apart(&self.ends, after.ends, rows.clone()) && apart(&self.marks, after.marks, rows)
    }
}

/// Whether two lists agree outside a range of theirs.
fn apart<T: PartialEq>(before: &[T], after: &[T], range: Range<usize>) -> bool {
    range.end <= before.len() && before[..range.start] == after[..range.start] && before[range.end..] == after[range.end..]
}

/// Reads a page in calls of a few units. `total` says how many it has, if that is known; `fill`, how many each call may take, and which forged states are tried.
pub fn read(form: &mut dyn UnitForm, page: &Page, total: Option<u64>, fill: u32, store: Store) -> Answer {
    let random = Random::of(u64::from(fill), "units", page.src.len() as u64);
    Reading { form, page, random, store, state: [0; STATE], units: 0 }.read(total).unwrap_or_else(Complaint::answer)
}

struct Reading<'a> {
    form: &'a mut dyn UnitForm,
    page: &'a Page<'a>,
    random: Random,
    store: Store<'a>,
    state: [u64; STATE],
    units: u64,
}

impl Reading<'_> {
    fn read(mut self, total: Option<u64>) -> Result<Answer, Complaint> {
        let once = self.at_once();
        let (forged_at, odd_at) = (self.random.below(4), self.random.below(6));
        let pace = self.random.below(4);
        for call in 0..=8 * self.page.src.len() as u64 + 2 {
            if call == forged_at {
                self.forge()?;
            }
            if call == odd_at {
                self.odd()?;
            }
            if self.random.below(8) == 0 {
                self.none()?;
            }
            let n = self.number(pace);
            if let Some(last) = self.call(n)? {
                if (Turn { answer: last, units: self.units }) != once || total.is_some_and(|total| total != self.units) {
                    return Err(Complaint::WrongTotal);
                }
                self.again(&last)?;
                return Ok(last);
            }
        }
        Err(Complaint::Endless)
    }

    /// The whole page in one call, with arrays of its own.
    fn at_once(&mut self) -> Turn {
        let mut held = Held::of(&self.store);
        self.form.read_units(self.page, held.store(), &mut [0; STATE], u64::MAX)
    }

    /// How many units a call may take: one, a few, or many. Every array is looked at after each call, so that of a long page no call takes few.
    fn number(&mut self, pace: u64) -> u64 {
        let least = 1 + self.page.src.len() as u64 / 64;
        match pace {
            0 => least,
            1 => least + self.random.below(3),
            2 => least + self.random.below(40),
            _ => match self.random.below(4) {
                0 => least,
                1 => least + self.random.below(5),
                2 => least + self.random.below(300),
                _ => u64::MAX - self.random.below(2),
            },
        }
    }

    /// A call: nothing while the page goes on, or its end.
    fn call(&mut self, n: u64) -> Result<Option<Answer>, Complaint> {
        let (before, state) = (Held::of(&self.store), self.state);
        let turn = self.form.read_units(self.page, self.store.lend(), &mut self.state, n);
        let answer = turn.answer;
        if (6..=8).contains(&answer.number) {
            let untouched = before.is(&self.store) && self.state == state && turn.units == 0;
            return if untouched { Ok(Some(answer)) } else { Err(Complaint::RefusalChanges) };
        }
        self.units += turn.units;
        looked_at(&turn, n, (&state, &self.state), &before, &self.store)?;
        Ok((answer.number != 15).then_some(answer))
    }

    /// A call of no units, with whatever else.
    fn none(&mut self) -> Result<(), Complaint> {
        let columns = self.random.pick(&[self.page.settings.columns, u32::MAX, 0]);
        let settings = Settings { columns, ..*self.page.settings };
        let page = Page { settings: &settings, ..*self.page };
        let mut state = self.state.to_vec();
        match self.random.below(4) {
            0 => state[AT] = u64::MAX,
            1 => state[PHASE] = 4,
            2 => state.truncate(self.random.index(STATE)),
            _ => {}
        }
        let (before, lent) = (state.clone(), Held::of(&self.store));
        let turn = self.form.read_units(&page, self.store.lend(), &mut state, 0);
        let same = turn == Turn { answer: Answer::bare(10), units: 0 } && state == before && lent.is(&self.store);
        if same { Ok(()) } else { Err(Complaint::NotTen) }
    }

    /// A call after the end, with other settings, data and arrays.
    fn again(&mut self, answer: &Answer) -> Result<(), Complaint> {
        if (6..=8).contains(&answer.number) {
            return Ok(());
        }
        let s = self.page.settings;
        let settings = Settings { columns: !s.columns, strict: !s.strict, rows: s.rows ^ 1, end_of_block: !s.end_of_block, ..*s };
        let page = Page { settings: &settings, exact: !self.page.exact, src: &[0x35, 0xC0], ..*self.page };
        let lengths = (self.random.index(3), self.random.index(3), self.random.index(3));
        let mut held = Held { changes: vec![7; lengths.0], ends: vec![7; lengths.1], marks: vec![7; lengths.2] };
        let (mut state, lent) = (self.state, held.clone());
        let n = 1 + self.random.below(9);
        let turn = self.form.read_units(&page, held.store(), &mut state, n);
        let same = turn == Turn { answer: *answer, units: 0 } && state == self.state && held == lent;
        if same { self.none() } else { Err(Complaint::NotRepeated) }
    }

    /// One of the states that no call leaves; it is 8, behind 6 and 7.
    fn forge(&mut self) -> Result<(), Complaint> {
        let (mut state, mut held) = if self.random.below(4) == 0 { self.forged_end() } else { self.forged_state() };
        let (before, lent) = (state.clone(), held.clone());
        let turn = self.form.read_units(self.page, held.store(), &mut state, 1);
        let same = turn == Turn { answer: Answer::bare(refusal_of_a_state(self.page.settings, self.page.src)), units: 0 } && state == before && held == lent;
        if same { Ok(()) } else { Err(Complaint::ForgedTaken) }
    }

    /// An end that no page has: one more than a number of the list, and a place, bytes or loose entries that it never has.
    fn forged_end(&mut self) -> (Vec<u64>, Held) {
        let [end, place, bytes, loose] = self.random.pick(&[
            [1, 1, 0, 0],
            [1, 0, 0, 1],
            [2, 0, 1, 0],
            [3, 1, 1, 1],
            [4, 0, 1, 0],
            [5, 1, 0, 0],
            [5, 0, 1, 1],
            [6, 1, 0, 0],
            [6, 0, 1, 1],
            [15, 1, 0, 0],
            [15, 0, 1, 0],
            [15, 0, 0, 1],
        ]);
        let mut state = vec![0; STATE];
        (state[END], state[PLACE], state[BYTES], state[LOOSE]) = (end, place, bytes, loose);
        (state, Held::of(&self.store))
    }

    /// Numbers of the state, and what none of them can be.
    fn forged_numbers(&self) -> [(usize, u64); 23] {
        let bits = 8 * self.page.src.len() as u64;
        let places = self.store.ends.len().min(self.store.marks.len()) as u64;
        let room = self.store.changes.len() as u64;
        [
            (PHASE, 4),
            (PHASE, u64::MAX),
            (AT, bits + 1),
            (AT, u64::MAX),
            (RUN_AT, bits + 1),
            (MODE_AT, bits + 1),
            (EOLS, bits + 2),
            (ROWS, bits + 2),
            (ROWS, places + 1),
            (LOOSE, bits + 2),
            (LOOSE, room + 1),
            (POSITION, u64::from(self.page.settings.columns) + 1),
            (POSITION, u64::MAX),
            (RUN, 1 << 32),
            (BLACK, 2),
            (CUT, 2),
            (BLANK, 2),
            (END, 7),
            (END, 14),
            (END, 16),
            (ENTRIES, 1),
            (BYTES, 1),
            (PLACE, 1),
        ]
    }

    /// A page that goes on, from a state with one number, or over arrays with one entry, that none has.
    fn forged_state(&mut self) -> (Vec<u64>, Held) {
        let bits = 8 * self.page.src.len() as u64;
        let room = self.store.changes.len() as u64;
        let numbers = self.forged_numbers();
        let (mut state, mut held) = (self.state.to_vec(), Held::of(&self.store));
        let rows = self.state[ROWS] as usize;
        let (start, base) = (held.base(rows.saturating_sub(1)), held.base(rows));
        match self.random.index(numbers.len() + 8) {
            0 => state.push(0),
            1 => state.truncate(STATE - 1),
            2 => state.clear(),
            3 if rows > 0 => held.ends[rows - 1] = (bits + 2).max(room + 1),
            4 if rows > 1 => held.ends[rows - 2] = base as u64 + 1,
            5 if base > start => held.changes[base - 1] = self.page.settings.columns,
            6 if base > start + 1 => held.changes[base - 1] = held.changes[base - 2],
            7 if state[LOOSE] > 0 => held.changes[base + state[LOOSE] as usize - 1] = state[POSITION] as u32,
            index => {
                let (place, number) = numbers[index.saturating_sub(8)];
                state[place] = number;
            }
        }
        (state, held)
    }

    /// A state that no call leaves and that passes the tests: it is read on, and nothing is written but what it speaks of.
    fn odd(&mut self) -> Result<(), Complaint> {
        if refusal_of_a_state(self.page.settings, self.page.src) != 8 || self.page.settings.columns == 0 {
            return Ok(());
        }
        let bits = 8 * self.page.src.len() as u64;
        let (mut state, mut held) = (self.state, Held::of(&self.store));
        for _ in 0..1 + self.random.below(4) {
            let (place, most) = self.random.pick(&[
                (PHASE, 3),
                (AT, bits),
                (RUN_AT, bits),
                (MODE_AT, bits),
                (EOLS, bits + 1),
                (BLACK, 1),
                (CUT, 1),
                (BLANK, 1),
                (RUN, u64::from(u32::MAX)),
            ]);
            state[place] = if self.random.bool() { most } else { self.random.below(most + 1) };
        }
        if self.random.bool() {
            state[POSITION] = u64::from(self.page.settings.columns);
        }
        let (before, lent) = (state, held.clone());
        let n = 1 + self.random.below(9);
        let turn = self.form.read_units(self.page, held.store(), &mut state, n);
        if (6..=8).contains(&turn.answer.number) {
            return Err(Complaint::OddRefused);
        }
        looked_at(&turn, n, (&before, &state), &lent, &held.store())
    }
}

/// What a call took, what is counted, and where it has written. The states and the arrays are those before it and after it.
fn looked_at(turn: &Turn, n: u64, state: (&[u64; STATE], &[u64; STATE]), before: &Held, after: &Store) -> Result<(), Complaint> {
    let Turn { answer, units } = turn;
    let open = answer.number == 15;
    if *units > n || open && *units < n {
        return Err(Complaint::WrongUnits);
    }
    let rows = answer.rows as usize;
    let ended = if open { 0 } else { u64::from(answer.number) + 1 };
    let entries = if rows == 0 { 0 } else { after.ends.get(rows - 1).copied().unwrap_or(u64::MAX) };
    let counted = (answer.rows, answer.loose, ended) == (state.1[ROWS], state.1[LOOSE], state.1[END]) && answer.entries == entries;
    if !counted || open && (answer.bytes, answer.place) != (0, 0) || answer.rows < state.0[ROWS] {
        return Err(Complaint::WrongCounts);
    }
    let kept = state.0[ROWS] as usize;
    let (base, end) = (before.base(kept), (answer.entries + answer.loose) as usize);
    if end < base || !before.wrote_only(after, kept..rows, base..end) {
        return Err(Complaint::WritesBeside);
    }
    Ok(())
}
