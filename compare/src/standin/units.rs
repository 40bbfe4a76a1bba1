//! The stand-in's unit form: what a page leaves in the store is handed out in as many parts as the page has units.

use super::fault::Fault;
use crate::by_unit::{
    AT, BLACK, BLANK, BYTES, CUT, END, ENTRIES, EOLS, LOOSE, MODE_AT, PHASE, PLACE, POSITION, Page, ROWS, RUN, RUN_AT, STATE, Store, Turn,
    UnitForm,
};
use crate::call::Answer;
use crate::truth::{LIMIT, Wanted, ascends_below};

pub struct Units<'a> {
    pub fault: Fault,
    pub wanted: &'a Wanted,
    pub units: u64,
}

impl UnitForm for Units<'_> {
    fn read_units(&mut self, page: &Page, store: Store, state: &mut [u64], n: u64) -> Turn {
        let bare = |number| Turn { answer: Answer::bare(number), units: 0 };
        if n == 0 && self.fault == Fault::TenLate && page.settings.columns == u32::MAX {
            return bare(6);
        }
        if n == 0 {
            return bare(10);
        }
        if is_ended(state) {
            return self.repeated(state, store);
        }
        if page.settings.columns == u32::MAX {
            return bare(6);
        }
        if page.src.len() > LIMIT {
            return bare(7);
        }
        if self.refuses(page, state, &store) {
            return bare(8);
        }
        self.take(page, store, state, n)
    }
}

/// Whether the numbers are those of a page that goes on.
fn is_open(state: &[u64]) -> bool {
    let flags = [BLACK, CUT, BLANK].iter().all(|&flag| state[flag] <= 1);
    let words = [POSITION, RUN].iter().all(|&word| state[word] <= u64::from(u32::MAX));
    state[PHASE] <= 3 && flags && words && state[END..] == [0; STATE - END]
}

fn is_ended(state: &[u64]) -> bool {
    let zero = |place: &usize| state[*place] == 0;
    state.len() == STATE
        && is_end([state[END], state[PLACE], state[BYTES], state[LOOSE]])
        && [PHASE, AT, EOLS, POSITION, BLACK, CUT, RUN, RUN_AT, MODE_AT, BLANK].iter().all(zero)
}

/// Whether an end's place, bytes and loose entries are such as its number has.
fn is_end(end: [u64; 4]) -> bool {
    matches!(end, [1, 0, _, 0] | [2..=4, _, 0, _] | [5 | 6, 0, 0, _] | [15, 0, 0, 0])
}

impl Units<'_> {
    fn refuses(&self, page: &Page, state: &[u64], store: &Store) -> bool {
        if state.len() != STATE || !is_open(state) {
            return true;
        }
        let bits = 8 * page.src.len() as u64;
        let late = [AT, RUN_AT, MODE_AT].iter().any(|&bit| state[bit] > bits) && self.fault != Fault::LateTaken;
        let many = [EOLS, ROWS, LOOSE].iter().any(|&count| state[count] > bits + 1);
        let places = store.ends.len().min(store.marks.len()) as u64;
        if late || many || state[ROWS] > places || state[POSITION] > u64::from(page.settings.columns) {
            return true;
        }
        let end = |rows: u64| if rows == 0 { 0 } else { store.ends[rows as usize - 1] };
        let (start, base) = (end(state[ROWS].saturating_sub(1)), end(state[ROWS]));
        if base > bits + 1 || start > base || base + state[LOOSE] > store.changes.len() as u64 {
            return true;
        }
        let (start, base, behind) = (start as usize, base as usize, (base + state[LOOSE]) as usize);
        !ascends_below(&store.changes[start..base], page.settings.columns)
            || !ascends_below(&store.changes[base..behind], state[POSITION] as u32)
    }

    fn repeated(&self, state: &[u64], store: Store) -> Turn {
        if self.fault == Fault::UnitRepetitionWrites
            && let Some(mark) = store.marks.first_mut()
        {
            *mark = 0;
        }
        let (number, rows, entries) = (state[END] as u32 - 1, state[ROWS], state[ENTRIES]);
        Turn { answer: Answer { number, mark: 0, rows, entries, loose: state[LOOSE], bytes: state[BYTES], place: state[PLACE] }, units: 0 }
    }

    /// The units taken so far stand in the place of the EOLs. The page's end comes with the last unit.
    fn take(&self, page: &Page, store: Store, state: &mut [u64], n: u64) -> Turn {
        let n = if self.fault == Fault::AllAtOnce { u64::MAX } else { n };
        let before = state[EOLS].min(self.units);
        let after = before.saturating_add(n).min(self.units);
        let last = after == self.units;
        self.hand_out(page, after, last, store, state);
        let units = after - before;
        let answer = if last { self.wanted.answer } else { Answer { number: 15, bytes: 0, place: 0, ..self.counts(state) } };
        let (rows, loose) = (answer.rows, answer.loose);
        state.fill(0);
        (state[ROWS], state[LOOSE]) = (rows, loose);
        if last {
            state[END] = u64::from(answer.number) + 1;
            (state[ENTRIES], state[BYTES], state[PLACE]) = (answer.entries, answer.bytes, answer.place);
        } else {
            (state[EOLS], state[POSITION]) = (after, if loose == 0 { 0 } else { u64::from(page.settings.columns) });
        }
        Turn { answer, units }
    }

    /// So much of the changes as so many units are of all; whole rows are closed.
    fn hand_out(&self, page: &Page, after: u64, last: bool, store: Store, state: &mut [u64]) {
        let all = self.wanted.changes.len();
        let so_far = if last { all } else { (all as u128 * u128::from(after) / u128::from(self.units)) as usize };
        let from = if state[ROWS] == 0 { 0 } else { store.ends[state[ROWS] as usize - 1] as usize } + state[LOOSE] as usize;
        let to = so_far.max(from);
        store.changes[from..to].copy_from_slice(&self.wanted.changes[from..to]);
        if self.fault == Fault::PlainUnit && page.plain && to > from {
            store.changes[to - 1] ^= 1;
        }
        let mut rows = state[ROWS] as usize;
        while rows < self.wanted.ends.len() && (last || (self.wanted.ends[rows] as usize) < to) {
            (store.ends[rows], store.marks[rows]) = (u64::from(self.wanted.ends[rows]), self.wanted.marks[rows]);
            rows += 1;
        }
        if self.fault == Fault::BehindAUnit && to < store.changes.len() {
            store.changes[to] = 0;
        }
        state[ROWS] = rows as u64;
        let base = if rows == 0 { 0 } else { u64::from(self.wanted.ends[rows - 1]) };
        (state[ENTRIES], state[LOOSE]) = (base, to as u64 - base);
    }

    fn counts(&self, state: &[u64]) -> Answer {
        Answer { rows: state[ROWS], entries: state[ENTRIES], loose: state[LOOSE], ..Answer::default() }
    }
}
