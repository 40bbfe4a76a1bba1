//! What the marks are worth: of damaged copies of pages, how many rows are right, wrong and marked, and wrong and clean; read leniently,
//! strictly and exactly, and of proper pages; and how many copies pass as whole. Other decoders read the same bytes.
#![cfg_attr(not(feature = "linked"), allow(dead_code))]

pub mod ask;
mod counts;
#[cfg(feature = "linked")]
pub mod others;
pub mod pages;
#[cfg(test)]
mod standin;
mod table;
#[cfg(test)]
mod tests;

use crate::canvas::WIDTH;
use crate::forms::damages::{ToBytes, damaged};
use crate::random::Random;
use crate::settings::Settings;
use ask::{Library, Other, Store};
use counts::{Cell, Never, Rows};
use pages::{LAYOUTS, Page, ROWS, Written, found, settings};
use std::io;
use std::sync::Mutex;
use std::sync::atomic::{AtomicU64, Ordering};
use std::time::Instant;

/// What happens to the bytes of a copy.
pub const DAMAGES: [(ToBytes, &str); 4] = [
    (ToBytes::Bit, "one bit flipped"),
    (ToBytes::Byte, "one byte changed"),
    (ToBytes::Scattered, "1 to 16 bytes changed"),
    (ToBytes::Cut, "cut behind a byte"),
];

/// How the library reads, and behind that the pages that are proper.
const READINGS: [&str; 4] = ["leniently", "strictly", "exactly", "proper"];
const EXACT: usize = 2;
const PROPER: usize = 3;
/// So many copies a worker takes at once.
const BATCH: u64 = 64;

/// What came of a run: by layout, damage and reader, those of the library first.
#[derive(Clone, Default)]
struct Found {
    cells: Vec<Cell>,
    never: Never,
}

impl Found {
    fn of(readers: usize) -> Self {
        Found { cells: vec![Cell::default(); LAYOUTS.len() * DAMAGES.len() * readers], never: Never::default() }
    }

    fn add(&mut self, other: &Found) {
        self.cells.iter_mut().zip(&other.cells).for_each(|(one, more)| one.add(more));
        self.never.add(&other.never);
    }
}

/// The whole of what is asked: pages, who reads them, and by which seed they are damaged.
struct Measure<'a> {
    library: &'a dyn Library,
    others: &'a [&'a dyn Other],
    seed: u64,
    pages: Vec<Page>,
}

/// A copy of a page, in a layout.
struct Copy<'a> {
    layout: usize,
    page: &'a Page,
    src: &'a [u8],
}

/// Reads at least so many damaged copies in each layout, and prints the tables. True if nothing was seen that must never be.
pub fn run(library: &dyn Library, others: &[&dyn Other], seed: u64, least: u64) -> io::Result<bool> {
    let measure = Measure { library, others, seed, pages: pages::pages() };
    let each = least.div_ceil((measure.pages.len() * DAMAGES.len()) as u64);
    let copies = each * (measure.pages.len() * DAMAGES.len()) as u64;
    println!("seed {seed}: {} strips of {ROWS} rows, {copies} damaged copies in each of {} layouts", measure.pages.len(), LAYOUTS.len());
    let began = Instant::now();
    let found = measure.all(each);
    let mut readers = READINGS.to_vec();
    readers.extend(others.iter().map(|other| other.name()));
    println!(
        "{}",
        table::tables(&readers, |layout, damage, reader| found.cells[(layout * DAMAGES.len() + damage) * readers.len() + reader])
    );
    println!("{:.1} s; rows and copies in percent", began.elapsed().as_secs_f64());
    println!("{:?}", found.never);
    Ok(!found.never.seen())
}

impl Measure<'_> {
    fn readers(&self) -> usize {
        READINGS.len() + self.others.len()
    }

    /// Each worker takes the next copies until there are none left.
    fn all(&self, each: u64) -> Found {
        let batches = each.div_ceil(BATCH);
        let kinds = (LAYOUTS.len() * DAMAGES.len() * self.pages.len()) as u64;
        let next = AtomicU64::new(0);
        let all = Mutex::new(self.whole());
        let work = || {
            let mut store = Store::for_rows(ROWS, WIDTH);
            let mut found = Found::of(self.readers());
            loop {
                let batch = next.fetch_add(1, Ordering::Relaxed);
                if batch >= batches * kinds {
                    break;
                }
                let (kind, part) = (batch / batches, batch % batches);
                (part * BATCH..each.min((part + 1) * BATCH)).for_each(|copy| self.one(kind as usize, copy, &mut store, &mut found));
            }
            all.lock().expect("no worker panics while it adds").add(&found);
        };
        std::thread::scope(|scope| {
            for _ in 0..std::thread::available_parallelism().map_or(1, usize::from) {
                scope.spawn(work);
            }
        });
        all.into_inner().expect("no worker panics while it adds")
    }

    /// The pages that are not damaged must pass in every reading, all rows right; and be proper where a writer of the library writes them.
    fn whole(&self) -> Found {
        let mut found = Found::of(self.readers());
        let mut store = Store::for_rows(ROWS, WIDTH);
        for page in &self.pages {
            for (layout, &(_, written)) in LAYOUTS.iter().enumerate() {
                let mut cells = [Cell::default(); READINGS.len()];
                self.by_library(&Copy { layout, page, src: &page.bytes[layout] }, &mut store, &mut cells, &mut found.never);
                let by_ours = u64::from(matches!(written, Written::By(_)));
                let good = cells[..PROPER].iter().all(|cell| cell.passed == 1 && cell.wrong == 0) && cells[PROPER].passed == by_ours;
                found.never.whole_fails += u64::from(!good);
            }
        }
        found
    }

    /// One copy, by its kind and its number.
    fn one(&self, kind: usize, number: u64, store: &mut Store, found: &mut Found) {
        let (at, page) = (kind / self.pages.len(), &self.pages[kind % self.pages.len()]);
        let (layout, damage) = (at / DAMAGES.len(), at % DAMAGES.len());
        let mut random = Random::of(self.seed, LAYOUTS[layout].0, (kind as u64) << 32 | number);
        let src = damaged(&mut random, DAMAGES[damage].0, &page.bytes[layout]);
        let copy = Copy { layout, page, src: &src };
        let cells = &mut found.cells[at * self.readers()..][..self.readers()];
        self.by_library(&copy, store, &mut cells[..READINGS.len()], &mut found.never);
        for (other, cell) in self.others.iter().zip(&mut cells[READINGS.len()..]) {
            if number.is_multiple_of(other.every()) {
                by_other(*other, &copy, cell);
            }
        }
    }

    /// Exactly first, and whether the page is proper; then strictly, and then leniently: what passed must pass again.
    fn by_library(&self, copy: &Copy, store: &mut Store, cells: &mut [Cell], never: &mut Never) {
        let mut before = None;
        for reading in (0..PROPER).rev() {
            let settings = Settings { strict: reading > 0, ..settings(LAYOUTS[copy.layout].1) };
            self.library.read(&settings, reading == EXACT, copy.src, store);
            let complete = store.number == 0 && store.bytes == copy.src.len() && store.rows == ROWS;
            let rows = rows_of(copy.page, store, complete);
            let passed = complete && store.marks[..ROWS].iter().all(|&mark| mark == 0);
            cells[reading].put(rows, passed);
            never.not_nested += u64::from(before.is_some_and(|before| before && !passed));
            before = Some(passed);
            if reading == EXACT {
                let proper = passed && self.is_proper(&settings, copy.src, store);
                cells[PROPER].put(if proper { rows } else { Rows { lost: ROWS as u64, ..Rows::default() } }, proper);
                never.proper_twin += u64::from(proper && rows.right == ROWS as u64 && copy.src != copy.page.bytes[copy.layout]);
            }
        }
    }

    /// The bytes that were read are what the writer that is found in them writes for the rows.
    fn is_proper(&self, settings: &Settings, src: &[u8], store: &Store) -> bool {
        let Some(layout) = found(settings.encoding, settings.columns, src, &store.all()) else { return false };
        self.library.written(layout, settings.columns, store).is_some_and(|bytes| bytes == src[..store.bytes])
    }
}

/// The rows that were kept beside those that were sent.
fn rows_of(page: &Page, store: &Store, complete: bool) -> Rows {
    let mut rows = Rows { lost: (ROWS - store.rows) as u64, ..Rows::default() };
    for index in 0..store.rows {
        rows.put(store.row(index) == page.rows[index], store.marks[index] != 0);
    }
    rows.unseen = if complete { rows.clean } else { 0 };
    rows
}

fn by_other(other: &dyn Other, copy: &Copy, cell: &mut Cell) {
    let Some(given) = other.read(LAYOUTS[copy.layout].1, WIDTH as u32, ROWS, copy.src) else { return };
    let mut rows = Rows { lost: ROWS.saturating_sub(given.len()) as u64, ..Rows::default() };
    for (row, sent) in given.iter().zip(copy.page.packed.chunks(WIDTH / 8)) {
        rows.put(row.packed == sent, row.told);
    }
    let passed = given.len() == ROWS && given.iter().all(|row| !row.told);
    cell.put(rows, passed);
}
