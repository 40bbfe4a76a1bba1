//! The page form against the crate's, the Rust package's callbacks against the crate's, the plain engine against the lookup, and the row form, one line at a time
//! and the unit form against the crate.

use super::fill;
use super::page::{Named, Page};
use super::set;
use super::timing::{RUNS, report};
use crate::by_row::{self, RowForm, STATE};
use crate::by_unit::{self, UnitForm};
use crate::charts;
use crate::checks::other_decoder::Text;
use crate::copies::settings_of;
use crate::drawn::{self, Drawn};
use crate::linked::{self, Linked};
use crate::settings::{ENCODINGS, Encoding};
use std::time::{Duration, Instant};

/// More than any of the pages needs; and how many of them are cleared for a page that needs no more.
const CHANGES: usize = 1 << 22;
const FEW: usize = 1 << 20;
const ENDS: usize = 1 << 15;

/// The arrays that both are given, cleared before each run.
struct Store {
    changes: Vec<u32>,
    ends: Vec<u64>,
    marks: Vec<u8>,
}

impl Store {
    fn cleared(&mut self, page: &Page) -> &mut Self {
        self.changes[..page.entries.max(FEW)].fill(0);
        self.ends.fill(0);
        self.marks.fill(0);
        self
    }
}

/// The crate's sink: copies each row into one array.
struct Sink<'a> {
    store: &'a mut Store,
    entries: usize,
    rows: usize,
}

impl Sink<'_> {
    fn push(&mut self, changes: &[u32]) {
        let end = self.entries + changes.len();
        self.store.changes[self.entries..end].copy_from_slice(changes);
        self.store.ends[self.rows] = end as u64;
        self.entries = end;
        self.rows += 1;
    }
}

impl hayro_ccitt::Decoder for Sink<'_> {
    fn push_row(&mut self, changes: &[u32]) {
        self.push(changes);
    }
}

impl drop_in::Decoder for Sink<'_> {
    fn push_row(&mut self, changes: &[u32]) {
        self.push(changes);
    }
}

/// The pages of rendered text, and blank ones in each encoding.
pub fn named(texts: &[Text]) -> Vec<Named> {
    let own = texts.iter().map(|text| (text.name.to_string(), Page::of(text.settings, text.src.clone())));
    let blank: Vec<Drawn> = drawn::odd_pages().into_iter().filter(|(name, _)| *name == "blank").collect();
    own.chain(in_each(&blank)).collect()
}

pub fn run(texts: &[Text]) {
    let mut store = Store { changes: vec![0; CHANGES], ends: vec![0; ENDS], marks: vec![0; ENDS] };
    println!("median of {RUNS} runs, release builds, arrays cleared before each; the crate's sink copies rows into one array");
    run_set(&mut store);
    println!("pages of rendered text");
    let pages: Vec<Named> = texts.iter().map(|text| (text.name.to_string(), Page::of(text.settings, text.src.clone()))).collect();
    let sets = by_encoding(&pages);
    for (name, some) in &sets {
        compare(name, some, &mut store);
    }
    println!("the Rust package by callbacks against the crate by callbacks, likewise, with a new context for each page");
    for (name, some) in &sets {
        compare_packages(&format!("{name}, by callbacks"), some, &mut store);
    }
    println!("the plain engine against the lookup, likewise");
    for (name, some) in &sets {
        compare_engines(&format!("{name}, by the plain engine"), some, &mut store);
    }
    println!("a row at a time against the crate, likewise");
    for (name, some) in &sets {
        compare_rows(&format!("{name}, a row at a time"), some, &mut store);
    }
    println!("one line at a time, and some units at a time, against the crate, likewise");
    let (name, group4) = &sets[0];
    compare_lines(&format!("{name}, a line at a time"), group4, &mut store);
    for n in [1, 16, 256] {
        compare_units(&format!("{name}, N = {n}"), n, group4, &mut store);
    }
    println!("the longest call of the unit form: of each call the shortest of {RUNS} runs, and of these the longest");
    for n in [1, 16, 256] {
        longest_calls(n, group4, &mut store);
    }
    println!("fill, likewise, in Group 3 1D pages with EOLs");
    compare_each(&fill::pages(), &mut store);
}

/// The set of 02's A8: each page, each encoding, all of them; then what is beside it.
fn run_set(store: &mut Store) {
    let drawn = drawn::pages();
    let in_both = |drawn: &[Drawn], strict: bool| -> Vec<Named> {
        [Encoding::Group4, Encoding::Group3OneD].into_iter().flat_map(|encoding| set::written(drawn, encoding, strict)).collect()
    };
    println!("the set: {} drawn pages as our own writers write them", drawn.len());
    let pages = in_both(&drawn, true);
    compare_each(&pages, store);
    for (name, some) in by_encoding(&pages) {
        compare(&name, &some, store);
    }
    println!("the same, read leniently; in 2D lines, strictly; a row at a time");
    for (name, some) in by_encoding(&in_both(&drawn, false)) {
        compare(&format!("{name}, leniently"), &some, store);
    }
    let two_d = set::written(&drawn, Encoding::Group3TwoD, true);
    compare(&format!("{} pages, Group3TwoD", two_d.len()), &two_d.iter().map(|(_, page)| page).collect::<Vec<_>>(), store);
    for (name, some) in by_encoding(&pages) {
        compare_rows(&format!("{name}, a row at a time"), &some, store);
    }
    compare_rows(
        &format!("{} pages, Group3TwoD, a row at a time", two_d.len()),
        &two_d.iter().map(|(_, page)| page).collect::<Vec<_>>(),
        store,
    );
    println!("pages of the kinds of ITU's charts, in each encoding");
    let charts = in_each(&charts::pages());
    compare_each(&charts, store);
    for encoding in ENCODINGS {
        let some: Vec<&Page> = charts.iter().map(|(_, page)| page).filter(|page| page.settings.encoding == encoding).collect();
        compare(&format!("{} charts, {encoding:?}", some.len()), &some, store);
    }
    println!("pages that no office faxes, in each encoding");
    let odd = in_each(&drawn::odd_pages());
    compare_each(&odd, store);
    println!("these and the charts, a row at a time");
    for (name, page) in charts.iter().chain(&odd) {
        compare_rows(&format!("{name}, a row at a time"), &[page], store);
    }
}

/// Pages in each encoding, read strictly.
fn in_each(drawn: &[Drawn]) -> Vec<Named> {
    ENCODINGS.into_iter().flat_map(|encoding| set::written(drawn, encoding, true)).collect()
}

/// The pages of each encoding, and all of them.
fn by_encoding(pages: &[Named]) -> Vec<(String, Vec<&Page>)> {
    let all: Vec<&Page> = pages.iter().map(|(_, page)| page).collect();
    let of = |encoding: Encoding| -> Vec<&Page> { all.iter().copied().filter(|page| page.settings.encoding == encoding).collect() };
    let each =
        [Encoding::Group4, Encoding::Group3OneD].map(|encoding| (format!("{} pages, {encoding:?}", of(encoding).len()), of(encoding)));
    each.into_iter().chain([(format!("all {} pages", all.len()), all.clone())]).collect()
}

fn compare_each(pages: &[Named], store: &mut Store) {
    for (name, page) in pages {
        compare(name, &[page], store);
    }
}

fn compare(name: &str, pages: &[&Page], store: &mut Store) {
    let ours = |store: &mut Store| pages.iter().map(|page| time_ours(page, false, store)).sum();
    let theirs = |store: &mut Store| pages.iter().map(|page| time_crate(page, store)).sum();
    report(name, store, ours, "the crate", theirs);
}

/// The package against the crate: one program, and another line of Cargo.toml.
fn compare_packages(name: &str, pages: &[&Page], store: &mut Store) {
    let ours = |store: &mut Store| pages.iter().map(|page| time_package(page, store)).sum();
    let theirs = |store: &mut Store| pages.iter().map(|page| time_crate(page, store)).sum();
    report(name, store, ours, "the crate", theirs);
}

fn time_package(page: &Page, store: &mut Store) -> Duration {
    let mut sink = Sink { store: store.cleared(page), entries: 0, rows: 0 };
    let mut context = drop_in::DecoderContext::new(settings_of!(drop_in, page.settings));
    let began = Instant::now();
    let bytes = drop_in::decode(&page.src, &mut sink, &mut context);
    let took = began.elapsed();
    assert!(bytes.is_ok() == (page.number == 0) && sink.rows == page.rows, "the package answers as the crate does");
    took
}

/// The plain engine against the lookup.
fn compare_engines(name: &str, pages: &[&Page], store: &mut Store) {
    let plain = |store: &mut Store| pages.iter().map(|page| time_ours(page, true, store)).sum();
    let lookup = |store: &mut Store| pages.iter().map(|page| time_ours(page, false, store)).sum();
    report(name, store, plain, "the lookup", lookup);
}

/// The row form, into two arrays of as many entries as the page is wide.
fn compare_rows(name: &str, pages: &[&Page], store: &mut Store) {
    let by_row = |store: &mut Store| pages.iter().map(|page| time_by_row(page, store)).sum();
    let theirs = |store: &mut Store| pages.iter().map(|page| time_crate(page, store)).sum();
    report(name, store, by_row, "the crate", theirs);
}

/// The lines of Group 4 pages, each by a call of its own under the line before it.
fn compare_lines(name: &str, pages: &[&Page], store: &mut Store) {
    let by_line = |store: &mut Store| pages.iter().map(|page| time_by_line(page, store)).sum();
    let theirs = |store: &mut Store| pages.iter().map(|page| time_crate(page, store)).sum();
    report(name, store, by_line, "the crate", theirs);
}

fn time_by_line(page: &Page, store: &mut Store) -> Duration {
    let (mut above, mut row) = store.cleared(page).changes.split_at_mut(CHANGES / 2);
    let columns = page.settings.columns;
    let (mut at, mut held, mut entries) = (0, 0, 0);
    let began = Instant::now();
    for _ in 0..page.rows {
        let line = linked::line_at(&page.src, at, columns, page.settings.strict, &above[..held], &mut row[..columns as usize]);
        assert!(line.number == 0, "each line is read");
        (at, held, entries) = (line.bytes, line.entries as usize, entries + line.entries as usize);
        std::mem::swap(&mut above, &mut row);
    }
    let took = began.elapsed();
    assert!(entries == page.entries, "the lines are the page's");
    took
}

fn time_by_row(page: &Page, store: &mut Store) -> Duration {
    let (first, second) = store.cleared(page).changes.split_at_mut(CHANGES / 2);
    let columns = page.settings.columns as usize;
    let call =
        by_row::Page { settings: &page.settings, exact: false, plain: false, src: &page.src, encoding: page.settings.encoding.number() };
    let mut state = [0; STATE];
    let began = Instant::now();
    let answer = loop {
        let answer = Linked.read_row(&call, &mut state, &mut first[..columns], &mut second[..columns]);
        if answer.number != 15 {
            break answer;
        }
    };
    let took = began.elapsed();
    assert!(answer.number == page.number && answer.rows as usize == page.rows, "the row form answers as the page form does");
    took
}

/// The unit form, so many units a call.
fn compare_units(name: &str, n: u64, pages: &[&Page], store: &mut Store) {
    let by_unit = |store: &mut Store| pages.iter().map(|page| time_calls(page, n, store).into_iter().sum::<Duration>()).sum();
    let theirs = |store: &mut Store| pages.iter().map(|page| time_crate(page, store)).sum();
    report(name, store, by_unit, "the crate", theirs);
}

/// What a caller waits for at most.
fn longest_calls(n: u64, pages: &[&Page], store: &mut Store) {
    for (index, page) in pages.iter().enumerate() {
        let mut shortest = time_calls(page, n, store);
        for _ in 1..RUNS {
            shortest.iter_mut().zip(time_calls(page, n, store)).for_each(|(least, took)| *least = (*least).min(took));
        }
        let calls = shortest.len();
        let (longest, all) = (shortest.iter().max().copied().unwrap_or_default(), shortest.iter().sum::<Duration>());
        let whole = (0..RUNS).map(|_| time_ours(page, false, store)).min().unwrap_or_default();
        println!("Group 4 page {}, N = {n}: longest call {longest:?} of {calls}, {all:?} in all; the page form {whole:?}", index + 1);
    }
}

/// How long each call of the unit form takes.
fn time_calls(page: &Page, n: u64, store: &mut Store) -> Vec<Duration> {
    let Store { changes, ends, marks } = store.cleared(page);
    let call = by_unit::Page { settings: &page.settings, exact: false, plain: false, src: &page.src };
    let mut state = [0; by_unit::STATE];
    let mut times = Vec::new();
    loop {
        let lent = by_unit::Store { changes, ends, marks };
        let began = Instant::now();
        let turn = Linked.read_units(&call, lent, &mut state, n);
        times.push(began.elapsed());
        if turn.answer.number != 15 {
            let answers = turn.answer.number == page.number && turn.answer.rows as usize == page.rows;
            assert!(answers, "the unit form answers as the page form does");
            return times;
        }
    }
}

fn time_ours(page: &Page, plain: bool, store: &mut Store) -> Duration {
    let store = store.cleared(page);
    let began = Instant::now();
    let answer = linked::page(&page.settings, false, plain, &page.src, &mut store.changes, &mut store.ends, &mut store.marks);
    let took = began.elapsed();
    assert!(answer.number == page.number && answer.rows as usize == page.rows, "ours answers as the crate does");
    took
}

fn time_crate(page: &Page, store: &mut Store) -> Duration {
    let mut sink = Sink { store: store.cleared(page), entries: 0, rows: 0 };
    let mut context = hayro_ccitt::DecoderContext::new(settings_of!(hayro_ccitt, page.settings));
    let began = Instant::now();
    let bytes = hayro_ccitt::decode(&page.src, &mut sink, &mut context);
    let took = began.elapsed();
    assert!(bytes.is_ok() == (page.number == 0) && sink.rows == page.rows, "the crate answers alike each time");
    took
}
