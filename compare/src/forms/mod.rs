//! The measure of the desk: damaged copies of booking forms, judged by `ccitt_verdict` and by the tests that were there before it.
//! No copy may be counted with heads that it was not ticked for.
#![cfg_attr(not(feature = "linked"), allow(dead_code))]

pub mod ask;
mod copies;
mod counts;
pub mod damages;
mod filled;
mod lying;
mod sheet;
#[cfg(any(feature = "linked", test))]
pub mod skewed;
#[cfg(test)]
mod standin;
mod table;
#[cfg(test)]
mod tests;

use crate::bits::hex;
#[cfg(feature = "linked")]
use crate::tally::Tally;
#[cfg(feature = "linked")]
use ask::READINGS;
use ask::{Ask, Desk, Judged};
use copies::{FormCopy, LAYOUTS, copies_of, settings_of};
use counts::Counts;
use damages::DAMAGES;
use lying::Lying;
use std::path::Path;
use std::sync::Mutex;
use std::sync::atomic::{AtomicU64, Ordering};
use std::time::Instant;
use std::{fs, io};

/// Where the forms of a run lie, and the files that it leaves: what was counted wrong, and the whole tally.
const RUNS: [(Lying, &str, &str); 2] =
    [(Lying::AtItsPlace, "forms-wrong.txt", "forms-tally.tsv"), (Lying::Elsewhere, "forms-moved-wrong.txt", "forms-moved-tally.tsv")];
/// So many of those counted wrong are written down, the first ones; all are told by their number.
const KEPT: usize = 1000;
/// A run of more forms is a long one.
const LONG: u64 = 1000;

/// What came of a run.
#[derive(Default)]
struct Found {
    counts: Counts,
    /// What the desk counted wrong: its form and its place among the copies, and how it can be repeated.
    wrong: Vec<((u64, usize), String)>,
}

impl Found {
    /// The first ones are kept: a worker takes forms in their order, so that they are the same whoever took which.
    fn add(&mut self, other: Found) {
        self.counts.add(&other.counts);
        self.wrong.extend(other.wrong);
        self.wrong.sort_unstable();
        self.wrong.truncate(KEPT);
    }

    fn passed(&self) -> bool {
        self.counts.wrong() == 0 && self.counts.counts_whole_forms()
    }
}

/// Judges at least so many copies of forms at their places and as many of forms that lie elsewhere, all of each form, and prints the
/// tables; of these only the ones that are asked for. True if none was counted wrong.
pub fn run(desk: &dyn Desk, seed: u64, least: u64, only: &str, folder: &Path) -> io::Result<bool> {
    let mut passed = true;
    for (lying, wrong, whole) in RUNS.into_iter().filter(|(lying, ..)| lying.told().contains(only)) {
        passed &= run_lying(desk, seed, least, lying, &folder.join(wrong), &folder.join(whole))?;
    }
    Ok(passed)
}

fn run_lying(desk: &dyn Desk, seed: u64, least: u64, lying: Lying, wrong: &Path, whole: &Path) -> io::Result<bool> {
    let forms = least.div_ceil(copies::count());
    let count = copies::count();
    println!("seed {seed}: {forms} forms, each {}, {count} copies of each, {} in all", lying.told(), forms * count);
    let began = Instant::now();
    let found = judged(desk, seed, forms, lying);
    let took = began.elapsed().as_secs_f64();
    fs::write(whole, table::whole(&found.counts))?;
    fs::write(wrong, found.wrong.iter().map(|(_, text)| text.as_str()).collect::<String>())?;
    println!("{}\n{}", table::tables(&found.counts), table::gains(&found.counts));
    println!("{took:.1} s, {:.0} copies a second, each judged four times and by the old tests twice", (forms * count) as f64 / took);
    println!("{} and {} have what was counted wrong, and the whole tally", wrong.display(), whole.display());
    if !found.counts.counts_whole_forms() {
        println!("forms that are not damaged are not all counted right");
    }
    println!("the desk counted {} wrong, over all readings", found.counts.wrong());
    Ok(found.passed())
}

/// The checks of the comparison.
#[cfg(feature = "linked")]
pub const CHECKS: [(&str, Lying); 2] = [("damaged forms", Lying::AtItsPlace), ("damaged forms that are looked for", Lying::Elsewhere)];

/// The same as such a check: a copy that is counted wrong differs, and so do whole forms that are not all counted.
#[cfg(feature = "linked")]
pub fn check(desk: &dyn Desk, seed: u64, least: u64, lying: Lying) -> Tally {
    let forms = least.div_ceil(copies::count());
    let found = judged(desk, seed, forms, lying);
    let inputs = forms * copies::count();
    let mut tally = Tally { inputs, calls: inputs * READINGS.len() as u64, ..Tally::default() };
    for (_, text) in &found.wrong {
        tally.differs(text.len(), || text.clone());
    }
    if !found.counts.counts_whole_forms() {
        tally.differs(usize::MAX, || "forms that are not damaged are not all counted right".to_string());
    }
    tally
}

/// Each worker takes the next form until there are none left.
fn judged(desk: &dyn Desk, seed: u64, forms: u64, lying: Lying) -> Found {
    let next = AtomicU64::new(0);
    let all = Mutex::new(Found::default());
    let work = || {
        let mut found = Found::default();
        loop {
            let form = next.fetch_add(1, Ordering::Relaxed);
            if form >= forms {
                break;
            }
            // a long run says on standard error how far it is
            if forms > LONG && form > 0 && form.is_multiple_of(forms.div_ceil(10)) {
                eprintln!("{form} of {forms} forms");
            }
            found.add(of_form(desk, seed, form, lying));
        }
        all.lock().expect("no worker panics while it adds").add(found);
    };
    std::thread::scope(|scope| {
        for _ in 0..std::thread::available_parallelism().map_or(1, usize::from) {
            scope.spawn(work);
        }
    });
    all.into_inner().expect("no worker panics while it adds")
}

fn of_form(desk: &dyn Desk, seed: u64, form: u64, lying: Lying) -> Found {
    let (text, boxes) = (lying.text(form), sheet::boxes());
    let copies = copies_of(seed, form, lying);
    let asks: Vec<Ask> = copies
        .iter()
        .map(|copy| Ask { text: &text, boxes: &boxes, tick: sheet::TICK, settings: settings_of(LAYOUTS[copy.layout].1), src: &copy.bytes })
        .collect();
    let answers = desk.judge(&asks);
    assert_eq!(answers.len(), copies.len(), "every one is judged");
    let mut found = Found::default();
    for (place, (copy, judged)) in copies.iter().zip(&answers).enumerate() {
        if found.counts.add_one(copy, judged) {
            found.wrong.push(((form, place), described(seed, form, lying, copy, judged)));
        }
    }
    found
}

/// What can be repeated: the seed and the form make the copy again, and its bytes are it.
fn described(seed: u64, form: u64, lying: Lying, copy: &FormCopy, judged: &Judged) -> String {
    let (layout, damage, lies) = (LAYOUTS[copy.layout].0, DAMAGES[copy.damage].1, lying.told());
    let may = copy.may.map_or("no heads".to_string(), |heads| heads.to_string());
    format!(
        "seed {seed}, form {form} {lies}, {layout}, {damage}, copy {}: may be counted with {may}\n  the desk {:?}\n  the old tests {:?}\n  {}\n",
        copy.nth,
        judged.desk,
        judged.old,
        hex(&copy.bytes)
    )
}
