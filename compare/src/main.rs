//! Compares our fax decoder with the crate that it was made from, by running both. `compare/run` builds
//! and starts it; README.md says what is compared.
#![deny(unsafe_code)]

mod arguments;
#[cfg(feature = "linked")]
mod bench;
mod bits;
#[cfg(any(feature = "linked", test))]
mod by_row;
#[cfg(any(feature = "linked", test))]
mod by_unit;
mod call;
#[cfg(any(feature = "linked", test))]
mod canvas;
mod case;
#[cfg(feature = "linked")]
mod charts;
mod check;
mod checks;
mod codes;
#[cfg(any(feature = "linked", test))]
mod complaint;
mod copies;
mod damage;
#[cfg(any(feature = "linked", test))]
mod drawn;
mod encoder;
#[cfg(test)]
mod faults;
#[cfg(any(feature = "linked", test))]
mod forms;
mod heads;
#[cfg(feature = "linked")]
mod huge;
mod layouts;
#[cfg(feature = "linked")]
mod linked;
mod listed;
#[cfg(any(feature = "linked", test))]
mod marks;
mod ours;
#[cfg(any(feature = "linked", test))]
mod package;
mod pages;
#[cfg(not(feature = "linked"))]
mod piped;
mod pixels;
#[cfg(feature = "linked")]
mod proper;
mod random;
mod rooms;
mod rows;
mod sample;
mod settings;
mod sha256;
#[cfg(test)]
mod standin;
mod tally;
mod truth;
mod words;

use arguments::{Arguments, Mode};
use case::Source;
use checks::other_decoder::{self, OtherDecoder};
use checks::random_pages::{Kind, RandomPages};
use checks::{
    bad_lines::BadLines, codes::Codes, exhaustive::Exhaustive, far::Far, fill::Fill, group3_writers, limits, lines::Lines,
    listed_pages::ListedPages, long_runs::LongRuns, sheets::Sheets, writers,
};
use ours::Ours;
use settings::{ENCODINGS, Encoding};
use std::io;
use std::process::ExitCode;
use std::time::Instant;
use tally::Tally;

fn main() -> ExitCode {
    let Some(arguments) = arguments::parse(std::env::args().skip(1)) else {
        eprintln!("{}", arguments::USAGE);
        return ExitCode::from(2);
    };
    let done = match &arguments.mode {
        Mode::Compare => compare(&arguments),
        #[cfg(feature = "linked")]
        Mode::Bench => bench::run(),
        #[cfg(feature = "linked")]
        Mode::Huge => huge::run(),
        #[cfg(feature = "linked")]
        Mode::Forms(count) => forms::run(&linked::verdict::LinkedDesk, arguments.seed, *count, &arguments.only, &made()),
        #[cfg(feature = "linked")]
        Mode::Skew(count) => Ok(forms::skewed::run(&linked::verdict::LinkedDesk, arguments.seed, *count)),
        #[cfg(feature = "linked")]
        Mode::Marks(count) => run_marks(arguments.seed, *count),
        #[cfg(feature = "linked")]
        Mode::Proper(folder) => proper::run(&linked::marks::LinkedPages, folder),
        #[cfg(not(feature = "linked"))]
        Mode::Bench | Mode::Huge | Mode::Forms(_) | Mode::Skew(_) | Mode::Marks(_) | Mode::Proper(_) => {
            println!("only for a library that is linked in: under an emulator a time says nothing, and what is huge takes hours");
            Ok(true)
        }
        Mode::Sample(folder) => sample::write(folder, arguments.seed).map(|()| true),
        Mode::Pages(folder) => listed::write(folder).map(|()| true),
    };
    match done {
        Ok(true) => ExitCode::SUCCESS,
        Ok(false) => ExitCode::FAILURE,
        Err(error) => {
            eprintln!("compare: {error}");
            ExitCode::from(2)
        }
    }
}

/// What the marks are worth, beside the other decoders that are at hand.
#[cfg(feature = "linked")]
fn run_marks(seed: u64, count: u64) -> io::Result<bool> {
    let others = marks::others::at_hand();
    let others: Vec<&dyn marks::ask::Other> = others.iter().map(AsRef::as_ref).collect();
    marks::run(&linked::marks::LinkedPages, &others, seed, count)
}

/// Where a run leaves its files: `compare/run` names the folder.
#[cfg(feature = "linked")]
fn made() -> std::path::PathBuf {
    std::env::var_os("COMPARE_MADE").map_or_else(|| ".".into(), Into::into)
}

/// Runs every check. True if all passed.
fn compare(arguments: &Arguments) -> io::Result<bool> {
    println!("seed {}", arguments.seed);
    if cfg!(not(feature = "linked")) {
        println!("the Rust package: skipped, the library is not linked in");
    }
    let workers = std::thread::available_parallelism().map_or(1, usize::from);
    let mut ours = (0..workers).map(|_| open()).collect::<io::Result<Vec<_>>>()?;
    let (mut passed, mut failed, mut all) = (0, 0, Tally::default());
    let mut count = |tally: Tally| {
        *(if tally.passed() { &mut passed } else { &mut failed }) += 1;
        all.add(tally);
    };
    let mut sources = sources(arguments.more);
    sources.retain(|source| source.name().contains(&arguments.only));
    for source in sources {
        count(run_one(source.as_ref(), arguments.seed, &mut ours));
    }
    run_heads(arguments).into_iter().for_each(&mut count);
    run_forms(arguments).into_iter().for_each(count);
    println!("{}; the line below counts checks", all.asked());
    println!("{passed} passed, {failed} failed");
    Ok(failed == 0)
}

/// Opens the library for one worker.
#[cfg(feature = "linked")]
fn open() -> io::Result<Box<dyn Ours>> {
    Ok(Box::new(linked::Linked))
}

#[cfg(not(feature = "linked"))]
fn open() -> io::Result<Box<dyn Ours>> {
    Ok(Box::new(piped::Piped::start()?))
}

fn run_one(source: &dyn Source, seed: u64, ours: &mut [Box<dyn Ours>]) -> Tally {
    let began = Instant::now();
    told(&source.name(), began, check::run(source, seed, ours))
}

/// The heads on the form, by the library and by the package, where they are linked in.
#[cfg(feature = "linked")]
fn run_heads(arguments: &Arguments) -> Vec<Tally> {
    let readers: [&dyn heads::Reader; 2] = [&linked::heads::LinkedHeads, &package::heads::PackageHeads];
    let asked = readers.iter().filter(|reader| reader.name().contains(&arguments.only));
    asked.map(|reader| told(reader.name(), Instant::now(), heads::run(*reader, arguments.seed, 300_000 * arguments.more))).collect()
}

#[cfg(not(feature = "linked"))]
fn run_heads(arguments: &Arguments) -> Vec<Tally> {
    if heads::NAME.contains(&arguments.only) {
        println!("{}: skipped, the library is not linked in", heads::NAME);
    }
    Vec::new()
}

/// Damaged copies of booking forms, none of which may be counted wrong.
#[cfg(feature = "linked")]
fn run_forms(arguments: &Arguments) -> Vec<Tally> {
    let asked = forms::CHECKS.into_iter().filter(|(name, _)| name.contains(&arguments.only));
    let check = |lying| forms::check(&linked::verdict::LinkedDesk, arguments.seed, 20_000 * arguments.more, lying);
    asked.map(|(name, lying)| told(name, Instant::now(), check(lying))).collect()
}

#[cfg(not(feature = "linked"))]
fn run_forms(arguments: &Arguments) -> Vec<Tally> {
    if "damaged forms".contains(&arguments.only) {
        println!("damaged forms: skipped, the library is not linked in");
    }
    Vec::new()
}

fn told(name: &str, began: Instant, tally: Tally) -> Tally {
    println!("{name}: {}, {} differ ({:.1} s)", tally.asked(), tally.differing, began.elapsed().as_secs_f64());
    if let Some((_, text)) = &tally.smallest {
        println!("{text}");
    }
    tally
}

/// The checks, in the order in which they are run.
fn sources(more: u64) -> Vec<Box<dyn Source>> {
    let random = |kind, count| RandomPages { kind, count: count * more };
    let mut list: Vec<Box<dyn Source>> = vec![
        Box::new(Sheets),
        Box::new(limits::PageLimits),
        Box::new(limits::LineLimits),
        Box::new(Codes),
        Box::new(LongRuns),
        Box::new(Fill),
        Box::new(Far),
        Box::new(random(Kind::Short, 164_000)),
        Box::new(random(Kind::Words, 150_000)),
        Box::new(random(Kind::Encoded, 100_000)),
        Box::new(random(Kind::Damaged, 200_000)),
        Box::new(BadLines { count: 100_000 * more }),
        Box::new(Lines { count: 150_000 * more }),
    ];
    // under the emulator a call takes microseconds, so the third row number is left to --more there
    let rows: &[u32] = if cfg!(feature = "linked") || more > 1 { &[0, 1, 2] } else { &[0, 1] };
    list.extend(ENCODINGS.map(|encoding| Box::new(Exhaustive { encoding, rows }) as Box<dyn Source>));
    match other_decoder::texts() {
        Some(texts) => list.push(Box::new(OtherDecoder(texts))),
        None => println!("pages of text by other decoders: skipped, the pages are not at hand"),
    }
    list.extend(writer_sources(more));
    list
}

fn writer_sources(more: u64) -> Vec<Box<dyn Source>> {
    let mut list: Vec<Box<dyn Source>> = vec![
        Box::new(writers::WriterLimits),
        Box::new(writers::WrittenLines { count: 100_000 * more }),
        Box::new(writers::WrittenPages { count: 50_000 * more }),
        Box::new(group3_writers::Limits),
        Box::new(group3_writers::Written { count: 50_000 * more }),
    ];
    list.extend(ListedPages::all());
    if let Some(mut texts) = other_decoder::texts() {
        texts.retain(|text| text.settings.encoding == Encoding::Group4);
        list.push(Box::new(writers::WrittenTexts(texts)));
    }
    list
}
