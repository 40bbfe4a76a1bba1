//! The crate passes, and each fault and each slip is caught.

use super::Standin;
use super::fault::{FAULTS, Fault};
use crate::case::Source;
use crate::check;
use crate::checks::random_pages::{Kind, RandomPages};
use crate::checks::{
    bad_lines::BadLines, codes::Codes, group3_writers, limits, lines::Lines, listed_pages::ListedPages, long_runs::LongRuns,
    sheets::Sheets, writers,
};
use crate::ours::Ours;

/// Every check but the exhaustive one, with fewer inputs.
fn sources(count: u64) -> Vec<Box<dyn Source>> {
    let random = |kind| Box::new(RandomPages { kind, count }) as Box<dyn Source>;
    let mut list: Vec<Box<dyn Source>> = vec![
        Box::new(Sheets),
        Box::new(limits::PageLimits),
        Box::new(limits::LineLimits),
        Box::new(Codes),
        random(Kind::Short),
        random(Kind::Words),
        random(Kind::Encoded),
        random(Kind::Damaged),
        Box::new(BadLines { count }),
        Box::new(Lines { count }),
        Box::new(writers::WriterLimits),
        Box::new(writers::WrittenLines { count }),
        Box::new(writers::WrittenPages { count }),
        Box::new(group3_writers::Limits),
        Box::new(group3_writers::Written { count }),
    ];
    list.extend(ListedPages::all());
    list
}

/// The first check that a fault fails.
fn first_failing(fault: Fault, sources: &[Box<dyn Source>]) -> Option<String> {
    let mut ours: Vec<Box<dyn Ours>> = vec![Box::new(Standin(fault))];
    sources.iter().find_map(|source| {
        let tally = check::run(source.as_ref(), 7, &mut ours);
        let text = tally.smallest.as_ref().map_or("", |(_, text)| text);
        (!tally.passed()).then(|| format!("{}:\n{text}", source.name()))
    })
}

#[test]
fn the_crate_passes() {
    assert_eq!(first_failing(Fault::None, &sources(10_000)), None);
}

#[test]
fn every_fault_is_caught() {
    for &fault in FAULTS {
        assert!(first_failing(fault, &sources(500)).is_some(), "{fault:?} is not caught");
    }
}

#[test]
fn a_check_without_inputs_does_not_pass() {
    assert!(first_failing(Fault::None, &[Box::new(Lines { count: 0 })]).is_some());
}

/// Run by `compare/run test`, once for each slip in the copy.
#[test]
#[ignore = "there is no slip unless compare/run test puts one in"]
fn slip_is_caught() {
    let mut sources = sources(20_000);
    sources.push(Box::new(LongRuns));
    let caught = first_failing(Fault::None, &sources);
    println!("caught by {caught:?}");
    assert!(caught.is_some());
}
