//! That the forms are drawn as the examples are, and that a desk that counts wrong is caught.

use super::copies::{LAYOUTS, copies_of, count, settings_of};
use super::filled::Filled;
use super::lying::Lying;
use super::standin::{FAULTS, Fault, Standin};
use super::{judged, sheet};
use crate::canvas::WIDTH;
use crate::heads::ask::Ask as Store;
use crate::heads::plain::plain;
use crate::layouts::encoded;
use crate::random::Random;
use crate::settings::Settings;
use crate::truth::Outcome;
use std::collections::HashSet;

const SEED: u64 = 7;
const LYING: [Lying; 2] = [Lying::AtItsPlace, Lying::Elsewhere];

fn read_strictly(layout: usize, src: &[u8]) -> Outcome {
    Outcome::of_page(&Settings { strict: true, ..settings_of(LAYOUTS[layout].1) }, src, 0)
}

/// Outside the boxes that are ticked there, which are those of 4 and 0.
#[test]
fn the_form_is_printed_as_the_example_is() {
    let example = read_strictly(0, include_bytes!("../../../examples/forty.g4"));
    let ticked =
        |row: usize| [(0, 4), (1, 0)].iter().any(|&(column, digit)| (sheet::corner(column, digit).1..).take(sheet::HIGH).any(|y| y == row));
    let printed = sheet::printed().rows();
    assert_eq!(example.ends.len(), printed.len());
    for (row, (theirs, ours)) in example.rows().zip(&printed).enumerate() {
        assert!(ticked(row) || theirs == ours, "row {row}: {theirs:?}, {ours:?}");
    }
}

#[test]
fn the_form_file_has_the_desks_lines() {
    let text = sheet::text();
    for line in [
        "tens 4 202 224 202 222",
        "units 9 702 724 357 377",
        "page 1728 400",
        "tick 20",
        "doubt 6",
        "black 202 224 76 78 40",
        "white 702 724 379 386 2",
    ] {
        assert!(text.lines().any(|known| known == line), "{line}");
    }
    assert_eq!(text.lines().count(), 20 + 3 + 40);
}

#[test]
fn every_number_of_heads_is_drawn_and_read_again() {
    let mut seen = HashSet::new();
    for heads in 0..100 {
        let rows = Filled::random(&mut Random::of(SEED, "form", heads), heads as u32).rows();
        for (layout, &(_, written)) in LAYOUTS.iter().enumerate() {
            let page = encoded(written, WIDTH as u32, &rows).into_bytes();
            let read = read_strictly(layout, &page);
            assert_eq!((read.number, read.bytes, read.ends.len()), (0, page.len() as u64, sheet::ROWS));
            let ends = read.ends.iter().copied().map(u64::from).collect();
            let store = Store {
                columns: WIDTH as u32,
                changes: read.changes,
                ends,
                marks: read.marks,
                boxes: sheet::boxes(),
                least: sheet::TICK,
                quota: 0,
            };
            assert_eq!((plain(&store).number, plain(&store).heads), (0, heads as u32));
            assert!(seen.insert(page), "two forms are alike");
        }
    }
}

#[test]
fn copies_are_made_again() {
    for lying in LYING {
        let [one, other] = [(), ()].map(|()| copies_of(SEED, 3, lying));
        assert_eq!(one.len() as u64, count());
        assert!(one.iter().zip(&other).all(|(one, other)| one.bytes == other.bytes));
    }
}

/// A row that is moved has the pixels that it had, so many columns aside.
#[test]
fn a_form_that_is_moved_has_the_same_pixels() {
    let rows = Filled::random(&mut Random::of(SEED, "form", 5), 5).rows();
    let black = |row: &[u32], x: i64| row.iter().filter(|&&change| i64::from(change) <= x).count() % 2 == 1;
    for index in 0..40 {
        let lies = Lying::Elsewhere.drawn(index, &mut Random::of(SEED, "where", index));
        let moved = lies.rows(&rows);
        assert!((sheet::ROWS..=sheet::ROWS + sheet::FAR[1]).contains(&moved.len()), "{lies:?}");
        for (y, row) in rows.iter().enumerate().skip(60) {
            let there = &moved[(y as i64 + lies.down) as usize];
            assert!(there.is_sorted_by(|one, next| one < next) && there.iter().all(|&change| change < WIDTH as u32));
            let inside = (0..WIDTH as i64).filter(|x| (0..WIDTH as i64).contains(&(x + lies.across)));
            assert!(inside.into_iter().all(|x| black(row, x) == black(there, x + lies.across)), "row {y}, {lies:?}");
        }
    }
}

#[test]
fn a_plain_desk_counts_none_wrong() {
    let found = judged(&Standin(Fault::None), SEED, 4, Lying::AtItsPlace);
    assert!(found.passed(), "{:?}", found.wrong);
    assert!(found.counts.old.iter().flatten().any(|cell| cell.wrong > 0), "the old tests count two pages as one");
}

#[test]
fn every_fault_of_a_desk_is_caught() {
    for &fault in FAULTS.iter().filter(|&&fault| fault != Fault::LooksNowhere) {
        assert!(!judged(&Standin(fault), SEED, 2, Lying::AtItsPlace).passed(), "{fault:?} is not caught");
    }
}

#[test]
fn a_plain_desk_that_looks_for_forms_counts_none_wrong() {
    let found = judged(&Standin(Fault::None), SEED, 1, Lying::Elsewhere);
    assert!(found.passed(), "{:?}", found.wrong);
}

/// One that looks for no form does not count those that lie elsewhere.
#[test]
fn a_desk_that_does_not_look_is_caught() {
    assert!(!judged(&Standin(Fault::LooksNowhere), SEED, 1, Lying::Elsewhere).passed());
}
