//! That the measure finds what it must, and that a library that errs is caught.

use super::ask::Library;
use super::counts::Cell;
use super::pages::{LAYOUTS, Written, found, pages, settings};
use super::standin::{FAULTS, Fault, Standin};
use super::{DAMAGES, Found, Measure, READINGS};
use crate::canvas::WIDTH;
use crate::settings::Encoding;

const SEED: u64 = 7;
/// Copies of each page, layout and damage.
const EACH: u64 = 12;

fn measured(library: &dyn Library) -> Found {
    Measure { library, others: &[], seed: SEED, pages: pages() }.all(EACH)
}

fn sum(found: &Found, layout: usize, reading: usize) -> Cell {
    (0..DAMAGES.len()).fold(Cell::default(), |mut all, damage| {
        all.add(&found.cells[(layout * DAMAGES.len() + damage) * READINGS.len() + reading]);
        all
    })
}

/// What the tables of docs/FIGURES.md say at large, on a few copies: it holds for any seed but the rarest.
#[test]
fn fill_saves_rows_and_proper_pages_are_few() {
    let all = measured(&Standin(Fault::None));
    assert!(!all.never.seen(), "{:?}", all.never);
    let copies = EACH * (DAMAGES.len() * pages().len()) as u64;
    for layout in 0..LAYOUTS.len() {
        for reading in 0..READINGS.len() {
            let cell = sum(&all, layout, reading);
            assert_eq!(cell.copies, copies);
            assert_eq!(cell.rows.right + cell.rows.marked + cell.rows.clean + cell.rows.lost, copies * super::ROWS as u64);
        }
        let [lenient, strict, exact, proper] = [0, 1, 2, 3].map(|reading| sum(&all, layout, reading));
        assert!(lenient.rows.right >= strict.rows.right && strict.rows.right >= exact.rows.right);
        assert!(strict.passed >= exact.passed && exact.passed >= proper.passed);
    }
    let [bare, filled] = [1, 2].map(|layout| sum(&all, layout, 0).rows);
    assert!(filled.right > bare.right, "three zeros of fill save rows: {bare:?}, {filled:?}");
    assert!(filled.marked > 0 && sum(&all, 0, 1).rows.clean > 0, "some rows are marked, and some of Group 4 are wrong and clean");
}

#[test]
fn every_fault_of_a_library_is_caught() {
    for &fault in FAULTS {
        assert!(measured(&Standin(fault)).never.seen(), "{fault:?} is not caught");
    }
}

#[test]
fn the_writer_is_found_in_the_bits() {
    for page in pages() {
        let rows: Vec<&[u32]> = page.rows.iter().map(Vec::as_slice).collect();
        for ((_, written), bytes) in LAYOUTS.iter().zip(&page.bytes) {
            if let Written::By(layout) = *written {
                assert_eq!(found(settings(*written).encoding, WIDTH as u32, bytes, &rows), Some(layout));
            }
        }
        assert_eq!(found(Encoding::Group3OneD, WIDTH as u32, &[0; 99], &rows), None, "no one, no writer");
    }
}
