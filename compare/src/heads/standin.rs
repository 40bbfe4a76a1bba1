//! A stand-in for the library's heads, for testing this check: it goes by runs, and a fault can be put into it; each must be caught.

use super::ask::{Ask, HeadsAnswer};
use super::plain::{Edges, rows_of};
use super::{Reader, run};
use crate::faults::faults;

faults! {
    StartsBlack, RightIncluded, BottomIncluded, BlackOutside, NotCutLeft, AboveTheMark, DigitsSwapped,
    UnitsBoxFirst, FirstTickTaken, CutIsClean, EmptyBoxTouches, BoxOutsideTouches, TwelveBeforeThirteen,
    ThirteenBeforeEleven, ElevenBeforeEight, AnyRow, AnyMark, EqualEdgesRefused, OnlyFirstPair, MarkOfZero,
    QuotaShort, QuotaFar, NothingBelowZero, EightyOne, LeftAfterARefusal,
}

struct Standin(Fault);

impl Reader for Standin {
    fn heads(&self, asks: &[Ask]) -> Vec<Option<HeadsAnswer>> {
        asks.iter().map(|ask| Some(self.answer(ask))).collect()
    }
}

impl Standin {
    fn answer(&self, ask: &Ask) -> HeadsAnswer {
        let Some(rows) = self.rows(ask) else {
            let number = if self.is(Fault::ElevenBeforeEight) && !self.given(ask) { 11 } else { 8 };
            return self.refusal(number, ask);
        };
        let read = |ask| self.read(ask, &rows);
        let short = ask.boxes.len() < 80;
        if self.is(Fault::ThirteenBeforeEleven) && !short && !self.clean(ask, rows.len()) {
            return self.refusal(13, ask);
        }
        if !self.given(ask) {
            return self.refusal(11, ask);
        }
        if self.is(Fault::TwelveBeforeThirteen) && read(ask).number == 12 {
            return self.refusal(12, ask);
        }
        if !self.clean(ask, rows.len()) {
            return self.refusal(13, ask);
        }
        read(ask)
    }

    fn is(&self, fault: Fault) -> bool {
        self.0 == fault
    }

    fn refusal(&self, number: u32, ask: &Ask) -> HeadsAnswer {
        HeadsAnswer { number, heads: 0, left: if self.is(Fault::LeftAfterARefusal) { ask.quota } else { 0 } }
    }

    fn rows<'a>(&self, ask: &'a Ask) -> Option<Vec<&'a [u32]>> {
        if !self.is(Fault::AnyRow) && !self.is(Fault::AnyMark) {
            return rows_of(ask);
        }
        let mut start = 0;
        let mut rows = Vec::new();
        for (y, &end) in ask.ends.iter().enumerate() {
            let row = ask.changes.get(start..usize::try_from(end).ok()?)?;
            let ascends = crate::truth::ascends_below(row, ask.columns) || self.is(Fault::AnyRow);
            if !ascends || *ask.marks.get(y)? > 2 && !self.is(Fault::AnyMark) {
                return None;
            }
            rows.push(row);
            start = end as usize;
        }
        Some(rows)
    }

    fn given(&self, ask: &Ask) -> bool {
        let limit = match self.0 {
            Fault::QuotaShort => 999_999,
            Fault::QuotaFar => 1_000_001,
            _ => 1_000_000,
        };
        let pairs = |four: &[u32]| match self.0 {
            Fault::EqualEdgesRefused => four[0] < four[1] && four[2] < four[3],
            Fault::OnlyFirstPair => four[0] <= four[1],
            _ => four[0] <= four[1] && four[2] <= four[3],
        };
        let eighty = ask.boxes.len() == 80 || self.is(Fault::EightyOne) && ask.boxes.len() > 80;
        let some = ask.least > 0 || self.is(Fault::MarkOfZero);
        eighty && ask.boxes.chunks_exact(4).take(20).all(pairs) && some && (-limit..=limit).contains(&ask.quota)
    }

    fn clean(&self, ask: &Ask, rows: usize) -> bool {
        let mended = |y: u32| ask.marks[y as usize] > u8::from(self.is(Fault::CutIsClean));
        let touches = |four: &[u32]| match self.0 {
            Fault::EmptyBoxTouches => four[0] < ask.columns,
            Fault::BoxOutsideTouches => four[0] < four[1],
            _ => four[0] < four[1] && four[0] < ask.columns,
        };
        ask.boxes.chunks_exact(4).take(20).all(|four| !touches(four) || (four[2]..four[3].min(rows as u32)).all(|y| !mended(y)))
    }

    fn read(&self, ask: &Ask, rows: &[&[u32]]) -> HeadsAnswer {
        let digit = |column: usize| {
            let at = |digit: usize| 8 * digit + 4 * if self.is(Fault::UnitsBoxFirst) { 1 - column } else { column };
            let count = |digit: usize| self.count(ask.columns, rows, &Edges::of(&ask.boxes[at(digit)..]));
            let ticked: Vec<usize> =
                (0..10).filter(|&d| if self.is(Fault::AboveTheMark) { count(d) > ask.least } else { count(d) >= ask.least }).collect();
            match ticked[..] {
                [digit] => Some(digit),
                [digit, ..] if self.is(Fault::FirstTickTaken) => Some(digit),
                _ => None,
            }
        };
        let (Some(tens), Some(units)) = (digit(0), digit(1)) else { return self.refusal(12, ask) };
        let heads = if self.is(Fault::DigitsSwapped) { 10 * units + tens } else { 10 * tens + units } as i32;
        let left = ask.quota.saturating_sub(heads);
        HeadsAnswer { number: 0, heads: heads as u32, left: if self.is(Fault::NothingBelowZero) { left.max(0) } else { left } }
    }

    fn count(&self, columns: u32, rows: &[&[u32]], b: &Edges) -> u64 {
        let bottom = u64::from(b.bottom) + u64::from(self.is(Fault::BottomIncluded));
        let right = u64::from(b.right) + u64::from(self.is(Fault::RightIncluded));
        let right = if self.is(Fault::BlackOutside) { right } else { right.min(u64::from(columns)) };
        (u64::from(b.top)..bottom.min(rows.len() as u64)).map(|y| self.count_row(rows[y as usize], u64::from(b.left), right)).sum()
    }

    /// Run by run, as a reader goes along a row.
    fn count_row(&self, row: &[u32], left: u64, right: u64) -> u64 {
        let mut black = self.is(Fault::StartsBlack);
        let (mut at, mut count) = (if self.is(Fault::NotCutLeft) { 0 } else { left }, 0);
        for turn in row.iter().map(|&change| u64::from(change)).chain([right]) {
            let turn = turn.clamp(at, right.max(at));
            count += if black { turn - at } else { 0 };
            (at, black) = (turn, !black);
        }
        count
    }
}

#[test]
fn the_plain_reader_passes() {
    let tally = run(&Standin(Fault::None), 7, 40_000);
    assert!(tally.passed(), "{}", tally.smallest.map_or(String::new(), |(_, text)| text));
}

#[test]
fn every_fault_in_heads_is_caught() {
    for &fault in FAULTS {
        assert!(!run(&Standin(fault), 7, 40_000).passed(), "{fault:?} is not caught");
    }
}
