//! A stand-in for the package, for testing its comparison: it gives what the crate gave, with a fault in it; each must be caught.

use super::{Package, Way};
use crate::bits::Bits;
use crate::call::{Answer, Ask, Layout, Room};
use crate::codes::LONGEST;
use crate::encoder::put_line_2d;
use crate::faults::faults;
use crate::layouts::{allowed, encoded};
use crate::settings::Settings;
use crate::truth::{Outcome, Wanted, ascends_below};

faults! {
    FirstRowLost, LastRowTwice, RowsOfAnErrorLost, HeldAlone, SecondUse, UnfinishedRowPushed, Bytes, Error,
    LimitIsDone, Mark, Place, UnfinishedLost, PlainPlace, LentRow, UnitMissed, GrownRowLost, ExactUnasked,
    ShortIsDone, EndOfALine, LineCut, WrittenBehind, WrittenBit, NotARowTaken, LayoutTaken, NoRowsTaken, FillLost,
    EolsUnasked, NextOneD,
}

struct Standin(Fault);

impl Package for Standin {
    fn page(&mut self, way: Way, settings: &Settings, src: &[u8]) -> Wanted {
        match way {
            Way::Callback { room, again } => {
                let wanted = super::as_published(settings, &whole(&self.outcome(settings, false, src)));
                self.spoil_pushed(settings, src, room, again, wanted)
            }
            Way::Marked { exact, plain } => {
                self.spoil_marked(plain, false, super::without_loose(whole(&self.outcome(settings, exact, src))))
            }
            Way::Rows { exact, plain, lent } => self.spoil_marked(plain, lent, whole(&self.outcome(settings, exact, src))),
            Way::Units { exact, plain, most, room, total } => {
                let outcome = self.outcome(settings, exact, src);
                let units = outcome.units - u64::from(self.0 == Fault::UnitMissed && most.get() == 1 && outcome.units > 1);
                if total.is_some_and(|total| total != units) {
                    return Wanted::untouched(Answer::bare(u32::MAX));
                }
                let mut wanted = whole(&outcome);
                if self.0 == Fault::GrownRowLost && room.is_some_and(|room| room.1 < wanted.ends.len()) {
                    keep(&mut wanted, |rows| rows.remove(0));
                }
                self.spoil_marked(plain, false, wanted)
            }
        }
    }

    fn line(&mut self, ask: &Ask, src: &[u8]) -> Wanted {
        let s = ask.settings;
        let outcome = Outcome::of_line(s.columns, s.strict, src, 0, ask.at, &ask.first);
        let mut wanted = super::without_loose(outcome.line_within(enough(&outcome)));
        match self.0 {
            Fault::EndOfALine if wanted.answer.number == 0 => wanted.answer.bytes -= 1,
            Fault::LineCut if wanted.answer.mark == 1 => wanted.answer.mark = 0,
            _ => {}
        }
        wanted
    }

    fn write_line(&mut self, ask: &Ask, mut out: Vec<u8>) -> Wanted {
        let columns = ask.settings.columns;
        let rows = ascends_below(&ask.first, columns) && (ascends_below(&ask.second, columns) || self.0 == Fault::NotARowTaken);
        if columns == 0 || columns == u32::MAX || !rows {
            let number = if rows || columns == 0 || columns == u32::MAX { 6 } else { 8 };
            return Wanted { out: Some(out), ..Wanted::untouched(Answer::bare(number)) };
        }
        let mut bits = Bits::default();
        put_line_2d(&mut bits, columns, &ask.first, &ask.second, LONGEST);
        let (at, end) = (ask.at as usize, ask.at as usize + bits.len());
        out.resize(out.len().max(end.div_ceil(8)) + usize::from(self.0 == Fault::WrittenBehind), 0);
        bits.put_into(&mut out, at, end.div_ceil(8) * 8);
        Wanted { out: Some(out), ..Wanted::untouched(Answer { bytes: end as u64, ..Answer::default() }) }
    }

    fn write_page(&mut self, layout: Option<Layout>, columns: u32, rows: &[&[u32]]) -> Wanted {
        if columns == 0 || columns == u32::MAX {
            return Wanted::untouched(Answer::bare(6));
        }
        if layout.is_some_and(|layout| !allowed(layout) && self.0 != Fault::LayoutTaken) {
            return Wanted::untouched(Answer::bare(10));
        }
        if layout.is_some() && rows.is_empty() && self.0 != Fault::NoRowsTaken {
            return Wanted::untouched(Answer::bare(8));
        }
        if !rows.iter().all(|row| ascends_below(row, columns)) {
            return Wanted::untouched(Answer::bare(8));
        }
        let rows: Vec<Vec<u32>> = rows.iter().map(|row| row.to_vec()).collect();
        let mut page = encoded(layout.map(|layout| self.spoil_layout(layout)), columns, &rows).into_bytes();
        if self.0 == Fault::WrittenBit && rows.len() > 3 {
            page[1] ^= 1;
        }
        let answer = Answer { bytes: page.len() as u64, ..Answer::default() };
        Wanted { out: Some(page), ..Wanted::untouched(answer) }
    }
}

/// Room enough.
fn enough(outcome: &Outcome) -> Room {
    Room::Rows { changes: outcome.changes.len(), ends: outcome.ends.len(), marks: outcome.ends.len() }
}

fn whole(outcome: &Outcome) -> Wanted {
    outcome.page_within(enough(outcome))
}

impl Standin {
    fn outcome(&self, settings: &Settings, exact: bool, src: &[u8]) -> Outcome {
        let exact = exact || self.0 == Fault::ExactUnasked && settings.strict;
        let outcome = if exact { Outcome::of_exact_page } else { Outcome::of_page }(settings, src, 0);
        if self.0 == Fault::ShortIsDone && outcome.number == 14 { Outcome { number: 0, ..outcome } } else { outcome }
    }

    /// In what the crate's interface shows.
    fn spoil_pushed(&self, settings: &Settings, src: &[u8], room: Option<(usize, usize)>, again: bool, mut wanted: Wanted) -> Wanted {
        let rows = wanted.ends.len();
        match self.0 {
            Fault::FirstRowLost if rows > 1 => keep(&mut wanted, |rows| rows.remove(0)),
            Fault::SecondUse if again && rows > 1 => keep(&mut wanted, |rows| rows.remove(0)),
            Fault::LastRowTwice if rows > 1 => keep(&mut wanted, |rows| rows.push(rows[rows.len() - 1].clone())),
            Fault::RowsOfAnErrorLost if wanted.answer.number != 0 => keep(&mut wanted, Vec::clear),
            Fault::HeldAlone if room.is_some_and(|(_, held)| held < rows) => {
                keep(&mut wanted, |rows| rows.truncate(room.map_or(0, |room| room.1)))
            }
            Fault::UnfinishedRowPushed => {
                let outcome = Outcome::of_page(settings, src, 0);
                let loose = outcome.changes[wanted.changes.len()..].to_vec();
                if !loose.is_empty() {
                    keep(&mut wanted, |rows| rows.push(loose.clone()));
                }
            }
            Fault::Bytes if wanted.answer.bytes > 2 => wanted.answer.bytes -= 1,
            Fault::Error if wanted.answer.number == 2 => wanted.answer.number = 1,
            Fault::LimitIsDone if settings.columns == u32::MAX => wanted.answer.number = 0,
            _ => {}
        }
        wanted
    }

    /// In what is handed to a writer. A layout that is not allowed is cut to one that is.
    fn spoil_layout(&self, layout: Layout) -> Layout {
        match layout {
            Layout::OneD { eols, .. } if self.0 == Fault::FillLost => Layout::OneD { eols, fill: 0 },
            Layout::OneD { fill, .. } if self.0 == Fault::EolsUnasked => Layout::OneD { eols: true, fill },
            Layout::OneD { eols, fill } => Layout::OneD { eols, fill: fill.min(64) },
            Layout::TwoD { k } if self.0 == Fault::NextOneD => Layout::TwoD { k: k.clamp(1, 65_534) + 1 },
            Layout::TwoD { k } => Layout::TwoD { k: k.clamp(1, 65_535) },
        }
    }

    fn spoil_marked(&self, plain: bool, lent: bool, mut wanted: Wanted) -> Wanted {
        match self.0 {
            Fault::Mark => wanted.marks.iter_mut().for_each(|mark| *mark = (*mark).min(1)),
            Fault::Place if wanted.answer.number == 1 => wanted.answer.place += 1,
            Fault::PlainPlace if plain && wanted.answer.number == 2 => wanted.answer.place += 1,
            Fault::LentRow if lent && wanted.answer.entries > 1 => wanted.changes[1] ^= 1,
            Fault::UnfinishedLost => wanted = super::without_loose(wanted),
            _ => {}
        }
        wanted
    }
}

/// Changes the rows.
fn keep<T>(wanted: &mut Wanted, change: impl FnOnce(&mut Vec<Vec<u32>>) -> T) {
    let starts = std::iter::once(0).chain(wanted.ends.iter().copied());
    let mut rows: Vec<Vec<u32>> =
        starts.zip(&wanted.ends).map(|(start, &end)| wanted.changes[start as usize..end as usize].to_vec()).collect();
    change(&mut rows);
    (wanted.changes, wanted.ends) = crate::rows::flattened(&rows);
    (wanted.answer.rows, wanted.answer.entries) = (wanted.ends.len() as u64, wanted.changes.len() as u64);
}

mod tests {
    use super::{FAULTS, Fault, Standin};
    use crate::case::{Case, Source};
    use crate::checks::random_pages::{Kind, RandomPages};
    use crate::checks::{group3_writers, limits, lines::Lines, sheets::Sheets, writers};
    use crate::random::Random;
    use crate::tally::Tally;

    fn differing(fault: Fault, count: u64) -> u64 {
        let random = |kind| Box::new(RandomPages { kind, count }) as Box<dyn Source>;
        let sources: Vec<Box<dyn Source>> = vec![
            Box::new(Sheets),
            Box::new(limits::LineLimits),
            random(Kind::Words),
            random(Kind::Encoded),
            random(Kind::Damaged),
            Box::new(Lines { count }),
            Box::new(writers::WriterLimits),
            Box::new(writers::WrittenLines { count }),
            Box::new(writers::WrittenPages { count }),
            Box::new(group3_writers::Limits),
            Box::new(group3_writers::Written { count }),
            Box::new(limits::PageLimits),
        ];
        let mut tally = Tally::default();
        for source in &sources {
            let cases: Vec<Case> = (0..source.count()).map(|index| source.case(index, &mut Random::of(7, &source.name(), index))).collect();
            crate::package::compare(&mut Standin(fault), source.as_ref(), 7, 0, &cases, &mut tally);
        }
        if let Some((_, text)) = &tally.smallest {
            println!("{fault:?}:\n{text}");
        }
        assert!(tally.by_package > 2 * count, "the package is asked");
        tally.differing
    }

    #[test]
    fn what_the_crate_gives_passes() {
        assert_eq!(differing(Fault::None, 3000), 0);
    }

    #[test]
    fn every_fault_is_caught() {
        for &fault in FAULTS {
            assert!(differing(fault, 300) > 0, "{fault:?} is not caught");
        }
    }
}
