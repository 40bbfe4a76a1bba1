//! A stand-in for the library, for testing this package: it reads with a copy of the crate and writes
//! with the encoder. A fault can be put into what it hands back; each must be caught.

pub mod fault;
mod rows;
mod slipped;
mod tests;
mod units;

use crate::bits::Bits;
use crate::by_row::{self, Page, Store};
use crate::by_unit;
use crate::call::{Answer, Ask, BYTE_MARGIN, Call, Form, Layout, Replies, Room, Steps};
use crate::codes::LONGEST;
use crate::encoder::put_line_2d;
use crate::layouts;
use crate::ours::Ours;
use crate::settings::Settings;
use crate::truth::{LIMIT, Outcome, Wanted, ascends_below};
use fault::Fault;
use std::io;
use std::ops::Range;

/// Whether the caller's number is the first that is refused.
fn just_past(layout: Layout) -> bool {
    matches!(layout, Layout::OneD { fill: 65, .. } | Layout::TwoD { k: 65_536 })
}

pub struct Standin(pub Fault);

impl Ours for Standin {
    fn answer(&mut self, calls: &[Call]) -> io::Result<Replies> {
        let mut replies = Replies::default();
        for call in calls {
            replies.lend(call, |words, bytes| match call.room {
                Room::Rows { .. } => self.read(call, words, bytes),
                Room::Bytes(_) => self.write(call, bytes),
            });
        }
        Ok(replies)
    }
}

impl Standin {
    fn read(&self, call: &Call, words: &mut [u32], bytes: &mut [u8]) -> Answer {
        match call.steps {
            Steps::Whole => {}
            Steps::Rows(first, second) => return self.by_row(call, (first, second), words, bytes),
            Steps::Units(total) => return self.by_unit(call, total, words, bytes),
        }
        let wanted = match call.ask.form {
            Form::ReadLine => self.line(call.ask).line_within(self.room(call.room)),
            _ => self.page(call).page_within(self.room(call.room)),
        };
        let (changes, ends) = call.room.places();
        words[changes.clone()][..wanted.changes.len()].copy_from_slice(&wanted.changes);
        words[ends.clone()][..wanted.ends.len()].copy_from_slice(&wanted.ends);
        let end = bytes.len() - BYTE_MARGIN;
        let marks = &mut bytes[BYTE_MARGIN..end];
        // with the fault of a room that it takes for larger, it has more marks than it was lent places for
        let lent = wanted.marks.len().min(marks.len());
        marks[..lent].copy_from_slice(&wanted.marks[..lent]);
        self.spoil_words(call, &wanted, words, changes, ends);
        self.spoil_marks(&wanted, marks);
        self.spoil_answer(call, wanted.answer)
    }

    fn by_row(&self, call: &Call, lines: (usize, usize), words: &mut [u32], bytes: &mut [u8]) -> Answer {
        let (changes, ends) = call.room.places();
        let outcome = self.page(call);
        let (src, settings) = (call.ask.data(), &call.ask.settings);
        let page = Page { settings, exact: call.exact, plain: call.plain, src: &src, encoding: settings.encoding.number() };
        let mut wide: Vec<u64> = words[ends.clone()].iter().copied().map(u64::from).collect();
        let end = bytes.len() - BYTE_MARGIN;
        let store = Store::new(&mut words[changes], &mut wide, &mut bytes[BYTE_MARGIN..end]);
        let answer = by_row::read(&mut rows::Rows { fault: self.0, outcome: &outcome }, &page, lines, call.fill, store);
        words[ends].iter_mut().zip(wide).for_each(|(word, end)| *word = end as u32);
        answer
    }

    /// Where the units are not known, it takes as many as there are changes.
    fn by_unit(&self, call: &Call, total: Option<u64>, words: &mut [u32], bytes: &mut [u8]) -> Answer {
        let (changes, ends) = call.room.places();
        let outcome = self.page(call);
        let wanted = outcome.page_within(call.room);
        let (src, settings) = (call.ask.data(), &call.ask.settings);
        let page = by_unit::Page { settings, exact: call.exact, plain: call.plain, src: &src };
        let mut wide: Vec<u64> = words[ends.clone()].iter().copied().map(u64::from).collect();
        let end = bytes.len() - BYTE_MARGIN;
        let store = by_unit::Store { changes: &mut words[changes], ends: &mut wide, marks: &mut bytes[BYTE_MARGIN..end] };
        let units = if total.is_some() { outcome.units } else { wanted.changes.len() as u64 } + u64::from(self.0 == Fault::OneUnitMore);
        let answer = by_unit::read(&mut units::Units { fault: self.0, wanted: &wanted, units }, &page, total, call.fill, store);
        words[ends].iter_mut().zip(wide).for_each(|(word, end)| *word = end as u32);
        answer
    }

    /// The room that it takes itself to have.
    fn room(&self, room: Room) -> Room {
        match (self.0, room) {
            (Fault::FourEarly, Room::Rows { changes, ends, marks }) => Room::Rows { changes: changes.saturating_sub(1), ends, marks },
            (Fault::FiveEarly, Room::Rows { changes, ends, marks }) => Room::Rows { changes, ends: ends.saturating_sub(1), marks },
            (Fault::FiveForNoMark, Room::Rows { changes, ends, marks }) => {
                Room::Rows { changes, ends: ends.min(marks + 1), marks: ends.min(marks + 1) }
            }
            _ => room,
        }
    }

    fn page(&self, call: &Call) -> Outcome {
        let ask = call.ask;
        let bare = |number| Outcome::bare(number, 0);
        if ask.settings.columns == u32::MAX {
            return bare(if self.0 == Fault::NoSix { 0 } else { 6 });
        }
        if ask.src.len() + ask.tail > LIMIT + usize::from(self.0 == Fault::NoSeven) {
            return bare(7);
        }
        if ask.settings.columns == 0 {
            return bare(match self.0 {
                Fault::ZeroColumnsRefused => 6,
                Fault::ZeroColumnsShort if call.exact && ask.settings.rows > 0 => 14,
                _ => 0,
            });
        }
        let strict = ask.settings.strict || call.exact && self.0 != Fault::ExactIsLenient;
        let settings = Settings { strict, ..ask.settings };
        let outcome =
            if ask.lead == 0 && ask.tail == 0 { slipped::page(&settings, &ask.src) } else { slipped::page(&settings, &ask.data()) };
        if call.exact { self.exactly(&settings, outcome) } else { self.inexactly(&settings, outcome) }
    }

    fn exactly(&self, settings: &Settings, outcome: Outcome) -> Outcome {
        let (number, rows) = (outcome.number, outcome.ends.len() as u32);
        let exact = outcome.exactly(settings);
        match self.0 {
            Fault::ShortPasses if exact.number == 14 => Outcome { number, ..exact },
            Fault::WholeIsShort if exact.number == 0 && rows == settings.rows => Outcome { number: 14, bytes: 0, ..exact },
            _ => exact,
        }
    }

    fn inexactly(&self, settings: &Settings, outcome: Outcome) -> Outcome {
        if self.0 == Fault::ExactUnasked && settings.strict { outcome.exactly(settings) } else { outcome }
    }

    fn line(&self, ask: &Ask) -> Outcome {
        let s = ask.settings;
        if self.0 == Fault::NoEightForALine && s.columns == 8 && ask.tail == 0 && !ascends_below(&ask.first, 8) {
            return Outcome::bare(2, 0);
        }
        // the refusals are those of the truth; only the reading is the copy's own
        let truth = Outcome::of_line(s.columns, s.strict, &ask.src, ask.tail, ask.at, &ask.first);
        if truth.number > 5 || ask.at > 8 * ask.src.len() as u64 { truth } else { slipped::line(ask) }
    }

    fn spoil_words(&self, call: &Call, wanted: &Wanted, words: &mut [u32], changes: Range<usize>, ends: Range<usize>) {
        let (entries, loose, rows) = (wanted.answer.entries as usize, wanted.answer.loose as usize, wanted.answer.rows as usize);
        match self.0 {
            Fault::Change if entries > 3 => words[changes.start + 2] ^= 1,
            Fault::PlainChange if call.plain && entries > 3 => words[changes.start + 2] ^= 1,
            Fault::LooseChange if loose > 1 => words[changes.start + entries + 1] ^= 1,
            Fault::RowEnd if rows > 1 && !ends.is_empty() => words[ends.start + rows - 1] ^= 1,
            Fault::BehindChanges if wanted.changes.len() < changes.len() => words[changes.end - 1] = 0,
            Fault::BehindEnds if wanted.ends.len() < ends.len() => words[ends.end - 1] = 0,
            Fault::BesideArrays if wanted.answer.number == 5 => words[ends.end] = 0,
            _ => {}
        }
    }

    fn spoil_marks(&self, wanted: &Wanted, marks: &mut [u8]) {
        let kept = wanted.marks.len();
        match self.0 {
            Fault::Mark if wanted.marks.contains(&2) => marks[..kept].iter_mut().for_each(|mark| *mark = (*mark).min(1)),
            Fault::MarkLate if kept > 1 => marks[..kept].rotate_right(1),
            Fault::BehindMarks if kept < marks.len() => marks[kept] = 0,
            _ => {}
        }
    }

    fn spoil_answer(&self, call: &Call, mut answer: Answer) -> Answer {
        let ask = call.ask;
        match self.0 {
            Fault::Number if answer.number == 3 => answer.number = 1,
            Fault::Rows if answer.rows > 5 => answer.rows -= 1,
            Fault::Entries if answer.loose > 2 => answer.entries += 1,
            Fault::Loose if answer.loose > 2 => answer.loose -= 1,
            Fault::Bytes if answer.bytes > 9 => answer.bytes -= 1,
            Fault::BytesOfAFailure if answer.number == 4 => answer.bytes = 1,
            Fault::BytesOfAShortPage if answer.number == 14 => answer.bytes = ask.src.len() as u64,
            Fault::PlainPlace if call.plain && answer.number == 1 => answer.place += 1,
            Fault::PlainNumber if call.plain && answer.number == 2 => answer.number = 1,
            Fault::PlaceOfFour if answer.number == 4 => answer.place = 1,
            Fault::PlaceBehind if answer.number == 2 => answer.place += 1,
            Fault::MarkOfALine if ask.form == Form::ReadLine => answer.mark = 0,
            Fault::FiveForFour if answer.number == 4 => answer.number = 5,
            Fault::LineEndsOnAByte if ask.form == Form::ReadLine => answer.bytes = answer.bytes.div_ceil(8) * 8,
            _ => {}
        }
        answer
    }

    fn write(&self, call: &Call, bytes: &mut [u8]) -> Answer {
        let ask = call.ask;
        let out = &mut bytes[BYTE_MARGIN..];
        let Room::Bytes(length) = call.room else { unreachable!("a writer is lent bytes") };
        let refusal = self.refusal(ask, length);
        let fits = |at: u64, bits: &Bits| at <= 8 * length as u64 && at as usize + bits.len() <= 8 * length;
        let bits = if refusal == 0 { self.bits(ask) } else { Bits::default() };
        if refusal != 0 || !fits(ask.at, &bits) || self.0 == Fault::NineEarly && ask.at as usize + bits.len() == 8 * length {
            if self.0 == Fault::NineWrites && refusal == 0 && length > 0 {
                out[0] = 0;
            }
            return Answer::bare(if refusal == 0 { 9 } else { refusal });
        }
        let end = ask.at as usize + bits.len();
        let padded = if self.0 == Fault::UnusedBitsStay { end } else { end.div_ceil(8) * 8 };
        bits.put_into(out, ask.at as usize, padded);
        match self.0 {
            Fault::WrittenBit if end > 40 => out[4] ^= 1,
            Fault::WrittenBehind if end.div_ceil(8) < length => out[length - 1] ^= 1,
            _ => {}
        }
        let place = if ask.form == Form::WriteLine { end } else { end / 8 };
        Answer { bytes: place as u64, ..Answer::default() }
    }

    fn refusal(&self, ask: &Ask, length: usize) -> u32 {
        let columns = ask.settings.columns;
        let past = ask.at > 8 * (length + ask.tail) as u64;
        if columns == 0 || columns == u32::MAX {
            6
        } else if length + ask.tail > LIMIT {
            7
        } else if self.0 == Fault::NineBeforeEight && past {
            9
        } else if let Form::WriteGroup3(layout) = ask.form
            && let refusal @ 1.. = self.group3_refusal(ask, layout)
        {
            refusal
        } else if ask.form == Form::WriteLine {
            if ascends_below(&ask.first, columns) && ascends_below(&ask.second, columns) { 0 } else { 8 }
        } else if self.rows(ask).is_some_and(|rows| rows.iter().all(|row| ascends_below(row, columns))) {
            0
        } else {
            8
        }
    }

    /// What a Group 3 writer tests besides: the caller's number before the rows, and that there are rows.
    fn group3_refusal(&self, ask: &Ask, layout: Layout) -> u32 {
        let rows = !ask.second.is_empty() || self.0 == Fault::NoRowsWritten;
        match (layouts::allowed(layout) || self.0 == Fault::OneTooMany && just_past(layout), rows) {
            (false, false) if self.0 == Fault::EightBeforeTen => 8,
            (false, _) => 10,
            (true, false) => 8,
            (true, true) => 0,
        }
    }

    /// A Group 3 page, with a fault in what stands between its lines, in their kinds or in their references.
    fn group3_page(&self, layout: Layout, columns: u32, rows: &[Vec<u32>]) -> Bits {
        let layout = match layout {
            Layout::TwoD { k } if self.0 == Fault::KLines => Layout::TwoD { k: k + 1 },
            _ => layout,
        };
        let mut bits = Bits::default();
        for (index, row) in rows.iter().enumerate() {
            if index > 0 || self.0 != Fault::FirstEolMissing {
                layouts::put_ahead(&mut bits, layout, layouts::is_1d(layout, index) != (self.0 == Fault::TagsExchanged));
            }
            let reference = layouts::reference(layout, rows, index).map(|above| match (self.0, index) {
                (Fault::RowBeforeLast, 2..) => rows[index - 2].as_slice(),
                _ => above,
            });
            layouts::put_line(&mut bits, columns, reference, row);
        }
        match (self.0, layout) {
            (Fault::FiveEols, _) => layouts::put_end(&mut bits, layout, 5),
            (Fault::FillBeforeEach, _) => (0..6).for_each(|_| layouts::put_ahead(&mut bits, layout, true)),
            (Fault::RtcWithoutOnes, Layout::TwoD { .. }) => layouts::put_end(&mut bits, Layout::OneD { eols: true, fill: 0 }, 6),
            _ => layouts::put_end(&mut bits, layout, 6),
        }
        bits.align();
        bits
    }

    /// The rows of a page to be written, unless its row ends fall or pass the array.
    fn rows(&self, ask: &Ask) -> Option<Vec<Vec<u32>>> {
        let mut start = 0;
        let mut rows = Vec::new();
        for &end in &ask.second {
            let end = end as usize;
            if self.0 == Fault::FallingEnds && end < start {
                continue;
            }
            rows.push(ask.first.get(start..end)?.to_vec());
            start = end;
        }
        Some(rows)
    }

    fn bits(&self, ask: &Ask) -> Bits {
        let columns = ask.settings.columns;
        let rows = || self.rows(ask).expect("it was not refused");
        match ask.form {
            Form::WritePage => return layouts::encoded(None, columns, &rows()),
            Form::WriteGroup3(layout) => return self.group3_page(layout, columns, &rows()),
            _ => {}
        }
        let mut bits = Bits::default();
        put_line_2d(&mut bits, columns, &ask.first, &ask.second, LONGEST);
        bits
    }
}
