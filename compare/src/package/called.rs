//! The package itself.

use super::{Package, Way};
use crate::call::{Answer, Ask, Layout};
use crate::copies::settings_of;
use crate::settings::Settings;
use crate::truth::Wanted;
use drop_in::beyond::{self, Fault, Mark, Row};
use drop_in::{DecodeError, DecodeSettings, Decoder, DecoderContext};
use std::num::NonZeroU64;

pub struct Called;

/// The rows that were handed over.
#[derive(Default, PartialEq, Eq)]
struct Sink {
    changes: Vec<u32>,
    ends: Vec<u32>,
    marks: Vec<u8>,
}

impl Sink {
    fn marked(&mut self, row: Row) {
        self.push_row(row.changes);
        self.marks.push(match row.mark {
            Mark::Clean => 0,
            Mark::Cut => 1,
            Mark::Recovered => 2,
        });
    }

    /// With how it ended: number, place and bytes.
    fn ended(self, (number, place, bytes): (u32, u64, u64)) -> Wanted {
        let (rows, entries) = (self.ends.len() as u64, self.changes.len() as u64);
        let answer = Answer { rows, entries, bytes, place, ..Answer::bare(number) };
        Wanted { changes: self.changes, ends: self.ends, marks: self.marks, ..Wanted::untouched(answer) }
    }
}

impl Decoder for Sink {
    fn push_row(&mut self, changes: &[u32]) {
        self.changes.extend_from_slice(changes);
        self.ends.push(self.changes.len() as u32);
    }
}

impl Package for Called {
    fn page(&mut self, way: Way, s: &Settings, src: &[u8]) -> Wanted {
        let s = settings_of!(drop_in, s);
        match way {
            Way::Callback { room, again } => by_callback(s, src, room, again),
            Way::Marked { exact, plain } => {
                let mut sink = Sink::default();
                let end = beyond::read_page(src, beyond::Settings { settings: s, exact, plain }, |row| sink.marked(row));
                sink.ended(told(end.map(|bytes| bytes as u64)))
            }
            Way::Rows { exact, plain, lent } => by_row(src, beyond::Settings { settings: s, exact, plain }, lent),
            Way::Units { exact, plain, most, room, total } => {
                let settings = beyond::Settings { settings: s, exact, plain };
                let page = match room {
                    Some((changes, rows)) => beyond::Units::with_room(src, settings, changes, rows),
                    None => beyond::Units::new(src, settings),
                };
                by_unit(page, most, total)
            }
        }
    }

    fn line(&mut self, ask: &Ask, src: &[u8]) -> Wanted {
        match beyond::read_line(src, ask.at, ask.settings.columns, ask.settings.strict, &ask.first) {
            Ok(line) => {
                let mut sink = Sink::default();
                sink.marked(Row { changes: &line.changes, mark: line.mark });
                let mark = sink.marks.pop().map_or(0, u32::from);
                let mut wanted = sink.ended((0, 0, line.end));
                wanted.answer.mark = mark;
                wanted.ends.clear();
                wanted
            }
            Err(fault) => Sink::default().ended(told(Err(fault))),
        }
    }

    fn write_line(&mut self, ask: &Ask, mut out: Vec<u8>) -> Wanted {
        let end = beyond::write_line(ask.settings.columns, &ask.first, &ask.second, &mut out, ask.at);
        Wanted { out: Some(out), ..Sink::default().ended(told(end)) }
    }

    fn write_page(&mut self, layout: Option<Layout>, columns: u32, rows: &[&[u32]]) -> Wanted {
        let page = match layout {
            None => beyond::write_page(columns, rows),
            Some(Layout::OneD { eols, fill }) => beyond::write_group3_1d(columns, rows, eols, fill),
            Some(Layout::TwoD { k }) => beyond::write_group3_2d(columns, rows, k),
        };
        let end = told(page.as_ref().map(|page| page.len() as u64).map_err(|&fault| fault));
        Wanted { out: page.ok(), ..Sink::default().ended(end) }
    }
}

fn by_callback(s: DecodeSettings, src: &[u8], room: Option<(usize, usize)>, again: bool) -> Wanted {
    let mut context = match room {
        Some((changes, rows)) => DecoderContext::with_room(s, changes, rows),
        None => DecoderContext::new(s),
    };
    let mut sink = Sink::default();
    let end = drop_in::decode(src, &mut sink, &mut context);
    if again {
        let mut second = Sink::default();
        if drop_in::decode(src, &mut second, &mut context) != end || second != sink {
            return Wanted::untouched(Answer::bare(ODD));
        }
    }
    sink.ended(end.map_or_else(|error| (number(error), 0, 0), |bytes| (0, 0, bytes as u64)))
}

fn by_row(src: &[u8], settings: beyond::Settings, lent: bool) -> Wanted {
    let (mut rows, mut sink) = (beyond::Rows::new(src, settings), Sink::default());
    let end = if lent {
        loop {
            match rows.next_row() {
                Ok(Some(row)) => sink.marked(row),
                Ok(None) => break Ok(()),
                Err(fault) => break Err(fault),
            }
        }
    } else {
        rows.by_ref().try_for_each(|row| row.map(|row| sink.marked(Row { changes: &row.changes, mark: row.mark })))
    };
    let bytes = rows.bytes();
    if bytes.is_some() != end.is_ok() || rows.next().is_some_and(|_| !lent || end.is_ok()) {
        return Wanted::untouched(Answer::bare(ODD));
    }
    let mut wanted = sink.ended(told(end.map(|()| bytes.map_or(0, |bytes| bytes as u64))));
    wanted.answer.loose = rows.unfinished().len() as u64;
    wanted.changes.extend_from_slice(rows.unfinished());
    wanted
}

/// Each call takes as many units as it is to take, unless the page ends, and after the end none.
fn by_unit(mut page: beyond::Units, most: NonZeroU64, total: Option<u64>) -> Wanted {
    let mut units = 0;
    let last = loop {
        let turn = page.read(most);
        units += turn.units;
        if !turn.more || turn.units != most.get() {
            break turn;
        }
    };
    let after = page.read(most);
    let (Some(end), false) = (page.end(), last.more || after.more || after.units > 0 || total.is_some_and(|total| total != units)) else {
        return Wanted::untouched(Answer::bare(ODD));
    };
    let mut sink = Sink::default();
    page.rows().for_each(|row| sink.marked(row));
    let mut wanted = sink.ended(told(end.map(|bytes| bytes as u64)));
    wanted.answer.loose = page.unfinished().len() as u64;
    wanted.changes.extend_from_slice(page.unfinished());
    wanted
}

/// On no list.
const ODD: u32 = u32::MAX;

/// The number of an error, whose name and message are the crate's.
fn number(error: DecodeError) -> u32 {
    let (number, theirs) = match error {
        DecodeError::InvalidCode => (1, hayro_ccitt::DecodeError::InvalidCode),
        DecodeError::UnexpectedEof => (2, hayro_ccitt::DecodeError::UnexpectedEof),
        DecodeError::Overflow => (3, hayro_ccitt::DecodeError::Overflow),
    };
    let same = format!("{error:?}: {error}") == format!("{theirs:?}: {theirs}");
    if same { number } else { ODD }
}

/// Number, place and bytes.
pub fn told(end: Result<u64, Fault>) -> (u32, u64, u64) {
    match end {
        Ok(bytes) => (0, 0, bytes),
        Err(Fault::Code { error, bit }) => (number(error), bit, 0),
        Err(Fault::Columns) => (6, 0, 0),
        Err(Fault::TooLong) => (7, 0, 0),
        Err(Fault::NotARow | Fault::NoRows) => (8, 0, 0),
        Err(Fault::Start) => (9, 0, 0),
        Err(Fault::Layout) => (10, 0, 0),
        Err(Fault::Form) => (11, 0, 0),
        Err(Fault::Ticks) => (12, 0, 0),
        Err(Fault::Mended) => (13, 0, 0),
        Err(Fault::TooFewRows) => (14, 0, 0),
        Err(_) => (ODD, 0, 0),
    }
}
