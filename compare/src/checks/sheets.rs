//! The sheets of document 01 that can be read, and the inputs of docs/DIFFERENCES.md where the crate parts
//! from the standard: their answers stand here as the documents have them, so the crate is held to them too.

use crate::call::{Answer, Ask, Room};
use crate::case::{Case, Plan, Source};
use crate::random::Random;
use crate::rooms::line_room;
use crate::settings::{Encoding, Settings};
use crate::truth::{Outcome, Wanted};

/// Reference, row, bits, with the width first. Reading the bits strictly gives the row; writing the row
/// gives the bits.
pub const LINES: [(u32, &[u32], &[u32], &str); 6] = [
    (8, &[], &[3, 5], "0011000111"),
    (8, &[3, 5], &[3, 5], "111"),
    (8, &[3, 5], &[], "00011"),
    (8, &[0], &[], "001100110000110111"),
    (1, &[], &[0], "0101"),
    (1, &[0], &[], "011"),
];

/// A page and its answer.
struct Sheet {
    settings: Settings,
    exact: bool,
    src: &'static [u8],
    room: Room,
    answer: Answer,
    changes: &'static [u32],
    ends: &'static [u32],
    marks: &'static [u8],
}

const PLENTY: Room = Room::Rows { changes: 9, ends: 9, marks: 9 };

const fn settings(encoding: Encoding, columns: u32, rows: u32, strict: bool) -> Settings {
    Settings { encoding, columns, rows, end_of_block: false, end_of_line: false, aligned: false, strict }
}

const fn group4(columns: u32, rows: u32, strict: bool) -> Settings {
    settings(Encoding::Group4, columns, rows, strict)
}

const fn one_d(rows: u32, strict: bool) -> Settings {
    settings(Encoding::Group3OneD, 8, rows, strict)
}

const fn answer(number: u32, rows: u64, entries: u64, loose: u64, bytes: u64) -> Answer {
    Answer { number, mark: 0, rows, entries, loose, bytes, place: 0 }
}

/// A fault after so many white rows, and the bit at which its code began.
const fn fault(number: u32, rows: u64, place: u64) -> Answer {
    Answer { place, ..answer(number, rows, 0, 0, 0) }
}

/// The ends of white rows.
const ENDS: &[u32] = &[0; 9];

/// A sheet with room to spare and no black pixel.
const fn white(settings: Settings, src: &'static [u8], answer: Answer, marks: &'static [u8]) -> Sheet {
    let (ends, _) = ENDS.split_at(marks.len());
    Sheet { settings, exact: false, src, room: PLENTY, answer, changes: &[], ends, marks }
}

const fn black(room: Room, answer: Answer, ends: &'static [u32], changes: &'static [u32]) -> Sheet {
    let marks: &[u8] = if ends.is_empty() { &[] } else { &[0] };
    Sheet { settings: group4(8, 1, true), exact: false, src: &[0x31, 0xC0], room, answer, changes, ends, marks }
}

const fn with_eols(settings: Settings) -> Settings {
    Settings { end_of_line: true, ..settings }
}

const fn with_end(settings: Settings) -> Settings {
    Settings { end_of_block: true, ..settings }
}

#[rustfmt::skip]
const SHEETS: [Sheet; 22] = [
    white(with_end(group4(8, 0, true)), &[0x80, 0x08, 0x00, 0x80], answer(0, 1, 0, 0, 4), &[0]),
    white(with_end(group4(8, 0, true)), &[0x00, 0x10, 0x01], answer(0, 0, 0, 0, 3), &[]),
    white(group4(8, 0, true), &[0x80], fault(1, 1, 1), &[0]),
    white(group4(8, 1, true), &[0x80], answer(0, 1, 0, 0, 1), &[0]),
    white(group4(2, 0, true), &[0x04], fault(3, 0, 0), &[]),
    white(group4(2, 0, false), &[0x04], fault(3, 0, 0), &[]),
    white(group4(3, 0, true), &[0x04], fault(2, 0, 7), &[]),
    white(group4(3, 0, false), &[0x04], fault(2, 0, 7), &[]),
    white(group4(8, 1, true), &[0x60], fault(1, 0, 0), &[]),
    white(group4(8, 1, false), &[0x60], answer(0, 1, 0, 0, 1), &[1]),
    white(group4(8, 1, false), &[0x33, 0x40], answer(0, 1, 0, 0, 2), &[1]),
    black(Room::Rows { changes: 2, ends: 1, marks: 1 }, answer(0, 1, 2, 0, 2), &[2], &[3, 5]),
    black(Room::Rows { changes: 1, ends: 1, marks: 1 }, answer(4, 0, 0, 1, 0), &[], &[3]),
    black(Room::Rows { changes: 2, ends: 0, marks: 1 }, answer(5, 0, 0, 2, 0), &[], &[3, 5]),
    black(Room::Rows { changes: 2, ends: 1, marks: 0 }, answer(5, 0, 0, 2, 0), &[], &[3, 5]),
    white(one_d(1, true), &[0x98], answer(0, 1, 0, 0, 1), &[0]),
    white(one_d(0, true), &[0x98], fault(2, 1, 5), &[0]),
    white(with_eols(one_d(0, false)), &[], answer(0, 1, 0, 0, 0), &[2]),
    white(one_d(0, false), &[], fault(2, 0, 0), &[]),
    white(one_d(0, false), &[0x00, 0x01], answer(0, 1, 0, 0, 2), &[2]),
    white(one_d(0, true), &[0x00, 0x01], fault(2, 0, 16), &[]),
    Sheet {
        settings: one_d(2, false), exact: false, src: &[0x00, 0x17, 0x80, 0x06, 0x60], room: PLENTY,
        answer: answer(0, 2, 2, 0, 5), changes: &[2, 5], ends: &[2, 2], marks: &[2, 0],
    },
];

const fn two_d(rows: u32) -> Settings {
    settings(Encoding::Group3TwoD, 8, rows, true)
}

const fn aligned(settings: Settings) -> Settings {
    Settings { aligned: true, ..settings }
}

const fn wide(columns: u32) -> Settings {
    settings(Encoding::Group3OneD, columns, 1, true)
}

/// In the order of docs/DIFFERENCES.md.
#[rustfmt::skip]
const PARTINGS: [Sheet; 32] = [
    white(wide(128), &[0xDE, 0xCD, 0x40], answer(0, 1, 0, 0, 3), &[0]),
    white(wide(2624), &[0xD8, 0x0F, 0x9A, 0x80], answer(0, 1, 0, 0, 4), &[0]),
    white(one_d(1, true), &[0x00, 0xF0], fault(1, 0, 0), &[]),
    white(group4(8, 1, true), &[0x03, 0xC0], fault(1, 0, 0), &[]),
    white(one_d(1, true), &[0x80, 0xDF, 0x00], answer(0, 1, 0, 0, 3), &[0]),
    white(group4(8, 1, true), &[0x26, 0xA1, 0xBC], answer(0, 1, 0, 0, 3), &[0]),
    Sheet {
        settings: group4(8, 1, true), exact: false, src: &[0x36, 0x81, 0x40], room: PLENTY,
        answer: answer(0, 1, 1, 0, 3), changes: &[4], ends: &[1], marks: &[0],
    },
    white(group4(8, 1, true), &[0x10], answer(0, 1, 0, 0, 1), &[0]),
    white(group4(8, 1, true), &[0x33, 0x0D, 0xC0], answer(0, 1, 0, 0, 3), &[0]),
    Sheet {
        settings: group4(8, 2, true), exact: false, src: &[0x2E, 0xA0, 0xE0], room: PLENTY,
        answer: answer(0, 2, 3, 0, 3), changes: &[2, 3, 5], ends: &[2, 3], marks: &[0, 0],
    },
    white(group4(8, 1, true), &[0x00, 0x18], answer(0, 1, 0, 0, 2), &[0]),
    white(with_end(group4(8, 0, true)), &[0xFF], answer(0, 8, 0, 0, 1), &[0; 8]),
    white(with_end(group4(8, 2, true)), &[0x80, 0x08, 0x00, 0x80], answer(0, 1, 0, 0, 4), &[0]),
    white(group4(8, 0, true), &[0x80, 0x08, 0x00, 0x80], fault(1, 1, 25), &[0]),
    white(aligned(group4(8, 2, true)), &[0x80, 0x80], answer(0, 2, 0, 0, 2), &[0; 2]),
    white(with_end(group4(8, 0, true)), &[0x80, 0x08, 0x00, 0x80, 0xFF], answer(0, 1, 0, 0, 4), &[0]),
    white(group4(8, 1, true), &[0xFF], answer(0, 1, 0, 0, 1), &[0]),
    white(with_end(group4(8, 0, true)), &[0x80, 0x01, 0x00, 0x10], answer(0, 1, 0, 0, 4), &[0]),
    white(with_end(group4(8, 0, true)), &[0x80, 0x08, 0x00, 0x10], answer(0, 1, 0, 0, 4), &[0]),
    white(one_d(1, true), &[0x98], answer(0, 1, 0, 0, 1), &[0]),
    white(one_d(3, true), &[0x98, 0x00, 0xCE, 0x60], answer(0, 3, 0, 0, 4), &[0; 3]),
    white(with_end(one_d(2, true)), &[0x00, 0x19, 0x80, 0x08, 0x00, 0xCC], answer(0, 2, 0, 0, 6), &[0; 2]),
    white(with_end(one_d(0, true)), &[0x00, 0x19, 0x80, 0x01], answer(0, 1, 0, 0, 4), &[0]),
    white(with_end(one_d(0, true)), &[0x00, 0x19, 0x80, 0x08, 0x00, 0x80, 0x08, 0x00, 0x80, 0x08, 0x00, 0x80, 0x08], answer(0, 1, 0, 0, 13), &[0]),
    white(with_end(one_d(0, true)), &[0x00, 0x19, 0x80, 0x08, 0x00, 0x80, 0x08, 0x00, 0x80, 0x08, 0x00, 0x80, 0xFF], answer(0, 1, 0, 0, 12), &[0]),
    white(with_end(one_d(0, true)), &[0x00, 0x10, 0x01, 0x00, 0x10, 0x01, 0x00, 0x10, 0x01], fault(2, 0, 72), &[]),
    white(one_d(2, true), &[0x00, 0x19, 0x80, 0x08, 0x00, 0x80, 0x08, 0x00, 0x80, 0x08, 0x00, 0xCC], answer(0, 2, 0, 0, 12), &[0; 2]),
    white(aligned(one_d(2, true)), &[0x98, 0x98], answer(0, 2, 0, 0, 2), &[0; 2]),
    white(one_d(1, true), &[0x00, 0x00, 0x00, 0x00, 0x01, 0x98], answer(0, 1, 0, 0, 6), &[0]),
    white(two_d(0), &[0x55], answer(0, 4, 0, 0, 1), &[0; 4]),
    white(with_end(two_d(0)), &[0x00, 0x1C, 0xC0, 0x04, 0x00, 0x40, 0x04, 0x00, 0x40, 0x04, 0x00, 0x40], answer(0, 1, 0, 0, 12), &[0]),
    white(with_end(two_d(0)), TAGGED_RTC, fault(1, 0, 13), &[]),
];

/// Six times EOL and a one.
const TAGGED_RTC: &[u8] = &[0x00, 0x18, 0x00, 0xC0, 0x06, 0x00, 0x30, 0x01, 0x80, 0x0C];

const fn lenient(settings: Settings) -> Settings {
    Settings { strict: false, ..settings }
}

/// What lenient reading does that the standard has not: too many pixels; a line that fails; bits before an EOL; a line that is read again
/// under another row; and an RTC alone.
#[rustfmt::skip]
const LENIENT: [Sheet; 5] = [
    white(one_d(1, false), &[0xA0], answer(0, 1, 0, 0, 1), &[1]),
    Sheet {
        settings: one_d(2, false), exact: false, src: &[0x00, 0x18, 0xC0, 0x06, 0x60], room: PLENTY,
        answer: answer(0, 2, 2, 0, 5), changes: &[3, 5], ends: &[2, 2], marks: &[2, 0],
    },
    white(one_d(2, false), &[0x00, 0x19, 0xA8, 0x00, 0xCC], answer(0, 2, 0, 0, 5), &[0; 2]),
    Sheet {
        settings: lenient(two_d(3)), exact: false, src: &[0x00, 0x1C, 0x70, 0x00, 0x28], room: PLENTY,
        answer: answer(0, 3, 2, 0, 5), changes: &[3, 5], ends: &[2, 2, 2], marks: &[0, 2, 0],
    },
    white(lenient(with_end(two_d(0))), TAGGED_RTC, fault(2, 2, 78), &[2, 2]),
];

/// One for each clause of A7, but for the sum that passes the limit (long_runs.rs) and a start past the data (limits.rs).
#[rustfmt::skip]
const PLACES: [Sheet; 13] = [
    white(group4(8, 0, true), &[0x80], fault(1, 1, 1), &[0]),
    white(group4(2, 0, true), &[0x82], fault(3, 1, 1), &[0]),
    white(group4(8, 2, true), &[0xB0], fault(1, 1, 1), &[0]),
    white(group4(8, 1, true), &[0x20, 0x00], fault(1, 0, 3), &[]),
    white(group4(8, 1, true), &[0x30, 0x00], fault(1, 0, 7), &[]),
    white(group4(8, 1, true), &[0x3B, 0x35], fault(1, 0, 3), &[]),
    white(group4(8, 1, true), &[0x30, 0x07, 0x86, 0xE0], fault(1, 0, 7), &[]),
    white(one_d(1, true), &[0xD8, 0x00], fault(1, 0, 5), &[]),
    white(one_d(1, true), &[0xD8], fault(2, 0, 5), &[]),
    white(one_d(2, true), &[0x9E, 0xCD, 0x40], fault(1, 1, 5), &[0]),
    white(one_d(0, true), &[0x00, 0x01, 0x9C, 0xC0], fault(1, 1, 21), &[0]),
    white(two_d(0), &[0x00, 0x01], fault(2, 0, 16), &[]),
    white(one_d(2, false), &[0x00, 0x01, 0x00, 0x80, 0x0C, 0xC0], answer(0, 2, 0, 0, 6), &[2, 0]),
];

/// A sheet that is read exactly, whatever its settings say of strictness.
const fn exact(sheet: Sheet) -> Sheet {
    Sheet { exact: true, ..sheet }
}

/// One for each clause of A12: two zero runs, in Group 4 and in Group 3 2D, and one of them; a move that stays, further on and at 0, in black and as the line's first
/// code; a page short of rows, in Group 4 and in Group 3, and one that is not, or that is to have no number of them; 5 and `check_eob` before 14; strict implied;
/// columns 0; and a zero run of a 1D line.
#[rustfmt::skip]
const EXACT: [Sheet; 16] = [
    exact(white(group4(8, 1, true), &[0x26, 0xA1, 0xBC], fault(1, 0, 0), &[])),
    exact(white(two_d(1), &[0x13, 0x50, 0xDE], fault(1, 0, 1), &[])),
    Sheet {
        settings: group4(8, 1, true), exact: true, src: &[0x26, 0xAA], room: PLENTY,
        answer: answer(0, 1, 2, 0, 2), changes: &[0, 1], ends: &[2], marks: &[0],
    },
    Sheet {
        settings: group4(8, 1, true), exact: true, src: &[0x36, 0x81, 0x40], room: PLENTY,
        answer: Answer { place: 10, ..answer(1, 0, 0, 1, 0) }, changes: &[4], ends: &[], marks: &[],
    },
    Sheet {
        settings: group4(8, 2, true), exact: true, src: &[0x26, 0xB6, 0x08], room: PLENTY,
        answer: Answer { place: 15, ..answer(1, 1, 2, 0, 0) }, changes: &[0, 3], ends: &[2], marks: &[0],
    },
    Sheet {
        settings: group4(1, 1, true), exact: true, src: &[0x50], room: PLENTY,
        answer: answer(0, 1, 1, 0, 1), changes: &[0], ends: &[1], marks: &[0],
    },
    exact(white(with_end(group4(8, 2, true)), &[0x80, 0x08, 0x00, 0x80], answer(14, 1, 0, 0, 0), &[0])),
    exact(white(with_end(one_d(2, true)), &[0x00, 0x19, 0x80, 0x01], answer(14, 1, 0, 0, 0), &[0])),
    exact(white(with_end(group4(8, 1, true)), &[0x80, 0x08, 0x00, 0x80], answer(0, 1, 0, 0, 4), &[0])),
    exact(white(with_end(group4(8, 0, true)), &[0x80, 0x08, 0x00, 0x80], answer(0, 1, 0, 0, 4), &[0])),
    Sheet {
        settings: with_end(group4(8, 2, true)), exact: true, src: &[0x80, 0x08, 0x00, 0x80], room: Room::Rows { changes: 0, ends: 0, marks: 1 },
        answer: answer(5, 0, 0, 0, 0), changes: &[], ends: &[], marks: &[],
    },
    exact(white(one_d(3, true), &[0x00, 0x01, 0x9C, 0xC0], fault(1, 1, 21), &[0])),
    exact(white(group4(8, 1, false), &[0x60], fault(1, 0, 0), &[])),
    Sheet {
        settings: one_d(2, false), exact: true, src: &[0x00, 0x17, 0x80, 0x06, 0x60], room: PLENTY,
        answer: Answer { place: 18, ..answer(1, 0, 0, 1, 0) }, changes: &[2], ends: &[], marks: &[],
    },
    exact(white(group4(0, 2, true), &[], answer(0, 0, 0, 0, 0), &[])),
    exact(white(one_d(1, true), &[0x80, 0xDF, 0x00], answer(0, 1, 0, 0, 3), &[0])),
];

/// Every page that is listed above.
fn pages() -> impl Iterator<Item = &'static Sheet> {
    SHEETS.iter().chain(&PARTINGS).chain(&LENIENT).chain(&PLACES).chain(&EXACT)
}

pub struct Sheets;

impl Source for Sheets {
    fn name(&self) -> String {
        "sheets on the wall".to_string()
    }

    fn count(&self) -> u64 {
        (pages().count() + LINES.len()) as u64
    }

    fn case(&self, index: u64, random: &mut Random) -> Case {
        let fill = random.next() as u32;
        match pages().nth(index as usize) {
            Some(sheet) => page_sheet(sheet, fill),
            None => line_sheet(index as usize - pages().count(), fill),
        }
    }
}

fn page_sheet(sheet: &Sheet, fill: u32) -> Case {
    let (changes, ends, marks) = (sheet.changes.to_vec(), sheet.ends.to_vec(), sheet.marks.to_vec());
    let wanted = Wanted { answer: sheet.answer, changes, ends, marks, out: None };
    let of_crate = if sheet.exact { Outcome::of_exact_page } else { Outcome::of_page }(&sheet.settings, sheet.src, 0);
    let agrees = of_crate.page_within(sheet.room) == wanted;
    let plan = Plan { exact: sheet.exact, ..Plan::whole(sheet.room, fill, wanted) };
    let plans = vec![Plan { plain: true, ..plan.clone() }, plan];
    Case { ask: Ask::page(sheet.settings, sheet.src.to_vec()), plans, complaint: None }
        .require(agrees, || "the crate does not give what the sheet says".to_string())
}

fn line_sheet(index: usize, fill: u32) -> Case {
    let (columns, reference, row, code) = LINES[index];
    let mut bits = crate::bits::Bits::default();
    bits.code(code);
    let wanted = Wanted { changes: row.to_vec(), ..Wanted::untouched(answer(0, 1, row.len() as u64, 0, code.len() as u64)) };
    let src = bits.into_bytes();
    let of_crate = Outcome::of_line(columns, true, &src, 0, 0, reference).line_within(PLENTY);
    let agrees = of_crate == wanted;
    let plans = vec![Plan::whole(line_room(row.len() + 1), fill, wanted)];
    Case { ask: Ask::read_line(columns, true, src, 0, reference.to_vec()), plans, complaint: None }
        .require(agrees, || "the crate does not give what the sheet says".to_string())
}
