//! A page a little at a time: whatever is taken at each call and however much room there is, it is the page.

use hayro_ccitt::beyond::{Fault, Mark, OwnedRow, Rows, Settings, Turn, Units, write_page};
use hayro_ccitt::{DecodeError, DecodeSettings, EncodingMode};
use std::num::NonZeroU64;

const GROUP_4: DecodeSettings = DecodeSettings {
    columns: 8,
    rows: 0,
    end_of_block: true,
    end_of_line: false,
    rows_are_byte_aligned: false,
    encoding: EncodingMode::Group4,
    strict: true,
};

fn n(n: u64) -> NonZeroU64 {
    NonZeroU64::new(n).unwrap()
}

/// Takes `most` units a call, or fewer at the end, and says how many there were. Rows that are complete stay as they were.
fn read(page: &mut Units<'_>, most: u64) -> u64 {
    let (mut all, mut rows) = (0, 0);
    loop {
        let turn = page.read(n(most));
        all += turn.units;
        assert!(page.rows().len() >= rows && turn.more == page.end().is_none());
        rows = page.rows().len();
        if !turn.more {
            assert!(turn.units <= most);
            assert_eq!(page.read(n(most)), Turn { units: 0, more: false });
            return all;
        }
        assert_eq!(turn.units, most);
    }
}

/// Rows, end and the unfinished row by the row form.
fn by_row(data: &[u8], settings: Settings) -> (Vec<OwnedRow>, Result<usize, Fault>, Vec<u32>) {
    let (mut rows, mut page) = (Vec::new(), Rows::new(data, settings));
    let end = page.by_ref().try_for_each(|row| row.map(|row| rows.push(row)));
    (rows, end.map(|()| page.bytes().unwrap()), page.unfinished().to_vec())
}

fn by_unit(page: &Units<'_>) -> (Vec<OwnedRow>, Result<usize, Fault>, Vec<u32>) {
    let rows = page.rows().map(|row| OwnedRow { changes: row.changes.to_vec(), mark: row.mark }).collect();
    (rows, page.end().unwrap(), page.unfinished().to_vec())
}

/// Rows with runs of up to three make-up codes, each unlike the one before.
fn some_rows(columns: u32, count: u32) -> Vec<Vec<u32>> {
    let step = |row: u32| (row + 4) * (row + 4) % 5000;
    (0..count).map(|row| (0..columns).filter(|column| (column * 7 + row * 3) % step(row) == 0).collect()).collect()
}

#[test]
fn any_numbers_and_any_room_give_the_page() {
    let columns = 6_000;
    let rows = some_rows(columns, 80);
    let page = write_page(columns, &rows).unwrap();
    for (data, strict) in [(&page[..], true), (&page[..page.len() / 2], true), (&page[..page.len() / 3], false), (&page[1..], false)] {
        for (exact, plain) in [(false, false), (true, false), (false, true)] {
            let settings = Settings { settings: DecodeSettings { columns, strict, ..GROUP_4 }, exact, plain };
            let wanted = by_row(data, settings);
            assert!(data.len() < page.len() || wanted.0.len() == rows.len());
            let mut whole = Units::new(data, settings);
            let units = read(&mut whole, u64::MAX);
            assert_eq!(by_unit(&whole), wanted);
            for most in [1, 2, 7, 256, units - 1, units] {
                for room in [None, Some((0, 0)), Some((1, 3)), Some((usize::MAX, 1)), Some((7_000, usize::MAX))] {
                    let mut page = room.map_or_else(|| Units::new(data, settings), |room| Units::with_room(data, settings, room.0, room.1));
                    assert_eq!(read(&mut page, most), units);
                    assert!(by_unit(&page) == wanted, "{most} units a call, room {room:?}");
                }
            }
        }
    }
}

/// Inside a row: what it has so far. That the color changes at a pixel is told once the pixel is read.
#[test]
fn a_row_is_shown_as_far_as_it_was_read() {
    // horizontal, 3 white and 2 black; V0
    let settings = DecodeSettings { rows: 1, end_of_block: false, ..GROUP_4 };
    let mut page = Units::new(&[0x31, 0xC0], settings);
    let shown = [(&[][..], 0), (&[], 0), (&[3], 0), (&[], 1)];
    for (unfinished, rows) in shown {
        assert_eq!(page.end(), None);
        assert_eq!(page.read(n(1)), Turn { units: 1, more: rows == 0 });
        assert_eq!((page.unfinished(), page.rows().len()), (unfinished, rows));
    }
    assert_eq!(page.end(), Some(Ok(2)));
    assert_eq!(page.rows().next().unwrap().changes, [3, 5]);
}

/// More rows than there is room for at first.
#[test]
fn a_page_may_have_more_than_there_is_room_for() {
    let data = [0xFF; 10_000];
    let mut page = Units::new(&data, DecodeSettings { end_of_block: false, ..GROUP_4 });
    assert_eq!(read(&mut page, 5_000), 80_000);
    assert_eq!((page.end(), page.rows().len()), (Some(Ok(10_000)), 80_000));
    assert!(page.rows().all(|row| row.changes.is_empty() && row.mark == Mark::Clean));
}

#[test]
fn marks_and_faults_are_told() {
    // VR1 from a white row: one pixel more than there are
    let lenient = DecodeSettings { rows: 1, end_of_block: false, strict: false, ..GROUP_4 };
    let mut page = Units::new(&[0x60], lenient);
    assert_eq!(read(&mut page, 1), 1);
    assert_eq!(page.rows().map(|row| row.mark).collect::<Vec<_>>(), [Mark::Cut]);
    // horizontal, 4 white and 1 black, and then a code that moves nothing: exactly it is none
    let settings = DecodeSettings { rows: 1, end_of_block: false, ..GROUP_4 };
    let data = [0x36, 0x81, 0x40];
    let mut page = Units::new(&data, Settings { exact: true, ..settings.into() });
    assert_eq!(by_row(&data, Settings { exact: true, ..settings.into() }).1, Err(Fault::Code { error: DecodeError::InvalidCode, bit: 10 }));
    assert_eq!(read(&mut page, 2), 4);
    assert_eq!((page.end(), page.unfinished()), (Some(Err(Fault::Code { error: DecodeError::InvalidCode, bit: 10 })), &[4][..]));
    // fewer rows than it is to have
    let written = write_page(8, [[3, 5]]).unwrap();
    let mut page = Units::new(&written, Settings { exact: true, settings: DecodeSettings { rows: 2, ..GROUP_4 }, plain: false });
    read(&mut page, 3);
    assert_eq!((page.end(), page.rows().len()), (Some(Err(Fault::TooFewRows)), 1));
}

/// The limits, and pages of no units, which end with the first call.
#[test]
fn a_page_of_no_units_ends_at_once() {
    // zeros that are mapped and never looked at
    let long = vec![0; (1 << 32) + 1];
    for (data, columns, end) in [
        (&[0x80][..], u32::MAX, Err(Fault::Columns)),
        (&long, 8, Err(Fault::TooLong)),
        (&[0x80], 0, Ok(0)),
        (&[], 8, by_row(&[], GROUP_4.into()).1),
    ] {
        let mut page = Units::new(data, DecodeSettings { columns, ..GROUP_4 });
        assert_eq!((page.end(), page.rows().len(), page.unfinished()), (None, 0, &[][..]));
        assert_eq!(page.read(n(1)), Turn { units: 0, more: false });
        assert_eq!((page.end(), page.rows().len(), page.unfinished()), (Some(end), 0, &[][..]));
    }
}

/// It is a Group 4 page, whatever the settings say.
#[test]
fn the_encoding_is_not_looked_at() {
    let page = write_page(8, [[3, 5], [1, 2]]).unwrap();
    for encoding in [EncodingMode::Group4, EncodingMode::Group3_1D, EncodingMode::Group3_2D] {
        let mut units = Units::new(&page, DecodeSettings { encoding, ..GROUP_4 });
        read(&mut units, 4);
        assert_eq!(units.rows().map(|row| row.changes.to_vec()).collect::<Vec<_>>(), [[3, 5], [1, 2]]);
        assert_eq!(units.end(), Some(Ok(page.len())));
    }
}
