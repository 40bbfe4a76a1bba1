//! What is this package's own: its limits, pages that are more than it holds, and what `beyond` has.

use hayro_ccitt::beyond::{Fault, Mark, Rows, Settings, Units, read_line, read_page, write_line, write_page};
use hayro_ccitt::{DecodeError, DecodeSettings, Decoder, DecoderContext, EncodingMode, Result, decode};
use std::panic::{AssertUnwindSafe, RefUnwindSafe, UnwindSafe, catch_unwind};

const GROUP_4: DecodeSettings = DecodeSettings {
    columns: 8,
    rows: 0,
    end_of_block: true,
    end_of_line: false,
    rows_are_byte_aligned: false,
    encoding: EncodingMode::Group4,
    strict: true,
};

/// The most bytes of data.
const LIMIT: usize = 1 << 32;

/// Gathers the rows, or panics at one of them.
#[derive(Default)]
struct Sink {
    rows: Vec<Vec<u32>>,
    last: Option<usize>,
}

impl Decoder for Sink {
    fn push_row(&mut self, changes: &[u32]) {
        assert!(self.last != Some(self.rows.len()), "the last row");
        self.rows.push(changes.to_vec());
    }
}

fn read(data: &[u8], mut context: DecoderContext) -> (Result<usize>, Vec<Vec<u32>>) {
    let mut sink = Sink::default();
    (decode(data, &mut sink, &mut context), sink.rows)
}

/// Rows of every length up to `columns`, each unlike the one before.
fn some_rows(columns: u32, count: u32) -> Vec<Vec<u32>> {
    (0..count).map(|row| (0..columns).filter(|column| (column * 7 + row * 3) % (row % 11 + 1) == 0).collect()).collect()
}

fn lengths(rows: &[Vec<u32>]) -> Vec<usize> {
    rows.iter().map(Vec::len).collect()
}

#[test]
fn what_is_beyond_the_limits_is_overflow() {
    let wide = DecodeSettings { columns: u32::MAX, ..GROUP_4 };
    assert_eq!(read(&[0x80], DecoderContext::new(wide)), (Err(DecodeError::Overflow), vec![]));
    assert_eq!(read_page(&[0x80], wide, |_| ()), Err(Fault::Columns));
    assert_eq!(Rows::new(&[0x80], wide).collect::<Vec<_>>(), [Err(Fault::Columns)]);
    // zeros that are mapped and never looked at
    let long = vec![0; LIMIT + 1];
    assert_eq!(read(&long, DecoderContext::new(GROUP_4)), (Err(DecodeError::Overflow), vec![]));
    assert_eq!(read(&long, DecoderContext::new(DecodeSettings { columns: 0, ..GROUP_4 })), (Ok(0), vec![]));
    assert_eq!(read_page(&long, GROUP_4, |_| ()), Err(Fault::TooLong));
}

/// Whatever a context holds at a time, the rows are the same: of a whole page, and of one that is cut.
#[test]
fn any_room_gives_every_row_once() {
    let columns = 300;
    let rows = some_rows(columns, 60);
    let page = write_page(columns, &rows).unwrap();
    let settings = DecodeSettings { columns, ..GROUP_4 };
    let entries = lengths(&rows).iter().sum::<usize>();
    for data in [&page[..], &page[..page.len() / 2]] {
        let wanted = read(data, DecoderContext::new(settings));
        assert!(wanted.1.len() > 20 && rows.starts_with(&wanted.1));
        for (changes, held) in
            [(0, 0), (0, 99), (1, 1), (300, 1), (entries / 2, 99), (entries / 3, 20), (entries - 1, 60), (entries, 60), (entries, 59)]
        {
            assert_eq!(read(data, DecoderContext::with_room(settings, changes, held)), wanted, "{changes} changes, {held} rows");
        }
    }
}

/// More rows than a context holds, and more changes.
#[test]
fn a_page_may_have_more_than_is_held() {
    let settings = DecodeSettings { end_of_block: false, ..GROUP_4 };
    let (result, rows) = read(&[0xFF; 10_000], DecoderContext::new(settings));
    assert_eq!((result, rows.len()), (Ok(10_000), 80_000));

    // a row that changes at each of 4,000 columns, and V0 for each of them in every row that follows
    let columns = 4_000;
    let row: Vec<u32> = (0..columns).collect();
    let (count, mut page) = (1_100, Vec::new());
    let mut at = write_line(columns, &[], &row, &mut page, 0).unwrap();
    for _ in 1..count {
        at = write_line(columns, &row, &row, &mut page, at).unwrap();
    }
    let (result, rows) = read(&page, DecoderContext::new(DecodeSettings { columns, rows: count, ..settings }));
    assert_eq!((result, rows.len()), (Ok(page.len()), count as usize));
    assert!(rows.iter().all(|each| *each == row));
}

/// A decoder may panic at any row, of those that are held and of those that are not, and the context reads on.
#[test]
fn a_panic_leaves_nothing_broken() {
    let rows = some_rows(100, 30);
    let page = write_page(100, &rows).unwrap();
    let settings = DecodeSettings { columns: 100, ..GROUP_4 };
    let mut context = DecoderContext::with_room(settings, 500, 10);
    for last in 0..30 {
        let mut fragile = Sink { last: Some(last), ..Sink::default() };
        assert!(catch_unwind(AssertUnwindSafe(|| decode(&page, &mut fragile, &mut context))).is_err());
        assert_eq!(fragile.rows, rows[..last]);
        let mut sink = Sink::default();
        assert_eq!(decode(&page, &mut sink, &mut context), Ok(page.len()));
        assert_eq!(sink.rows, rows);
    }
}

#[test]
fn items_may_go_to_other_threads() {
    fn is<T: Send + Sync + Unpin + UnwindSafe + RefUnwindSafe>() {}
    is::<Rows<'_>>();
    is::<Units<'_>>();
    is::<Settings>();
    let boxed: Box<dyn std::error::Error + Send + Sync> = Fault::NotARow.into();
    assert_eq!(boxed.to_string(), "a row that does not ascend strictly below the columns");
}

#[test]
fn rows_are_lent_and_owned_alike() {
    let rows = some_rows(200, 40);
    let page = write_page(200, &rows).unwrap();
    let settings = DecodeSettings { columns: 200, ..GROUP_4 };
    let owned: Vec<Vec<u32>> = Rows::new(&page, settings).map(|row| row.unwrap().changes).collect();
    assert_eq!(owned, rows);
    let (mut lent, mut count) = (Rows::new(&page, settings), 0);
    assert_eq!(lent.bytes(), None);
    while let Some(row) = lent.next_row().unwrap() {
        assert_eq!((row.changes, row.mark), (&rows[count][..], Mark::Clean));
        count += 1;
    }
    assert_eq!((count, lent.bytes(), lent.unfinished()), (40, Some(page.len()), &[][..]));
    assert_eq!(lent.next_row(), Ok(None));
    assert_eq!(lent.next(), None);
}

/// Horizontal, 4 white and 1 black, and then a code that moves nothing: exactly it is none, and the row has one change.
#[test]
fn a_fault_says_where_and_leaves_the_unfinished_row() {
    let data = [0x36, 0x81, 0x40];
    let settings = DecodeSettings { rows: 1, end_of_block: false, ..GROUP_4 };
    assert_eq!(Rows::new(&data, settings).map(|row| row.unwrap().changes).collect::<Vec<_>>(), [[4]]);
    let fault = Fault::Code { error: DecodeError::InvalidCode, bit: 10 };
    let mut rows = Rows::new(&data, Settings { exact: true, ..settings.into() });
    assert_eq!(rows.next_row(), Err(fault));
    assert_eq!(rows.next_row(), Err(fault));
    assert_eq!((rows.bytes(), rows.unfinished()), (None, &[4][..]));
}

#[test]
fn an_exact_page_has_its_rows() {
    let page = write_page(8, [[3, 5]]).unwrap();
    for plain in [false, true] {
        let settings = Settings { exact: true, plain, settings: DecodeSettings { rows: 2, ..GROUP_4 } };
        let mut rows = 0;
        assert_eq!(read_page(&page, settings, |_| rows += 1), Err(Fault::TooFewRows));
        assert_eq!(rows, 1);
    }
}

#[test]
fn writers_refuse_what_is_no_row() {
    let mut out = vec![0xFF; 3];
    for (columns, reference, row, at, fault) in [
        (0, &[][..], &[][..], 0, Fault::Columns),
        (u32::MAX, &[], &[], 0, Fault::Columns),
        (8, &[], &[8], 0, Fault::NotARow),
        (8, &[3, 3], &[], 99, Fault::NotARow),
        (8, &[], &[], 25, Fault::Start),
        (8, &[], &[], u64::MAX, Fault::Start),
    ] {
        assert_eq!(write_line(columns, reference, row, &mut out, at), Err(fault));
        assert_eq!(out, [0xFF; 3]);
    }
    assert_eq!(write_page(0, [[0; 0]]), Err(Fault::Columns));
    assert_eq!(write_page(8, [[3], [8]]), Err(Fault::NotARow));
    assert_eq!(read_line(&[], 0, 0, true, &[]), Err(Fault::Columns));
    assert_eq!(read_line(&[], 1, 8, true, &[]), Err(Fault::Code { error: DecodeError::UnexpectedEof, bit: 0 }));
}

/// What lies around a line stays, and the output grows by no more than the line.
#[test]
fn a_line_is_written_in_its_place() {
    let mut out = vec![0xFF; 3];
    assert_eq!(write_line(8, &[], &[3, 5], &mut out, 3), Ok(13));
    assert_eq!(out, [0b1110_0110, 0b0011_1000, 0xFF]);
    assert_eq!(write_line(8, &[], &[3, 5], &mut out, 24), Ok(34));
    assert_eq!(out, [0b1110_0110, 0b0011_1000, 0xFF, 0b0011_0001, 0b1100_0000]);
    // a run of thousands of millions: 2560, 1,677,721 times
    let mut long = Vec::new();
    let end = write_line(u32::MAX - 1, &[], &[u32::MAX - 2], &mut long, 0).unwrap();
    assert_eq!(long.len() as u64, end.div_ceil(8));
    assert_eq!(read_line(&long, 0, u32::MAX - 1, true, &[]).unwrap().changes, [u32::MAX - 2]);
}
