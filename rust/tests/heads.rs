//! The heads on a form, of rows and of a page's data: what it says, and what is refused in which order.

use hayro_ccitt::beyond::{Fault, Heads, Mark, OwnedRow, Row, Rows, Settings, TickBox, heads, read_heads, read_page};
use hayro_ccitt::beyond::{write_group3_1d, write_group3_2d, write_page};
use hayro_ccitt::{DecodeError, DecodeSettings, EncodingMode};

type Form = [[TickBox; 2]; 10];

const FORTY: &[u8] = include_bytes!("../../examples/forty.g4");
const SEVENTEEN: &[u8] = include_bytes!("../../examples/seventeen.g31d");

/// The booking forms of examples/: the insides of their boxes.
fn booking() -> Form {
    std::array::from_fn(|digit| {
        let top = 78 + 31 * digit as u32;
        [202, 702].map(|left| TickBox { left, right: left + 22, top, bottom: top + 20 })
    })
}

fn strictly(encoding: EncodingMode) -> DecodeSettings {
    let end_of_line = encoding != EncodingMode::Group4;
    DecodeSettings { columns: 1728, rows: 0, end_of_block: true, end_of_line, rows_are_byte_aligned: false, encoding, strict: true }
}

fn rows_of(data: &[u8], encoding: EncodingMode) -> Vec<OwnedRow> {
    Rows::new(data, strictly(encoding)).collect::<Result<_, _>>().unwrap()
}

#[test]
fn the_forms_of_the_examples_are_read() {
    let forty = rows_of(FORTY, EncodingMode::Group4);
    assert_eq!(heads(1728, &forty, &booking(), 20, 39), Ok(Heads { heads: 40, left: -1 }));
    let mut seventeen = rows_of(SEVENTEEN, EncodingMode::Group3_1D);
    assert_eq!(heads(1728, &seventeen, &booking(), 20, 17), Ok(Heads { heads: 17, left: 0 }));
    // a row above the boxes may be mended, one under a box may not
    seventeen[77].mark = Mark::Cut;
    assert_eq!(heads(1728, &seventeen, &booking(), 20, 17), Ok(Heads { heads: 17, left: 0 }));
    seventeen[78].mark = Mark::Recovered;
    assert_eq!(heads(1728, &seventeen, &booking(), 20, 17), Err(Fault::Mended));
}

/// One pixel for each digit, tens in row 0 and units in row 1.
fn pixels() -> Form {
    std::array::from_fn(|digit| {
        let left = digit as u32;
        [0, 1].map(|top| TickBox { left, right: left + 1, top, bottom: top + 1 })
    })
}

const NINE: [Row<'static>; 2] = [Row { changes: &[9], mark: Mark::Clean }, Row { changes: &[9], mark: Mark::Clean }];

#[test]
fn the_quota_left_may_be_below_zero() {
    for (quota, left) in [(1_000_000, 999_901), (99, 0), (98, -1), (-1_000_000, -1_000_099)] {
        assert_eq!(heads(10, NINE, &pixels(), 1, quota), Ok(Heads { heads: 99, left }));
    }
}

/// With whatever is refused behind it refused too.
#[test]
fn refusals_come_in_their_order() {
    let row = |changes, mark| Row { changes, mark };
    let mut form = pixels();
    // rows, then the form
    for changes in [&[9, 9][..], &[10]] {
        let rows = [row(changes, Mark::Cut), NINE[1]];
        assert_eq!(heads(10, rows, &form, 0, i32::MIN), Err(Fault::NotARow));
    }
    // the form, then mended rows
    let mended = [row(&[], Mark::Cut), NINE[1]];
    for (least, quota) in [(0, 0), (1, 1_000_001), (1, -1_000_001), (1, i32::MAX), (1, i32::MIN)] {
        assert_eq!(heads(10, mended, &form, least, quota), Err(Fault::Form));
    }
    for edges in [TickBox { left: 1, right: 0, top: 0, bottom: 0 }, TickBox { left: 0, right: 0, top: 1, bottom: 0 }] {
        let before = std::mem::replace(&mut form[9][1], edges);
        assert_eq!(heads(10, mended, &form, 1, 0), Err(Fault::Form));
        form[9][1] = before;
    }
    // mended rows, then ticks
    assert_eq!(heads(10, mended, &form, 1, 0), Err(Fault::Mended));
    assert_eq!(heads(10, [row(&[], Mark::Clean), NINE[1]], &form, 1, 0), Err(Fault::Ticks));
    // two ticks in a column
    assert_eq!(heads(10, [row(&[8], Mark::Clean), NINE[1]], &form, 1, 0), Err(Fault::Ticks));
}

/// A page without a row or a column is white, and so is what lies outside.
#[test]
fn any_page_and_any_box_is_taken() {
    let none: [Row<'_>; 0] = [];
    assert_eq!(heads(0, none, &pixels(), 1, 0), Err(Fault::Ticks));
    assert_eq!(heads(u32::MAX, none, &pixels(), u64::MAX, 0), Err(Fault::Ticks));
    assert_eq!(heads(10, none, &[[TickBox::default(); 2]; 10], 1, 0), Err(Fault::Ticks));
    let mut form = pixels();
    for (at, edges) in form[9].iter_mut().enumerate() {
        *edges = TickBox { left: 9, right: u32::MAX, top: at as u32, bottom: u32::MAX };
    }
    assert_eq!(heads(10, NINE, &form, 1, 99), Ok(Heads { heads: 99, left: 0 }));
}

const FORTY_HEADS: Result<Heads, Fault> = Ok(Heads { heads: 40, left: -1 });

/// The changes of the form of forty.
fn forty() -> Vec<Vec<u32>> {
    rows_of(FORTY, EncodingMode::Group4).into_iter().map(|row| row.changes).collect()
}

/// A page of these rows in each encoding.
fn written(rows: &[Vec<u32>]) -> [(Vec<u8>, DecodeSettings); 3] {
    [
        (write_page(1728, rows).unwrap(), strictly(EncodingMode::Group4)),
        (write_group3_1d(1728, rows, true, 0).unwrap(), strictly(EncodingMode::Group3_1D)),
        (write_group3_2d(1728, rows, 4).unwrap(), strictly(EncodingMode::Group3_2D)),
    ]
}

/// The page of a booking form, with 400 rows.
fn counted(data: &[u8], settings: impl Into<Settings>) -> Result<Heads, Fault> {
    read_heads(data, settings, 400, &booking(), 20, 39)
}

#[test]
fn a_whole_page_is_read_and_counted() {
    for (page, settings) in written(&forty()) {
        for rows in [0, 400, 500] {
            for strict in [false, true] {
                assert_eq!(counted(&page, DecodeSettings { rows, strict, ..settings }), FORTY_HEADS);
            }
        }
        for plain in [false, true] {
            assert_eq!(counted(&page, Settings { exact: true, plain, settings }), FORTY_HEADS);
        }
    }
    // lines alone, whose number the settings say
    let page = write_group3_1d(1728, forty(), false, 0).unwrap();
    let settings = DecodeSettings { rows: 400, end_of_block: false, end_of_line: false, ..strictly(EncodingMode::Group3_1D) };
    assert_eq!(counted(&page, settings), FORTY_HEADS);
}

/// Wherever it is cut, also behind both ticks, where its rows say 40, and at the end of a row, where the reading ends well.
#[test]
fn a_cut_page_is_not_counted() {
    for (page, strict) in written(&forty()) {
        for settings in [strict, DecodeSettings { strict: false, ..strict }] {
            let say_forty = (0..page.len()).filter(|&length| refused_where_rows_say_forty(&page[..length], settings));
            assert!(say_forty.count() > 300);
        }
    }
}

/// Whether the rows of a cut page say 40; it is refused whatever they say.
fn refused_where_rows_say_forty(cut: &[u8], settings: DecodeSettings) -> bool {
    let mut rows = Vec::new();
    let read = read_page(cut, settings, |row| rows.push(OwnedRow { changes: row.changes.to_vec(), mark: row.mark }));
    let fault = match read {
        // of the end of block alone some is cut
        Ok(_) if rows.len() == 400 => return false,
        Ok(_) => Fault::OtherRows { count: rows.len() as u64, rows: 400 },
        Err(fault) => fault,
    };
    assert_eq!(counted(cut, settings), Err(fault));
    heads(1728, &rows, &booking(), 20, 39) == FORTY_HEADS
}

/// Also where the settings end the reading with the form's rows.
#[test]
fn a_page_of_other_rows_is_not_counted() {
    let (mut fewer, mut more) = (forty(), forty());
    fewer.pop();
    more.push(Vec::new());
    for (page, settings) in written(&fewer) {
        for rows in [0, 400] {
            assert_eq!(counted(&page, DecodeSettings { rows, ..settings }), Err(Fault::OtherRows { count: 399, rows: 400 }));
        }
        let settings = DecodeSettings { rows: 400, ..settings };
        assert_eq!(counted(&page, Settings { exact: true, ..settings.into() }), Err(Fault::TooFewRows));
    }
    for (page, settings) in written(&more) {
        let fault = Fault::OtherRows { count: 401, rows: 400 };
        assert_eq!(counted(&page, settings), Err(fault));
        assert_eq!(fault.to_string(), "the page has 401 rows, and the form's page has 400");
        let ended = counted(&page, DecodeSettings { rows: 400, ..settings });
        assert!(matches!(ended, Err(Fault::BytesBehind { .. })));
    }
}

/// Read leniently it is a row that was not read clean, and strictly a fault.
#[test]
fn a_bad_line_under_a_box_is_not_counted() {
    // Group 3: behind 212 lines stands a 1D line, and of a page that ends there six EOLs, some nine bytes
    let (before, pages) = (written(&forty()[..212]), written(&forty()));
    for ((before, _), (mut page, strict)) in before.into_iter().zip(pages).skip(1) {
        page[before.len() - 5] ^= 0xFF;
        assert_eq!(counted(&page, DecodeSettings { strict: false, ..strict }), Err(Fault::Mended));
        assert!(matches!(counted(&page, strict), Err(Fault::Code { .. })));
    }
    // Group 4: a move past the width, a row like it, and EOFB
    let wide = [0x70, 0x01, 0x00, 0x10];
    for (strict, fault) in [(false, Fault::Mended), (true, Fault::Code { error: DecodeError::InvalidCode, bit: 0 })] {
        let settings = DecodeSettings { columns: 10, strict, ..strictly(EncodingMode::Group4) };
        assert_eq!(read_heads(&wide, settings, 2, &pixels(), 1, 0), Err(fault));
    }
    // above the boxes it costs one row
    let mut seventeen = SEVENTEEN.to_vec();
    seventeen[800] ^= 0xFF;
    let settings = DecodeSettings { strict: false, ..strictly(EncodingMode::Group3_1D) };
    assert_eq!(counted(&seventeen, settings), Ok(Heads { heads: 17, left: 22 }));
}

#[test]
fn what_is_tested_first_is_told() {
    let group4 = strictly(EncodingMode::Group4);
    let ask = |data, rows, least| read_heads(data, group4, rows, &booking(), least, 39);
    let twice = [FORTY, FORTY].concat();
    // the reading, then the bytes behind it, then the rows, then the form
    assert_eq!(ask(&FORTY[..700], 9, 0), Err(Fault::Code { error: DecodeError::UnexpectedEof, bit: 5598 }));
    assert_eq!(ask(&twice, 9, 0), Err(Fault::BytesBehind { count: 972 }));
    assert_eq!(ask(FORTY, 9, 0), Err(Fault::OtherRows { count: 400, rows: 9 }));
    assert_eq!(ask(FORTY, 400, 0), Err(Fault::Form));
    assert_eq!(ask(FORTY, 400, 99), Err(Fault::Ticks));
    assert_eq!(Fault::BytesBehind { count: 972 }.to_string(), "bytes behind the page: 972; a second page?");
}
