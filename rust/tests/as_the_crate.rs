//! A program that is written for the crate: it names every public item of hayro-ccitt 0.5.0, and nothing else. `compare/run test` compiles it against
//! the crate as published and runs it there too.

use hayro_ccitt::{DecodeError, DecodeSettings, Decoder, DecoderContext, EncodingMode, Result, decode};
use std::panic::{AssertUnwindSafe, catch_unwind};

#[derive(Default)]
struct Rows(Vec<Vec<u32>>);

impl Decoder for Rows {
    fn push_row(&mut self, changes: &[u32]) {
        self.0.push(changes.to_vec());
    }
}

const GROUP_4: DecodeSettings = DecodeSettings {
    columns: 8,
    rows: 0,
    end_of_block: false,
    end_of_line: false,
    rows_are_byte_aligned: false,
    encoding: EncodingMode::Group4,
    strict: true,
};

const ONE_D: DecodeSettings = DecodeSettings { encoding: EncodingMode::Group3_1D, ..GROUP_4 };
const TWO_D: DecodeSettings = DecodeSettings { encoding: EncodingMode::Group3_2D, ..GROUP_4 };

fn read(settings: DecodeSettings, data: &[u8]) -> (Result<usize>, Vec<Vec<u32>>) {
    let mut rows = Rows::default();
    let result = decode(data, &mut rows, &mut DecoderContext::new(settings));
    (result, rows.0)
}

fn white(rows: usize) -> Vec<Vec<u32>> {
    vec![Vec::new(); rows]
}

#[test]
fn pages_are_read() {
    let ended = DecodeSettings { end_of_block: true, ..GROUP_4 };
    assert_eq!(read(ended, &[0x80, 0x08, 0x00, 0x80]), (Ok(4), white(1)));
    assert_eq!(read(ended, &[0x00, 0x10, 0x01]), (Ok(3), white(0)));
    assert_eq!(read(DecodeSettings { rows: 1, ..GROUP_4 }, &[0x31, 0xC0]), (Ok(2), vec![vec![3, 5]]));
    assert_eq!(read(DecodeSettings { rows: 2, rows_are_byte_aligned: true, ..GROUP_4 }, &[0x80, 0x80]), (Ok(2), white(2)));
    assert_eq!(read(DecodeSettings { rows: 1, ..ONE_D }, &[0x98]), (Ok(1), white(1)));
    assert_eq!(read(DecodeSettings { rows: 1, end_of_line: true, strict: false, ..ONE_D }, &[]), (Ok(0), white(1)));
    assert_eq!(
        read(DecodeSettings { rows: 2, strict: false, ..ONE_D }, &[0x00, 0x17, 0x80, 0x06, 0x60]),
        (Ok(5), vec![vec![2, 5], vec![]])
    );
    assert_eq!(read(TWO_D, &[0x55]), (Ok(1), white(4)));
    assert_eq!(read(DecodeSettings { columns: 0, ..TWO_D }, &[0x55]), (Ok(0), white(0)));
}

/// The rows before an error are handed over.
#[test]
fn errors_are_told() {
    assert_eq!(read(GROUP_4, &[0x80]), (Err(DecodeError::InvalidCode), white(1)));
    assert_eq!(read(DecodeSettings { columns: 3, ..GROUP_4 }, &[0x04]), (Err(DecodeError::UnexpectedEof), white(0)));
    assert_eq!(read(DecodeSettings { columns: 2, ..GROUP_4 }, &[0x04]), (Err(DecodeError::Overflow), white(0)));
    assert_eq!(read(ONE_D, &[0x98]), (Err(DecodeError::UnexpectedEof), white(1)));
}

#[test]
fn an_error_is_an_error() {
    // every case is named, as a program may have it
    let name = |error| match error {
        DecodeError::UnexpectedEof => "UnexpectedEof",
        DecodeError::InvalidCode => "InvalidCode",
        DecodeError::Overflow => "Overflow",
    };
    for (error, text) in [
        (DecodeError::UnexpectedEof, "unexpected end of input"),
        (DecodeError::InvalidCode, "invalid CCITT code sequence"),
        (DecodeError::Overflow, "arithmetic overflow in position calculation"),
    ] {
        let boxed: Box<dyn std::error::Error + Send + Sync> = error.into();
        assert_eq!((boxed.to_string().as_str(), format!("{error:?}").as_str()), (text, name(error)));
    }
}

#[test]
fn items_are_what_they_were() {
    fn is<T: Copy + Clone + std::fmt::Debug + Send + Sync + Unpin>(_: T) {}
    fn is_a_context<T: Send + Sync + Unpin + std::panic::UnwindSafe + std::panic::RefUnwindSafe>(_: T) {}
    is(GROUP_4);
    is(DecodeError::Overflow);
    is_a_context(DecoderContext::new(GROUP_4));
    let _: fn(&[u8], &mut Rows, &mut DecoderContext) -> std::result::Result<usize, DecodeError> = decode;
    let _: fn(DecodeSettings) -> DecoderContext = DecoderContext::new;
    assert!(EncodingMode::Group3_1D != EncodingMode::Group3_2D && EncodingMode::Group4 == GROUP_4.encoding);
    assert_eq!(
        format!("{GROUP_4:?}"),
        "DecodeSettings { columns: 8, rows: 0, end_of_block: false, end_of_line: false, rows_are_byte_aligned: false, encoding: Group4, strict: true }"
    );
}

/// A context is for any number of pages.
#[test]
fn a_context_is_used_again() {
    let mut context = DecoderContext::new(GROUP_4);
    for (data, result, count) in
        [(&[0xFF; 100][..], Ok(100), 800), (&[0x80], Err(DecodeError::InvalidCode), 1), (&[], Ok(0), 0), (&[0xFF], Ok(1), 8)]
    {
        let mut rows = Rows::default();
        assert_eq!(decode(data, &mut rows, &mut context), result);
        assert_eq!(rows.0, white(count));
    }
}

/// Panics at its third row.
#[derive(Default)]
struct Fragile(usize);

impl Decoder for Fragile {
    fn push_row(&mut self, _: &[u32]) {
        self.0 += 1;
        assert!(self.0 < 3, "the third row");
    }
}

#[test]
fn a_decoder_that_panics_leaves_nothing_broken() {
    let mut context = DecoderContext::new(GROUP_4);
    let mut fragile = Fragile::default();
    let panicked = catch_unwind(AssertUnwindSafe(|| decode(&[0xFF; 100], &mut fragile, &mut context)));
    assert!(panicked.is_err() && fragile.0 == 3);
    let mut rows = Rows::default();
    assert_eq!(decode(&[0xFF; 100], &mut rows, &mut context), Ok(100));
    assert_eq!(rows.0, white(800));
}

/// Reads a page for each of its rows.
struct Nested(usize);

impl Decoder for Nested {
    fn push_row(&mut self, changes: &[u32]) {
        assert_eq!(changes, [0; 0]);
        let (result, rows) = read(GROUP_4, &[0xFF; 100]);
        assert_eq!(result, Ok(100));
        self.0 += rows.len();
    }
}

/// A page may be read while another is, in the same thread and in others.
#[test]
fn pages_are_read_within_pages_and_side_by_side() {
    let nested = || {
        let mut nested = Nested(0);
        assert_eq!(decode(&[0xFF; 10], &mut nested, &mut DecoderContext::new(GROUP_4)), Ok(10));
        nested.0
    };
    let threads = [(); 4].map(|()| std::thread::spawn(nested));
    assert_eq!(threads.map(|thread| thread.join().unwrap()), [80 * 800; 4]);
}
