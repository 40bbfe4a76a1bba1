//! The writers of Group 3 pages: what they refuse, in which order, and what they write.

use hayro_ccitt::beyond::{Fault, Mark, read_page, write_group3_1d, write_group3_2d};
use hayro_ccitt::{DecodeSettings, Decoder, DecoderContext, EncodingMode, decode};

const NO_ROWS: [&[u32]; 0] = [];
const WHITE: [&[u32]; 1] = [&[]];
/// Rows of eight columns that are none, one because it does not ascend and one because it is too long.
const NOT_ROWS: [[&[u32]; 2]; 2] = [[&[], &[3, 3]], [&[], &[8]]];

fn settings(encoding: EncodingMode, columns: u32, rows: u32, eols: bool) -> DecodeSettings {
    DecodeSettings { columns, rows, end_of_block: eols, end_of_line: eols, rows_are_byte_aligned: false, encoding, strict: true }
}

/// Each number is tested before what comes behind it is looked at: columns, fill, rows.
#[test]
fn the_1d_writer_refuses() {
    for columns in [0, u32::MAX] {
        assert_eq!(write_group3_1d(columns, NO_ROWS, true, 65), Err(Fault::Columns));
    }
    for eols in [false, true] {
        for fill in [65, u32::MAX] {
            assert_eq!(write_group3_1d(8, WHITE, eols, fill), Err(Fault::Layout));
            assert_eq!(write_group3_1d(8, NO_ROWS, eols, fill), Err(Fault::Layout));
            assert_eq!(write_group3_1d(8, NOT_ROWS[0], eols, fill), Err(Fault::Layout));
        }
        assert_eq!(write_group3_1d(8, NO_ROWS, eols, 64), Err(Fault::NoRows));
        for rows in NOT_ROWS {
            assert_eq!(write_group3_1d(8, rows, eols, 64), Err(Fault::NotARow));
        }
    }
}

#[test]
fn the_2d_writer_refuses() {
    for columns in [0, u32::MAX] {
        assert_eq!(write_group3_2d(columns, NO_ROWS, 0), Err(Fault::Columns));
    }
    for k in [0, 65_536, u32::MAX] {
        assert_eq!(write_group3_2d(8, WHITE, k), Err(Fault::Layout));
        assert_eq!(write_group3_2d(8, NO_ROWS, k), Err(Fault::Layout));
        assert_eq!(write_group3_2d(8, NOT_ROWS[0], k), Err(Fault::Layout));
    }
    for k in [1, 65_535] {
        assert_eq!(write_group3_2d(8, NO_ROWS, k), Err(Fault::NoRows));
        for rows in NOT_ROWS {
            assert_eq!(write_group3_2d(8, rows, k), Err(Fault::NotARow));
        }
    }
}

/// The bits of a page of one white row of eight columns, 10011.
#[test]
fn bits_are_those_of_t4() {
    assert_eq!(write_group3_1d(8, WHITE, false, 0).unwrap(), [0b1001_1000]);
    let eol = "000000000001";
    let with_eols = |ahead: &str, behind: &str| bytes(&format!("{ahead}{eol}10011{ahead}{}{behind}", eol.repeat(6)));
    assert_eq!(write_group3_1d(8, WHITE, true, 0).unwrap(), with_eols("", ""));
    assert_eq!(write_group3_1d(8, WHITE, true, 3).unwrap(), with_eols("000", ""));
    let tagged = format!("{eol}1");
    assert_eq!(write_group3_2d(8, WHITE, 2).unwrap(), bytes(&format!("{tagged}10011{}", tagged.repeat(6))));
    // under a white row a white row is V0, 1, behind the tag bit 0; with K 1 it is a 1D line again
    let two = [WHITE[0], WHITE[0]];
    assert_eq!(write_group3_2d(8, two, 2).unwrap(), bytes(&format!("{tagged}10011{eol}01{}", tagged.repeat(6))));
    assert_eq!(write_group3_2d(8, two, 1).unwrap(), bytes(&format!("{tagged}10011{tagged}10011{}", tagged.repeat(6))));
}

/// Bits in bytes, with zeros to the last.
fn bytes(bits: &str) -> Vec<u8> {
    let byte = |part: &[u8]| (0..8).fold(0, |all, at| all << 1 | u8::from(part.get(at) == Some(&b'1')));
    bits.as_bytes().chunks(8).map(byte).collect()
}

struct Sink(Vec<Vec<u32>>);

impl Decoder for Sink {
    fn push_row(&mut self, changes: &[u32]) {
        self.0.push(changes.to_vec());
    }
}

/// The page gives back its rows, clean, and its length, by either interface.
fn reads_back(settings: DecodeSettings, rows: &[Vec<u32>], page: &[u8]) {
    let mut sink = Sink(Vec::new());
    assert_eq!(decode(page, &mut sink, &mut DecoderContext::new(settings)), Ok(page.len()), "{settings:?}");
    assert_eq!(sink.0, rows);
    let mut count = 0;
    let end = read_page(page, settings, |row| {
        assert_eq!((row.changes, row.mark), (&rows[count][..], Mark::Clean));
        count += 1;
    });
    assert_eq!((end, count), (Ok(page.len()), rows.len()));
}

#[test]
fn pages_read_back() {
    for (columns, count) in [(1, 1), (1, 9), (8, 5), (300, 40), (6_000, 3)] {
        let rows: Vec<Vec<u32>> =
            (0..count).map(|row| (0..columns).filter(|column| (column * 7 + row * 3) % (row % 11 + 1) == 0).collect()).collect();
        for fill in [0, 1, 3, 64] {
            let page = write_group3_1d(columns, &rows, true, fill).unwrap();
            reads_back(settings(EncodingMode::Group3_1D, columns, 0, true), &rows, &page);
            reads_back(settings(EncodingMode::Group3_1D, columns, count, true), &rows, &page);
        }
        let page = write_group3_1d(columns, &rows, false, 0).unwrap();
        reads_back(settings(EncodingMode::Group3_1D, columns, count, false), &rows, &page);
        for k in [1, 2, 4, 65_535] {
            let page = write_group3_2d(columns, &rows, k).unwrap();
            reads_back(settings(EncodingMode::Group3_2D, columns, 0, true), &rows, &page);
            reads_back(settings(EncodingMode::Group3_2D, columns, count, true), &rows, &page);
        }
    }
}
