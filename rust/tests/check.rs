//! Pages that are checked: proper ones, and those in which end-of-line markers were given up.

use hayro_ccitt::beyond::{Checked, Fault, check, read_page, write_group3_1d, write_group3_2d, write_page};
use hayro_ccitt::{DecodeSettings, EncodingMode};

const COLUMNS: u32 = 40;

fn settings(encoding: EncodingMode) -> DecodeSettings {
    DecodeSettings {
        columns: COLUMNS,
        rows: 0,
        end_of_block: true,
        end_of_line: encoding != EncodingMode::Group4,
        rows_are_byte_aligned: false,
        encoding,
        strict: false,
    }
}

/// Rows that move a little from one to the next, and one that does not.
fn drawn() -> Vec<Vec<u32>> {
    (0..12).map(|n| if n == 7 { vec![] } else { vec![3 + n % 5, 9 + n / 2, 20, 33 - n % 3] }).collect()
}

/// Each page that a writer of the encoding writes for these rows.
fn writings(encoding: EncodingMode, rows: &[Vec<u32>]) -> Vec<Vec<u8>> {
    let written: Vec<Result<Vec<u8>, Fault>> = match encoding {
        EncodingMode::Group4 => vec![write_page(COLUMNS, rows)],
        EncodingMode::Group3_1D => (0..=64).map(|fill| write_group3_1d(COLUMNS, rows, true, fill)).collect(),
        EncodingMode::Group3_2D => (1..=rows.len().max(1) as u32).map(|k| write_group3_2d(COLUMNS, rows, k)).collect(),
    };
    written.into_iter().flatten().collect()
}

/// How many bits two pages share, from the first on.
fn shared(one: &[u8], other: &[u8]) -> u64 {
    let bits = |page: &[u8]| page.iter().flat_map(|byte| (0..8).map(move |n| byte >> (7 - n) & 1)).collect::<Vec<_>>();
    bits(one).iter().zip(&bits(other)).take_while(|(a, b)| a == b).count() as u64
}

#[test]
fn what_is_written_is_proper() {
    for encoding in [EncodingMode::Group4, EncodingMode::Group3_1D, EncodingMode::Group3_2D] {
        for page in writings(encoding, &drawn()) {
            let whole = Checked { bytes: page.len(), gave_up: false, proper: true, parts: 8 * page.len() as u64 };
            assert_eq!(check(&page, settings(encoding)), Ok(whole), "{encoding:?}");
        }
    }
}

/// A page with any one of its bits flipped is proper exactly where a writer writes its bytes for its rows.
#[test]
fn a_flipped_bit_leaves_a_page_proper_only_as_a_writing() {
    let (mut proper, mut improper) = (0, 0);
    for encoding in [EncodingMode::Group4, EncodingMode::Group3_1D, EncodingMode::Group3_2D] {
        let page = writings(encoding, &drawn()).into_iter().nth(3).unwrap_or_else(|| write_page(COLUMNS, drawn()).unwrap());
        for bit in 0..8 * page.len() {
            let mut data = page.clone();
            data[bit / 8] ^= 0x80 >> (bit % 8);
            let mut rows = Vec::new();
            let read = read_page(&data, settings(encoding), |row| rows.push(row.changes.to_vec()));
            let checked = check(&data, settings(encoding));
            assert_eq!(read, checked.map(|c| c.bytes), "{encoding:?}, bit {bit}");
            let Ok(checked) = checked else { continue };
            let written = writings(encoding, &rows).iter().any(|writing| writing[..] == data[..checked.bytes]);
            assert_eq!(checked.proper, written, "{encoding:?}, bit {bit}");
            if encoding == EncodingMode::Group4 {
                let writing = write_page(COLUMNS, &rows).unwrap();
                assert_eq!(checked.parts, shared(&writing, &data[..checked.bytes]), "bit {bit}");
            }
            if checked.proper { proper += 1 } else { improper += 1 }
        }
    }
    assert!(proper > 0 && improper > 100, "{proper} proper, {improper} not");
}

/// The smallest data in which end-of-line markers are given up, and data that agree with them in their first byte, in which they are not.
#[test]
fn given_up() {
    let settings = DecodeSettings { columns: 1, rows: 2, ..settings(EncodingMode::Group3_2D) };
    let told = |data: &[u8]| check(data, settings).map(|c| (c.gave_up, c.proper));
    assert_eq!(told(&[0x0A]), Ok((true, false)));
    assert_eq!(told(&[0x0A, 0x00, 0x25]).map(|t| t.0), Ok(false));
}

#[test]
fn a_fault_is_told() {
    let page = write_page(COLUMNS, drawn()).unwrap();
    let strictly = DecodeSettings { strict: true, ..settings(EncodingMode::Group4) };
    let fault = read_page(&page[..2], strictly, |_| ()).unwrap_err();
    assert_eq!(check(&page[..2], strictly), Err(fault));
}

/// EOLs behind the last row are read with `end_of_block` and without, so where the rows are told a page is proper either way.
#[test]
fn with_and_without_end_of_block() {
    for encoding in [EncodingMode::Group4, EncodingMode::Group3_1D, EncodingMode::Group3_2D] {
        for page in writings(encoding, &drawn()) {
            for end_of_block in [true, false] {
                let told = DecodeSettings { rows: drawn().len() as u32, end_of_block, ..settings(encoding) };
                assert!(check(&page, told).unwrap().proper, "{encoding:?}, {end_of_block}");
            }
        }
    }
}
