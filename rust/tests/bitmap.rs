//! Packed pixels: painted as a plain loop over pixels paints them, and read back.

use hayro_ccitt::beyond::{Fault, Ones, from_bitmap, to_bitmap};

/// Pixel by pixel: whether each is black.
fn pixels(columns: u32, row: &[u32]) -> Vec<bool> {
    (0..columns).map(|i| row.iter().filter(|&&change| change <= i).count() % 2 == 1).collect()
}

fn packed(columns: u32, rows: &[Vec<u32>], ones: Ones) -> Vec<u8> {
    let mut bytes = Vec::new();
    for row in rows {
        let mut bits = pixels(columns, row);
        bits.resize(8 * columns.div_ceil(8) as usize, false);
        bytes.extend(bits.chunks(8).map(|byte| byte.iter().fold(0, |sum, &black| 2 * sum + u8::from(black == (ones == Ones::Black)))));
    }
    bytes
}

/// Rows of any width: none, one and all changes among them.
fn drawn(columns: u32) -> Vec<Vec<u32>> {
    let every = |n: usize| (0..columns).step_by(n).collect::<Vec<_>>();
    vec![vec![], vec![0], vec![columns - 1], every(1), every(3), every(7), every(13), every(64), every(65)]
}

#[test]
fn every_width_up_to_200() {
    for columns in 1..=200 {
        let rows = drawn(columns);
        for ones in [Ones::Black, Ones::White] {
            let bytes = to_bitmap(columns, &rows, ones).unwrap();
            assert_eq!(bytes, packed(columns, &rows, ones), "{columns} columns");
            let stride = columns.div_ceil(8) as usize;
            assert_eq!(from_bitmap(columns, rows.len(), &bytes, stride, ones).as_ref(), Ok(&rows));
        }
    }
}

#[test]
fn what_is_behind_the_columns_does_not_matter() {
    for columns in 1..=40 {
        let rows = drawn(columns);
        let stride = columns.div_ceil(8) as usize + 2;
        for noise in [0x00, 0xFF, 0xA5] {
            let mut bytes = vec![noise; stride * rows.len()];
            for (n, row) in rows.iter().enumerate() {
                for (i, black) in pixels(columns, row).into_iter().enumerate() {
                    let (byte, bit) = (n * stride + i / 8, 0x80 >> (i % 8));
                    bytes[byte] = bytes[byte] & !bit | if black { bit } else { 0 };
                }
            }
            assert_eq!(from_bitmap(columns, rows.len(), &bytes, stride, Ones::Black).as_ref(), Ok(&rows));
        }
    }
}

#[test]
fn refusals() {
    let none: [[u32; 0]; 0] = [];
    assert_eq!(to_bitmap(8, none, Ones::Black), Ok(vec![]));
    assert_eq!(to_bitmap(0, none, Ones::Black), Err(Fault::Columns));
    assert_eq!(to_bitmap(u32::MAX, none, Ones::Black), Err(Fault::Columns));
    assert_eq!(to_bitmap(8, [[8]], Ones::Black), Err(Fault::NotARow));
    assert_eq!(to_bitmap(8, [[3, 3]], Ones::Black), Err(Fault::NotARow));
    assert_eq!(from_bitmap(8, 0, &[], 1, Ones::Black), Ok(vec![]));
    assert_eq!(from_bitmap(0, 0, &[], 1, Ones::Black), Err(Fault::Columns));
    assert_eq!(from_bitmap(9, 1, &[0, 0], 1, Ones::Black), Err(Fault::Bitmap));
    assert_eq!(from_bitmap(8, 3, &[0, 0], 1, Ones::Black), Err(Fault::Bitmap));
    assert_eq!(from_bitmap(8, usize::MAX, &[0, 0], 1, Ones::Black), Err(Fault::Bitmap));
}
