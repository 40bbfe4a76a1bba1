//! Rows as pixels, packed as the raster of a PBM file.

/// The pixels of every row, eight to a byte, the first one on top, black 1. Each row begins with a byte,
/// and the bits behind its last pixel are 0.
pub fn packed(columns: u32, rows: impl IntoIterator<Item = impl AsRef<[u32]>>) -> Vec<u8> {
    rows.into_iter().flat_map(|row| packed_row(columns, row.as_ref())).collect()
}

fn packed_row(columns: u32, row: &[u32]) -> Vec<u8> {
    let mut bytes = vec![0; columns.div_ceil(8) as usize];
    for pair in row.chunks(2) {
        for pixel in pair[0]..pair.get(1).copied().unwrap_or(columns) {
            bytes[pixel as usize / 8] |= 128 >> (pixel % 8);
        }
    }
    bytes
}
