//! libtiff's Group 4 and Group 3 writers, for the bench, and its readers, for the measure of the marks. libtiff.c has the other side.

use std::ops::Range;

/// Where the strip lies in the file; a length of 0 says that there is none.
#[repr(C)]
struct Strip {
    at: usize,
    length: usize,
}

/// How the rows are coded, by the number that libtiff.c has for it.
#[derive(Clone, Copy)]
pub enum Scheme {
    Group3OneD = 1,
    Group3TwoD = 2,
    Group4 = 4,
}

unsafe extern "C" {
    fn libtiff_write_page(
        scheme: u32,
        columns: u32,
        rows: u32,
        packed: *const u8,
        packed_len: usize,
        out: *mut u8,
        out_len: usize,
    ) -> Strip;

    fn libtiff_read_page(
        scheme: u32,
        columns: u32,
        rows: u32,
        strip: *const u8,
        length: usize,
        file: *mut u8,
        packed: *mut u8,
        told: *mut u8,
    ) -> u32;

    fn libtiff_head() -> usize;
}

/// What libtiff reads into: the file that it sees, the packed rows, and of each whether a word was said.
pub struct Room {
    file: Vec<u8>,
    pub packed: Vec<u8>,
    told: Vec<u8>,
}

impl Room {
    pub fn of(columns: u32, rows: u32, bytes: usize) -> Self {
        let (wide, rows) = (columns.div_ceil(8) as usize, rows as usize);
        // SAFETY: it only gives a number.
        let head = unsafe { libtiff_head() };
        Room { file: vec![0; head + bytes], packed: vec![0; rows * wide], told: vec![0; rows] }
    }
}

/// Reads a strip into a room that was made for it; how many rows were given.
pub fn read_into(scheme: Scheme, columns: u32, src: &[u8], room: &mut Room) -> usize {
    let Room { file, packed, told } = room;
    // SAFETY: it only gives a number.
    assert!(
        unsafe { libtiff_head() } + src.len() <= file.len() && told.len() * columns.div_ceil(8) as usize <= packed.len(),
        "there is room"
    );
    // SAFETY: each pointer stands with the length that is told, and the file has room for the strip and its head.
    let given = unsafe {
        let (rows, file, packed, told) = (told.len() as u32, file.as_mut_ptr(), packed.as_mut_ptr(), told.as_mut_ptr());
        libtiff_read_page(scheme as u32, columns, rows, src.as_ptr(), src.len(), file, packed, told)
    };
    given as usize
}

/// Reads a strip: the packed rows that it gave, and of each whether libtiff said a word.
pub fn read_page(scheme: Scheme, columns: u32, rows: u32, src: &[u8]) -> (Vec<u8>, Vec<bool>) {
    let mut room = Room::of(columns, rows, src.len());
    let given = read_into(scheme, columns, src, &mut room);
    let Room { mut packed, told, .. } = room;
    packed.truncate(given * columns.div_ceil(8) as usize);
    (packed, told[..given].iter().map(|&word| word != 0).collect())
}

/// Writes packed rows as a TIFF file of one strip, and says where in the output the strip lies.
pub fn write_page(scheme: Scheme, columns: u32, rows: u32, packed: &[u8], out: &mut [u8]) -> Option<Range<usize>> {
    assert_eq!(packed.len(), rows as usize * columns.div_ceil(8) as usize, "every row is there");
    // SAFETY: each pointer stands with the length of its slice, and libtiff reads no more rows than there are.
    let strip = unsafe { libtiff_write_page(scheme as u32, columns, rows, packed.as_ptr(), packed.len(), out.as_mut_ptr(), out.len()) };
    (strip.length > 0).then(|| strip.at..strip.at + strip.length)
}
