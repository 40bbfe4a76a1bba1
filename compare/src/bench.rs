//! Times on full pages and on long fill: of the page form against the crate's, of the Rust package against the crate, of the page form's plain engine against its
//! lookup, of the row form and the unit form against the page form, of packed pixels against libtiff's, and of the page writers against a
//! plain one and against libtiff's.
//! Only a library that is linked in can be timed: under an emulator a time says nothing.

use std::io;

mod bitmaps;
mod fill;
mod page;
mod plain_writer;
mod readers;
mod set;
mod timing;
mod writers;

pub fn run() -> io::Result<bool> {
    let pages = crate::checks::other_decoder::texts().ok_or_else(|| io::Error::other("bench: the pages are not at hand"))?;
    readers::run(&pages);
    bitmaps::run(&readers::named(&pages));
    writers::run(&pages);
    Ok(true)
}
