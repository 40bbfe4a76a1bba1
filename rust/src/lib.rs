//! A decoder for CCITT fax-encoded images, with the interface of the crate hayro-ccitt 0.5.0.
//!
//! This crate implements the CCITT Group 3 and Group 4 fax compression algorithms
//! as defined in ITU-T Recommendations T.4 and T.6. These encodings are commonly
//! used for bi-level (black and white) images in PDF documents and fax transmissions.
//!
//! The main entry point is the [`decode`] function, which takes encoded data, a
//! [`DecoderContext`], and outputs each decoded row as a list of color changes
//! through a [`Decoder`] trait that can be implemented according to your needs.
//!
//! The crate is `no_std` compatible but requires an allocator to be available.
//!
//! ```
//! use hayro_ccitt::{DecodeSettings, Decoder, DecoderContext, EncodingMode, decode};
//!
//! struct Rows(Vec<Vec<u32>>);
//!
//! impl Decoder for Rows {
//!     fn push_row(&mut self, changes: &[u32]) {
//!         self.0.push(changes.to_vec());
//!     }
//! }
//!
//! let settings = DecodeSettings {
//!     columns: 8,
//!     rows: 1,
//!     end_of_block: false,
//!     end_of_line: false,
//!     rows_are_byte_aligned: false,
//!     encoding: EncodingMode::Group4,
//!     strict: true,
//! };
//! let mut rows = Rows(Vec::new());
//! let bytes = decode(&[0x31, 0xC0], &mut rows, &mut DecoderContext::new(settings))?;
//! // one row, black from 3 up to 5
//! assert_eq!((bytes, rows.0), (2, vec![vec![3, 5]]));
//! # Ok::<(), hayro_ccitt::DecodeError>(())
//! ```
//!
//! # What is proved
//! The decoder behind this interface is a static library. Each of its functions is
//! proved to meet a contract that settles its whole answer, against definitions
//! written from T.4 and T.6. Rows, byte counts and errors are the crate's, which is
//! shown by running both. [`beyond`] has what the crate has not.
//!
//! # Limits
//! For 4,294,967,295 columns, where the crate's arithmetic would leave its type, and
//! for more than 4,294,967,296 bytes of data the answer is [`DecodeError::Overflow`],
//! without a row. With `rows` 0 a Group 3 page may have more than 4,294,967,295 rows,
//! where the crate's counter wraps and ends the page. A page takes some 40 KiB of
//! stack; on one that has less left the program ends, as it does wherever a stack
//! overflows. The library is for Linux on x86-64 and Arm, with 64 bits.
//!
//! # Safety
//! Unsafe code stands in one module, which lends slices to the library.
//!
//! # License
//! Names, signatures and much of the documentation are hayro-ccitt's, which is
//! licensed under either of the Apache License, Version 2.0, and the MIT license, at
//! your option. The file NOTICE of the repository has both.
//!
//! [`decode`]: crate::decode
//! [`Decoder`]: crate::Decoder

#![no_std]
#![deny(unsafe_code)]
#![forbid(missing_docs)]

extern crate alloc;

pub mod beyond;
mod by_row;
mod context;
mod error;
mod library;
mod page;
mod room;
mod row;
mod settings;

pub use context::DecoderContext;
pub use error::{DecodeError, Result};
pub use settings::{DecodeSettings, EncodingMode};

/// Decode the given image using the provided decoder context and decoder.
///
/// If decoding was successful, the number of bytes that have been read in total
/// is returned.
///
/// If an error is returned, it means that the file is somehow malformed.
/// However, even if that's the case, it is possible that a number
/// of rows were decoded successfully and written into the decoder, so those
/// can still be used, but the image might be truncated.
pub fn decode(data: &[u8], decoder: &mut impl Decoder, ctx: &mut DecoderContext) -> Result<usize> {
    if ctx.settings.columns == 0 {
        return Ok(0);
    }
    let answer = ctx.read(data, |changes| decoder.push_row(changes));
    match answer.number {
        0 => Ok(answer.bytes as usize),
        1 => Err(DecodeError::InvalidCode),
        2 => Err(DecodeError::UnexpectedEof),
        // the limits, too many columns and too many bytes, are of this kind
        3 | 6 | 7 => Err(DecodeError::Overflow),
        number => unreachable!("the library answers {number}"),
    }
}

/// A sink for the rows of a CCITT image.
pub trait Decoder {
    /// Push a decoded row.
    ///
    /// `changes` contains the positions at which the color changes, in strictly
    /// ascending order and each smaller than the number of columns. Each row
    /// starts white, so the pixels from `changes[0]` up to `changes[1]` are
    /// black, those from `changes[2]` up to `changes[3]` again, and so on. If
    /// the number of changes is odd, the row ends black.
    fn push_row(&mut self, changes: &[u32]);
}
