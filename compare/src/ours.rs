//! Our decoder, however it is reached.

use crate::call::{Call, Replies};
use std::io;

/// The library. It is asked in batches, so that a library behind a pipe isn't asked one call at a time.
pub trait Ours: Send {
    /// Answers every call, in order, each with arrays of its own.
    fn answer(&mut self, calls: &[Call]) -> io::Result<Replies>;
}
