//! What is asked about a copy of a form, and what is answered.

use crate::settings::Settings;

/// The verdict as C has it.
#[repr(C)]
#[derive(Clone, Copy, Debug, Default, PartialEq, Eq)]
pub struct Verdict {
    pub number: u32,
    pub heads: u32,
    pub which: u32,
    pub line: u32,
    pub rows: u64,
    pub bytes: u64,
    pub place: u64,
    pub row: u64,
    pub count: u64,
    pub least: u64,
    pub most: u64,
}

/// How the desk's tests have a page read: the place in the list is the library's number for it.
pub const READINGS: [&str; 4] = ["as the desk", "leniently", "strictly", "exactly"];
/// How the old tests had it read: which of the readings above that is, and whether it is strict.
pub const OLD_READINGS: [(usize, bool); 2] = [(1, false), (2, true)];

/// A form, as a form file and as `ccitt_heads` takes it, and a page.
#[derive(Clone, Copy)]
pub struct Ask<'a> {
    pub text: &'a str,
    pub boxes: &'a [u32],
    pub tick: u64,
    pub settings: Settings,
    pub src: &'a [u8],
}

/// A number and, where it is 0, the heads.
#[derive(Clone, Copy, Debug, PartialEq, Eq)]
pub struct Told {
    pub number: u32,
    pub heads: u32,
}

/// By the desk's tests and by the old ones alone, in each reading.
#[derive(Clone, Copy, Debug)]
pub struct Judged {
    pub desk: [Told; READINGS.len()],
    pub old: [Told; OLD_READINGS.len()],
}

/// The library, or who stands in for it.
pub trait Desk: Sync {
    /// Judges every one, in order.
    fn judge(&self, asks: &[Ask]) -> Vec<Judged>;
}
