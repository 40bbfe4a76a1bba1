use super::fault::Fault;
use crate::library::{self, Answer};
use crate::room::longer;
use crate::row::Mark;
use alloc::vec;
use alloc::vec::Vec;

/// One line.
#[derive(Clone, Debug, PartialEq, Eq)]
pub struct Line {
    /// The positions at which the color changes.
    pub changes: Vec<u32>,
    /// How it was read; a line alone is never recovered.
    pub mark: Mark,
    /// The bit after it.
    pub end: u64,
}

/// Reads one 2D line (T.6, or T.4 behind its tag bit) that begins at bit `at` of the data, under a reference line.
///
/// ```
/// use hayro_ccitt::beyond::{Fault, Mark, read_line};
///
/// // horizontal, 3 white and 2 black; then V0 to the end; then, under that line, three times V0
/// let data = [0b0011_0001, 0b1111_1000];
/// let first = read_line(&data, 0, 8, true, &[])?;
/// assert_eq!((first.changes.as_slice(), first.mark, first.end), (&[3, 5][..], Mark::Clean, 10));
/// let second = read_line(&data, first.end, 8, true, &first.changes)?;
/// assert_eq!((second.changes.as_slice(), second.end), (&[3, 5][..], 13));
///
/// assert_eq!(read_line(&data, 0, 8, true, &[5, 3]), Err(Fault::NotARow));
/// # Ok::<(), Fault>(())
/// ```
pub fn read_line(data: &[u8], at: u64, columns: u32, strict: bool, reference: &[u32]) -> Result<Line, Fault> {
    let mut changes = vec![0; reference.len() + 16];
    loop {
        let answer = library::read_line(data, at, columns, strict, reference, &mut changes);
        if answer.number == Answer::NO_ENTRY {
            longer(&mut changes);
            continue;
        }
        Fault::unless_done(&answer)?;
        changes.truncate(answer.entries as usize);
        return Ok(Line { changes, mark: Mark::of(answer.mark), end: answer.bytes });
    }
}
