//! Pages whose rows, or whose changes, are more than 32 bits count, read by both. It takes minutes and is part of no gate:
//! docs/DIFFERENCES.md says what it gave.

use crate::copies::settings_of;
use crate::linked::{self, repeated::Repeated};
use crate::settings::{Encoding, Settings};
use std::io;
use std::time::Instant;

pub fn run() -> io::Result<bool> {
    Ok(wrapped_rows()? & many_changes()?)
}

/// What a reader gives, each at its last: rows, the end of the last of them, and the bytes.
#[derive(Debug, PartialEq, Eq)]
struct Counted {
    rows: u64,
    last_end: u64,
    bytes: u64,
}

/// The crate's rows, counted.
#[derive(Default)]
struct Sink {
    rows: u64,
    changes: u64,
}

impl hayro_ccitt::Decoder for Sink {
    fn push_row(&mut self, changes: &[u32]) {
        self.rows += 1;
        self.changes += changes.len() as u64;
    }
}

/// Group 3 2D, each row a tag bit and V0: a white row for every two bits, 4,294,967,300 of them. The crate's row counter
/// wraps at 4,294,967,296 and is then `rows`, 0.
fn wrapped_rows() -> io::Result<bool> {
    let settings = Settings { encoding: Encoding::Group3TwoD, ..Settings::of_line(8, true) };
    let src = vec![0x55; 1_073_741_825];
    compare(
        &settings,
        &src,
        Counted { rows: 1 << 32, last_end: 0, bytes: 1_073_741_824 },
        Counted { rows: (1 << 32) + 4, last_end: 0, bytes: 1_073_741_825 },
    )
}

/// Group 4: a row that changes at each of its eight columns, and then the same row again, nine times V0, until the row ends
/// pass 32 bits.
fn many_changes() -> io::Result<bool> {
    let mut src = vec![0xFF; 603_979_788];
    // horizontal: 0 and 1, then three times 1 and 1; V0; five bits of the next row
    src[..7].copy_from_slice(&[0x26, 0xA8, 0x8E, 0x88, 0xE8, 0x8E, 0xBF]);
    let wanted = || Counted { rows: 536_870_918, last_end: 4_294_967_344, bytes: 603_979_788 };
    compare(&Settings::of_line(8, true), &src, wanted(), wanted())
}

fn compare(settings: &Settings, src: &[u8], of_crate: Counted, of_ours: Counted) -> io::Result<bool> {
    println!("{settings}, {} bytes", src.len());
    let gives = by_crate(settings, src)?;
    let ours = by_ours(settings, src, &of_ours)?;
    let well = gives == of_crate && ours == of_ours;
    println!("{}", if well { "as docs/DIFFERENCES.md says" } else { "NOT as docs/DIFFERENCES.md says" });
    Ok(well)
}

fn by_crate(settings: &Settings, src: &[u8]) -> io::Result<Counted> {
    let (began, mut sink) = (Instant::now(), Sink::default());
    let mut context = hayro_ccitt::DecoderContext::new(settings_of!(hayro_ccitt, settings));
    let bytes = hayro_ccitt::decode(src, &mut sink, &mut context).map_err(|error| io::Error::other(format!("the crate: {error:?}")))?;
    Ok(told("the crate", began, Counted { rows: sink.rows, last_end: sink.changes, bytes: bytes as u64 }))
}

/// With as much room as it should need and a little more, of which a block is kept.
fn by_ours(settings: &Settings, src: &[u8], wanted: &Counted) -> io::Result<Counted> {
    let changes = Repeated::new(4 * (wanted.last_end as usize + 8))?;
    let ends = Repeated::new(8 * (wanted.rows as usize + 8))?;
    let marks = Repeated::new(wanted.rows as usize + 8)?;
    let began = Instant::now();
    let answer = linked::page_repeated(settings, src, &changes, &ends, &marks);
    if answer.number != 0 || answer.rows == 0 {
        return Err(io::Error::other(format!("ours: {answer:?}")));
    }
    let last_end = ends.end(answer.rows as usize - 1);
    assert_eq!(last_end, answer.entries, "the last row end is the count of entries");
    Ok(told("ours", began, Counted { rows: answer.rows, last_end, bytes: answer.bytes }))
}

fn told(name: &str, began: Instant, counted: Counted) -> Counted {
    let Counted { rows, last_end, bytes } = &counted;
    println!("  {name}: answer 0, {rows} rows, the last one ends at {last_end}, {bytes} bytes ({:.0} s)", began.elapsed().as_secs_f64());
    counted
}
