//! Whether pages of other encoders are proper (rules: specs/Proper.antt): their bytes are what a writer of the library writes for the
//! rows that are read from them.

use crate::bits::bit_at;
use crate::call::Layout;
use crate::layouts::{is_1d, put_ahead, put_line, reference};
use crate::marks::ask::{Library, Store};
use crate::marks::pages::found;
use crate::settings::{Encoding, Settings};
use std::path::Path;
use std::{fs, io};

/// So many bits are shown from where a page parts from what is written.
const SHOWN: usize = 32;

/// Reads each file of a folder, named NAME.COLUMNS.ROWS.ENCODING (g4, g31 or g32), and prints whether it is proper, or where it parts.
/// True if all are named so.
pub fn run(library: &dyn Library, folder: &str) -> io::Result<bool> {
    let mut files = fs::read_dir(folder)?.map(|entry| Ok(entry?.path())).collect::<io::Result<Vec<_>>>()?;
    files.sort();
    let mut all = true;
    for file in &files {
        let name = file.file_name().and_then(|name| name.to_str()).unwrap_or_default();
        let said = settings(file).map(|settings| judged(library, &settings, &fs::read(file).unwrap_or_default()));
        all &= said.is_some();
        println!("{name}\t{}", said.unwrap_or_else(|| "is not named as a page is".to_string()));
    }
    Ok(all)
}

fn settings(file: &Path) -> Option<Settings> {
    let name = file.file_name()?.to_str()?;
    let mut words = name.rsplit('.');
    let encoding = match words.next()? {
        "g4" => Encoding::Group4,
        "g31" => Encoding::Group3OneD,
        "g32" => Encoding::Group3TwoD,
        _ => return None,
    };
    let rows = words.next()?.parse().ok()?;
    let columns = words.next()?.parse().ok()?;
    let end_of_line = encoding != Encoding::Group4;
    Some(Settings { encoding, rows, end_of_block: true, end_of_line, ..Settings::of_line(columns, true) })
}

/// Exactly, and if that is refused leniently: what is read then is at least near.
fn judged(library: &dyn Library, settings: &Settings, src: &[u8]) -> String {
    let mut store = Store::for_rows(settings.rows as usize + 1, settings.columns as usize);
    library.read(settings, true, src, &mut store);
    let exact = store.number;
    if exact != 0 {
        library.read(&Settings { strict: false, ..*settings }, false, src, &mut store);
    }
    let read = format!("exactly {exact}, {} rows, {} of {} bytes", store.rows, store.bytes, src.len());
    let rows: Vec<Vec<u32>> = store.all().into_iter().map(<[u32]>::to_vec).collect();
    let Some(layout) = found(settings.encoding, settings.columns, src, &store.all()) else { return format!("{read}; no writer is found") };
    let Some(written) = library.written(layout, settings.columns, &store) else { return format!("{read}; the rows are not written") };
    let shared = (0..8 * src.len().min(written.len())).find(|&at| bit_at(src, at) != bit_at(&written, at));
    match shared {
        None if exact == 0 && src == written => format!("{read}; proper, {layout:?}"),
        None => {
            format!("{read}; as {layout:?} up to the shorter one's end; the file has {} bytes, the writer {}", src.len(), written.len())
        }
        Some(at) => {
            let row = row_at(layout, settings.columns, &rows, at);
            format!("{read}; parts from {layout:?} at bit {at}, {row}: has {}, the writer {}", shown(src, at), shown(&written, at))
        }
    }
}

fn shown(bytes: &[u8], at: usize) -> String {
    (at..(at + SHOWN).min(8 * bytes.len())).map(|bit| if bit_at(bytes, bit) { '1' } else { '0' }).collect()
}

/// The row whose line, with what stands before it, has a bit.
fn row_at(layout: Option<Layout>, columns: u32, rows: &[Vec<u32>], at: usize) -> String {
    let mut bits = crate::bits::Bits::default();
    for (index, row) in rows.iter().enumerate() {
        let before = bits.len();
        let above = match layout {
            None => Some(if index == 0 { &[][..] } else { &rows[index - 1][..] }),
            Some(layout) => {
                put_ahead(&mut bits, layout, is_1d(layout, index));
                reference(layout, rows, index)
            }
        };
        put_line(&mut bits, columns, above, row);
        if bits.len() > at {
            return format!("in row {index} of {}, {} bits behind its beginning", rows.len(), at - before);
        }
    }
    format!("behind its {} rows", rows.len())
}
