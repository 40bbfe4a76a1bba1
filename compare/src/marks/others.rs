//! Other decoders that read the copies: libtiff's, where it is linked in, and netpbm's, where it is at hand.

use super::ask::{Other, OtherRow};
use super::pages::Written;
use crate::call::Layout;
use std::io::Write as _;
use std::process::{Command, Stdio};

/// netpbm's g3topbm reads 1D pages, one a process: of so many copies it is asked about one.
const NETPBM_EVERY: u64 = 100;

/// Those that are at hand.
pub fn at_hand() -> Vec<Box<dyn Other>> {
    let mut list: Vec<Box<dyn Other>> = Vec::new();
    #[cfg(feature = "libtiff")]
    list.push(Box::new(Libtiff));
    if Command::new("g3topbm").arg("--version").stderr(Stdio::null()).stdout(Stdio::null()).status().is_ok() {
        list.push(Box::new(Netpbm));
    }
    list
}

#[cfg(feature = "libtiff")]
struct Libtiff;

#[cfg(feature = "libtiff")]
impl Other for Libtiff {
    fn name(&self) -> &'static str {
        "libtiff"
    }

    fn every(&self) -> u64 {
        1
    }

    fn read(&self, written: Written, columns: u32, rows: usize, src: &[u8]) -> Option<Vec<OtherRow>> {
        use crate::linked::libtiff::{Scheme, read_page};
        let scheme = match written {
            Written::By(None) => Scheme::Group4,
            Written::By(Some(Layout::OneD { .. })) => Scheme::Group3OneD,
            Written::By(Some(Layout::TwoD { .. })) | Written::Filled2D(_) => Scheme::Group3TwoD,
        };
        let (packed, told) = read_page(scheme, columns, rows as u32, src);
        let wide = columns.div_ceil(8) as usize;
        Some(packed.chunks(wide).zip(told).map(|(row, told)| OtherRow { packed: row.to_vec(), told }).collect())
    }
}

struct Netpbm;

impl Other for Netpbm {
    fn name(&self) -> &'static str {
        "netpbm"
    }

    fn every(&self) -> u64 {
        NETPBM_EVERY
    }

    /// It says on standard error that something was wrong, and not in which row: then every row is told.
    fn read(&self, written: Written, columns: u32, rows: usize, src: &[u8]) -> Option<Vec<OtherRow>> {
        let Written::By(Some(Layout::OneD { .. })) = written else { return None };
        let mut process = Command::new("g3topbm")
            .arg(format!("-width={columns}"))
            .stdin(Stdio::piped())
            .stdout(Stdio::piped())
            .stderr(Stdio::piped())
            .spawn()
            .ok()?;
        let mut stdin = process.stdin.take().expect("it was asked for");
        // a page is less than a pipe holds, so that writing all of it first does not wait for a reader
        let _ = stdin.write_all(src);
        drop(stdin);
        let output = process.wait_with_output().ok()?;
        let told = !output.stderr.is_empty() || !output.status.success();
        Some(raster(&output.stdout, columns.div_ceil(8) as usize).into_iter().take(rows).map(|packed| OtherRow { packed, told }).collect())
    }
}

/// The first bytes of each row of a PBM file, which is as wide as the longest line that was read; a narrower one is filled with white.
fn raster(file: &[u8], wide: usize) -> Vec<Vec<u8>> {
    let parts = || {
        let text = file.strip_prefix(b"P4\n")?;
        let end = text.iter().position(|&byte| byte == b'\n')?;
        let width: usize = std::str::from_utf8(&text[..end]).ok()?.split(' ').next()?.parse().ok()?;
        Some((width.div_ceil(8), &text[end + 1..]))
    };
    let Some((stride, rows)) = parts() else { return Vec::new() };
    rows.chunks_exact(stride.max(1)).map(|row| row.iter().copied().chain(std::iter::repeat(0)).take(wide).collect()).collect()
}
