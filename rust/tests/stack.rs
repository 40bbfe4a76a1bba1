//! On a stack that is too short a call ends the program at the page that guards the stack, and writes nothing behind it. The forms in steps need little of it.

use hayro_ccitt::beyond::{Rows, Units, read_line, write_page};
use hayro_ccitt::{DecodeSettings, Decoder, DecoderContext, EncodingMode, decode};
use std::ffi::OsString;
use std::hint::black_box;
use std::num::NonZeroU64;
use std::process::Command;
use std::{env, thread};

/// Set in the program that is to end.
const ENDS: &str = "CCITT_TEST_ENDS";

struct Nothing;

impl Decoder for Nothing {
    fn push_row(&mut self, _: &[u32]) {}
}

/// Reads a page with ever less of the stack left.
fn read_deeper(context: &mut DecoderContext) -> usize {
    let frame = black_box([1; 500]);
    let read = decode(&[0xFF; 3], &mut Nothing, context);
    assert_eq!(read, Ok(3));
    read_deeper(context) + black_box(frame).len()
}

/// The words by which cargo was told to start programs for this processor, where it is another one than the machine's.
fn runner() -> Vec<OsString> {
    let name = format!("CARGO_TARGET_{}_UNKNOWN_LINUX_GNU_RUNNER", env::consts::ARCH.to_uppercase());
    env::var(name).unwrap_or_default().split_whitespace().map(OsString::from).collect()
}

#[test]
fn a_short_stack_ends_the_program() {
    if env::var_os(ENDS).is_some() {
        let settings = DecodeSettings {
            columns: 8,
            rows: 0,
            end_of_block: false,
            end_of_line: false,
            rows_are_byte_aligned: false,
            encoding: EncodingMode::Group4,
            strict: true,
        };
        let reading = thread::Builder::new().stack_size(256 * 1024).spawn(move || read_deeper(&mut DecoderContext::new(settings)));
        panic!("it ends with {:?}", reading.unwrap().join());
    }
    let program = env::current_exe().unwrap().into_os_string();
    let words: Vec<OsString> = runner().into_iter().chain([program]).collect();
    let mut again = Command::new(&words[0]);
    again.args(&words[1..]).args(["a_short_stack_ends_the_program", "--exact", "--nocapture"]);
    let ended = again.env(ENDS, "").output().unwrap();
    let said = String::from_utf8_lossy(&ended.stderr);
    assert!(!ended.status.success() && said.contains("has overflowed its stack"), "{}: {said}", ended.status);
}

/// They build no table: the two lookups alone have 32 KiB, which is all the stack that there is here.
#[test]
fn the_forms_in_steps_build_no_table() {
    let rows: Vec<Vec<u32>> = (0..40).map(|n| vec![n, n + 3, 50 + n % 7, 200]).collect();
    let page = write_page(400, &rows).unwrap();
    let settings = DecodeSettings {
        columns: 400,
        rows: 0,
        end_of_block: true,
        end_of_line: false,
        rows_are_byte_aligned: false,
        encoding: EncodingMode::Group4,
        strict: true,
    };
    let reading = thread::Builder::new().stack_size(32 * 1024).spawn(move || {
        let by_row = Rows::new(&page, settings).map(|row| row.unwrap().changes).collect::<Vec<_>>();
        let line = read_line(&page, 0, 400, true, &[]).unwrap().changes;
        let mut units = Units::new(&page, settings);
        while units.read(NonZeroU64::new(16).unwrap()).more {}
        assert!(matches!(units.end(), Some(Ok(_))));
        (by_row, line)
    });
    let (by_row, line) = reading.unwrap().join().unwrap();
    assert_eq!(by_row, rows);
    assert_eq!(line, rows[0]);
}
