//! What the copy of the crate gives into which a slip goes.

use crate::call::Ask;
use crate::copies::{number_of, settings_of};
use crate::settings::Settings;
use crate::truth::{Idle, Outcome, Sink};
use hayro_ccitt_slipped as theirs;

impl theirs::Decoder for Sink {
    fn push_row(&mut self, changes: &[u32]) {
        self.push(changes);
    }
}

/// A whole page.
pub fn page(settings: &Settings, src: &[u8]) -> Outcome {
    let mut sink = Sink::default();
    let mut context = theirs::DecoderContext::new(settings_of!(theirs, settings));
    theirs::place::take_units();
    let result = theirs::decode(src, &mut sink, &mut context);
    let (number, place, bytes) =
        result.map_or_else(|error| (number_of!(theirs, error), theirs::place::last() as u64, 0), |bytes| (0, 0, bytes as u64));
    if number != 0 {
        sink.changes.extend_from_slice(context.unfinished());
    }
    let idle = context.idle().map(Idle::of_open_crate);
    let units = theirs::place::take_units();
    Outcome { number, place, bytes, changes: sink.changes, ends: sink.ends, marks: context.marks().to_vec(), idle, units }
}

/// One line.
pub fn line(ask: &Ask) -> Outcome {
    let mut context = theirs::DecoderContext::new(settings_of!(theirs, &ask.settings));
    let result = context.read_line(&ask.src, ask.at as usize, &ask.first);
    let changes = context.unfinished().to_vec();
    match result {
        Ok(bit) => {
            let (ends, marks) = (vec![changes.len() as u32], vec![context.mark()]);
            Outcome { bytes: bit as u64, changes, ends, marks, ..Outcome::bare(0, 0) }
        }
        Err(error) => Outcome { changes, ..Outcome::bare(number_of!(theirs, error), theirs::place::last() as u64) },
    }
}
