//! A stand-in for the library, for testing the measure: the crate reads, and the encoder of this package writes. A fault can be put
//! into it; each must be caught.

use super::ask::{Library, Store};
use crate::call::Layout;
use crate::faults::faults;
use crate::layouts::encoded;
use crate::settings::Settings;
use crate::truth::Outcome;

faults! {
    pub
    RowMissing, OtherRow, MarksAll, ReadsNothing, WritesNothing, WritesAnything, ExactIsLenient,
}

pub struct Standin(pub Fault);

impl Library for Standin {
    fn read(&self, settings: &Settings, exact: bool, src: &[u8], store: &mut Store) {
        let lenient = self.0 == Fault::ExactIsLenient && exact;
        let settings = Settings { strict: settings.strict && !lenient, ..*settings };
        let mut read = if exact && !lenient { Outcome::of_exact_page(&settings, src, 0) } else { Outcome::of_page(&settings, src, 0) };
        match self.0 {
            Fault::RowMissing => {
                read.ends.pop();
            }
            Fault::OtherRow => read.changes.iter_mut().take(1).for_each(|change| *change += 1),
            Fault::MarksAll => read.marks.fill(1),
            Fault::ReadsNothing => read.number = 1,
            _ => {}
        }
        (store.number, store.bytes, store.rows) = (read.number, read.bytes as usize, read.ends.len());
        store.changes[..read.changes.len()].copy_from_slice(&read.changes);
        store.ends.iter_mut().zip(&read.ends).for_each(|(end, &known)| *end = u64::from(known));
        store.marks[..read.marks.len()].copy_from_slice(&read.marks);
    }

    fn written(&self, layout: Option<Layout>, columns: u32, store: &Store) -> Option<Vec<u8>> {
        let rows: Vec<Vec<u32>> = store.all().into_iter().map(<[u32]>::to_vec).collect();
        let mut bytes = encoded(layout, columns, &rows).into_bytes();
        match self.0 {
            Fault::WritesNothing => return None,
            Fault::WritesAnything => bytes[0] ^= 1,
            _ => {}
        }
        Some(bytes)
    }
}
