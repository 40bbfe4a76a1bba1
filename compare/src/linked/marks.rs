//! The library, for the measure of the marks.

use super::{page, write_page};
use crate::call::Layout;
use crate::marks::ask::{Library, Store};
use crate::settings::Settings;

/// More than any page here takes: a change takes no more bytes than this, and a row and the end no more than that.
const FOR_A_CHANGE: usize = 4;
const FOR_A_ROW: usize = 16;

pub struct LinkedPages;

impl Library for LinkedPages {
    fn read(&self, settings: &Settings, exact: bool, src: &[u8], store: &mut Store) {
        let answer = page(settings, exact, false, src, &mut store.changes, &mut store.ends, &mut store.marks);
        (store.number, store.bytes, store.rows) = (answer.number, answer.bytes as usize, answer.rows as usize);
    }

    fn written(&self, layout: Option<Layout>, columns: u32, store: &Store) -> Option<Vec<u8>> {
        let entries = if store.rows == 0 { 0 } else { store.ends[store.rows - 1] as usize };
        let mut out = vec![0; FOR_A_CHANGE * entries + FOR_A_ROW * (store.rows + 1)];
        let answer = write_page(layout, columns, &store.changes[..entries], &store.ends[..store.rows], &mut out);
        out.truncate(answer.bytes as usize);
        (answer.number == 0).then_some(out)
    }
}
