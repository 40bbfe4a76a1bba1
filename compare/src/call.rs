//! One call of the library: what it is given, the arrays that are lent to it, and what comes back.

use crate::settings::{Encoding, Settings};

/// The answer as C has it.
#[repr(C)]
#[derive(Clone, Copy, Debug, Default, PartialEq, Eq)]
pub struct Answer {
    pub number: u32,
    pub mark: u32,
    pub rows: u64,
    pub entries: u64,
    pub loose: u64,
    pub bytes: u64,
    pub place: u64,
}

impl Answer {
    /// A refusal, or whatever else has no counts.
    pub fn bare(number: u32) -> Self {
        Answer { number, ..Answer::default() }
    }
}

#[derive(Clone, Copy, Debug, PartialEq, Eq)]
pub enum Form {
    Page(Encoding),
    ReadLine,
    WriteLine,
    WritePage,
    WriteGroup3(Layout),
}

/// What stands between the lines of a Group 3 page that is written, as the caller says it.
#[derive(Clone, Copy, Debug, PartialEq, Eq)]
pub enum Layout {
    /// A3: 1D lines, with EOLs or without, and so many zeros of fill before each EOL.
    OneD { eols: bool, fill: u32 },
    /// A10: an EOL and a tag bit before each line, a 1D line first, and after each at most K - 1 2D lines.
    TwoD { k: u32 },
}

impl Layout {
    /// As libtiff's encoder has it: without fill, or with K = 2.
    pub fn as_libtiff(self) -> Self {
        match self {
            Layout::OneD { eols, .. } => Layout::OneD { eols, fill: 0 },
            Layout::TwoD { .. } => Layout::TwoD { k: 2 },
        }
    }
}

/// What the library is asked, the lent arrays aside.
#[derive(Clone, Debug)]
pub struct Ask {
    pub form: Form,
    pub settings: Settings,
    pub src: Vec<u8>,
    /// So many zero bytes stand before `src`: how rows lie far behind without sending what is before them.
    pub lead: usize,
    /// So many zero bytes follow `src`, or the output of a writer: how limit 7 is reached without
    /// sending four gigabytes.
    pub tail: usize,
    /// The bit at which a line starts.
    pub at: u64,
    /// The reference of a line, or the changes of a page to be written.
    pub first: Vec<u32>,
    /// The row of a line to be written, or the row ends of a page.
    pub second: Vec<u32>,
}

impl Ask {
    pub fn page(settings: Settings, src: Vec<u8>) -> Self {
        Ask { form: Form::Page(settings.encoding), settings, src, lead: 0, tail: 0, at: 0, first: Vec::new(), second: Vec::new() }
    }

    pub fn read_line(columns: u32, strict: bool, src: Vec<u8>, at: u64, reference: Vec<u32>) -> Self {
        Ask {
            form: Form::ReadLine,
            settings: Settings::of_line(columns, strict),
            src,
            lead: 0,
            tail: 0,
            at,
            first: reference,
            second: Vec::new(),
        }
    }

    pub fn write_line(columns: u32, reference: Vec<u32>, row: Vec<u32>, at: u64) -> Self {
        Ask {
            form: Form::WriteLine,
            settings: Settings::of_line(columns, true),
            src: Vec::new(),
            lead: 0,
            tail: 0,
            at,
            first: reference,
            second: row,
        }
    }

    pub fn write_group3(layout: Layout, columns: u32, changes: Vec<u32>, ends: Vec<u32>) -> Self {
        Ask { form: Form::WriteGroup3(layout), ..Ask::write_page(columns, changes, ends) }
    }

    pub fn write_page(columns: u32, changes: Vec<u32>, ends: Vec<u32>) -> Self {
        Ask {
            form: Form::WritePage,
            settings: Settings::of_line(columns, true),
            src: Vec::new(),
            lead: 0,
            tail: 0,
            at: 0,
            first: changes,
            second: ends,
        }
    }
}

impl Ask {
    /// The data, with the zeros around it.
    pub fn data(&self) -> Vec<u8> {
        with_zeros(self.lead, &self.src, self.tail)
    }
}

/// Bytes with so many zeros before and behind them. Zeroed memory is not touched before it is written, so the zeros cost nothing.
pub fn with_zeros(lead: usize, src: &[u8], tail: usize) -> Vec<u8> {
    let mut long = vec![0; lead + src.len() + tail];
    long[lead..lead + src.len()].copy_from_slice(src);
    long
}

/// How much is lent: changes, row ends and marks to a reader, bytes to a writer.
#[derive(Clone, Copy, Debug, PartialEq, Eq)]
pub enum Room {
    Rows { changes: usize, ends: usize, marks: usize },
    Bytes(usize),
}

/// Entries before, between and behind the lent arrays that belong to nobody: a write beside an array
/// shows.
pub const MARGIN: usize = 2;
/// The same for bytes.
pub const BYTE_MARGIN: usize = 8;

impl Room {
    /// The words lent, laid out as margin, changes, margin, ends, margin.
    pub fn words(self) -> usize {
        match self {
            Room::Rows { changes, ends, .. } => changes + ends + 3 * MARGIN,
            Room::Bytes(_) => 0,
        }
    }

    /// The bytes lent, laid out as margin, marks or output, margin.
    pub fn bytes(self) -> usize {
        let (Room::Rows { marks: length, .. } | Room::Bytes(length)) = self;
        length + 2 * BYTE_MARGIN
    }

    /// Where the changes and the ends lie among the words.
    pub fn places(self) -> (std::ops::Range<usize>, std::ops::Range<usize>) {
        match self {
            Room::Rows { changes, ends, .. } => {
                let ends_at = 2 * MARGIN + changes;
                (MARGIN..MARGIN + changes, ends_at..ends_at + ends)
            }
            Room::Bytes(_) => (0..0, 0..0),
        }
    }
}

/// What every lent entry holds before the call: numbers that no page has by chance.
pub fn pattern(fill: u32, index: usize) -> u32 {
    (index as u32 + 1).wrapping_mul(0x9E37_79B1) ^ fill
}

pub fn pattern_byte(fill: u32, index: usize) -> u8 {
    (pattern(fill, index) >> 24) as u8
}

#[cfg(any(feature = "linked", test))]
fn fill_words(words: &mut [u32], fill: u32) {
    for (index, word) in words.iter_mut().enumerate() {
        *word = pattern(fill, index);
    }
}

#[cfg(any(feature = "linked", test))]
fn fill_bytes(bytes: &mut [u8], fill: u32) {
    for (index, byte) in bytes.iter_mut().enumerate() {
        *byte = pattern_byte(fill, index);
    }
}

/// How a page is read.
#[derive(Clone, Copy, Debug, PartialEq, Eq)]
pub enum Steps {
    /// In one call.
    Whole,
    /// A row at a time (A1), into two line arrays of so many entries; its rows are then gathered in what is lent.
    Rows(usize, usize),
    /// A few units at a time (A9). The page has so many, where that is known.
    Units(Option<u64>),
}

/// One call: what is asked, whether exactly, and by which engine; how much is lent, and what the lent arrays are filled with.
#[derive(Clone, Copy)]
pub struct Call<'a> {
    pub ask: &'a Ask,
    pub exact: bool,
    pub plain: bool,
    #[cfg_attr(not(any(feature = "linked", test)), allow(dead_code))]
    pub steps: Steps,
    pub room: Room,
    pub fill: u32,
}

/// What came back: the answer and every lent entry, margins too.
#[derive(Clone, Copy)]
pub struct Reply<'a> {
    pub answer: Answer,
    pub words: &'a [u32],
    pub bytes: &'a [u8],
}

/// The replies to a batch, in order.
#[derive(Default)]
pub struct Replies {
    answers: Vec<Answer>,
    words: Vec<u32>,
    bytes: Vec<u8>,
    places: Vec<(usize, usize)>,
}

impl Replies {
    /// Lends the words and bytes of the next call, filled, and keeps the answer that `answer` gives.
    #[cfg(any(feature = "linked", test))]
    pub fn lend(&mut self, call: &Call, answer: impl FnOnce(&mut [u32], &mut [u8]) -> Answer) {
        let (word, byte) = (self.words.len(), self.bytes.len());
        self.places.push((word, byte));
        self.words.resize(word + call.room.words(), 0);
        self.bytes.resize(byte + call.room.bytes(), 0);
        let (words, bytes) = (&mut self.words[word..], &mut self.bytes[byte..]);
        fill_words(words, call.fill);
        fill_bytes(bytes, call.fill);
        self.answers.push(answer(words, bytes));
    }

    /// Keeps a reply that came from elsewhere.
    #[cfg(not(feature = "linked"))]
    pub fn keep(&mut self, answer: Answer, words: impl Iterator<Item = u32>, bytes: &[u8]) {
        self.places.push((self.words.len(), self.bytes.len()));
        self.words.extend(words);
        self.bytes.extend_from_slice(bytes);
        self.answers.push(answer);
    }

    pub fn len(&self) -> usize {
        self.answers.len()
    }

    pub fn get(&self, index: usize) -> Reply<'_> {
        let (word, byte) = self.places[index];
        let (word_end, byte_end) = self.places.get(index + 1).copied().unwrap_or((self.words.len(), self.bytes.len()));
        Reply { answer: self.answers[index], words: &self.words[word..word_end], bytes: &self.bytes[byte..byte_end] }
    }
}
