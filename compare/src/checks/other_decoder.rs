//! Pages of text, against what two other fax decoders made of them (recorded/digests.txt).

use crate::call::Ask;
use crate::case::{Case, Source};
use crate::pixels::packed;
use crate::random::Random;
use crate::rooms::page_case;
use crate::settings::{Encoding, Settings};
use crate::sha256::digest;
use crate::truth::Outcome;
use std::path::{Path, PathBuf};

/// The width of the recorded pages.
const COLUMNS: u32 = 1728;

/// A page of text: its data, its settings, and each other decoder with the digest that it gave.
pub struct Text {
    pub name: &'static str,
    pub settings: Settings,
    pub src: Vec<u8>,
    digests: Vec<(&'static str, &'static str)>,
}

pub struct OtherDecoder(pub Vec<Text>);

/// The pages that were recorded, if they are at hand. A page that two decoders read has two lines, one behind the other.
pub fn texts() -> Option<Vec<Text>> {
    let folder = PathBuf::from(std::env::var_os("COMPARE_PAGES")?);
    let mut texts: Vec<Text> = Vec::new();
    for line in include_str!("../../recorded/digests.txt").lines().filter(|line| !line.starts_with('#')) {
        let words: Vec<&str> = line.split(' ').collect();
        let [file, decoder, digest] = words[..] else { panic!("a recorded line is a page, a decoder and a digest") };
        match texts.last_mut() {
            Some(text) if text.name == file => text.digests.push((decoder, digest)),
            _ => texts.push(Text { digests: vec![(decoder, digest)], ..text(&folder, file)? }),
        }
    }
    Some(texts)
}

fn text(folder: &Path, name: &'static str) -> Option<Text> {
    let encoding = if name.ends_with(".g4") { Encoding::Group4 } else { Encoding::Group3OneD };
    let settings = Settings { encoding, end_of_block: true, end_of_line: encoding != Encoding::Group4, ..Settings::of_line(COLUMNS, true) };
    let src = std::fs::read(folder.join(name)).ok()?;
    Some(Text { name, settings, src, digests: Vec::new() })
}

impl Source for OtherDecoder {
    fn name(&self) -> String {
        "pages of text by other decoders".to_string()
    }

    fn count(&self) -> u64 {
        self.0.len() as u64
    }

    fn case(&self, index: u64, random: &mut Random) -> Case {
        let text = &self.0[index as usize];
        let outcome = Outcome::of_page(&text.settings, &text.src, 0);
        let pixels = digest(&packed(COLUMNS, outcome.rows()));
        let other = text.digests.iter().find(|(_, digest)| *digest != pixels);
        page_case(Ask::page(text.settings, text.src.clone()), random)
            .require(other.is_none(), || format!("{}: the crate's pixels are others than those of {other:?}", text.name))
    }

    fn batch(&self) -> u64 {
        1
    }
}
