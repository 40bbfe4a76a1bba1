//! Written pages, against what other fax programs read from them and write for their rows
//! (recorded/written.txt, recorded/group3_1d.txt, recorded/group3_2d.txt).

use crate::case::{Case, Source};
use crate::listed::{COUNT, LISTS, List, ListedPage};
use crate::pixels::packed;
use crate::random::Random;
use crate::sha256::digest;

/// A list's pages, with the recorded lines in their order. A line has the page's number, columns and
/// rows, the digest of its bytes, those of the pixels which the other decoders read, and that of the bytes
/// which the other encoder writes.
pub struct ListedPages {
    list: List,
    lines: Vec<String>,
}

impl ListedPages {
    pub fn recorded(list: List) -> Self {
        let text = match list {
            List::Group4 => include_str!("../../recorded/written.txt"),
            List::Group3OneD => include_str!("../../recorded/group3_1d.txt"),
            List::Group3TwoD => include_str!("../../recorded/group3_2d.txt"),
        };
        let lines = text.lines().filter(|line| !line.starts_with('#'));
        ListedPages { list, lines: lines.map(str::to_string).collect() }
    }

    pub fn all() -> impl Iterator<Item = Box<dyn Source>> {
        LISTS.into_iter().map(|list| Box::new(ListedPages::recorded(list)) as Box<dyn Source>)
    }
}

impl Source for ListedPages {
    fn name(&self) -> String {
        match self.list {
            List::Group4 => "written pages by another decoder and encoder",
            List::Group3OneD => "written Group 3 1D pages by two other decoders and an encoder",
            List::Group3TwoD => "written Group 3 2D pages by another decoder and encoder",
        }
        .to_string()
    }

    /// A page without a line counts too, and fails.
    fn count(&self) -> u64 {
        COUNT as u64
    }

    fn case(&self, index: u64, random: &mut Random) -> Case {
        let page = ListedPage::of(self.list, index as usize);
        let name = page.file_name();
        let line = self.lines.get(index as usize).map_or("", String::as_str);
        let words: Vec<&str> = line.split(' ').collect();
        let readers = self.list.readers();
        let anew = format!("{index} {} {} {}", page.columns, page.rows.len(), digest(&page.bytes()));
        let made = words.len() == 5 + readers.len() && words[..4].join(" ") == anew;
        let mut case = page.case(random).require(made, || format!("{name}: this is not the page that was recorded"));
        let pixels = digest(&packed(page.columns, &page.rows));
        for (reader, read) in readers.iter().zip(words.iter().skip(4)) {
            case = case.require(*read == pixels, || format!("{name}: {reader} read other rows"));
        }
        let encoded = digest(&page.by_libtiff());
        case.require(words.last() == Some(&encoded.as_str()), || format!("{name}: libtiff writes other bytes"))
    }
}

#[cfg(test)]
mod tests {
    use super::ListedPages;
    use crate::check;
    use crate::listed::{LISTS, List};
    use crate::standin::Standin;
    use crate::standin::fault::Fault;
    use crate::tally::Tally;

    fn tally(pages: &ListedPages, fault: Fault) -> Tally {
        check::run(pages, 7, &mut [Box::new(Standin(fault))])
    }

    /// The words that a record has behind the page's own, and what is said where one is wrong.
    fn complaints(list: List) -> Vec<String> {
        let mut all = vec!["is not the page".to_string(), "is not the page".to_string()];
        all.extend(list.readers().iter().map(|reader| format!("{reader} read other rows")));
        all.push("libtiff writes other bytes".to_string());
        all
    }

    /// A line with a wrong number of rows or a wrong digest fails its own page and no other.
    #[test]
    fn a_wrong_record_is_caught() {
        for list in LISTS {
            for (complaint, word) in complaints(list).into_iter().zip(2..) {
                let mut pages = ListedPages::recorded(list);
                let mut words: Vec<String> = pages.lines[17].split(' ').map(str::to_string).collect();
                let last = words[word].pop();
                words[word].push(if last == Some('0') { '1' } else { '0' });
                pages.lines[17] = words.join(" ");
                let tally = tally(&pages, Fault::None);
                let (_, text) = tally.smallest.expect("a page differs");
                assert!(tally.differing == 1 && text.contains("017-") && text.contains(&complaint), "word {word}: {text}");
            }
        }
    }

    #[test]
    fn a_missing_record_is_caught() {
        for list in LISTS {
            let mut pages = ListedPages::recorded(list);
            pages.lines.pop();
            assert_eq!(tally(&pages, Fault::None).differing, 1);
        }
    }

    #[test]
    fn a_wrong_bit_of_the_library_is_caught() {
        for list in LISTS {
            assert!(!tally(&ListedPages::recorded(list), Fault::WrittenBit).passed());
        }
    }
}
