//! The verdict on a faxed form: pages that count, each reason that one does not, and pages that take more room than is lent at first.

use hayro_ccitt::beyond::BoxColumn::{Tens, Units};
use hayro_ccitt::beyond::{BoxName, Fault, FormFault, Mark, Missing, Reading, Reason, Settings, Verdict, verdict, write_page};
use hayro_ccitt::{DecodeError, DecodeSettings, EncodingMode};

const FORTY: &[u8] = include_bytes!("../../examples/forty.g4");
const SEVENTEEN: &[u8] = include_bytes!("../../examples/seventeen.g31d");

const GROUP_4: DecodeSettings = DecodeSettings {
    columns: 0,
    rows: 0,
    end_of_block: true,
    end_of_line: false,
    rows_are_byte_aligned: false,
    encoding: EncodingMode::Group4,
    strict: false,
};
const GROUP_3: DecodeSettings = DecodeSettings { end_of_line: true, encoding: EncodingMode::Group3_1D, ..GROUP_4 };

/// The booking forms of examples/: twenty lines of boxes behind the given lines.
fn booking(head: &str) -> String {
    let boxes = (0..10).map(|digit| {
        let (top, bottom) = (78 + 31 * digit, 98 + 31 * digit);
        format!("\ntens {digit} 202 224 {top} {bottom}\nunits {digit} 702 724 {top} {bottom}")
    });
    head.to_string() + &boxes.collect::<String>()
}

fn usual() -> String {
    booking("page 1728 400\ntick 20\ndoubt 6")
}

fn counted(heads: u32) -> Verdict {
    Verdict::Counted { heads }
}

fn look_at(number: u32, reason: Reason) -> Verdict {
    Verdict::LookAt { number, reason }
}

fn on_forty(form: &str) -> Verdict {
    verdict(form.as_bytes(), FORTY, Reading::AsTheDesk, GROUP_4)
}

const ALL: [Reading; 4] = [Reading::AsTheDesk, Reading::Leniently, Reading::Strictly, Reading::Exactly];

#[test]
fn the_forms_of_the_examples_count() {
    assert_eq!(Reading::default(), Reading::AsTheDesk);
    for reading in ALL {
        for plain in [false, true] {
            let by = |settings: DecodeSettings| Settings { plain, ..settings.into() };
            assert_eq!(verdict(usual().as_bytes(), FORTY, reading, by(GROUP_4)), counted(40));
            assert_eq!(verdict(usual().as_bytes(), SEVENTEEN, reading, by(GROUP_3)), counted(17));
        }
        // the columns may be said, and so may the rows, with columns or without
        for (columns, rows) in [(1728, 0), (0, 400), (1728, 400)] {
            let settings = DecodeSettings { columns, rows, ..GROUP_4 };
            assert_eq!(verdict(usual().as_bytes(), FORTY, reading, settings), counted(40));
        }
    }
}

/// A line that is damaged above the boxes costs one row, unless it is read strictly. The settings' own words on that are not looked at.
#[test]
fn a_page_is_read_as_it_is_said() {
    let mut damaged = SEVENTEEN.to_vec();
    damaged[800] ^= 0xFF;
    for (strict, exact) in [(false, false), (true, false), (true, true)] {
        let settings = Settings { exact, ..DecodeSettings { strict, ..GROUP_3 }.into() };
        let by = |reading| verdict(usual().as_bytes(), &damaged, reading, settings);
        assert_eq!((by(Reading::AsTheDesk), by(Reading::Leniently)), (counted(17), counted(17)));
        for reading in [Reading::Strictly, Reading::Exactly] {
            assert!(matches!(by(reading), Verdict::LookAt { number: 1, reason: Reason::Unread { fault: Fault::Code { .. }, .. } }));
        }
    }
    // a range of rows and no place serve exact reading alone, which is the desk's of Group 4
    let range = booking("page 1728 377 500\ntick 20");
    let unfit = look_at(41, Reason::Form(FormFault::UnfitForm { least: 377, most: 500 }));
    for (reading, wanted) in ALL.into_iter().zip([counted(40), unfit, unfit, counted(40)]) {
        assert_eq!(verdict(range.as_bytes(), FORTY, reading, GROUP_4), wanted);
    }
    assert_eq!(verdict(range.as_bytes(), SEVENTEEN, Reading::AsTheDesk, GROUP_3), unfit);
    assert_eq!(on_forty(&(range + "\nwhite 0 9 0 9 0")), counted(40));
}

#[test]
fn what_was_not_read_to_its_end_is_looked_at() {
    let form = usual();
    let on = |data: &[u8], settings| verdict(form.as_bytes(), data, Reading::AsTheDesk, settings);
    let unread = |number, fault, row| look_at(number, Reason::Unread { fault, row });
    let code = |error, bit| Fault::Code { error, bit };
    assert_eq!(on(&FORTY[..560], GROUP_4), unread(2, code(DecodeError::UnexpectedEof, 4480), 206));
    assert_eq!(on(&[0x31, 0x80, 0x00], GROUP_4), unread(1, code(DecodeError::InvalidCode, 9), 1));
    assert_eq!(on(FORTY, DecodeSettings { columns: u32::MAX, ..GROUP_4 }), unread(6, Fault::Columns, 1));
    assert_eq!(on(FORTY, DecodeSettings { rows: 401, ..GROUP_4 }), unread(14, Fault::TooFewRows, 401));
    // zeros that are mapped and never looked at
    assert_eq!(on(&vec![0; (1 << 32) + 1], GROUP_4), unread(7, Fault::TooLong, 1));
}

#[test]
fn a_page_of_another_size_is_looked_at() {
    let behind = [FORTY, &[0]].concat();
    let desk = |form: &str, data: &[u8], settings| verdict(form.as_bytes(), data, Reading::AsTheDesk, settings);
    assert_eq!(desk(&usual(), &behind, GROUP_4), look_at(17, Reason::BytesBehind { count: 1 }));
    let twice = [FORTY, FORTY].concat();
    assert_eq!(desk(&usual(), &twice, GROUP_4), look_at(17, Reason::BytesBehind { count: 972 }));
    let (wide, long) = (booking("page 1729 400\ntick 20"), booking("page 1728 401 500\ntick 20"));
    let other = Reason::OtherColumns { columns: 1728, form: 1729 };
    assert_eq!(desk(&wide, FORTY, DecodeSettings { columns: 1728, ..GROUP_4 }), look_at(16, other));
    assert_eq!(desk(&long, FORTY, GROUP_4), look_at(18, Reason::OtherRows { count: 400, least: 401, most: 500 }));
    assert_eq!(desk(&usual(), &[], GROUP_4), look_at(18, Reason::OtherRows { count: 0, least: 400, most: 400 }));
}

#[test]
fn boxes_and_places_are_looked_at() {
    let none = |column| look_at(12, Reason::NotOneTick { column, count: 0 });
    // a tick of the examples has 54 black pixels
    assert_eq!(on_forty(&booking("page 1728 400\ntick 60\ndoubt 55")), none(Tens));
    let in_doubt = Reason::InDoubt { tick_box: BoxName { column: Units, digit: 0 }, count: 54, doubt: 54, tick: 60 };
    assert_eq!(on_forty(&booking("page 1728 400\ntick 60\ndoubt 54")), look_at(22, in_doubt));
    // one box moved to where nothing is, another to a second tick
    assert_eq!(on_forty(&usual().replace("units 0 702 724 78 98", "units 0 0 9 0 9")), none(Units));
    let two =
        usual().replace("tens 4 202 224 202 222", "tens 4 212 224 202 222").replace("tens 5 202 224 233 253", "tens 5 202 212 202 222");
    assert_eq!(on_forty(&two.replace("tick 20\ndoubt 6", "tick 9")), look_at(12, Reason::NotOneTick { column: Tens, count: 2 }));
    let place = |line: &str| on_forty(&(usual() + line));
    assert_eq!(place("\nblack 0 9 0 9 1"), look_at(20, Reason::NotBlack { line: 24, count: 0, least: 1 }));
    assert_eq!(place("\n# a comment\nwhite 202 224 202 222 53"), look_at(21, Reason::NotWhite { line: 25, count: 54, most: 53 }));
    assert_eq!(place("\nwhite 202 224 202 222 54\nblack 202 224 202 222 54"), counted(40));
}

/// Whichever byte of this page is damaged, no other number is counted, and a row that was not read clean is told where the form looks at it.
#[test]
fn damage_is_not_another_number() {
    let form = usual() + "\nwhite 0 9 10 20 0";
    let (mut mended, mut unclean) = (0, 0);
    for at in 0..SEVENTEEN.len() {
        let mut damaged = SEVENTEEN.to_vec();
        damaged[at] ^= 0xFF;
        match verdict(form.as_bytes(), &damaged, Reading::AsTheDesk, GROUP_3) {
            Verdict::Counted { heads } => assert_eq!(heads, 17, "byte {at}"),
            Verdict::LookAt { number: 13, reason: Reason::MendedRow { tick_box, row, mark } } => {
                let top = 78 + 31 * u64::from(tick_box.digit);
                assert!((top + 1..=top + 20).contains(&row) && mark != Mark::Clean && tick_box.column == Tens, "byte {at}");
                mended += 1;
            }
            Verdict::LookAt { number: 19, reason: Reason::UncleanRow { row, mark } } => {
                assert!((11..=20).contains(&row) && mark != Mark::Clean, "byte {at}");
                unclean += 1;
            }
            Verdict::LookAt { number, reason } => assert!(number != 13 && number != 19, "byte {at}: {reason}"),
        }
    }
    assert!(mended > 100 && unclean > 10, "{mended} and {unclean}");
}

#[test]
fn no_page_is_read_by_a_form_that_is_none() {
    let none = |number, fault| look_at(number, Reason::Form(fault));
    let missing = |what| none(36, FormFault::MissingLine(what));
    for (form, wanted) in [
        // the boxes alone, as forms were before there was a verdict
        (booking(""), missing(Missing::Page)),
        (booking("page 1728 400"), missing(Missing::Tick)),
        (usual().replace("units 7", "# units 7"), missing(Missing::Box(BoxName { column: Units, digit: 7 }))),
        (usual().replace("tick", "tack"), none(32, FormFault::NoFormLine { line: 2 })),
        (usual() + "\ntens 4 0 9 0 9", none(33, FormFault::SaidTwice { line: 24 })),
        (usual().replace("tens 0 202 224", "tens 0 224 202"), none(34, FormFault::BadNumbers { line: 4 })),
        (usual().replace("doubt 6", "doubt 21"), none(34, FormFault::DoubtAboveTick)),
        (usual() + &"\nwhite 0 9 0 9 0".repeat(257), none(35, FormFault::TooManyPlaces { line: 280 })),
        (usual().replace("page 1728 400", "page 1728 376"), none(37, FormFault::OutsidePage { line: 22 })),
        (usual() + "\nblack 1700 1729 0 9 0", none(37, FormFault::OutsidePage { line: 24 })),
        (usual().replace("units 1 702 724 109", "units 1 702 724 97"), none(38, FormFault::Overlapping { line: 7 })),
        (" ".repeat(65_537), none(40, FormFault::LongForm)),
    ] {
        assert_eq!(on_forty(&form), wanted);
    }
    assert_eq!(on_forty(&(usual() + &"\nwhite 0 9 0 9 0".repeat(256))), counted(40));
}

#[test]
fn reasons_have_words() {
    for (form, words) in [
        (booking("page 1728 400\ntick 60"), "the tens column has no tick"),
        (booking("page 1728 401\ntick 20"), "the page has 400 rows, and the form's page has 401"),
        (usual() + "\nblack 0 9 0 9 1", "the place of the form's line 24 has 0 black pixels, and must have 1 or more"),
        (booking("page 1728 400\ntick 60\ndoubt 6"), "the box of units 0 has 54 black pixels: in doubt from 6 on, ticked from 60 on"),
        (usual().replace("units 7", "# units 7"), "the form has no box of units 7"),
    ] {
        let Verdict::LookAt { reason, .. } = on_forty(&form) else { panic!("counted, where {words}") };
        assert_eq!(reason.to_string(), words);
    }
}

/// A form of four columns, whose digits have a row each, below so many others.
fn narrow(head: &str, above: u32) -> String {
    let boxes = (0..10).map(|digit| {
        let (top, bottom) = (above + digit, above + digit + 1);
        format!("tens {digit} 0 1 {top} {bottom}\nunits {digit} 2 3 {top} {bottom}\n")
    });
    format!("page 4 {}\ntick 1\n{head}\n", above + 10) + &boxes.collect::<String>()
}

/// Forty, as a writer has it; and with its second row in horizontal mode, where a writer has three times V0.
#[test]
fn a_page_that_is_not_proper_is_looked_at() {
    let own = [0x09, 0x78, 0xF2, 0x6A, 0xA3, 0xF0, 0x01, 0x00, 0x10];
    let horizontal = [0x09, 0x4B, 0xA8, 0xF2, 0x6A, 0xA3, 0xF0, 0x01, 0x00, 0x10];
    let reason = Reason::NotProper { place: 10 };
    assert_eq!(reason.to_string(), "the page's bits are not those that a writer writes for its rows: they part at bit 10");
    for reading in ALL {
        let on = |head, data: &[u8]| verdict(narrow(head, 1).as_bytes(), data, reading, GROUP_4);
        assert_eq!(on("", &own), counted(40));
        assert_eq!(on("", &horizontal), counted(40));
        assert_eq!(on("proper", &own), counted(40));
        assert_eq!(on("proper", &horizontal), look_at(24, reason));
    }
    assert_eq!(on_forty(&(usual() + "\nproper")), counted(40));
    assert_eq!(on_forty(&(usual() + "\nproper 1")), look_at(32, Reason::Form(FormFault::NoFormLine { line: 24 })));
    assert_eq!(on_forty(&(usual() + "\nproper\nproper")), look_at(33, Reason::Form(FormFault::SaidTwice { line: 25 })));
}

/// An end-of-line mark before the first row, and none behind it.
#[test]
fn marks_that_are_given_up_are_looked_at() {
    let page = [0x00, 0x17, 0x43, 0xDD, 0xD9, 0xAA, 0x8B, 0xBB, 0xBB];
    let form = narrow("", 0);
    assert_eq!(Reason::GaveUp.to_string(), "the page's end-of-line marks stop before its end");
    for reading in [Reading::AsTheDesk, Reading::Leniently] {
        assert_eq!(verdict(form.as_bytes(), &page, reading, GROUP_3), look_at(23, Reason::GaveUp));
    }
}

/// A form whose boxes are a row high and two columns wide, but for those of tens 4 and units 0, which are higher.
fn high_boxes(columns: u32, rows: usize) -> String {
    let mut form = format!("page {columns} {rows}\ntick 5\n");
    for (column, left, ticked) in [("tens", 0, 4), ("units", 10, 0)] {
        for digit in 0..10 {
            let (right, top, height) = (left + 2, 10 * digit, if digit == ticked { 5 } else { 1 });
            form += &format!("{column} {digit} {left} {right} {top} {}\n", top + height);
        }
    }
    form
}

/// More than 4,194,304 changes, and then more than 65,536 rows: the room that is lent at first.
#[test]
fn room_grows_with_the_page() {
    // every second pixel is black
    let striped: Vec<u32> = (0..4_000).collect();
    let desk = |rows: &[&[u32]]| {
        let page = write_page(4_000, rows).unwrap();
        verdict(high_boxes(4_000, rows.len()).as_bytes(), &page, Reading::AsTheDesk, GROUP_4)
    };
    assert_eq!(desk(&[&striped[..]; 1_100]), counted(40));
    let mut long = vec![&[][..]; 300_000];
    long[..100].fill(&striped);
    assert_eq!(desk(&long), counted(40));
    long[1_000..2_100].fill(&striped);
    assert_eq!(desk(&long), counted(40));
    // rows that no form has are counted too
    let settings = DecodeSettings { end_of_block: false, ..GROUP_4 };
    let rows = Reason::OtherRows { count: 80_000, least: 400, most: 400 };
    assert_eq!(verdict(usual().as_bytes(), &[0xFF; 10_000], Reading::AsTheDesk, settings), look_at(18, rows));
}
