//! The codes of T.4, as another encoder writes them: recorded/codes.txt has its code for every run.

use std::sync::LazyLock;

#[derive(Clone, Copy, Debug, PartialEq, Eq)]
pub enum Colour {
    White,
    Black,
}

impl Colour {
    pub fn other(self) -> Self {
        match self {
            Colour::White => Colour::Black,
            Colour::Black => Colour::White,
        }
    }

    fn index(self) -> usize {
        match self {
            Colour::White => 0,
            Colour::Black => 1,
        }
    }
}

/// The longest run that was recorded, and the longest make-up code of T.4, which the writers repeat.
pub const LONGEST: u32 = 2560;
/// The longest make-up code that each colour has of its own; other writers use none above it.
pub const LONGEST_OWN: u32 = 1728;

/// EOL without fill.
pub const EOL: &str = "000000000001";

static RECORDED: LazyLock<Vec<[&str; 2]>> = LazyLock::new(|| {
    let lines = include_str!("../recorded/codes.txt").lines().filter(|line| !line.starts_with('#'));
    lines.enumerate().map(|(run, line)| parse(run, line)).collect()
});

fn parse(run: usize, line: &'static str) -> [&'static str; 2] {
    let mut parts = line.split(' ');
    assert_eq!(parts.next(), Some(run.to_string().as_str()), "the runs are recorded in order");
    [0, 1].map(|_| parts.next().expect("a line has two codes"))
}

/// The whole code of a run up to 2560: a make-up code if there is one, and a terminating code.
pub fn whole(colour: Colour, run: u32) -> &'static str {
    RECORDED[run as usize][colour.index()]
}

/// The code of a run below 64.
pub fn terminating(colour: Colour, run: u32) -> &'static str {
    assert!(run < 64);
    whole(colour, run)
}

/// The make-up code of a multiple of 64 up to 2560: its whole code without the terminating code of 0.
pub fn make_up(colour: Colour, run: u32) -> &'static str {
    assert!(run >= 64 && run.is_multiple_of(64));
    let code = whole(colour, run);
    code.strip_suffix(terminating(colour, 0)).expect("a multiple of 64 ends with the code of 0")
}
