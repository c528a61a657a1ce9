//! A text, and its path in the original or its refusal.

use crate::tally::Given;
use original::sdf::Path;
use std::fmt::{self, Display};
use texts::MAX_PATH_LEN;
use texts::legal::is_legal;

/// The result of a call, or the number of its refusal.
pub type Answer<T> = Result<T, u8>;

pub const TOO_LONG: u8 = 1;
pub const NOT_LEGAL: u8 = 2;
pub const BUFFER_TOO_SMALL: u8 = 5;
pub const NO_PATH: u8 = 6;
pub const MADE_TOO_LONG: u8 = 7;
pub const MADE_NOT_LEGAL: u8 = 8;

pub struct Text {
    pub bytes: Vec<u8>,
    path: Answer<Path>,
}

impl Text {
    pub fn new(bytes: &[u8]) -> Self {
        Text { bytes: bytes.to_vec(), path: path_of(bytes) }
    }

    pub fn path(&self) -> Option<&Path> {
        self.answer().ok()
    }

    /// The path, or the first failed check of questions 1 and 2.
    pub fn answer(&self) -> Answer<&Path> {
        self.path.as_ref().map_err(|number| *number)
    }
}

/// The input of a call that takes texts.
pub struct Texts<'a>(pub &'a [&'a Text]);

impl Given for Texts<'_> {
    fn size(&self) -> usize {
        self.0.iter().map(|text| text.bytes.len()).sum()
    }
}

impl Display for Texts<'_> {
    fn fmt(&self, f: &mut fmt::Formatter<'_>) -> fmt::Result {
        self.0.iter().try_for_each(|text| write!(f, " \"{}\"", text.bytes.escape_ascii()))
    }
}

/// Validates one text (questions 1 and 2).
pub fn path_of(bytes: &[u8]) -> Answer<Path> {
    if bytes.len() > MAX_PATH_LEN {
        return Err(TOO_LONG);
    }
    if !is_legal(bytes) {
        return Err(NOT_LEGAL);
    }
    // `Path::new` refuses the empty text, whose path is `Path::default`. `facts` checks that it refuses no other.
    Ok(parsed(bytes).unwrap_or_default())
}

/// The path of a legal text in the original; `None` if `Path::new` refuses it.
pub fn parsed(legal: &[u8]) -> Option<Path> {
    let text = str::from_utf8(legal).expect("a legal text is UTF-8");
    Path::new(text).ok()
}

/// The paths of all texts. Question 1 is checked for every text before question 2.
pub fn paths<const N: usize>(texts: [&Text; N]) -> Answer<[&Path; N]> {
    for number in [TOO_LONG, NOT_LEGAL] {
        if texts.iter().any(|text| text.answer() == Err(number)) {
            return Err(number);
        }
    }
    Ok(texts.map(|text| text.path().expect("questions 1 and 2 are answered")))
}
