//! Refusals, the errors of this crate.

use crate::ffi::Reply;
use std::error::Error;
use std::fmt;

/// The result of a call that can be refused.
///
/// ```
/// fn shorter(text: &str) -> mudvizsor::Result<mudvizsor::Path> {
///     mudvizsor::Path::new(text)?.parent()
/// }
/// assert_eq!(shorter("/Line7/Quay").unwrap().as_str(), "/Line7");
/// ```
pub type Result<T> = std::result::Result<T, Refusal>;

/// Why a call is refused. The discriminant is the number of the check that failed (`docs/REQUIREMENTS.md`, Validation and
/// refusals).
///
/// ```
/// use mudvizsor::{Path, Refusal};
///
/// let refusal = Path::new("/Line7//Quay").unwrap_err();
/// assert_eq!(refusal, Refusal::NotLegal);
/// assert_eq!(refusal as u8, 2);
/// assert_eq!(refusal.to_string(), "the text is not a legal path");
/// ```
#[derive(Debug, Clone, Copy, PartialEq, Eq, PartialOrd, Ord, Hash)]
#[repr(u8)]
pub enum Refusal {
    /// A path text is longer than 255 bytes.
    TooLong = 1,
    /// A text is not a legal path.
    NotLegal = 2,
    /// An end of a pair is neither a prim path nor `/` nor empty.
    NotAnEnd = 3,
    /// A list has more than 64 pairs, or a route more than 16 legs.
    TooMany = 4,
    /// A lent buffer is too small. The types of this crate lend large enough buffers, so only the functions in
    /// [`ffi`](crate::ffi) return it.
    NoRoom = 5,
    /// There is no resulting path.
    NoPath = 6,
    /// A resulting path is longer than 255 bytes.
    MadeTooLong = 7,
    /// A resulting path is not legal.
    MadeNotLegal = 8,
    /// A frame is not well formed. It occurs only in the answer lines of [`Frames`](crate::Frames).
    BadFrame = 9,
}

impl Refusal {
    /// All refusals, in the order of their numbers.
    ///
    /// ```
    /// # use mudvizsor::Refusal;
    /// for (i, refusal) in Refusal::ALL.into_iter().enumerate() {
    ///     assert_eq!(usize::from(refusal.number()), i + 1);
    /// }
    /// ```
    pub const ALL: [Refusal; 9] = [
        Refusal::TooLong,
        Refusal::NotLegal,
        Refusal::NotAnEnd,
        Refusal::TooMany,
        Refusal::NoRoom,
        Refusal::NoPath,
        Refusal::MadeTooLong,
        Refusal::MadeNotLegal,
        Refusal::BadFrame,
    ];

    /// Returns the number of the refusal, from 1 to 9.
    ///
    /// ```
    /// # use mudvizsor::Refusal;
    /// assert_eq!(Refusal::NoPath.number(), 6);
    /// ```
    pub fn number(self) -> u8 {
        self as u8
    }

    /// Returns the refusal with this number; `None` if there is none.
    ///
    /// ```
    /// # use mudvizsor::Refusal;
    /// assert_eq!(Refusal::from_number(6), Some(Refusal::NoPath));
    /// assert_eq!(Refusal::from_number(0), None);
    /// ```
    pub fn from_number(number: u8) -> Option<Self> {
        Refusal::ALL.into_iter().find(|refusal| refusal.number() == number)
    }
}

impl fmt::Display for Refusal {
    fn fmt(&self, f: &mut fmt::Formatter) -> fmt::Result {
        f.write_str(match self {
            Refusal::TooLong => "the path text is longer than 255 bytes",
            Refusal::NotLegal => "the text is not a legal path",
            Refusal::NotAnEnd => "the end of a pair is not a prim path, `/` or empty",
            Refusal::TooMany => "the list has more than 64 pairs, or the route more than 16 legs",
            Refusal::NoRoom => "the lent memory is too little",
            Refusal::NoPath => "no path",
            Refusal::MadeTooLong => "the path made is longer than 255 bytes",
            Refusal::MadeNotLegal => "the path made is not legal",
            Refusal::BadFrame => "the frame is not well formed",
        })
    }
}

impl Error for Refusal {}

/// Returns the value of a successful reply, or the refusal.
pub(crate) fn read(reply: Reply) -> Result<usize> {
    match reply.number() {
        0 => Ok(reply.value()),
        number => Err(refusal_of(number)),
    }
}

/// Returns the value of a reply that is never a refusal, since all texts have been validated.
pub(crate) fn accepted(reply: Reply) -> usize {
    never_refused(read(reply))
}

/// Returns the result of a call that is never refused, since all texts have been validated.
pub(crate) fn never_refused<T>(answer: Result<T>) -> T {
    answer.unwrap_or_else(|refusal| unreachable!("validated texts were refused: {refusal}"))
}

/// Returns the refusal with a number that the library returned.
fn refusal_of(number: usize) -> Refusal {
    let refusal = u8::try_from(number).ok().and_then(Refusal::from_number);
    refusal.unwrap_or_else(|| unreachable!("the library returned the unknown number {number}"))
}

#[cfg(test)]
mod tests {
    use super::*;

    #[test]
    fn numbers_round_trip() {
        for number in 0..=255 {
            let refusal = Refusal::from_number(number);
            assert_eq!(refusal.is_some(), (1..=9).contains(&number));
            assert_eq!(refusal.map_or(number, Refusal::number), number);
        }
    }

    #[test]
    fn replies_are_read() {
        assert_eq!(read(Reply::answer(0)), Ok(0));
        assert_eq!(read(Reply::answer(255)), Ok(255));
        assert_eq!(read(Reply::refusal(7)), Err(Refusal::MadeTooLong));
        assert_eq!(accepted(Reply::answer(3)), 3);
    }

    #[test]
    #[should_panic(expected = "validated texts were refused")]
    fn accepted_panics_on_a_refusal() {
        accepted(Reply::refusal(2));
    }

    #[test]
    fn it_is_an_error() {
        let error: Box<dyn Error + Send + Sync> = Refusal::NoPath.into();
        assert_eq!(error.to_string(), "no path");
    }
}
