//! The state of the protocol, and the answer to each frame.

use crate::frame::Frame;
use original::pcp::{MapFunction, relocates};
use original::sdf::Path;
use texts::MAX_PATH_LEN;
use texts::legal::is_legal;

pub const MAX_PAIRS: usize = 64;
pub const MAX_LEGS: usize = 16;

/// The maximum number of bytes of the ends of all legs, before redundant pairs are dropped.
pub const MAX_BYTES: usize = 32_768;

/// The refusals of docs/REQUIREMENTS.md (Validation and refusals), with their numbers.
#[derive(Clone, Copy, Debug, PartialEq, Eq, PartialOrd, Ord)]
#[repr(u8)]
pub enum Refusal {
    TooLong = 1,
    NotLegal = 2,
    NotAnEnd = 3,
    TooMany = 4,
    NoRoom = 5,
    NoPath = 6,
    MadeTooLong = 7,
    MadeNotLegal = 8,
}

/// The payload of an accepted frame.
#[derive(Debug)]
pub enum Payload {
    Nothing,
    Statuses(Vec<u8>),
    Path(Path),
    Count([u8; 4]),
}

impl Payload {
    pub fn bytes(&self) -> &[u8] {
        match self {
            Payload::Nothing => &[],
            Payload::Statuses(statuses) => statuses,
            Payload::Path(path) => path.as_str().as_bytes(),
            Payload::Count(count) => count,
        }
    }
}

#[derive(Default)]
pub struct State {
    /// The open list.
    open: Vec<(Path, Path)>,
    legs: Vec<MapFunction>,
    /// The bytes of the ends of all legs, before redundant pairs were dropped.
    used: usize,
    /// The number of 05 frames that were answered with 00.
    answered: u32,
}

impl State {
    /// Executes one frame. A refused frame changes nothing.
    pub fn answer(&mut self, frame: Frame) -> Result<Payload, Refusal> {
        match frame {
            Frame::Pair { source, target } => self.add(source, target),
            Frame::Statuses => Ok(Payload::Statuses(relocates::statuses(&self.open))),
            Frame::CloseMap => self.close(self.open.clone(), false),
            Frame::CloseRelocates => self.close(self.active(), true),
            Frame::Out(path) => self.out(path),
            Frame::Home(path) => self.home(path),
            Frame::Count => Ok(Payload::Count(self.answered.to_be_bytes())),
        }
    }

    fn add(&mut self, source: &[u8], target: &[u8]) -> Result<Payload, Refusal> {
        let pair = match (end(source), end(target)) {
            (Ok(source), Ok(target)) => (source, target),
            // Each check is made for both ends before the next check, so the smaller number decides.
            (Err(one), Err(other)) => return Err(one.min(other)),
            (Err(refusal), Ok(_)) | (Ok(_), Err(refusal)) => return Err(refusal),
        };
        if self.open.len() == MAX_PAIRS {
            return Err(Refusal::TooMany);
        }
        self.open.push(pair);
        Ok(Payload::Nothing)
    }

    /// The pairs of the open list whose status is Active.
    fn active(&self) -> Vec<(Path, Path)> {
        let statuses = relocates::statuses(&self.open);
        let pairs = self.open.iter().zip(statuses);
        pairs.filter(|(_, status)| *status == 0).map(|(pair, _)| pair.clone()).collect()
    }

    /// Closes the open list: builds a leg with `new` from the pairs, and from `/`→`/` if `with_root` is true.
    fn close(&mut self, mut pairs: Vec<(Path, Path)>, with_root: bool) -> Result<Payload, Refusal> {
        if self.legs.len() == MAX_LEGS {
            return Err(Refusal::TooMany);
        }
        let bytes = |(source, target): &(Path, Path)| source.as_str().len() + target.as_str().len();
        let used = self.used + pairs.iter().map(bytes).sum::<usize>();
        if used > MAX_BYTES {
            return Err(Refusal::NoRoom);
        }
        if with_root {
            pairs.push((Path::abs_root(), Path::abs_root()));
        }
        self.legs.push(MapFunction::new(pairs));
        self.used = used;
        self.open.clear();
        Ok(Payload::Nothing)
    }

    fn out(&mut self, text: &[u8]) -> Result<Payload, Refusal> {
        let step = |path: Path, leg: &MapFunction| check_result(leg.translate_to_target(&path));
        let path = self.legs.iter().try_fold(path(text)?, step)?;
        self.answered = self.answered.saturating_add(1);
        Ok(Payload::Path(path))
    }

    fn home(&self, text: &[u8]) -> Result<Payload, Refusal> {
        let step = |path: Path, leg: &MapFunction| check_result(leg.map_target_to_source(&path));
        self.legs.iter().rev().try_fold(path(text)?, step).map(Payload::Path)
    }
}

/// Validates a path (questions 1 and 2).
fn path(text: &[u8]) -> Result<Path, Refusal> {
    if text.len() > MAX_PATH_LEN {
        return Err(Refusal::TooLong);
    }
    match str::from_utf8(text) {
        // The only legal text that `Path::new` refuses is the empty one.
        Ok("") => Ok(Path::default()),
        Ok(legal) if is_legal(text) => Path::new(legal).map_err(|_| Refusal::NotLegal),
        _ => Err(Refusal::NotLegal),
    }
}

/// Validates an end (questions 1 to 3): "a prim path, `/` or empty".
fn end(text: &[u8]) -> Result<Path, Refusal> {
    let path = path(text)?;
    if text.iter().any(|byte| b"{.".contains(byte)) { Err(Refusal::NotAnEnd) } else { Ok(path) }
}

/// Checks the result of a leg (questions 6 to 8).
fn check_result(path: Option<Path>) -> Result<Path, Refusal> {
    let path = path.ok_or(Refusal::NoPath)?;
    let text = path.as_str().as_bytes();
    if text.len() > MAX_PATH_LEN {
        Err(Refusal::MadeTooLong)
    } else if !is_legal(text) {
        Err(Refusal::MadeNotLegal)
    } else {
        Ok(path)
    }
}

#[cfg(test)]
mod tests {
    use super::State;
    use crate::frame::Frame;

    #[test]
    fn the_count_saturates() {
        let mut state = State { answered: u32::MAX - 1, ..State::default() };
        for _ in 0..3 {
            state.answer(Frame::Out(b"/A")).expect("a path");
            assert_eq!(state.answer(Frame::Count).expect("a count").bytes(), [0xFF; 4]);
        }
    }
}
