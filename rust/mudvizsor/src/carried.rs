//! A mapped path together with what was carried over unaltered.

use crate::ffi::Reply;
use crate::path::{MAX_PATH_LEN, Path};
use crate::refusal::{Result, read};
use std::ops::Range;

/// A path made by mapping another one, and the rest: the end of the given path that was carried over unaltered.
///
/// The rest follows the prefix of the given path that was replaced, and is the end of the path made too. A separating slash
/// belongs to it, and so do brackets. It is
///
/// - what follows the source (on the way back the target) of the pair that matched, but the whole path if that is `/` and the
///   path is longer;
/// - empty, at the end of the given path, if the pair matched the whole path;
/// - the whole path if no pair matched, so that the mark mapped the path to itself;
/// - empty, with the range `0..0`, if variant selections were removed (those in brackets never are), by
///   [`translate_to_target_carried`](crate::MapFunction::translate_to_target_carried) or by the first leg of
///   [`Route::out_carried`](crate::Route::out_carried);
/// - over several legs of a route the shortest of their rests, and over no legs the whole path.
///
/// ```
/// use mudvizsor::{MapFunction, Path};
///
/// let map = MapFunction::from_pair("/Mast", "/Line7/Harbour/Signal_1")?;
/// let lamp = Path::new("/Mast/Head/Lamp_2.lit")?;
/// let carried = map.map_source_to_target_carried(&lamp)?;
/// assert_eq!(carried.path.as_str(), "/Line7/Harbour/Signal_1/Head/Lamp_2.lit");
/// assert_eq!(&lamp.as_str()[carried.rest.clone()], "/Head/Lamp_2.lit");
/// assert_eq!(carried.rest_str(), "/Head/Lamp_2.lit");
/// # Ok::<(), mudvizsor::Refusal>(())
/// ```
#[derive(Debug, Clone, PartialEq, Eq)]
pub struct Carried {
    /// The path made.
    pub path: Path,
    /// The range of the rest in the given path, in bytes. Unless selections were removed, it ends where that path ends.
    pub rest: Range<usize>,
}

impl Carried {
    /// Returns the rest as the end of the path made, which has the same text as the rest of the given path.
    ///
    /// ```
    /// # use mudvizsor::{MapFunction, Path};
    /// let map = MapFunction::from_pair("/Mast", "/Line7/Harbour/Signal_1")?;
    /// assert_eq!(map.map_source_to_target_carried(&Path::new("/Mast/Head.lit")?)?.rest_str(), "/Head.lit");
    /// assert_eq!(map.map_source_to_target_carried(&Path::new("/Mast")?)?.rest_str(), "");
    /// # Ok::<(), mudvizsor::Refusal>(())
    /// ```
    pub fn rest_str(&self) -> &str {
        let text = self.path.as_str();
        &text[text.len() - self.rest.len()..]
    }
}

/// Makes a call that writes a path and tells the rest, with a large enough buffer, and returns both.
pub(crate) fn read_carried(call: impl FnOnce(&mut [u8]) -> Reply) -> Result<Carried> {
    let mut out = [0; MAX_PATH_LEN];
    let value = read(call(&mut out))?;
    let (length, start, rest) = (value % 256, value / 256 % 256, value / 65_536);
    Ok(Carried { path: Path::written(&out[..length]), rest: start..start + rest })
}

#[cfg(test)]
mod tests {
    use super::*;
    use crate::Refusal;

    /// A call that writes this text and replies with these numbers.
    fn replying(text: &str, start: usize, rest: usize) -> Result<Carried> {
        read_carried(|out| {
            out[..text.len()].copy_from_slice(text.as_bytes());
            Reply::answer(text.len() + 256 * start + 65_536 * rest)
        })
    }

    #[test]
    fn replies_are_read() {
        let longest = format!("/{}", "n".repeat(MAX_PATH_LEN - 1));
        for (text, start, rest) in [("/X/b", 2, 2), ("", 1, 0), (&*longest, 0, 255), (&*longest, 255, 0)] {
            let carried = replying(text, start, rest).unwrap();
            assert_eq!((carried.path.as_str(), carried.rest.clone()), (text, start..start + rest));
            assert_eq!(carried.rest_str(), &text[text.len() - rest..]);
        }
        assert_eq!(read_carried(|_| Reply::refusal(6)), Err(Refusal::NoPath));
    }
}
