//! Relocate lists: statuses, chaining and shifting.

use crate::Path;
use crate::ffi::maps::List;
use crate::ffi::relocates;
use crate::pair_list::{Packed, PairList, Pairs};
use crate::path::{MAX_PATH_LEN, read_path};
use crate::refusal::{Result, read};
use std::fmt;

/// A list of relocates, which are pairs of a source and a target, and the status of each.
///
/// ```
/// use mudvizsor::{Path, Relocates, Status};
///
/// let moved = Relocates::new([("/Line7/Signal_1", "/Line7/Quay/Signal_12"), ("/Line7", "/Line8")])?;
/// assert_eq!(moved.statuses(), [Status::Active, Status::Structural]);
/// # Ok::<(), mudvizsor::Refusal>(())
/// ```
#[derive(Debug, Clone, PartialEq)]
pub struct Relocates {
    list: PairList,
    statuses: Vec<Status>,
}

/// Whether a relocate is used, and if not, why. The discriminant is the status byte of `docs/REQUIREMENTS.md` (Relocates).
///
/// ```
/// use mudvizsor::Status;
///
/// assert_eq!(Status::Conflict as u8, 3);
/// assert_eq!(Status::DuplicateSource.to_string(), "duplicate source");
/// ```
#[derive(Debug, Clone, Copy, PartialEq, Eq, PartialOrd, Ord, Hash)]
#[repr(u8)]
pub enum Status {
    /// The relocate is used.
    Active = 0,
    /// The pair is not a valid relocate on its own: its target is not empty, and its source has one name, its ends are
    /// equal, or one end is a prefix of the other.
    Structural = 1,
    /// An earlier pair that is not structural has the same source.
    DuplicateSource = 2,
    /// The pair conflicts with another one, for example by having the same target.
    Conflict = 3,
}

impl Status {
    /// All statuses, in the order of their bytes.
    ///
    /// ```
    /// # use mudvizsor::Status;
    /// assert_eq!(Status::ALL.map(|status| status as u8), [0, 1, 2, 3]);
    /// ```
    pub const ALL: [Status; 4] =
        [Status::Active, Status::Structural, Status::DuplicateSource, Status::Conflict];

    /// Returns the status with this byte; `None` if there is none.
    ///
    /// ```
    /// # use mudvizsor::Status;
    /// assert_eq!(Status::from_byte(1), Some(Status::Structural));
    /// assert_eq!(Status::from_byte(4), None);
    /// ```
    pub fn from_byte(byte: u8) -> Option<Self> {
        Status::ALL.get(usize::from(byte)).copied()
    }
}

impl fmt::Display for Status {
    fn fmt(&self, f: &mut fmt::Formatter) -> fmt::Result {
        f.pad(match self {
            Status::Active => "active",
            Status::Structural => "structural",
            Status::DuplicateSource => "duplicate source",
            Status::Conflict => "conflict",
        })
    }
}

/// The end of a chain of relocates.
///
/// ```
/// use mudvizsor::{Chain, Path, Relocates};
///
/// let moved = Relocates::new([("/L/a", "/L/b"), ("/L/b", "/L/c")])?;
/// let Chain { path, steps } = moved.chain(&Path::new("/L/a/x")?)?;
/// assert_eq!((path.as_str(), steps), ("/L/c/x", 2));
/// # Ok::<(), mudvizsor::Refusal>(())
/// ```
#[derive(Debug, Clone, PartialEq, Eq)]
pub struct Chain {
    /// The resulting path.
    pub path: Path,
    /// The number of replacements that were made.
    pub steps: usize,
}

impl Relocates {
    /// Creates a list from its pairs and computes their statuses.
    ///
    /// # Errors
    ///
    /// [`TooLong`](crate::Refusal::TooLong) (1), [`NotLegal`](crate::Refusal::NotLegal) (2) or
    /// [`NotAnEnd`](crate::Refusal::NotAnEnd) (3) if a source or target is too long, not a legal path or not an end,
    /// [`TooMany`](crate::Refusal::TooMany) (4) if there are more than 64 pairs.
    ///
    /// ```
    /// # use mudvizsor::{Refusal, Relocates};
    /// assert!(Relocates::new([("/Line7/Bench", "")]).is_ok());
    /// assert_eq!(Relocates::new([("/Line7.state", "")]), Err(Refusal::NotAnEnd));
    /// ```
    pub fn new<S: AsRef<str>, T: AsRef<str>>(pairs: impl IntoIterator<Item = (S, T)>) -> Result<Self> {
        let packed = Packed::new(pairs);
        let mut bytes = vec![0; packed.count()];
        let count = read(relocates::analyze_relocate_occurrences(packed.list(false), &mut bytes))?;
        let status = |&byte| Status::from_byte(byte).expect("the library writes statuses");
        Ok(Relocates { list: PairList::read(packed, count), statuses: bytes.iter().map(status).collect() })
    }

    /// Returns all pairs, in the order in which they were given.
    ///
    /// ```
    /// # use mudvizsor::Relocates;
    /// assert_eq!(Relocates::new([("/L/a", "/L/b"), ("/L", "/M")])?.pairs().len(), 2);
    /// # Ok::<(), mudvizsor::Refusal>(())
    /// ```
    pub fn pairs(&self) -> Pairs<'_> {
        Pairs::new(&self.list)
    }

    /// Returns the status of each pair.
    ///
    /// ```
    /// # use mudvizsor::{Relocates, Status};
    /// let both_to_b = Relocates::new([("/L/a", "/L/b"), ("/L/c", "/L/b")])?;
    /// assert_eq!(both_to_b.statuses(), [Status::Conflict, Status::Conflict]);
    /// # Ok::<(), mudvizsor::Refusal>(())
    /// ```
    pub fn statuses(&self) -> &[Status] {
        &self.statuses
    }

    /// Returns the pairs whose status is [`Status::Active`].
    ///
    /// ```
    /// # use mudvizsor::Relocates;
    /// let moved = Relocates::new([("/L", "/M"), ("/L/a", "/L/b")])?;
    /// let sources: Vec<_> = moved.active_pairs().map(|(source, _)| source.as_str()).collect();
    /// assert_eq!(sources, ["/L/a"]);
    /// # Ok::<(), mudvizsor::Refusal>(())
    /// ```
    pub fn active_pairs(&self) -> impl Iterator<Item = (&Path, &Path)> {
        let both = self.pairs().zip(&self.statuses);
        both.filter(|(_, status)| **status == Status::Active).map(|(pair, _)| pair)
    }

    /// Follows the path through the relocates.
    ///
    /// Each step uses, of the pairs that have a nonempty target and alter the path, the one whose source is the longest in
    /// bytes, the last one on a tie, and replaces that source by the target. There are at most as many steps as pairs. All
    /// pairs take part, whatever their status. A path in brackets is left as it is.
    ///
    /// # Errors
    ///
    /// [`MadeTooLong`](crate::Refusal::MadeTooLong) (7) or [`MadeNotLegal`](crate::Refusal::MadeNotLegal) (8) if the path
    /// after some step is too long or not legal.
    ///
    /// ```
    /// # use mudvizsor::{Path, Relocates};
    /// let moved = Relocates::new([("/R/a/b", "/R/c"), ("/R/c/d", "/R/a")])?;
    /// let end = moved.chain(&Path::new("/R/a/b/d/b/d")?)?;
    /// assert_eq!((end.path.as_str(), end.steps), ("/R/a/b/d", 2));
    /// # Ok::<(), mudvizsor::Refusal>(())
    /// ```
    pub fn chain(&self, path: &Path) -> Result<Chain> {
        self.chain_with(false, &Path::empty(), path)
    }

    /// Follows the path through the relocates like [`chain`](Self::chain), but ignores the pairs with the source `skipped`.
    ///
    /// ```
    /// # use mudvizsor::{Path, Relocates};
    /// let moved = Relocates::new([("/L/a", "/L/b"), ("/L/b", "/L/c")])?;
    /// let end = moved.chain_skipping(&Path::new("/L/b")?, &Path::new("/L/a")?)?;
    /// assert_eq!((end.path.as_str(), end.steps), ("/L/b", 1));
    /// # Ok::<(), mudvizsor::Refusal>(())
    /// ```
    pub fn chain_skipping(&self, skipped: &Path, path: &Path) -> Result<Chain> {
        self.chain_with(true, skipped, path)
    }

    /// Applies the relocate of the nearest ancestor of the endpoint, once; returns the endpoint unchanged if there is none.
    ///
    /// The nearest ancestor is, of the sources that are a prefix of the endpoint but not the endpoint itself and have a
    /// nonempty target, the longest one in bytes, the last one on a tie. A path in brackets is left as it is.
    ///
    /// # Errors
    ///
    /// [`MadeTooLong`](crate::Refusal::MadeTooLong) (7) or [`MadeNotLegal`](crate::Refusal::MadeNotLegal) (8) if the result
    /// is too long or not legal.
    ///
    /// ```
    /// # use mudvizsor::{Path, Relocates};
    /// let moved = Relocates::new([("/L/a", "/L/b")])?;
    /// assert_eq!(moved.shift(&Path::new("/L/a/x")?)?.as_str(), "/L/b/x");
    /// assert_eq!(moved.shift(&Path::new("/L/c")?)?.as_str(), "/L/c");
    /// # Ok::<(), mudvizsor::Refusal>(())
    /// ```
    pub fn shift(&self, endpoint: &Path) -> Result<Path> {
        read_path(|out| relocates::shift_through_nearest_ancestor(self.lent_list(), endpoint.as_bytes(), out))
    }

    fn chain_with(&self, skips: bool, skipped: &Path, path: &Path) -> Result<Chain> {
        let mut out = [0; MAX_PATH_LEN];
        let (skipped, path) = (skipped.as_bytes(), path.as_bytes());
        let reply = relocates::chain_through_relocates(self.lent_list(), skips, skipped, path, &mut out);
        let value = read(reply)?;
        Ok(Chain { path: Path::written(&out[..value % 256]), steps: value / 256 })
    }

    /// The list as it is passed to the library.
    fn lent_list(&self) -> List<'_> {
        self.list.packed.list(false)
    }
}

#[cfg(test)]
mod tests;
