//! Lists of pairs: as paths for the caller, and packed as bytes and places for the library.

use crate::Path;
use crate::ffi::maps::List;
use std::fmt;

/// A list of pairs, and the same list as it is passed to the library.
#[derive(Clone, Default)]
pub(crate) struct PairList {
    pub pairs: Vec<(Path, Path)>,
    pub packed: Packed,
}

impl PairList {
    /// Reads the first `count` pairs of a list that the library wrote or accepted.
    pub fn read(mut packed: Packed, count: usize) -> Self {
        packed.places.truncate(4 * count);
        let end = |start, length| Path::written(&packed.store[start..start + length]);
        let pairs: Vec<_> =
            packed.places.as_chunks().0.iter().map(|&[s, n, t, m]| (end(s, n), end(t, m))).collect();
        let used = packed.places.as_chunks().0.iter().map(|&[s, n, t, m]| (s + n).max(t + m)).max();
        packed.store.truncate(used.unwrap_or(0));
        packed.store.shrink_to_fit();
        PairList { pairs, packed }
    }

    /// The number of bytes of all ends.
    pub fn bytes(&self) -> usize {
        self.packed.store.len()
    }
}

impl fmt::Debug for PairList {
    fn fmt(&self, f: &mut fmt::Formatter) -> fmt::Result {
        f.debug_list().entries(&self.pairs).finish()
    }
}

impl PartialEq for PairList {
    fn eq(&self, other: &Self) -> bool {
        self.pairs == other.pairs
    }
}

/// The texts of pairs as they are passed to the library. They need not be valid.
#[derive(Debug, Clone, Default)]
pub(crate) struct Packed {
    /// The bytes of the ends (sources and targets).
    pub store: Vec<u8>,
    /// Four numbers for each pair: start and length of the source, start and length of the target.
    pub places: Vec<usize>,
}

impl Packed {
    /// Concatenates the texts of the pairs.
    pub fn new<S: AsRef<str>, T: AsRef<str>>(pairs: impl IntoIterator<Item = (S, T)>) -> Self {
        let mut packed = Packed::default();
        for (source, target) in pairs {
            packed.push(source.as_ref());
            packed.push(target.as_ref());
        }
        packed
    }

    fn push(&mut self, text: &str) {
        self.places.extend([self.store.len(), text.len()]);
        self.store.extend(text.as_bytes());
    }

    /// Buffers for a list of this many bytes and pairs, filled with zeros.
    pub fn zeroed(bytes: usize, pairs: usize) -> Self {
        Packed { store: vec![0; bytes], places: vec![0; 4 * pairs] }
    }

    pub fn count(&self) -> usize {
        self.places.len() / 4
    }

    /// The list as it is passed to the library.
    pub fn list(&self, mark: bool) -> List<'_> {
        List { store: &self.store, places: &self.places, count: self.count(), mark }
    }
}

/// An iterator over the pairs of a map or a relocate list: the source and the target of each.
///
/// ```
/// use mudvizsor::MapFunction;
///
/// let map = MapFunction::new([("/A", "/X"), ("/B", "/Y")])?;
/// let texts: Vec<_> = map.pairs().map(|(source, target)| format!("{source} to {target}")).collect();
/// assert_eq!(texts, ["/A to /X", "/B to /Y"]);
/// # Ok::<(), mudvizsor::Refusal>(())
/// ```
#[derive(Debug, Clone)]
pub struct Pairs<'a>(std::slice::Iter<'a, (Path, Path)>);

impl<'a> Pairs<'a> {
    pub(crate) fn new(list: &'a PairList) -> Self {
        Pairs(list.pairs.iter())
    }
}

impl<'a> Iterator for Pairs<'a> {
    type Item = (&'a Path, &'a Path);

    fn next(&mut self) -> Option<Self::Item> {
        self.0.next().map(|(source, target)| (source, target))
    }

    fn size_hint(&self) -> (usize, Option<usize>) {
        self.0.size_hint()
    }
}

impl DoubleEndedIterator for Pairs<'_> {
    fn next_back(&mut self) -> Option<Self::Item> {
        self.0.next_back().map(|(source, target)| (source, target))
    }
}

impl ExactSizeIterator for Pairs<'_> {}

impl std::iter::FusedIterator for Pairs<'_> {}

#[cfg(test)]
mod tests {
    use super::*;

    #[test]
    fn a_list_is_packed_and_read_back() {
        let packed = Packed::new([("/A", "/X/Y"), ("", "/"), ("/B", "")]);
        assert_eq!(packed.store, b"/A/X/Y//B");
        assert_eq!(packed.places, [0, 2, 2, 4, 6, 0, 6, 1, 7, 2, 9, 0]);
        let list = PairList::read(packed, 2);
        let texts: Vec<_> = Pairs::new(&list).map(|(s, t)| (s.as_str(), t.as_str())).collect();
        assert_eq!(texts, [("/A", "/X/Y"), ("", "/")]);
        assert_eq!((list.bytes(), list.packed.count()), (7, 2));
    }

    #[test]
    fn pairs_go_both_ways() {
        let list = PairList::read(Packed::new([("/A", "/B"), ("/C", "/D")]), 2);
        let mut pairs = Pairs::new(&list);
        assert_eq!(pairs.len(), 2);
        assert_eq!(pairs.next_back().unwrap().0.as_str(), "/C");
        assert_eq!(pairs.next().unwrap().0.as_str(), "/A");
        assert_eq!(pairs.next(), None);
    }

    #[test]
    fn lists_are_equal_by_their_pairs() {
        let list = |pairs: &[(&str, &str)]| PairList::read(Packed::new(pairs.iter().copied()), pairs.len());
        let spare = PairList::read(Packed::new([("/A", "/B"), ("/C", "/D")]), 1);
        assert_eq!(list(&[("/A", "/B")]), spare);
        assert_ne!(list(&[("/A", "/C")]), spare);
    }
}
