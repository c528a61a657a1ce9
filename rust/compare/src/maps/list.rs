//! A list of pairs as it is lent, and its map in the original or its refusal.

use crate::calls::is_end;
use crate::tally::Given;
use crate::text::{Answer, TOO_LONG, path_of};
use mudvizsor::ffi;
use original::pcp::MapFunction;
use original::sdf::Path;
use std::fmt::{self, Display};

pub const NOT_AN_END: u8 = 3;
pub const TOO_MANY_PAIRS: u8 = 4;

/// The maximum number of pairs in a list.
pub const MAX_PAIRS: usize = 64;

/// The buffers of a list: the bytes of its ends, and their places.
#[derive(Clone, Default)]
pub struct LentList {
    pub store: Vec<u8>,
    pub places: Vec<usize>,
    pub count: usize,
    pub mark: bool,
}

impl LentList {
    /// Stores the ends consecutively.
    pub fn packed<T: AsRef<[u8]>>(pairs: &[[T; 2]], mark: bool) -> Self {
        let mut lent = LentList { count: pairs.len(), mark, ..LentList::default() };
        for end in pairs.iter().flatten() {
            let place = lent.stored(end.as_ref());
            lent.places.extend(place);
        }
        lent
    }

    /// Appends a text to the store and returns its place.
    pub fn stored(&mut self, text: &[u8]) -> [usize; 2] {
        let start = self.store.len();
        self.store.extend(text);
        [start, text.len()]
    }

    pub fn present(&self) -> usize {
        present(self.for_library())
    }

    fn for_library(&self) -> ffi::maps::List<'_> {
        let LentList { store, places, count, mark } = self;
        ffi::maps::List { store, places, count: *count, mark: *mark }
    }
}

/// The number of counted pairs whose places are in the slice.
pub fn present(list: ffi::maps::List) -> usize {
    list.count.min(list.places.len() / 4)
}

/// The places of the ends of the present pairs.
fn ends<'a>(list: ffi::maps::List<'a>) -> impl Iterator<Item = Place<'a>> {
    let numbers = list.places[..4 * present(list)].chunks_exact(2);
    numbers.map(move |place| Place { store: list.store, start: place[0], length: place[1] })
}

/// The place of an end.
struct Place<'a> {
    store: &'a [u8],
    start: usize,
    length: usize,
}

impl<'a> Place<'a> {
    /// The bytes; `None` if the place reaches outside the store.
    fn bytes(&self) -> Option<&'a [u8]> {
        let end = self.start.checked_add(self.length)?;
        self.store.get(self.start..end)
    }

    /// Validates the end (questions 1, 2 and 3).
    fn path(&self) -> Answer<Path> {
        let path = path_of(self.bytes().ok_or(TOO_LONG)?)?;
        if is_end(&path) { Ok(path) } else { Err(NOT_AN_END) }
    }
}

impl Display for Place<'_> {
    fn fmt(&self, f: &mut fmt::Formatter<'_>) -> fmt::Result {
        match self.bytes() {
            Some(bytes) => write!(f, "\"{}\"", bytes.escape_ascii()),
            None => write!(f, "{} bytes at {} of {}", self.length, self.start, self.store.len()),
        }
    }
}

pub struct List {
    lent: LentList,
    map: Answer<MapFunction>,
}

impl List {
    pub fn new(lent: LentList) -> Self {
        let map = map_of(lent.for_library());
        List { lent, map }
    }

    pub fn packed<T: AsRef<[u8]>>(pairs: &[[T; 2]], mark: bool) -> Self {
        List::new(LentList::packed(pairs, mark))
    }

    pub fn for_library(&self) -> ffi::maps::List<'_> {
        self.lent.for_library()
    }

    /// The map of the original, or the first failed check of questions 1 to 4.
    pub fn map(&self) -> Answer<&MapFunction> {
        self.map.as_ref().map_err(|number| *number)
    }

    /// Returns whether `map` has the pairs and the mark that are lent.
    pub fn is_exactly(&self, map: &MapFunction) -> bool {
        let paths = map.path_pairs().iter().flat_map(|(source, target)| [source, target]);
        paths.map(|path| Some(path.as_str().as_bytes())).eq(ends(self.for_library()).map(|end| end.bytes()))
            && map.has_root_identity() == self.lent.mark
    }
}

/// The map of a list in the original, or the first failed check of questions 1 to 4. Each question is checked for every end
/// before the next question, so the smallest number decides.
pub fn map_of(list: ffi::maps::List) -> Answer<MapFunction> {
    let ends: Vec<Answer<Path>> = ends(list).map(|end| end.path()).collect();
    if let Some(number) = ends.iter().filter_map(|end| end.as_ref().err()).min() {
        return Err(*number);
    }
    if present(list) < list.count || list.count > MAX_PAIRS {
        return Err(TOO_MANY_PAIRS);
    }
    let paths: Vec<Path> = ends.into_iter().flatten().collect();
    let pairs = paths.chunks_exact(2).map(|pair| (pair[0].clone(), pair[1].clone())).collect();
    Ok(MapFunction::with_exactly(pairs, list.mark))
}

impl Given for List {
    fn size(&self) -> usize {
        size(self.for_library())
    }
}

impl Display for List {
    fn fmt(&self, f: &mut fmt::Formatter<'_>) -> fmt::Result {
        f.write_str(if self.lent.mark { " mark" } else { " no mark" })?;
        show_pairs(self.for_library(), f)?;
        f.write_str(";")
    }
}

/// The size of a list: the bytes of its ends, and one for each pair.
pub fn size(list: ffi::maps::List) -> usize {
    let bytes: usize = ends(list).filter_map(|end| end.bytes()).map(<[u8]>::len).sum();
    bytes + present(list)
}

pub fn show_pairs(list: ffi::maps::List, f: &mut fmt::Formatter<'_>) -> fmt::Result {
    let ends: Vec<Place> = ends(list).collect();
    for pair in ends.chunks_exact(2) {
        write!(f, ", {} -> {}", pair[0], pair[1])?;
    }
    if present(list) < list.count {
        write!(f, ", {} counted", list.count)?;
    }
    Ok(())
}
