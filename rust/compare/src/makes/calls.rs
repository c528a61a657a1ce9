//! The calls that build maps: the entry of the library, the function of the original, and the expected answer.

use crate::calls::is_end;
use crate::comparison::Comparison;
use crate::lent::Lent;
use crate::makes::before::{self, Pairs};
use crate::maps::calls::both;
use crate::maps::list::{List, MAX_PAIRS, NOT_AN_END, TOO_MANY_PAIRS};
use crate::tally::{Call, Given};
use crate::text::{Answer, BUFFER_TOO_SMALL, MADE_NOT_LEGAL, MADE_TOO_LONG, Text};
use crate::times::calls::is_same;
use mudvizsor::ffi::Reply;
use mudvizsor::ffi::map_build::{self, MapBuffers};
use original::pcp::MapFunction;
use original::sdf::{LayerOffset, Path};
use std::fmt::{self, Display};
use texts::MAX_PATH_LEN;
use texts::legal::is_legal;

/// A list with a time offset.
pub struct Map {
    pub list: List,
    pub time: [f64; 2],
}

impl Map {
    fn for_library(&self) -> map_build::Map<'_> {
        map_build::Map { list: self.list.for_library(), time: self.time }
    }

    /// The map of the original, or the first failed check of questions 1 to 4.
    fn original(&self) -> Answer<MapFunction> {
        let [offset, scale] = self.time;
        let map = self.list.map()?;
        Ok(map.clone().with_time_offset(LayerOffset::new(offset, scale)))
    }
}

/// The expected result of a call that builds a map, with large enough buffers.
struct ExpectedMap {
    /// The list before redundant pairs are dropped or, if no dropping takes place, the resulting list. There are several for
    /// a call that builds several maps.
    before: Vec<Pairs>,
    map: MapFunction,
}

impl ExpectedMap {
    /// No dropping takes place: the list is that of the map.
    fn as_it_is(map: MapFunction) -> Self {
        ExpectedMap::from(map.path_pairs().to_vec(), map)
    }

    fn from(before: Pairs, map: MapFunction) -> Self {
        ExpectedMap { before: vec![before], map }
    }

    /// The ends of all lists before dropping.
    fn ends(&self) -> impl Iterator<Item = &Path> {
        self.before.iter().flat_map(|list| ends(list))
    }

    /// Asserts that all ends are ends, for a call to which question 8 never applies.
    fn with_ends(self) -> Self {
        assert!(self.ends().all(is_end), "a resulting end is an end");
        self
    }

    fn bytes_needed(&self) -> usize {
        self.ends().map(|end| end.as_str().len()).sum()
    }

    fn pairs_needed(&self) -> usize {
        self.before.iter().map(Vec::len).sum()
    }

    /// The expected answer with buffers of these sizes (questions 4, 5, 7 and 8).
    fn within(&self, bytes: usize, slots: usize) -> Answer<&MapFunction> {
        if self.before.iter().any(|list| list.len() > MAX_PAIRS) {
            return Err(TOO_MANY_PAIRS);
        }
        if bytes < self.bytes_needed() || slots / 4 < self.pairs_needed() {
            return Err(BUFFER_TOO_SMALL);
        }
        if self.ends().any(|end| end.as_str().len() > MAX_PATH_LEN) {
            return Err(MADE_TOO_LONG);
        }
        if !self.ends().all(|end| is_legal(end.as_str().as_bytes())) {
            return Err(MADE_NOT_LEGAL);
        }
        assert!(self.ends().all(is_end), "a legal resulting end is an end");
        Ok(&self.map)
    }
}

fn ends(pairs: &[(Path, Path)]) -> impl Iterator<Item = &Path> {
    pairs.iter().flat_map(|(source, target)| [source, target])
}

/// The path of a text that must be an end (questions 1, 2 and 3).
fn end(text: &Text) -> Answer<&Path> {
    let path = text.answer()?;
    if is_end(path) { Ok(path) } else { Err(NOT_AN_END) }
}

fn new(list: &List) -> Answer<ExpectedMap> {
    let before = list.map()?.path_pairs().to_vec();
    let map = MapFunction::new(before.clone());
    Ok(ExpectedMap::from(before, map))
}

fn from_pair(source: &Text, target: &Text, make: fn(Path, Path) -> MapFunction) -> Answer<ExpectedMap> {
    let (source, target) = both(end(source), end(target))?;
    let before = vec![(source.clone(), target.clone())];
    Ok(ExpectedMap::from(before, make(source.clone(), target.clone())))
}

fn inverse(map: &Map) -> Answer<ExpectedMap> {
    let map = map.original()?;
    Ok(ExpectedMap::from(before::exchanged(&map), map.inverse()))
}

fn dropping_source(map: &Map, source: &Text) -> Answer<ExpectedMap> {
    let (map, source) = both(map.original(), end(source))?;
    let others = map.path_pairs().iter().filter(|(other, _)| other != source);
    Ok(ExpectedMap::from(others.cloned().collect(), map.dropping_source(source)))
}

fn compose(outer: &Map, inner: &Map) -> Answer<ExpectedMap> {
    let (outer, inner) = both(outer.original(), inner.original())?;
    Ok(ExpectedMap::from(before::composed(&outer, &inner), outer.compose(&inner)).with_ends())
}

fn implied_class(transfer: &Map, class: &Map) -> Answer<ExpectedMap> {
    let (transfer, class) = both(transfer.original(), class.original())?;
    let map = transfer.implied_class(&class);
    if transfer.is_identity() {
        return Ok(ExpectedMap::from(class.path_pairs().to_vec(), map));
    }
    Ok(ExpectedMap { before: before::implied(&transfer, &class), map }.with_ends())
}

fn rebase_target(map: &Map, from: &Text, to: &Text) -> Answer<ExpectedMap> {
    let (map, (from, to)) = both(map.original(), both(end(from), end(to)))?;
    Ok(ExpectedMap::from(before::rebased(&map, from, to), map.rebased_target(from, to)))
}

fn deepen_to(map: &Map, path: &Text) -> Answer<ExpectedMap> {
    let (map, node) = both(map.original(), stripped_end(path))?;
    let path = path.answer()?;
    Ok(ExpectedMap::from(before::deepened(&map, &node), map.deepened_to(path)))
}

/// The path of a text without its selections: questions 1 and 2 apply to the text, 3 to the result.
fn stripped_end(text: &Text) -> Answer<Path> {
    let node = text.answer()?.strip_variant_selections();
    if is_end(&node) { Ok(node) } else { Err(NOT_AN_END) }
}

/// The input of one of these calls.
struct Inputs<'a> {
    maps: &'a [&'a Map],
    texts: &'a [&'a Text],
}

impl Given for Inputs<'_> {
    fn size(&self) -> usize {
        let lists: usize = self.maps.iter().map(|map| map.list.size()).sum();
        lists + self.texts.iter().map(|text| text.bytes.len()).sum::<usize>()
    }
}

impl Display for Inputs<'_> {
    fn fmt(&self, f: &mut fmt::Formatter<'_>) -> fmt::Result {
        for map in self.maps {
            write!(f, "{} time {:?}", map.list, map.time)?;
        }
        self.texts.iter().try_for_each(|text| write!(f, " \"{}\"", text.bytes.escape_ascii()))
    }
}

impl Comparison {
    /// Compares every call that takes one map.
    pub fn one_map(&mut self, map: &Map) {
        let given = &Inputs { maps: &[map], texts: &[] };
        let list = map.list.for_library();
        self.build("MapFunction::new", given, &new(&map.list), |capacity| map_build::new(list, capacity));
        let expected = map.original().map(|map| ExpectedMap::as_it_is(map.with_root_identity()));
        self.build("with_root_identity", given, &expected, |capacity| {
            map_build::with_root_identity(map.for_library(), capacity)
        });
        self.build("inverse", given, &inverse(map), |capacity| {
            map_build::inverse(map.for_library(), capacity)
        });
        let expected = map.original().map(|map| usize::from(map.is_noop()));
        let call = Call { name: "is_noop", given, capacity: None };
        self.tally.compare(call, expected, map_build::is_noop(map.for_library()), None);
        if let Ok(map) = map.original() {
            self.map_info(&map);
        }
    }

    pub fn dropping_source(&mut self, map: &Map, source: &Text) {
        let given = &Inputs { maps: &[map], texts: &[source] };
        self.build("dropping_source", given, &dropping_source(map, source), |capacity| {
            map_build::dropping_source(map.for_library(), &source.bytes, capacity)
        });
    }

    pub fn rebase_target(&mut self, map: &Map, from: &Text, to: &Text) {
        let given = &Inputs { maps: &[map], texts: &[from, to] };
        self.build("rebase_target", given, &rebase_target(map, from, to), |capacity| {
            map_build::rebase_target(map.for_library(), &from.bytes, &to.bytes, capacity)
        });
    }

    pub fn deepen_to(&mut self, map: &Map, path: &Text) {
        let given = &Inputs { maps: &[map], texts: &[path] };
        self.build("deepen_to", given, &deepen_to(map, path), |capacity| {
            map_build::deepen_to(map.for_library(), &path.bytes, capacity)
        });
    }

    /// Compares the two calls that take one pair.
    pub fn one_pair(&mut self, source: &Text, target: &Text) {
        let given = &Inputs { maps: &[], texts: &[source, target] };
        let expected = from_pair(source, target, MapFunction::from_pair);
        self.build("from_pair", given, &expected, |capacity| {
            map_build::from_pair(&source.bytes, &target.bytes, capacity)
        });
        let expected = from_pair(source, target, MapFunction::from_pair_identity);
        self.build("from_pair_identity", given, &expected, |capacity| {
            map_build::from_pair_identity(&source.bytes, &target.bytes, capacity)
        });
    }

    /// Compares the two calls that take two maps.
    pub fn two_maps(&mut self, outer: &Map, inner: &Map) {
        let given = &Inputs { maps: &[outer, inner], texts: &[] };
        self.build("implied_class", given, &implied_class(outer, inner), |capacity| {
            map_build::implied_class(outer.for_library(), inner.for_library(), capacity)
        });
        self.build("compose", given, &compose(outer, inner), |capacity| {
            map_build::compose(outer.for_library(), inner.for_library(), capacity)
        });
    }

    /// Compares a call that builds a map: with just the buffers that are needed, with larger ones, and with one byte or number
    /// too few.
    fn build(
        &mut self,
        name: &'static str,
        given: &dyn Given,
        expected: &Answer<ExpectedMap>,
        entry: impl Fn(MapBuffers) -> Reply,
    ) {
        let (bytes, slots) = match expected {
            Ok(expected) => (expected.bytes_needed(), 4 * expected.pairs_needed()),
            Err(_) => (600, 12),
        };
        self.build_with(name, given, expected, [bytes, slots], &entry);
        self.build_with(name, given, expected, [bytes + 9, slots + 3], &entry);
        if bytes > 0 {
            self.build_with(name, given, expected, [bytes - 1, slots + 3], &entry);
        }
        if slots > 0 {
            self.build_with(name, given, expected, [bytes + 9, slots - 1], &entry);
        }
    }

    fn build_with(
        &mut self,
        name: &'static str,
        given: &dyn Given,
        expected: &Answer<ExpectedMap>,
        [bytes, slots]: [usize; 2],
        entry: impl Fn(MapBuffers) -> Reply,
    ) {
        let expected = expected.as_ref().map_err(|number| *number);
        let expected = expected.and_then(|expected| expected.within(bytes, slots));
        let (mut out, mut numbers) = (Lent::bytes(bytes), Lent::numbers(slots));
        let (found, time) = with_time_buffer(|time| {
            entry(MapBuffers { out: out.lend(bytes), slots: numbers.lend(slots), time })
        });
        let (text, places) = expected.map_or_else(|_| Default::default(), written);
        let wrong = out.first_wrong(&text).or(numbers.first_wrong(&places));
        let call = Call { name, given, capacity: Some(bytes) };
        self.tally.compare(call, expected.map(value), found, wrong);
        self.time(call, expected, time);
    }

    /// The time offset of a map that is made, or, where the call is refused, what was lent for it.
    pub fn time(&mut self, call: Call, expected: Answer<&MapFunction>, found: [f64; 2]) {
        let expected = expected.map_or([TIME_BEFORE[1], TIME_BEFORE[2]], time_of);
        let agree = is_same(expected[0], found[0]) && is_same(expected[1], found[1]);
        self.tally.values(call, agree, expected, found);
    }
}

/// The two floats lent for the time offset, between two that are not lent.
const TIME_BEFORE: [f64; 4] = [12345.678, -2.5e-300, 7.25e300, 87654.321];

/// Makes a call with two lent floats; returns its result and the floats. The floats on either side must not change.
pub fn with_time_buffer<T>(call: impl FnOnce(&mut [f64; 2]) -> T) -> (T, [f64; 2]) {
    let mut floats = TIME_BEFORE;
    let [before, time @ .., after] = &mut floats;
    let given = call(time);
    assert_eq!(
        [*before, *after],
        [TIME_BEFORE[0], TIME_BEFORE[3]],
        "memory next to the lent floats was written"
    );
    (given, *time)
}

/// The value of the reply: twice the number of pairs, plus one with the mark.
pub fn value(map: &MapFunction) -> usize {
    2 * map.path_pairs().len() + usize::from(map.has_root_identity())
}

pub fn time_of(map: &MapFunction) -> [f64; 2] {
    let LayerOffset { offset, scale } = map.time_offset();
    [offset, scale]
}

/// The bytes and the places of a map as the library writes them.
fn written(map: &MapFunction) -> (Vec<u8>, Vec<usize>) {
    let (mut bytes, mut places) = (Vec::new(), Vec::new());
    for end in ends(map.path_pairs()) {
        places.extend([bytes.len(), end.as_str().len()]);
        bytes.extend(end.as_str().as_bytes());
    }
    (bytes, places)
}
