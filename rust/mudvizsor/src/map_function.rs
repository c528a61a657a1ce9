//! Maps of paths: a list of pairs, a root-identity mark and a time offset.

use crate::batch::map_in_batches;
use crate::carried::read_carried;
use crate::ffi::Reply;
use crate::ffi::map_build::{self, Map, MapBuffers};
use crate::ffi::map_info;
use crate::ffi::maps::{self, Direction, List};
use crate::layer_offset;
use crate::pair_list::{Packed, PairList, Pairs};
use crate::path::read_path;
use crate::refusal::{Result, accepted, never_refused, read};
use crate::{Carried, LayerOffset, MAX_PAIRS, MAX_PATH_LEN, Path};

/// The maximum number of bytes of a pair that is composed, rebased or deepened. The library counts them before it refuses an
/// end that is too long. One end is an input, of at most 255 bytes. The other one is a path of at most 255 bytes with its
/// prefix replaced by at most 255 bytes. If the replaced prefix is empty or `/`, the path does not get shorter, since a
/// slash follows the new prefix.
const COMPOSED_PAIR_BYTES: usize = MAX_PATH_LEN + 2 * MAX_PATH_LEN;

/// The maximum number of bytes of a pair in each of the three lists of `implied_class`. The ends in the inverse are inputs.
/// The class after the inverse is composed. In the transfer after that, the target of a composed pair gets another prefix of
/// at most 255 bytes, or the source of a composed pair, of at most 510 bytes, becomes the prefix of an input source whose
/// target is an input too.
const IMPLIED_PAIR_BYTES: [usize; 3] =
    [2 * MAX_PATH_LEN, COMPOSED_PAIR_BYTES, COMPOSED_PAIR_BYTES + MAX_PATH_LEN];

/// A map of paths, the counterpart of OpenUSD's `PcpMapFunction`: pairs of a source and a target, a root-identity mark, and a
/// time offset.
///
/// Each source and target is an end: a prim path, `/` or empty. A path is mapped by the pair with the longest match: of the
/// sources that are a prefix of the path, the one with the most elements, the last one on a tie. That source is replaced by
/// the target. An empty target blocks the path, so that it has no result; an empty source never matches. With the mark, a
/// path that no pair matches is mapped to itself. A path in brackets is not mapped: it stays as it is. The calls that build a
/// map from texts take them as `&str`, `String` or [`Path`].
///
/// ```
/// use mudvizsor::{MapFunction, Path, Refusal};
///
/// let map = MapFunction::new([("/Mast", "/Line7/Signal_1"), ("/Mast/Spare", "")])?;
/// assert_eq!(map.map_source_to_target(&Path::new("/Mast/Head.lit")?)?.as_str(), "/Line7/Signal_1/Head.lit");
/// assert_eq!(map.map_source_to_target(&Path::new("/Mast/Spare")?), Err(Refusal::NoPath));
/// assert_eq!(map.map_source_to_target(&Path::new("/Bench")?), Err(Refusal::NoPath));
///
/// let address = map.map_source_to_target(&Path::new("/Mast.next[/Mast/Head]")?)?;
/// assert_eq!(address.as_str(), "/Line7/Signal_1.next[/Mast/Head]");
/// # Ok::<(), Refusal>(())
/// ```
#[derive(Debug, Clone, PartialEq)]
pub struct MapFunction {
    list: PairList,
    mark: bool,
    time: LayerOffset,
}

/// Building maps from pairs.
impl MapFunction {
    /// Builds the map of these pairs in canonical form.
    ///
    /// Each pair `/` to `/` becomes the mark. A single remaining pair is kept, unless its ends are equal and there is the
    /// mark. Several are sorted by the number of elements of their sources, and a pair is dropped as redundant if the pairs
    /// kept before it and the mark already map its source to its target. In that test an empty target is joined as text:
    /// after `/A` to empty, the pair `/A/B` to `/B` is redundant.
    ///
    /// # Errors
    ///
    /// [`TooLong`](crate::Refusal::TooLong) (1), [`NotLegal`](crate::Refusal::NotLegal) (2) or
    /// [`NotAnEnd`](crate::Refusal::NotAnEnd) (3) if a source or target is too long, not a legal path or not an end,
    /// [`TooMany`](crate::Refusal::TooMany) (4) if there are more than 64 pairs.
    ///
    /// ```
    /// use mudvizsor::{MapFunction, Refusal};
    ///
    /// let map = MapFunction::new([("/", "/"), ("/A/B", "/X/B"), ("/A", "/X")])?;
    /// assert!(map.has_root_identity());
    /// assert_eq!(map.pairs().map(|(source, _)| source.as_str()).collect::<Vec<_>>(), ["/A"]);
    /// assert_eq!(MapFunction::new([("/A.b", "/X")]), Err(Refusal::NotAnEnd));
    /// # Ok::<(), Refusal>(())
    /// ```
    pub fn new<S: AsRef<str>, T: AsRef<str>>(pairs: impl IntoIterator<Item = (S, T)>) -> Result<Self> {
        let lent = Packed::new(pairs);
        build(lent.store.len(), lent.count(), |buffers| map_build::new(lent.list(false), buffers))
    }

    /// Builds the map of one pair, without the mark. The pair is kept as it is, even `/` to `/`.
    ///
    /// # Errors
    ///
    /// [`TooLong`](crate::Refusal::TooLong) (1), [`NotLegal`](crate::Refusal::NotLegal) (2) or
    /// [`NotAnEnd`](crate::Refusal::NotAnEnd) (3) if the source or target is too long, not a legal path or not an end.
    ///
    /// ```
    /// # use mudvizsor::{MapFunction, Path, Refusal};
    /// let map = MapFunction::from_pair("/Line7", "/Town/Line7")?;
    /// assert_eq!(map.map_source_to_target(&Path::new("/Line8")?), Err(Refusal::NoPath));
    /// # Ok::<(), Refusal>(())
    /// ```
    pub fn from_pair(source: impl AsRef<str>, target: impl AsRef<str>) -> Result<Self> {
        let (source, target) = (source.as_ref().as_bytes(), target.as_ref().as_bytes());
        build(source.len() + target.len(), 1, |buffers| map_build::from_pair(source, target, buffers))
    }

    /// Builds the map of one pair, with the mark. A pair with equal ends is dropped.
    ///
    /// # Errors
    ///
    /// As for [`from_pair`](Self::from_pair).
    ///
    /// ```
    /// # use mudvizsor::{MapFunction, Path};
    /// let map = MapFunction::from_pair_identity("/Line7", "/Town/Line7")?;
    /// assert_eq!(map.map_source_to_target(&Path::new("/Line8")?)?.as_str(), "/Line8");
    /// # Ok::<(), mudvizsor::Refusal>(())
    /// ```
    pub fn from_pair_identity(source: impl AsRef<str>, target: impl AsRef<str>) -> Result<Self> {
        let (source, target) = (source.as_ref().as_bytes(), target.as_ref().as_bytes());
        build(source.len() + target.len(), 1, |buffers| {
            map_build::from_pair_identity(source, target, buffers)
        })
    }

    /// Builds the identity, which maps every path and every time to itself: no pairs, the mark, the time offset (0, 1).
    ///
    /// ```
    /// # use mudvizsor::{MapFunction, Path};
    /// let path = Path::new("/Line7.state")?;
    /// assert_eq!(MapFunction::identity().map_source_to_target(&path)?, path);
    /// # Ok::<(), mudvizsor::Refusal>(())
    /// ```
    pub fn identity() -> Self {
        never_refused(build(0, 0, |buffers| map_info::identity(buffers.time)))
    }

    /// Builds the null map, which maps no path: no pairs, no mark, the time offset (0, 1).
    ///
    /// ```
    /// # use mudvizsor::{MapFunction, Path, Refusal};
    /// assert_eq!(MapFunction::null().map_source_to_target(&Path::root()), Err(Refusal::NoPath));
    /// ```
    pub fn null() -> Self {
        never_refused(build(0, 0, |buffers| map_info::null(buffers.time)))
    }
}

/// Properties of a map.
impl MapFunction {
    /// Returns the pairs. The mark is not among them.
    ///
    /// ```
    /// # use mudvizsor::MapFunction;
    /// let map = MapFunction::from_pair("/A", "/B")?;
    /// let (source, target) = map.pairs().next().unwrap();
    /// assert_eq!((source.as_str(), target.as_str()), ("/A", "/B"));
    /// # Ok::<(), mudvizsor::Refusal>(())
    /// ```
    pub fn pairs(&self) -> Pairs<'_> {
        Pairs::new(&self.list)
    }

    /// Returns whether the map has the root-identity mark.
    ///
    /// ```
    /// # use mudvizsor::MapFunction;
    /// assert!(MapFunction::identity().has_root_identity());
    /// ```
    pub fn has_root_identity(&self) -> bool {
        self.query(map_info::has_root_identity)
    }

    /// Returns the time offset.
    ///
    /// ```
    /// # use mudvizsor::{LayerOffset, MapFunction};
    /// assert_eq!(MapFunction::identity().time_offset(), LayerOffset::IDENTITY);
    /// ```
    pub fn time_offset(&self) -> LayerOffset {
        let LayerOffset { offset, scale } = self.time;
        layer_offset::read_offset(|out| {
            map_info::time_offset(self.pairs().len(), self.mark, offset, scale, out)
        })
    }

    /// Returns whether the map is null, so that it maps no path: it has neither pairs nor the mark.
    ///
    /// ```
    /// # use mudvizsor::MapFunction;
    /// assert!(MapFunction::null().is_null() && !MapFunction::identity().is_null());
    /// ```
    pub fn is_null(&self) -> bool {
        self.query(map_info::is_null)
    }

    /// Returns whether the map is the identity on paths: it has no pairs, but the mark.
    ///
    /// ```
    /// # use mudvizsor::{LayerOffset, MapFunction};
    /// let late = MapFunction::identity().with_time_offset(LayerOffset::new(1.0, 1.0));
    /// assert!(late.path_is_identity() && !late.is_identity());
    /// ```
    pub fn path_is_identity(&self) -> bool {
        self.query(map_info::path_is_identity)
    }

    /// Returns whether the map is the identity: it has no pairs, but the mark, and the time offset (0, 1).
    ///
    /// ```
    /// # use mudvizsor::MapFunction;
    /// assert!(MapFunction::identity().is_identity());
    /// ```
    pub fn is_identity(&self) -> bool {
        self.query(map_info::is_identity)
    }

    /// Returns whether the map is not null, both ends of every pair are equal, and the time offset is (0, 1).
    ///
    /// It compares the pairs, not their effect: a map with `/A` to `/B` and `/A` to `/A` is not a no-op, although the second
    /// pair shadows the first.
    ///
    /// ```
    /// # use mudvizsor::MapFunction;
    /// assert!(MapFunction::from_pair("/Line7", "/Line7")?.is_noop());
    /// assert!(!MapFunction::null().is_noop());
    /// # Ok::<(), mudvizsor::Refusal>(())
    /// ```
    pub fn is_noop(&self) -> bool {
        accepted(map_build::is_noop(self.lent())) != 0
    }

    /// Calls an entry that needs the number of pairs, the mark and the time offset.
    fn query(&self, entry: extern "C" fn(usize, bool, f64, f64) -> bool) -> bool {
        entry(self.pairs().len(), self.mark, self.time.offset, self.time.scale)
    }
}

/// Mapping paths.
impl MapFunction {
    /// Maps the path from sources to targets.
    ///
    /// # Errors
    ///
    /// [`NoPath`](crate::Refusal::NoPath) (6) if the target is empty, or if no pair matches and there is no mark,
    /// [`MadeTooLong`](crate::Refusal::MadeTooLong) (7) or [`MadeNotLegal`](crate::Refusal::MadeNotLegal) (8) if the result
    /// is too long or not legal.
    ///
    /// ```
    /// # use mudvizsor::{MapFunction, Path};
    /// // Of two equal sources the last one is used.
    /// let map = MapFunction::new([("/A", "/X"), ("/A", "/Y")])?;
    /// assert_eq!(map.map_source_to_target(&Path::new("/A/c")?)?.as_str(), "/Y/c");
    /// # Ok::<(), mudvizsor::Refusal>(())
    /// ```
    pub fn map_source_to_target(&self, path: &Path) -> Result<Path> {
        self.map_path(Direction::Out, path)
    }

    /// Maps the path from targets back to sources: the same with the targets as keys. An empty target never matches.
    ///
    /// # Errors
    ///
    /// [`NoPath`](crate::Refusal::NoPath) (6) if no pair matches and there is no mark,
    /// [`MadeTooLong`](crate::Refusal::MadeTooLong) (7) or [`MadeNotLegal`](crate::Refusal::MadeNotLegal) (8) if the result
    /// is too long or not legal.
    ///
    /// ```
    /// # use mudvizsor::{MapFunction, Path};
    /// let map = MapFunction::from_pair("/A", "/X")?;
    /// assert_eq!(map.map_target_to_source(&Path::new("/X/c")?)?.as_str(), "/A/c");
    /// # Ok::<(), mudvizsor::Refusal>(())
    /// ```
    pub fn map_target_to_source(&self, path: &Path) -> Result<Path> {
        self.map_path(Direction::Home, path)
    }

    /// Removes the variant selections from the path, except those in brackets, and maps it from sources to targets, if the
    /// result maps back through the same pair.
    ///
    /// # Errors
    ///
    /// As for [`map_source_to_target`](Self::map_source_to_target), and [`NoPath`](crate::Refusal::NoPath) (6) if
    /// [`map_target_to_source`](Self::map_target_to_source) would use another pair for the result, or any pair if none was
    /// used.
    ///
    /// ```
    /// # use mudvizsor::{MapFunction, Path, Refusal};
    /// let map = MapFunction::from_pair_identity("/A", "/X")?;
    /// assert_eq!(map.translate_to_target(&Path::new("/A{v=p}c")?)?.as_str(), "/X/c");
    /// assert_eq!(map.map_source_to_target(&Path::new("/X/y")?)?.as_str(), "/X/y");
    /// assert_eq!(map.translate_to_target(&Path::new("/X/y")?), Err(Refusal::NoPath));
    /// # Ok::<(), Refusal>(())
    /// ```
    pub fn translate_to_target(&self, path: &Path) -> Result<Path> {
        self.map_path(Direction::Translated, path)
    }

    /// Maps the path as [`map_source_to_target`](Self::map_source_to_target) does, and also returns the range of it that was
    /// carried over unaltered.
    ///
    /// # Errors
    ///
    /// As for [`map_source_to_target`](Self::map_source_to_target).
    ///
    /// ```
    /// # use mudvizsor::{MapFunction, Path};
    /// let map = MapFunction::from_pair_identity("/Mast", "/Line7/Signal_1")?;
    /// let carried = map.map_source_to_target_carried(&Path::new("/Mast/Head.lit")?)?;
    /// assert_eq!(carried.path.as_str(), "/Line7/Signal_1/Head.lit");
    /// assert_eq!((carried.rest.clone(), carried.rest_str()), (5..14, "/Head.lit"));
    ///
    /// // Only the mark maps this one.
    /// assert_eq!(map.map_source_to_target_carried(&Path::new("/Bench")?)?.rest, 0..6);
    /// # Ok::<(), mudvizsor::Refusal>(())
    /// ```
    pub fn map_source_to_target_carried(&self, path: &Path) -> Result<Carried> {
        self.map_carried(Direction::Out, path)
    }

    /// Maps the path as [`map_target_to_source`](Self::map_target_to_source) does, and also returns the range of it that was
    /// carried over unaltered.
    ///
    /// # Errors
    ///
    /// As for [`map_target_to_source`](Self::map_target_to_source).
    ///
    /// ```
    /// # use mudvizsor::{MapFunction, Path};
    /// let map = MapFunction::from_pair("/Mast", "/Line7/Signal_1")?;
    /// let carried = map.map_target_to_source_carried(&Path::new("/Line7/Signal_1/Head.lit")?)?;
    /// assert_eq!(carried.path.as_str(), "/Mast/Head.lit");
    /// assert_eq!((carried.rest.clone(), carried.rest_str()), (15..24, "/Head.lit"));
    /// # Ok::<(), mudvizsor::Refusal>(())
    /// ```
    pub fn map_target_to_source_carried(&self, path: &Path) -> Result<Carried> {
        self.map_carried(Direction::Home, path)
    }

    /// Maps the path as [`translate_to_target`](Self::translate_to_target) does, and also returns the range of it that was
    /// carried over unaltered. That range is `0..0` if the path has a variant selection outside brackets.
    ///
    /// # Errors
    ///
    /// As for [`translate_to_target`](Self::translate_to_target).
    ///
    /// ```
    /// # use mudvizsor::{MapFunction, Path};
    /// let map = MapFunction::from_pair("/Mast", "/Line7/Signal_1")?;
    /// assert_eq!(map.translate_to_target_carried(&Path::new("/Mast/Head.lit")?)?.rest, 5..14);
    /// let stripped = map.translate_to_target_carried(&Path::new("/Mast{season=winter}Head.lit")?)?;
    /// assert_eq!((stripped.path.as_str(), stripped.rest), ("/Line7/Signal_1/Head.lit", 0..0));
    /// # Ok::<(), mudvizsor::Refusal>(())
    /// ```
    pub fn translate_to_target_carried(&self, path: &Path) -> Result<Carried> {
        self.map_carried(Direction::Translated, path)
    }

    /// Maps many paths and returns the results in the same order. The list of pairs is validated only once for all paths, so
    /// this is faster than a call for each.
    ///
    /// ```
    /// # use mudvizsor::{MapFunction, Path, Refusal, Direction};
    /// let map = MapFunction::from_pair("/A", "/X")?;
    /// let paths = [Path::new("/A/b")?, Path::new("/C")?];
    /// assert_eq!(map.map_all(Direction::Out, &paths), [Path::new("/X/b"), Err(Refusal::NoPath)]);
    /// # Ok::<(), Refusal>(())
    /// ```
    pub fn map_all<'a>(
        &self,
        direction: Direction,
        paths: impl IntoIterator<Item = &'a Path>,
    ) -> Vec<Result<Path>> {
        map_in_batches(paths, |paths, out, replies| {
            maps::apply_all(direction, self.lent_list(), paths, out, replies)
        })
    }

    /// Makes the mapping call that `direction` selects.
    fn map_path(&self, direction: Direction, path: &Path) -> Result<Path> {
        read_path(|out| maps::apply(direction, self.lent_list(), path.as_bytes(), out))
    }

    /// Makes the mapping call that `direction` selects, in the form that also tells what was carried over.
    fn map_carried(&self, direction: Direction, path: &Path) -> Result<Carried> {
        read_carried(|out| maps::apply_carried(direction, self.lent_list(), path.as_bytes(), out))
    }
}

/// Building maps from maps.
impl MapFunction {
    /// Returns the map with its time offset replaced.
    ///
    /// ```
    /// # use mudvizsor::{LayerOffset, MapFunction};
    /// let late = MapFunction::from_pair("/A", "/B")?.with_time_offset(LayerOffset::new(10.0, 2.0));
    /// assert_eq!(late.time_offset().apply(5.0), 20.0);
    /// # Ok::<(), mudvizsor::Refusal>(())
    /// ```
    pub fn with_time_offset(self, time: LayerOffset) -> Self {
        let LayerOffset { offset, scale } = self.time;
        let (count, mut made) = (self.pairs().len(), [0.0; 2]);
        let reply =
            map_info::with_time_offset(count, self.mark, offset, scale, time.offset, time.scale, &mut made);
        MapFunction { list: self.list, mark: accepted(reply) % 2 == 1, time: made.into() }
    }

    /// Returns the map with its mark set. No pair is dropped.
    ///
    /// ```
    /// # use mudvizsor::{MapFunction, Path};
    /// let map = MapFunction::from_pair("/A", "/A")?.with_root_identity();
    /// assert!(map.has_root_identity() && map.pairs().len() == 1);
    /// # Ok::<(), mudvizsor::Refusal>(())
    /// ```
    pub fn with_root_identity(&self) -> Self {
        never_refused(self.derive(map_build::with_root_identity))
    }

    /// Returns the map with the source and target of each pair exchanged, in the canonical form of [`new`](Self::new), with the
    /// time offset (0, 1).
    ///
    /// ```
    /// # use mudvizsor::MapFunction;
    /// assert_eq!(MapFunction::from_pair("/A", "/B")?.inverse(), MapFunction::from_pair("/B", "/A")?);
    /// # Ok::<(), mudvizsor::Refusal>(())
    /// ```
    pub fn inverse(&self) -> Self {
        never_refused(self.derive(map_build::inverse))
    }

    /// Returns the map without the pairs that have this source, in the canonical form of [`new`](Self::new). A map that has no
    /// such pair is returned unchanged.
    ///
    /// # Errors
    ///
    /// [`NotAnEnd`](crate::Refusal::NotAnEnd) (3) if the source is not an end.
    ///
    /// ```
    /// # use mudvizsor::{MapFunction, Path};
    /// let map = MapFunction::new([("/A", "/X"), ("/B", "/Y")])?;
    /// assert_eq!(map.dropping_source(&Path::new("/A")?)?, MapFunction::from_pair("/B", "/Y")?);
    /// # Ok::<(), mudvizsor::Refusal>(())
    /// ```
    pub fn dropping_source(&self, source: &Path) -> Result<Self> {
        self.derive(|map, buffers| map_build::dropping_source(map, source.as_bytes(), buffers))
    }

    /// Composes two maps: `inner` followed by this map, which is the outer one.
    ///
    /// Each pair of `inner` gets its target mapped by this map; a target that does not map becomes empty. Each pair of this
    /// map gets its source mapped back by `inner`, and is left out if there is no result or a pair with that source already.
    /// The map has the mark if both maps have it, and is put in the canonical form of [`new`](Self::new). If one of the maps
    /// is the [identity on paths](Self::path_is_identity), the pairs and the mark of the other are kept unchanged. The time
    /// offsets are concatenated.
    ///
    /// The result may map a path differently from the two maps applied in turn, since the longest match is taken over the
    /// composed pairs.
    ///
    /// # Errors
    ///
    /// [`TooMany`](crate::Refusal::TooMany) (4) if there are more than 64 pairs before redundant ones are dropped,
    /// [`MadeTooLong`](crate::Refusal::MadeTooLong) (7) if a composed source or target is too long.
    ///
    /// ```
    /// # use mudvizsor::{MapFunction, Path};
    /// let inner = MapFunction::new([("/A", "/X"), ("/A/B", "/Y")])?;
    /// let outer = MapFunction::new([("/X/B/C", "/Z"), ("/Y", "/W")])?;
    /// let path = Path::new("/A/B/C")?;
    /// assert_eq!(outer.compose(&inner)?.map_source_to_target(&path)?.as_str(), "/Z");
    /// let there = inner.map_source_to_target(&path)?;
    /// assert_eq!(outer.map_source_to_target(&there)?.as_str(), "/W/C");
    /// # Ok::<(), mudvizsor::Refusal>(())
    /// ```
    pub fn compose(&self, inner: &MapFunction) -> Result<Self> {
        build_longer(&[COMPOSED_PAIR_BYTES], |buffers| map_build::compose(self.lent(), inner.lent(), buffers))
    }

    /// Returns the map with the prefix `from` replaced by `to` in every target that has it, in the canonical form of
    /// [`new`](Self::new). A map in which no target has that prefix is returned unchanged.
    ///
    /// A map that is the [identity on paths](Self::path_is_identity) becomes the pair `from` to `to`, with the mark.
    ///
    /// # Errors
    ///
    /// [`NotAnEnd`](crate::Refusal::NotAnEnd) (3) if `from` or `to` is not an end,
    /// [`MadeTooLong`](crate::Refusal::MadeTooLong) (7) or [`MadeNotLegal`](crate::Refusal::MadeNotLegal) (8) if a
    /// resulting target is too long or not legal.
    ///
    /// ```
    /// # use mudvizsor::{MapFunction, Path};
    /// let map = MapFunction::from_pair("/A", "/Line7/A")?;
    /// let rebased = map.rebase_target(&Path::new("/Line7")?, &Path::new("/Town")?)?;
    /// assert_eq!(rebased, MapFunction::from_pair("/A", "/Town/A")?);
    /// # Ok::<(), mudvizsor::Refusal>(())
    /// ```
    pub fn rebase_target(&self, from: &Path, to: &Path) -> Result<Self> {
        build_longer(&[COMPOSED_PAIR_BYTES], |buffers| {
            map_build::rebase_target(self.lent(), from.as_bytes(), to.as_bytes(), buffers)
        })
    }

    /// Returns the map of a class arc moved down to a deeper path, the node, which is `node` without its selections.
    ///
    /// Of the sources that are a prefix of the node, the one with the most elements is selected, the last one on a tie; an
    /// empty source counts here. Every pair with that source gets the node as its source and, as its target, the node with
    /// the selected source replaced by the target of the selected pair. The result is put in the canonical form of
    /// [`new`](Self::new). The map is returned unchanged if it has a pair whose source is the node, or if no source is a
    /// prefix of the node.
    ///
    /// # Errors
    ///
    /// [`NotAnEnd`](crate::Refusal::NotAnEnd) (3) if the node is not an end,
    /// [`MadeTooLong`](crate::Refusal::MadeTooLong) (7) or [`MadeNotLegal`](crate::Refusal::MadeNotLegal) (8) if a
    /// resulting target is too long or not legal.
    ///
    /// ```
    /// # use mudvizsor::{MapFunction, Path};
    /// let map = MapFunction::from_pair("/A", "/X")?;
    /// assert_eq!(map.deepen_to(&Path::new("/A/b/c")?)?, MapFunction::from_pair("/A/b/c", "/X/b/c")?);
    /// # Ok::<(), mudvizsor::Refusal>(())
    /// ```
    pub fn deepen_to(&self, node: &Path) -> Result<Self> {
        build_longer(&[COMPOSED_PAIR_BYTES], |buffers| {
            map_build::deepen_to(self.lent(), node.as_bytes(), buffers)
        })
    }

    /// Returns the map of a class arc propagated across this map, the transfer: the composition transfer after class after
    /// inverse of the transfer, with the mark set. If the transfer is the [identity](Self::is_identity), it is the class
    /// unchanged.
    ///
    /// # Errors
    ///
    /// As for [`compose`](Self::compose).
    ///
    /// ```
    /// # use mudvizsor::{MapFunction, Path};
    /// let transfer = MapFunction::from_pair("/Model", "/Line7/Signal")?;
    /// let class = MapFunction::from_pair_identity("/Model/Class", "/Model/Lamp")?;
    /// let implied = transfer.implied_class(&class)?;
    /// let path = implied.map_source_to_target(&Path::new("/Line7/Signal/Class.lit")?)?;
    /// assert_eq!(path.as_str(), "/Line7/Signal/Lamp.lit");
    /// # Ok::<(), mudvizsor::Refusal>(())
    /// ```
    pub fn implied_class(&self, class: &MapFunction) -> Result<Self> {
        build_longer(&IMPLIED_PAIR_BYTES, |buffers| {
            map_build::implied_class(self.lent(), class.lent(), buffers)
        })
    }

    /// Builds a map whose ends are all ends of this map.
    fn derive(&self, call: impl FnOnce(Map, MapBuffers) -> Reply) -> Result<Self> {
        build(self.list.bytes(), self.list.pairs.len(), |buffers| call(self.lent(), buffers))
    }
}

impl MapFunction {
    /// The map as it is passed to the library.
    fn lent(&self) -> Map<'_> {
        Map { list: self.lent_list(), time: self.time.into() }
    }

    /// The pairs and the mark as they are passed to the library.
    pub(crate) fn lent_list(&self) -> List<'_> {
        self.list.packed.list(self.mark)
    }
}

/// Makes a call that builds a map, with buffers for this many bytes and pairs, and returns that map.
fn build(bytes: usize, pairs: usize, call: impl FnOnce(MapBuffers) -> Reply) -> Result<MapFunction> {
    let mut buffers = Packed::zeroed(bytes, pairs);
    let mut time = [0.0; 2];
    let reply = call(MapBuffers { out: &mut buffers.store, slots: &mut buffers.places, time: &mut time });
    let value = read(reply)?;
    Ok(MapFunction { list: PairList::read(buffers, value / 2), mark: value % 2 == 1, time: time.into() })
}

/// Makes a call that builds a map and may lengthen ends. The buffers hold 64 pairs of each of its lists, with the given number
/// of bytes for a pair of each. That is always enough, since more than 64 pairs are refused with 4 before the buffers are
/// checked.
fn build_longer(lists: &[usize], call: impl FnOnce(MapBuffers) -> Reply) -> Result<MapFunction> {
    build(MAX_PAIRS * lists.iter().sum::<usize>(), MAX_PAIRS * lists.len(), call)
}

#[cfg(test)]
mod tests;
