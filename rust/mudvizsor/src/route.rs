//! Routes of maps and relocate lists.

use crate::batch::map_in_batches;
use crate::carried::read_carried;
use crate::ffi::routes::{self, Route as Lent};
use crate::pair_list::{Packed, Pairs};
use crate::path::{MAX_PATH_LEN, read_path};
use crate::refusal::{Refusal, Result, read};
use crate::{Carried, MapFunction, Path, Relocates};
use std::ops::Range;

/// A leg of a [`Route`].
///
/// ```
/// use mudvizsor::{Leg, MapFunction, Relocates};
///
/// let placed: Leg = MapFunction::from_pair("/Mast", "/Line7/Signal_1")?.into();
/// let moved: Leg = Relocates::new([("/Line7/Signal_1", "/Line7/Signal_2")])?.into();
/// assert!(matches!((placed, moved), (Leg::Map(_), Leg::Relocates(_))));
/// # Ok::<(), mudvizsor::Refusal>(())
/// ```
#[derive(Debug, Clone, PartialEq)]
pub enum Leg {
    /// A map. Its time offset is ignored on a route.
    Map(MapFunction),
    /// A relocate list, which stands for the map that [`MapFunction::new`] builds of its active pairs and `/` to `/`.
    Relocates(Relocates),
}

impl Leg {
    /// Returns the pairs of the map or of the relocate list.
    ///
    /// ```
    /// # use mudvizsor::{Leg, MapFunction};
    /// assert_eq!(Leg::from(MapFunction::from_pair("/A", "/B")?).pairs().len(), 1);
    /// # Ok::<(), mudvizsor::Refusal>(())
    /// ```
    pub fn pairs(&self) -> Pairs<'_> {
        match self {
            Leg::Map(map) => map.pairs(),
            Leg::Relocates(relocates) => relocates.pairs(),
        }
    }

    /// The number of its kind, as it is passed to the library.
    fn kind(&self) -> usize {
        match self {
            Leg::Map(map) => usize::from(map.has_root_identity()),
            Leg::Relocates(_) => 2,
        }
    }
}

impl From<MapFunction> for Leg {
    fn from(map: MapFunction) -> Self {
        Leg::Map(map)
    }
}

impl From<Relocates> for Leg {
    fn from(relocates: Relocates) -> Self {
        Leg::Relocates(relocates)
    }
}

/// A sequence of maps and relocate lists (its legs) over which paths are mapped.
///
/// [`out`](Self::out) maps a path over the legs in order with [`MapFunction::translate_to_target`], and stops at the first
/// leg that has no result. [`home`](Self::home) maps it over the legs in reverse with
/// [`MapFunction::map_target_to_source`]. It is proved for the library that a path without selections that comes out is
/// mapped home to itself, over the whole route. A path in brackets stays as it is, out and home, and its selections do not
/// count.
///
/// ```
/// use mudvizsor::{MapFunction, Path, Relocates, Route};
///
/// let placed = MapFunction::from_pair("/Mast", "/Line7/Harbour/Signal_1")?;
/// let moved = Relocates::new([("/Line7/Harbour/Signal_1", "/Line7/Quay/Signal_12")])?;
/// let route = Route::new([placed.into(), moved.into()])?;
/// let there = route.out(&Path::new("/Mast/Head.lit")?)?;
/// assert_eq!(there.as_str(), "/Line7/Quay/Signal_12/Head.lit");
/// assert_eq!(route.home(&there)?.as_str(), "/Mast/Head.lit");
///
/// // The target in brackets is mapped by a call of its own.
/// let address = Path::new("/Mast.next[/Mast/Head]")?;
/// let there = route.out(&address)?;
/// assert_eq!(there.as_str(), "/Line7/Quay/Signal_12.next[/Mast/Head]");
/// assert_eq!(route.home(&there)?, address);
/// let moved = there.replace_embedded_target(&route.out(&address.embedded_target()?)?)?;
/// assert_eq!(moved.as_str(), "/Line7/Quay/Signal_12.next[/Line7/Quay/Signal_12/Head]");
/// # Ok::<(), mudvizsor::Refusal>(())
/// ```
#[derive(Debug, Clone)]
pub struct Route {
    legs: Vec<Leg>,
    /// The pairs of all legs.
    packed: Packed,
    /// Three numbers for each leg: its kind, the index of its first pair, its number of pairs.
    numbers: Vec<usize>,
}

impl Route {
    /// Creates a route from its legs.
    ///
    /// # Errors
    ///
    /// [`Refusal::TooMany`] (4) if there are more than 16 legs.
    ///
    /// ```
    /// # use mudvizsor::{MapFunction, Refusal, Route};
    /// let legs = |count| std::iter::repeat_n(MapFunction::identity().into(), count);
    /// assert_eq!(Route::new(legs(16))?.legs().len(), 16);
    /// assert_eq!(Route::new(legs(17)).unwrap_err(), Refusal::TooMany);
    /// # Ok::<(), Refusal>(())
    /// ```
    pub fn new(legs: impl IntoIterator<Item = Leg>) -> Result<Self> {
        let legs: Vec<Leg> = legs.into_iter().collect();
        let packed = Packed::new(legs.iter().flat_map(Leg::pairs));
        let mut numbers = Vec::new();
        let mut first = 0;
        for leg in &legs {
            let count = leg.pairs().len();
            numbers.extend([leg.kind(), first, count]);
            first += count;
        }
        let route = Route { legs, packed, numbers };
        route.validate()?;
        Ok(route)
    }

    /// Validates the legs (checks 1 to 4), by mapping the empty path: its own refusals come later.
    fn validate(&self) -> Result<()> {
        let reply = routes::route_out(self.lent(0..self.legs.len()), b"", &mut [0; MAX_PATH_LEN]);
        match read(reply) {
            Err(refusal) if refusal < Refusal::NoPath => Err(refusal),
            _ => Ok(()),
        }
    }

    /// Returns the legs.
    ///
    /// ```
    /// # use mudvizsor::{Leg, MapFunction, Route};
    /// let route = Route::new([MapFunction::identity().into()])?;
    /// assert_eq!(route.legs(), [Leg::Map(MapFunction::identity())]);
    /// # Ok::<(), mudvizsor::Refusal>(())
    /// ```
    pub fn legs(&self) -> &[Leg] {
        &self.legs
    }

    /// Maps the path out over the legs. Its selections, except those in brackets, are removed by the first leg; with no legs
    /// it is returned unchanged.
    ///
    /// # Errors
    ///
    /// [`Refusal::NoPath`] (6) if a leg has no result for it, [`Refusal::MadeTooLong`] (7) or [`Refusal::MadeNotLegal`] (8)
    /// if the result of a leg is too long or not legal.
    ///
    /// ```
    /// # use mudvizsor::{MapFunction, Path, Refusal, Route};
    /// let route = Route::new([MapFunction::from_pair("/A", "/B")?.into()])?;
    /// assert_eq!(route.out(&Path::new("/A{v=p}c")?)?.as_str(), "/B/c");
    /// assert_eq!(route.out(&Path::new("/Q")?), Err(Refusal::NoPath));
    /// # Ok::<(), Refusal>(())
    /// ```
    pub fn out(&self, path: &Path) -> Result<Path> {
        self.map_over(0..self.legs.len(), false, path)
    }

    /// Maps the path home over the legs, the last leg first.
    ///
    /// # Errors
    ///
    /// As for [`out`](Self::out).
    ///
    /// ```
    /// # use mudvizsor::{MapFunction, Path, Route};
    /// let route = Route::new([MapFunction::from_pair("/A", "/B")?.into()])?;
    /// assert_eq!(route.home(&Path::new("/B/c")?)?.as_str(), "/A/c");
    /// # Ok::<(), mudvizsor::Refusal>(())
    /// ```
    pub fn home(&self, path: &Path) -> Result<Path> {
        self.map_over(0..self.legs.len(), true, path)
    }

    /// Maps the path out as [`out`](Self::out) does, and also returns the range of it that all legs carried over unaltered.
    ///
    /// That text is the end of the path, of the result of every leg and of the path made. The range is `0..0` if the first
    /// leg removed selections; with no legs it is the whole path.
    ///
    /// # Errors
    ///
    /// As for [`out`](Self::out).
    ///
    /// ```
    /// # use mudvizsor::{MapFunction, Path, Relocates, Route};
    /// let placed = MapFunction::from_pair("/Mast", "/Line7/Harbour/Signal_1")?;
    /// let moved = Relocates::new([("/Line7/Harbour/Signal_1/Head", "/Line7/Quay/Lamps")])?;
    /// let route = Route::new([placed.into(), moved.into()])?;
    /// let lamp = Path::new("/Mast/Head/Lamp_2.lit")?;
    /// let there = route.out_carried(&lamp)?;
    /// assert_eq!(there.path.as_str(), "/Line7/Quay/Lamps/Lamp_2.lit");
    /// assert_eq!(&lamp.as_str()[there.rest.clone()], "/Lamp_2.lit");
    /// assert_eq!(there.rest_str(), "/Lamp_2.lit");
    /// # Ok::<(), mudvizsor::Refusal>(())
    /// ```
    pub fn out_carried(&self, path: &Path) -> Result<Carried> {
        let route = self.lent(0..self.legs.len());
        read_carried(|out| routes::route_out_carried(route, path.as_bytes(), out))
    }

    /// Maps the path home as [`home`](Self::home) does, and also returns the range of it that all legs carried over unaltered.
    ///
    /// That text is the end of the path, of the result of every leg and of the path made. With no legs the range is the whole
    /// path.
    ///
    /// # Errors
    ///
    /// As for [`home`](Self::home).
    ///
    /// ```
    /// # use mudvizsor::{MapFunction, Path, Route};
    /// let route = Route::new([MapFunction::from_pair("/Mast", "/Line7/Signal_1")?.into()])?;
    /// let home = route.home_carried(&Path::new("/Line7/Signal_1/Head.lit")?)?;
    /// assert_eq!(home.path.as_str(), "/Mast/Head.lit");
    /// assert_eq!((home.rest.clone(), home.rest_str()), (15..24, "/Head.lit"));
    /// # Ok::<(), mudvizsor::Refusal>(())
    /// ```
    pub fn home_carried(&self, path: &Path) -> Result<Carried> {
        let route = self.lent(0..self.legs.len());
        read_carried(|out| routes::route_home_carried(route, path.as_bytes(), out))
    }

    /// Maps many paths out over the legs and returns the results in the same order. The legs are validated only once for all
    /// paths, so this is faster than [`out`](Self::out) for each.
    ///
    /// ```
    /// # use mudvizsor::{MapFunction, Path, Refusal, Route};
    /// let route = Route::new([MapFunction::from_pair("/A", "/B")?.into()])?;
    /// let paths = [Path::new("/A/c")?, Path::new("/Q")?];
    /// assert_eq!(route.out_all(&paths), [Path::new("/B/c"), Err(Refusal::NoPath)]);
    /// # Ok::<(), Refusal>(())
    /// ```
    pub fn out_all<'a>(&self, paths: impl IntoIterator<Item = &'a Path>) -> Vec<Result<Path>> {
        self.map_all_over(false, paths)
    }

    /// Maps many paths home over the legs and returns the results in the same order. The legs are validated only once for all
    /// paths.
    ///
    /// ```
    /// # use mudvizsor::{MapFunction, Path, Route};
    /// let route = Route::new([MapFunction::from_pair("/A", "/B")?.into()])?;
    /// assert_eq!(route.home_all([&Path::new("/B/c")?]), [Path::new("/A/c")]);
    /// # Ok::<(), mudvizsor::Refusal>(())
    /// ```
    pub fn home_all<'a>(&self, paths: impl IntoIterator<Item = &'a Path>) -> Vec<Result<Path>> {
        self.map_all_over(true, paths)
    }

    /// Returns an iterator over the results of the legs on the way out. A refusal is the last item.
    ///
    /// ```
    /// # use mudvizsor::{MapFunction, Path, Refusal, Route};
    /// let map = |source, target| MapFunction::from_pair(source, target);
    /// let route = Route::new([map("/A", "/B")?.into(), map("/B/c", "/D")?.into()])?;
    /// let steps: Vec<_> = route.steps_out(&Path::new("/A/c")?).collect();
    /// assert_eq!(steps, [Path::new("/B/c"), Path::new("/D")]);
    /// let steps: Vec<_> = route.steps_out(&Path::new("/A/x")?).collect();
    /// assert_eq!(steps, [Path::new("/B/x"), Err(Refusal::NoPath)]);
    /// # Ok::<(), Refusal>(())
    /// ```
    pub fn steps_out(&self, path: &Path) -> Steps<'_> {
        Steps { route: self, home: false, remaining: 0..self.legs.len(), current: Some(path.clone()) }
    }

    /// Returns an iterator over the results of the legs on the way home, the last leg first. A refusal is the last item.
    ///
    /// ```
    /// # use mudvizsor::{MapFunction, Path, Route};
    /// let map = |source, target| MapFunction::from_pair(source, target);
    /// let route = Route::new([map("/A", "/B")?.into(), map("/B/c", "/D")?.into()])?;
    /// let steps: Vec<_> = route.steps_home(&Path::new("/D")?).collect();
    /// assert_eq!(steps, [Path::new("/B/c"), Path::new("/A/c")]);
    /// # Ok::<(), mudvizsor::Refusal>(())
    /// ```
    pub fn steps_home(&self, path: &Path) -> Steps<'_> {
        Steps { route: self, home: true, remaining: 0..self.legs.len(), current: Some(path.clone()) }
    }

    /// Some of the legs as they are passed to the library.
    fn lent(&self, legs: Range<usize>) -> Lent<'_> {
        let numbers = &self.numbers[3 * legs.start..3 * legs.end];
        Lent { store: &self.packed.store, places: &self.packed.places, legs: numbers, count: legs.len() }
    }

    /// Maps the path over some of the legs.
    fn map_over(&self, legs: Range<usize>, home: bool, path: &Path) -> Result<Path> {
        let route = self.lent(legs);
        match home {
            false => read_path(|out| routes::route_out(route, path.as_bytes(), out)),
            true => read_path(|out| routes::route_home(route, path.as_bytes(), out)),
        }
    }

    fn map_all_over<'a>(&self, home: bool, paths: impl IntoIterator<Item = &'a Path>) -> Vec<Result<Path>> {
        let route = self.lent(0..self.legs.len());
        map_in_batches(paths, |paths, out, replies| routes::route_all(route, home, paths, out, replies))
    }
}

/// An iterator over the steps of a path over a route, created by [`Route::steps_out`] and [`Route::steps_home`].
#[derive(Debug, Clone)]
pub struct Steps<'a> {
    route: &'a Route,
    home: bool,
    /// The remaining legs.
    remaining: Range<usize>,
    /// The path so far; `None` after a refusal.
    current: Option<Path>,
}

impl Iterator for Steps<'_> {
    type Item = Result<Path>;

    fn next(&mut self) -> Option<Self::Item> {
        let leg = if self.home { self.remaining.next_back() } else { self.remaining.next() }?;
        let step = self.route.map_over(leg..leg + 1, self.home, self.current.as_ref()?);
        self.current = step.as_ref().ok().cloned();
        Some(step)
    }
}

impl std::iter::FusedIterator for Steps<'_> {}

#[cfg(test)]
mod tests;
