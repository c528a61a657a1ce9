//! A route as it is lent, and the maps of its legs in the original or its refusal.

use crate::maps::list::{LentList, TOO_MANY_PAIRS, map_of, show_pairs, size};
use crate::tally::Given;
use crate::text::Answer;
use mudvizsor::ffi::{self, maps::List};
use original::pcp::{MapFunction, relocates};
use original::sdf::Path;
use std::fmt::{self, Display};

/// The maximum number of legs of a route. More are refused like too many pairs.
pub const MAX_LEGS: usize = 16;

/// The buffers of a route: one list with the pairs of all legs, and three numbers for each leg.
#[derive(Clone, Default)]
pub struct LentRoute {
    pub list: LentList,
    pub legs: Vec<usize>,
    pub count: usize,
}

impl LentRoute {
    /// Stores the lists of these legs, each given with its kind, consecutively.
    pub fn packed<T: AsRef<[u8]>>(legs: &[(usize, &[[T; 2]])]) -> Self {
        let mut route = LentRoute { count: legs.len(), ..LentRoute::default() };
        for (kind, pairs) in legs {
            route.legs.extend([*kind, route.list.count, pairs.len()]);
            for end in pairs.iter().flatten() {
                let place = route.list.stored(end.as_ref());
                route.list.places.extend(place);
            }
            route.list.count += pairs.len();
        }
        route
    }

    /// The number of counted legs whose numbers are in the slice.
    pub fn present(&self) -> usize {
        self.count.min(self.legs.len() / 3)
    }

    /// The present legs.
    fn legs(&self) -> impl Iterator<Item = LentLeg<'_>> {
        self.legs[..3 * self.present()].chunks_exact(3).map(|leg| self.leg(leg[0], leg[1], leg[2]))
    }

    /// A leg from its numbers. A list that starts after the last place has no places.
    fn leg(&self, kind: usize, first: usize, count: usize) -> LentLeg<'_> {
        let LentList { store, places, .. } = &self.list;
        let places = first.checked_mul(4).and_then(|first| places.get(first..)).unwrap_or_default();
        LentLeg { kind, list: List { store, places, count, mark: kind == 1 } }
    }
}

/// One leg of a route.
struct LentLeg<'a> {
    kind: usize,
    list: List<'a>,
}

impl LentLeg<'_> {
    fn is_map(&self) -> bool {
        self.kind <= 1
    }

    /// "A leg's map is that map, or what that `new` gives", or the first failed check of questions 1 to 4.
    fn map(&self) -> Answer<MapFunction> {
        let map = map_of(self.list)?;
        Ok(if self.is_map() { map } else { relocate_map(map.path_pairs()) })
    }
}

/// "`new` of its Active pairs and `/`→`/`".
fn relocate_map(pairs: &[(Path, Path)]) -> MapFunction {
    let statuses = relocates::statuses(pairs);
    let active = pairs.iter().zip(statuses).filter(|(_, status)| *status == 0).map(|(pair, _)| pair.clone());
    let root = (Path::abs_root(), Path::abs_root());
    MapFunction::new(active.chain([root]).collect::<Vec<_>>())
}

pub struct Route {
    lent: LentRoute,
    maps: Answer<Vec<MapFunction>>,
}

impl Route {
    pub fn new(lent: LentRoute) -> Self {
        let maps = maps_of(&lent);
        Route { lent, maps }
    }

    pub fn packed<T: AsRef<[u8]>>(legs: &[(usize, &[[T; 2]])]) -> Self {
        Route::new(LentRoute::packed(legs))
    }

    pub fn for_library(&self) -> ffi::routes::Route<'_> {
        let LentRoute { list, legs, count } = &self.lent;
        ffi::routes::Route { store: &list.store, places: &list.places, legs, count: *count }
    }

    /// The maps of the legs in the original, or the first failed check of questions 1 to 4.
    pub fn maps(&self) -> Answer<&[MapFunction]> {
        self.maps.as_deref().map_err(|number| *number)
    }
}

/// The maps of all legs. Each question is checked for every leg before the next question, so the smallest number decides.
fn maps_of(lent: &LentRoute) -> Answer<Vec<MapFunction>> {
    let maps: Vec<Answer<MapFunction>> = lent.legs().map(|leg| leg.map()).collect();
    if let Some(number) = maps.iter().filter_map(|map| map.as_ref().err()).min() {
        return Err(*number);
    }
    if lent.present() < lent.count || lent.count > MAX_LEGS {
        return Err(TOO_MANY_PAIRS);
    }
    maps.into_iter().collect()
}

impl Given for Route {
    /// The sizes of the lists, and one for each leg.
    fn size(&self) -> usize {
        self.lent.legs().map(|leg| size(leg.list) + 1).sum()
    }
}

impl Display for Route {
    fn fmt(&self, f: &mut fmt::Formatter<'_>) -> fmt::Result {
        for leg in self.lent.legs() {
            match leg.kind {
                0 => f.write_str(" map")?,
                1 => f.write_str(" map with mark")?,
                kind => write!(f, " relocates ({kind})")?,
            }
            show_pairs(leg.list, f)?;
            f.write_str(";")?;
        }
        if self.lent.present() < self.lent.count {
            write!(f, " {} legs counted;", self.lent.count)?;
        }
        Ok(())
    }
}
