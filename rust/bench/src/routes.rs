//! Times mapping paths over a route, all in one call. The library validates the legs, and builds the maps of relocate lists,
//! once for all paths. The legs of the original are built before the time is taken; its paths are parsed within it.

use crate::clock::best_times;
use crate::inputs::{self, RouteInput, packed, parsed, parsed_pairs};
use crate::table::{head, ratio, row};
use mudvizsor::ffi::maps::Paths;
use mudvizsor::ffi::routes::{Route, route_all};
use original::pcp::MapFunction;
use original::sdf::Path;
use std::hint::black_box;
use texts::MAX_PATH_LEN;

/// The number of paths that are timed together.
const PATHS: usize = 1_000;

/// The kind of the legs.
#[derive(Clone, Copy)]
enum Kind {
    Maps,
    Relocates,
}

impl Kind {
    /// Its number in a lent route.
    fn number(self) -> usize {
        match self {
            Kind::Maps => 0,
            Kind::Relocates => 2,
        }
    }

    /// The map of a leg as the original builds it. All pairs are Active.
    fn map(self, mut pairs: Vec<(Path, Path)>) -> MapFunction {
        match self {
            Kind::Maps => MapFunction::with_exactly(pairs, false),
            Kind::Relocates => {
                assert!(original::pcp::relocates::statuses(&pairs).iter().all(|status| *status == 0));
                pairs.push((Path::abs_root(), Path::abs_root()));
                MapFunction::new(pairs)
            }
        }
    }
}

/// One route in the forms of both sides.
struct Sides {
    maps: Vec<MapFunction>,
    store: Vec<u8>,
    places: Vec<usize>,
    legs: Vec<usize>,
}

impl Sides {
    fn new(kind: Kind, legs: &[Vec<[String; 2]>]) -> Self {
        let (store, places) = packed(legs.iter().flatten().flatten());
        let mut first = 0;
        let mut numbers = Vec::new();
        for list in legs {
            numbers.extend([kind.number(), first, list.len()]);
            first += list.len();
        }
        let maps = legs.iter().map(|list| kind.map(parsed_pairs(list))).collect();
        Sides { maps, store, places, legs: numbers }
    }

    fn route(&self) -> Route<'_> {
        Route { store: &self.store, places: &self.places, legs: &self.legs, count: self.maps.len() }
    }

    /// Parses the path, maps it over the legs, and copies the bytes of the result.
    fn original(&self, home: bool, text: &str, out: &mut [u8]) -> usize {
        let (path, maps) = (parsed(text), &self.maps);
        let result = if home {
            maps.iter().rev().try_fold(path, |path, map| map.map_target_to_source(&path))
        } else {
            maps.iter().try_fold(path, |path, map| map.translate_to_target(&path))
        };
        let result = result.expect("a path that maps over all legs");
        let text = result.as_str().as_bytes();
        out[..text.len()].copy_from_slice(text);
        text.len()
    }

    /// Maps the paths out.
    fn map_out(&self, texts: &[String]) -> Vec<String> {
        let mut out = [0; MAX_PATH_LEN];
        let end = |text: &String| {
            let length = self.original(false, text, &mut out);
            String::from_utf8(out[..length].to_vec()).expect("a path is UTF-8")
        };
        texts.iter().map(end).collect()
    }
}

/// Prints a row for each number of legs and of pairs per leg, with the ratio and the nanoseconds of the library per path.
pub fn print() {
    head(&["legs", "pairs a leg", "maps, out", "maps, home", "relocate lists, out", "relocate lists, home"]);
    for legs in [1, 4, 16] {
        for pairs in [1, 8, 64] {
            let [maps, relocates] = [Kind::Maps, Kind::Relocates].map(|kind| time(kind, legs, pairs));
            row(&[[legs.to_string(), pairs.to_string()], maps, relocates].concat());
        }
    }
}

/// Times mapping out and home over this many legs and pairs, for paths that map over all legs.
fn time(kind: Kind, legs: usize, pairs: usize) -> [String; 2] {
    let RouteInput { legs, paths } = inputs::route_input(legs, pairs, PATHS);
    let sides = &Sides::new(kind, &legs);
    [time_direction(sides, false, &paths), time_direction(sides, true, &sides.map_out(&paths))]
}

fn time_direction(sides: &Sides, home: bool, texts: &[String]) -> String {
    let (together, spots) = packed(texts);
    let paths = Paths { texts: &together, spots: &spots, count: PATHS };
    let (mut out, mut replies) = (vec![0; MAX_PATH_LEN * PATHS], vec![0; PATHS]);
    let mut one = [0; MAX_PATH_LEN];
    assert_eq!(route_all(sides.route(), home, paths, &mut out, &mut replies).0, 0);
    for (i, text) in texts.iter().enumerate() {
        let length = sides.original(home, text, &mut one);
        assert!(replies[i] == 256 * length && out[MAX_PATH_LEN * i..].starts_with(&one[..length]));
    }
    let original = || {
        for text in texts {
            black_box(sides.original(home, black_box(text), &mut one));
        }
    };
    let library = || {
        black_box(route_all(sides.route(), home, black_box(paths), &mut out, &mut replies));
        black_box((&out, &replies));
    };
    let times = best_times(PATHS, original, library);
    format!("{}, {:.0}", ratio(times.ratio()), times.measured)
}
