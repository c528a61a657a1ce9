//! The calls for routes: the entry of the library, the functions of the original leg by leg, and the expected answer.

use crate::calls::accept;
use crate::comparison::Comparison;
use crate::many::Many;
use crate::maps::calls::{WithText, both};
use crate::own_part::{Bracketed, with_tail};
use crate::routes::lent_route::Route;
use crate::tally::Call;
use crate::text::{Answer, NO_PATH, Text};
use mudvizsor::ffi::Reply;
use mudvizsor::ffi::maps::Paths;
use mudvizsor::ffi::routes::{self, route_all, route_home, route_out};
use original::pcp::MapFunction;
use original::sdf::Path;
use texts::MAX_PATH_LEN;

/// A call that maps a path over a route.
pub struct RouteCall {
    name: &'static str,
    pub home: bool,
    pub entry: fn(routes::Route, &[u8], &mut [u8]) -> Reply,
}

pub const OUT: RouteCall = RouteCall { name: "route_out", home: false, entry: route_out };

pub const HOME: RouteCall = RouteCall { name: "route_home", home: true, entry: route_home };

pub const CALLS: [RouteCall; 2] = [OUT, HOME];

/// The sizes of the buffers lent for the path, in bytes.
pub const CAPACITIES: [usize; 3] = [MAX_PATH_LEN - 1, MAX_PATH_LEN, 300];

impl RouteCall {
    pub fn expected(&self, route: &Route, text: &Text) -> Answer<Path> {
        let (maps, path) = both(route.maps(), text.answer())?;
        self.map_over(maps, path)
    }

    /// "Leg after leg, the first given the starting path, each later one what the leg before gave; a leg that
    /// answers 6, 7 or 8 ends the way." Home goes "in reverse".
    fn map_over(&self, maps: &[MapFunction], path: &Path) -> Answer<Path> {
        if self.home {
            maps.iter().rev().try_fold(path.clone(), |path, map| accept(map.map_target_to_source(&path)))
        } else {
            maps.iter().try_fold(path.clone(), |path, map| accept(map.translate_to_target(&path)))
        }
    }

    /// The same for a path of this own part and this tail: only the own part is mapped, and the questions are put to both
    /// together.
    fn map_with_tail(&self, maps: &[MapFunction], own: &Path, tail: &str) -> Answer<Path> {
        let mut own = own.clone();
        for at in 0..maps.len() {
            let made = if self.home {
                maps[maps.len() - 1 - at].map_target_to_source(&own)
            } else {
                maps[at].translate_to_target(&own)
            };
            with_tail(made.clone(), tail)?;
            own = made.ok_or(NO_PATH)?;
        }
        with_tail(Some(own), tail)
    }
}

/// The trace of a path on the way out: the path at each leg that it reaches, and the result of the last leg.
pub fn trace(maps: &[MapFunction], path: &Path) -> Vec<Path> {
    let mut paths = vec![path.clone()];
    for map in maps {
        match accept(map.translate_to_target(&paths[paths.len() - 1])) {
            Ok(path) => paths.push(path),
            Err(_) => break,
        }
    }
    paths
}

/// Returns whether each leg that is reached, unless its map has an empty source, has a result exactly if plain mapping yields
/// a path that passes questions 7 and 8 and maps back to the start, and the result is that path.
fn is_exact(maps: &[MapFunction], path: &Path) -> bool {
    maps.iter().zip(trace(maps, path)).all(|(map, reached)| {
        let result = accept(map.map_source_to_target(&reached)).ok();
        let expected = result.filter(|made| map.map_target_to_source(made).as_ref() == Some(&reached));
        let has_empty_source = map.path_pairs().iter().any(|(source, _)| source.is_empty());
        has_empty_source || accept(map.translate_to_target(&reached)).ok() == expected
    })
}

impl Comparison {
    /// Compares a path out and home and, if it comes out, home from there, with a buffer of each capacity.
    pub fn route(&mut self, route: &Route, text: &Text, capacities: &[usize]) {
        for call in &CALLS {
            self.one_direction(call, route, text, capacities);
        }
        if let Ok(out) = OUT.expected(route, text) {
            self.one_direction(&HOME, route, &Text::new(out.as_str().as_bytes()), capacities);
        }
        self.round_trip(route, text);
    }

    fn one_direction(&mut self, call: &RouteCall, route: &Route, text: &Text, capacities: &[usize]) {
        let expected = call.expected(route, text);
        let entry = |out: &mut [u8]| (call.entry)(route.for_library(), &text.bytes, out);
        let given = &WithText { given: route, text };
        self.path(call.name, given, capacities, &expected, entry);
        if let (Ok(maps), Some(Bracketed { own, tail, .. })) = (route.maps(), Bracketed::new(text)) {
            let agrees = call.map_with_tail(maps, &own, tail) == expected;
            self.tally.fact("the way is that of the own part, then the tail", given, agrees);
        }
    }

    /// Checks the round-trip requirement (demand 3): a path without selections that comes out comes home. It is checked for the
    /// original and for the library, which maps home the bytes that it wrote itself.
    fn round_trip(&mut self, route: &Route, text: &Text) {
        let (Ok(maps), Ok(path)) = (route.maps(), text.answer()) else {
            return;
        };
        if path.has_variant_selection() {
            return;
        }
        let given = &WithText { given: route, text };
        self.tally.fact(
            "round trip: a leg maps a path exactly when it maps back",
            given,
            is_exact(maps, path),
        );
        if let Ok(out) = OUT.map_over(maps, path) {
            let returns = HOME.map_over(maps, &out).as_ref() == Ok(path);
            self.tally.fact("round trip: a path that comes out comes home", given, returns);
            let found = library_round_trip(route, &text.bytes);
            let call = Call { name: "route_out, then route_home", given, capacity: None };
            self.tally.values(call, found.as_deref() == Ok(&text.bytes[..]), &text.bytes, &found);
        }
    }

    /// Compares both directions for all paths at once.
    pub fn route_all(&mut self, route: &Route, texts: &[Text]) {
        for call in &CALLS {
            let expected = texts.iter().map(|text| call.expected(route, text)).collect();
            let entry = |paths: Paths, out: &mut [u8], replies: &mut [usize]| {
                route_all(route.for_library(), call.home, paths, out, replies)
            };
            let refused = route.maps().err();
            self.many(&Many { name: "route_all", given: route, refused, entry: &entry }, texts, expected);
        }
    }
}

/// Maps a path out and home with the library.
fn library_round_trip(route: &Route, path: &[u8]) -> Result<Vec<u8>, Reply> {
    let (mut out, mut home) = ([0; MAX_PATH_LEN], [0; MAX_PATH_LEN]);
    let written = |reply: Reply| if reply.number() == 0 { Ok(reply.value()) } else { Err(reply) };
    let length = written(route_out(route.for_library(), path, &mut out))?;
    let length = written(route_home(route.for_library(), &out[..length], &mut home))?;
    Ok(home[..length].to_vec())
}
