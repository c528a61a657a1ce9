//! The entries of the library that tell the rest, for texts, lists and routes.

use crate::carried::calls::{
    Carried, Entry, HOME, Names, OUT, REST_START, ROUTE_HOME, ROUTE_OUT, TRANSLATED,
};
use crate::carried::kinds::{Expected, Kind};
use crate::carried::reader::{Leg, backward, forward};
use crate::comparison::Comparison;
use crate::maps::calls::{self as map_calls, MapCall};
use crate::maps::list::List;
use crate::routes::calls::{self as route_calls, RouteCall};
use crate::routes::lent_route::Route;
use crate::text::Text;
use mudvizsor::ffi::maps::{apply, apply_carried};
use mudvizsor::ffi::routes::{self, route_home_carried, route_out_carried};
use mudvizsor::ffi::{Reply, paths};
use original::pcp::MapFunction;

const OF_PREFIXES: &[Kind] = &[
    Kind::NoPrefix,
    Kind::EmptyPrefix,
    Kind::UnderRoot,
    Kind::Exact,
    Kind::AtSlash,
    Kind::AtProperty,
    Kind::AtSelection,
    Kind::AfterSelection,
    Kind::Bracketed,
];

const OF_MAPS: &[Kind] = &[
    Kind::MarkOnly,
    Kind::Exact,
    Kind::UnderRoot,
    Kind::IntoRoot,
    Kind::AtSlash,
    Kind::AtProperty,
    Kind::Bracketed,
];

const OF_ROUTES: &[Kind] =
    &[Kind::NoLegs, Kind::Whole, Kind::CutAtFirst, Kind::CutLater, Kind::NothingLeft, Kind::Bracketed];

const STRIPPED: &[Kind] = &[Kind::Stripped, Kind::StrippedBracketed];

/// The kinds of cases that must occur. The keys of a map have no selections, and only mapping home joins an empty end.
pub const EXPECTED: [Expected; 6] = [
    Expected { call: REST_START.call, kinds: &[OF_PREFIXES], refusals: 2 },
    Expected { call: OUT.call, kinds: &[OF_MAPS, &[Kind::AtSelection]], refusals: 8 },
    Expected { call: HOME.call, kinds: &[OF_MAPS, &[Kind::AtSelection, Kind::IntoEmpty]], refusals: 8 },
    Expected { call: TRANSLATED.call, kinds: &[OF_MAPS, STRIPPED], refusals: 8 },
    Expected { call: ROUTE_OUT.call, kinds: &[OF_ROUTES, STRIPPED], refusals: 8 },
    Expected { call: ROUTE_HOME.call, kinds: &[OF_ROUTES], refusals: 8 },
];

/// A call of a map that tells the rest.
pub struct CarriedMap {
    pub names: Names,
    pub plain: MapCall,
    leg: fn(&MapFunction) -> Leg,
    strips: bool,
}

pub const MAP_OUT: CarriedMap = CarriedMap { names: OUT, plain: map_calls::OUT, leg: forward, strips: false };

pub const MAP_HOME: CarriedMap =
    CarriedMap { names: HOME, plain: map_calls::BACK, leg: backward, strips: false };

pub const MAP_TRANSLATED: CarriedMap =
    CarriedMap { names: TRANSLATED, plain: map_calls::TRANSLATED, leg: forward, strips: true };

const MAP_CALLS: [CarriedMap; 3] = [MAP_OUT, MAP_HOME, MAP_TRANSLATED];

/// A call of a route that tells the rest.
pub struct CarriedRoute {
    pub names: Names,
    pub plain: RouteCall,
    entry: fn(routes::Route, &[u8], &mut [u8]) -> Reply,
}

pub const OUT_OVER: CarriedRoute =
    CarriedRoute { names: ROUTE_OUT, plain: route_calls::OUT, entry: route_out_carried };

pub const HOME_OVER: CarriedRoute =
    CarriedRoute { names: ROUTE_HOME, plain: route_calls::HOME, entry: route_home_carried };

impl CarriedMap {
    /// The map as a leg; none if the list is refused.
    pub fn legs<'a>(&self, list: &'a List) -> Vec<Leg<'a>> {
        list.map().into_iter().map(self.leg).collect()
    }

    /// The call for a path, with these entries of the library or stand-ins for them.
    pub fn call<'a>(
        &'a self,
        list: &'a List,
        legs: &'a [Leg<'a>],
        text: &'a Text,
        plain: Entry<'a>,
        carried: Entry<'a>,
    ) -> Carried<'a> {
        let made = self.plain.expected(list, text);
        Carried {
            names: &self.names,
            given: list,
            text,
            legs,
            is_map: true,
            strips: self.strips,
            made,
            plain,
            carried,
        }
    }
}

impl CarriedRoute {
    /// The legs in the order in which a path passes them; none if the route is refused.
    pub fn legs<'a>(&self, route: &'a Route) -> Vec<Leg<'a>> {
        let maps = route.maps().unwrap_or_default().iter();
        if self.plain.home { maps.rev().map(backward).collect() } else { maps.map(forward).collect() }
    }

    /// The call for a path, with these entries of the library or stand-ins for them.
    pub fn call<'a>(
        &'a self,
        route: &'a Route,
        legs: &'a [Leg<'a>],
        text: &'a Text,
        plain: Entry<'a>,
        carried: Entry<'a>,
    ) -> Carried<'a> {
        let (made, strips) = (self.plain.expected(route, text), !self.plain.home);
        Carried { names: &self.names, given: route, text, legs, is_map: false, strips, made, plain, carried }
    }
}

impl Comparison {
    /// Compares the prefix test.
    pub fn prefix_carried(&mut self, text: &Text, prefix: &Text) {
        let found = paths::rest_start(&text.bytes, &prefix.bytes);
        self.rest_start(text, prefix, found, paths::has_prefix(&text.bytes, &prefix.bytes));
    }

    /// Compares each call of a map on each path.
    pub fn maps_carried(&mut self, list: &List, texts: &[Text], capacities: &[usize]) {
        for call in &MAP_CALLS {
            let (legs, direction) = (call.legs(list), call.plain.direction);
            for text in texts {
                let plain = |out: &mut [u8]| apply(direction, list.for_library(), &text.bytes, out);
                let carried = |out: &mut [u8]| apply_carried(direction, list.for_library(), &text.bytes, out);
                self.carried(&call.call(list, &legs, text, &plain, &carried), capacities);
            }
        }
    }

    /// Compares each path out and home and, if it comes out, home from there.
    pub fn routes_carried(&mut self, route: &Route, texts: &[Text], capacities: &[usize]) {
        let (out, home) = (OUT_OVER.legs(route), HOME_OVER.legs(route));
        for text in texts {
            self.route_carried(&OUT_OVER, route, &out, text, capacities);
            self.route_carried(&HOME_OVER, route, &home, text, capacities);
            if let Ok(made) = OUT_OVER.plain.expected(route, text) {
                let made = Text::new(made.as_str().as_bytes());
                self.route_carried(&HOME_OVER, route, &home, &made, capacities);
            }
        }
    }

    fn route_carried(
        &mut self,
        call: &CarriedRoute,
        route: &Route,
        legs: &[Leg],
        text: &Text,
        capacities: &[usize],
    ) {
        let plain = |out: &mut [u8]| (call.plain.entry)(route.for_library(), &text.bytes, out);
        let carried = |out: &mut [u8]| (call.entry)(route.for_library(), &text.bytes, out);
        self.carried(&call.call(route, legs, text, &plain, &carried), capacities);
    }
}
