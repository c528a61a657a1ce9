//! Times the calls of the library that also tell which part of a path is carried over unaltered, beside the plain calls on the
//! same texts.

use crate::clock::best_times;
use crate::inputs::{self, COUNT, Names, packed};
use crate::table::{head, nanoseconds, ratio, row};
use mudvizsor::ffi::Reply;
use mudvizsor::ffi::maps::{Direction, List, apply, apply_carried};
use mudvizsor::ffi::paths::{has_prefix, rest_start};
use mudvizsor::ffi::routes::{Route, route_home, route_home_carried, route_out, route_out_carried};
use std::hint::black_box;
use texts::MAX_PATH_LEN;

/// The number of pairs of each leg of a route.
const PAIRS_A_LEG: usize = 8;

/// Prints a row for each call and size. All texts have a result.
pub fn print() {
    head(&["call", "size", "plain, ns", "with the rest, ns", "with the rest / plain"]);
    for length in [40, 100, 200] {
        time_prefixes(length);
    }
    for pairs in [1, 8, 64] {
        time_maps(pairs);
    }
    for legs in [1, 4, 16] {
        time_routes(legs);
    }
}

/// Tests the prefix of paths of about this length.
fn time_prefixes(length: usize) {
    let texts = inputs::replacements(Names::Mixed, length, COUNT);
    let texts: Vec<[&[u8]; 2]> =
        texts.iter().map(|each| [each.path.as_bytes(), each.old.as_bytes()]).collect();
    time(
        "`has_prefix`, `rest_start`",
        &format!("{length} bytes"),
        &texts,
        |[text, prefix], _| has_prefix(text, prefix),
        |[text, prefix], _| rest_start(text, prefix),
    );
}

/// Maps paths of about 40 bytes out, home, and out without their selections.
fn time_maps(pairs: usize) {
    let input = inputs::map_input(pairs, 40, COUNT);
    let (store, places) = packed(input.pairs.iter().flatten());
    let list = List { store: &store, places: &places, count: pairs, mark: false };
    let map_out = |text: &[u8], out: &mut [u8]| apply(Direction::Out, list, text, out);
    let mapped = results(&input.paths, map_out);
    for (name, direction, paths) in [
        ("`map_source_to_target`", Direction::Out, &input.paths),
        ("`map_target_to_source`", Direction::Home, &mapped),
        ("`translate_to_target`", Direction::Translated, &input.paths),
    ] {
        time(
            name,
            &format!("pairs: {pairs}"),
            &bytes(paths),
            |text, out| apply(direction, list, text, out),
            |text, out| apply_carried(direction, list, text, out),
        );
    }
}

/// Maps paths of about 40 bytes over legs that are maps, out and home.
fn time_routes(legs: usize) {
    let input = inputs::route_input(legs, PAIRS_A_LEG, COUNT);
    let (store, places) = packed(input.legs.iter().flatten().flatten());
    let numbers: Vec<usize> = (0..legs).flat_map(|leg| [0, PAIRS_A_LEG * leg, PAIRS_A_LEG]).collect();
    let route = Route { store: &store, places: &places, legs: &numbers, count: legs };
    let size = format!("legs: {legs}, of {PAIRS_A_LEG} pairs each");
    let out = |text: &&[u8], out: &mut [u8]| route_out(route, text, out);
    let out_carried = |text: &&[u8], out: &mut [u8]| route_out_carried(route, text, out);
    time("`route_out`", &size, &bytes(&input.paths), out, out_carried);
    let ends = results(&input.paths, |text, out| route_out(route, text, out));
    let home = |text: &&[u8], out: &mut [u8]| route_home(route, text, out);
    let home_carried = |text: &&[u8], out: &mut [u8]| route_home_carried(route, text, out);
    time("`route_home`", &size, &bytes(&ends), home, home_carried);
}

/// Times two calls on each input and prints a row. They must agree in all but the rest.
fn time<T>(
    name: &str,
    size: &str,
    inputs: &[T],
    plain: impl Fn(&T, &mut [u8]) -> Reply,
    carried: impl Fn(&T, &mut [u8]) -> Reply,
) {
    let (mut out, mut other_out) = ([0; MAX_PATH_LEN], [0; MAX_PATH_LEN]);
    for input in inputs {
        let [one, other] = [plain(input, &mut out), carried(input, &mut other_out)];
        assert_eq!((one.number(), one.value()), (0, other.value() % 256));
        assert!(other.number() == 0 && out == other_out);
    }
    let plain = || {
        for input in inputs {
            black_box(plain(black_box(input), &mut out));
        }
    };
    let carried = || {
        for input in inputs {
            black_box(carried(black_box(input), &mut other_out));
        }
    };
    let times = best_times(inputs.len(), plain, carried);
    let [plain, carried] = [times.reference, times.measured].map(nanoseconds);
    row(&[name, size, &plain, &carried, &ratio(times.ratio())]);
}

fn bytes(texts: &[String]) -> Vec<&[u8]> {
    texts.iter().map(String::as_bytes).collect()
}

/// The results of a call on each path.
fn results(paths: &[String], call: impl Fn(&[u8], &mut [u8]) -> Reply) -> Vec<String> {
    let mut out = [0; MAX_PATH_LEN];
    let result = |path: &String| {
        let reply = call(path.as_bytes(), &mut out);
        assert_eq!(reply.number(), 0);
        String::from_utf8(out[..reply.value()].to_vec()).expect("a path is UTF-8")
    };
    paths.iter().map(result).collect()
}
