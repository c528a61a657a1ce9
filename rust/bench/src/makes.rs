//! Times building maps from lists, composing two maps, and the statuses of relocate lists. The library validates its lists in
//! each call; the paths of the original are parsed either before the time is taken or within it.

use crate::clock::{Times, best_times};
use crate::inputs::{self, COUNT, packed, parsed_pairs};
use crate::table::{head, ratio, row};
use mudvizsor::ffi::map_build::{Map, MapBuffers};
use mudvizsor::ffi::maps::List;
use mudvizsor::ffi::{map_build, relocates};
use original::pcp::MapFunction;
use original::sdf::Path;
use std::hint::black_box;

/// The number of different lists; they are used repeatedly to make the number of calls that are timed together.
const LISTS: usize = 50;

const IDENTITY: [f64; 2] = [0.0, 1.0];

/// One list in the forms of both sides.
struct Sides {
    texts: Vec<[String; 2]>,
    paths: Vec<(Path, Path)>,
    map: MapFunction,
    store: Vec<u8>,
    places: Vec<usize>,
}

impl Sides {
    fn new(texts: Vec<[String; 2]>) -> Self {
        let (store, places) = packed(texts.iter().flatten());
        let paths = parsed_pairs(&texts);
        let map = MapFunction::with_exactly(paths.clone(), false);
        Sides { texts, paths, map, store, places }
    }

    fn list(&self) -> List<'_> {
        List { store: &self.store, places: &self.places, count: self.texts.len(), mark: false }
    }

    fn as_map(&self) -> Map<'_> {
        Map { list: self.list(), time: IDENTITY }
    }
}

/// Buffers for a map that is built.
struct Buffers {
    out: Vec<u8>,
    slots: Vec<usize>,
    time: [f64; 2],
}

impl Buffers {
    fn new() -> Self {
        Buffers { out: vec![0; 1 << 16], slots: vec![0; 512], time: IDENTITY }
    }

    fn lend(&mut self) -> MapBuffers<'_> {
        MapBuffers { out: &mut self.out, slots: &mut self.slots, time: &mut self.time }
    }

    /// Copies a map of the original in the form in which the library writes a map, and returns the value of its reply.
    fn copy(&mut self, map: &MapFunction) -> usize {
        let (mut at, mut slot) = (0, 0);
        for end in map.path_pairs().iter().flat_map(|(source, target)| [source, target]) {
            let text = end.as_str().as_bytes();
            self.out[at..at + text.len()].copy_from_slice(text);
            self.slots[slot..slot + 2].copy_from_slice(&[at, text.len()]);
            at += text.len();
            slot += 2;
        }
        2 * map.path_pairs().len() + usize::from(map.has_root_identity())
    }
}

/// Prints a row for each call and number of pairs.
pub fn print() {
    head(&["call", "pairs", "text to text", "parsed or made before"]);
    for pairs in [1, 8, 64] {
        print_row("`MapFunction::new`", &pairs.to_string(), time_new(pairs));
    }
    for pairs in [1, 8] {
        print_row("`compose`", &format!("{pairs} and {pairs}"), time_compose(pairs));
    }
    for pairs in [8, 64] {
        print_row("`analyze_relocate_occurrences`", &pairs.to_string(), time_statuses(pairs));
    }
}

fn print_row(call: &str, pairs: &str, times: [Times; 2]) {
    let [from_texts, built_before] = times.map(|times| ratio(times.ratio()));
    row(&[call, pairs, &from_texts, &built_before]);
}

/// Times `new` for lists of this many pairs: from text to text, and with the paths parsed before.
fn time_new(pairs: usize) -> [Times; 2] {
    let lists = lists(pairs);
    let (mut buffers, mut other) = (Buffers::new(), Buffers::new());
    for each in &lists {
        let expected = buffers.copy(&MapFunction::new(each.paths.clone()));
        assert_eq!(map_build::new(each.list(), other.lend()).0, 256 * expected);
        assert!(buffers.out == other.out && buffers.slots == other.slots);
    }
    let mut library = || for_all(pairs, &lists, |each| map_build::new(black_box(each.list()), other.lend()));
    let parsed_before = || for_all(pairs, &lists, |each| MapFunction::new(black_box(&each.paths).clone()));
    let from_texts = || {
        for_all(pairs, &lists, |each| buffers.copy(&MapFunction::new(parsed_pairs(black_box(&each.texts)))))
    };
    [best(pairs, from_texts, &mut library), best(pairs, parsed_before, library)]
}

/// Times `compose` for two maps of this many pairs, where the sources of the outer map are the targets of the inner one: from
/// text to text, and with the maps built before.
fn time_compose(pairs: usize) -> [Times; 2] {
    let inner = lists(pairs);
    let outer: Vec<Sides> = inner.iter().map(|inner| Sides::new(inputs::list_after(&inner.texts))).collect();
    let both: Vec<(&Sides, &Sides)> = outer.iter().zip(&inner).collect();
    let (mut buffers, mut other) = (Buffers::new(), Buffers::new());
    for (outer, inner) in &both {
        let expected = buffers.copy(&outer.map.compose(&inner.map));
        assert_eq!(map_build::compose(outer.as_map(), inner.as_map(), other.lend()).0, 256 * expected);
        assert!(buffers.out == other.out && buffers.slots == other.slots);
    }
    let mut library = || {
        for_all(pairs, &both, |(outer, inner)| {
            map_build::compose(black_box(outer.as_map()), black_box(inner.as_map()), other.lend())
        });
    };
    let built_before =
        || for_all(pairs, &both, |(outer, inner)| black_box(&outer.map).compose(black_box(&inner.map)));
    let from_texts = || {
        for_all(pairs, &both, |(outer, inner)| {
            let [outer, inner] = [outer, inner]
                .map(|each| MapFunction::with_exactly(parsed_pairs(black_box(&each.texts)), false));
            buffers.copy(&outer.compose(&inner))
        });
    };
    [best(pairs, from_texts, &mut library), best(pairs, built_before, library)]
}

/// Times the statuses of lists of this many pairs: from text to text, and with the paths parsed before.
fn time_statuses(pairs: usize) -> [Times; 2] {
    let lists = lists(pairs);
    let mut out = vec![0; pairs];
    for each in &lists {
        assert_eq!(relocates::analyze_relocate_occurrences(each.list(), &mut out).0, 256 * pairs);
        assert_eq!(out, original::pcp::relocates::statuses(&each.paths));
    }
    let mut library = || {
        for_all(pairs, &lists, |each| {
            relocates::analyze_relocate_occurrences(black_box(each.list()), &mut out)
        })
    };
    let parsed_before =
        || for_all(pairs, &lists, |each| original::pcp::relocates::statuses(black_box(&each.paths)));
    let from_texts = || {
        for_all(pairs, &lists, |each| {
            original::pcp::relocates::statuses(&parsed_pairs(black_box(&each.texts)))
        })
    };
    [best(pairs, from_texts, &mut library), best(pairs, parsed_before, library)]
}

fn lists(pairs: usize) -> Vec<Sides> {
    (0..LISTS).map(|seed| Sides::new(inputs::list(pairs, seed))).collect()
}

/// The number of calls that are timed together, for lists of this many pairs.
fn calls(pairs: usize) -> usize {
    COUNT / pairs
}

fn for_all<T, U>(pairs: usize, items: &[T], mut call: impl FnMut(&T) -> U) {
    for item in items.iter().cycle().take(calls(pairs)) {
        black_box(call(item));
    }
}

fn best(pairs: usize, original: impl FnMut(), library: impl FnMut()) -> Times {
    best_times(calls(pairs), original, library)
}
