//! Times mapping paths. The library validates the list of the map in each call, or once for all paths. The map of the original
//! is built before the time is taken.

use crate::clock::{Times, best_times};
use crate::inputs::{self, COUNT, MapInput, packed, parsed, parsed_pairs};
use crate::table::{head, nanoseconds, ratio, row};
use mudvizsor::ffi::maps::{Direction, List, Paths, apply, apply_all};
use original::pcp::MapFunction;
use original::sdf::Path;
use std::hint::black_box;
use texts::MAX_PATH_LEN;

/// A call on both sides.
struct MapCall {
    name: &'static str,
    direction: Direction,
    original: fn(&MapFunction, &Path) -> Option<Path>,
}

const CALLS: [MapCall; 2] = [
    MapCall {
        name: "`map_source_to_target`",
        direction: Direction::Out,
        original: MapFunction::map_source_to_target,
    },
    MapCall {
        name: "`translate_to_target`",
        direction: Direction::Translated,
        original: MapFunction::translate_to_target,
    },
];

/// One map in the forms of both sides, and paths that it maps.
struct Setting {
    map: MapFunction,
    store: Vec<u8>,
    places: Vec<usize>,
    count: usize,
    texts: Vec<String>,
    /// The concatenated texts, and the start and length of each.
    together: Vec<u8>,
    spots: Vec<usize>,
    paths: Vec<Path>,
}

impl Setting {
    fn new(input: MapInput) -> Self {
        let (store, places) = packed(input.pairs.iter().flatten());
        let (together, spots) = packed(&input.paths);
        Setting {
            map: MapFunction::with_exactly(parsed_pairs(&input.pairs), false),
            store,
            places,
            count: input.pairs.len(),
            paths: input.paths.iter().map(|text| parsed(text)).collect(),
            texts: input.paths,
            together,
            spots,
        }
    }

    fn all(&self) -> Paths<'_> {
        Paths { texts: &self.together, spots: &self.spots, count: self.texts.len() }
    }

    fn list(&self) -> List<'_> {
        List { store: &self.store, places: &self.places, count: self.count, mark: false }
    }
}

/// Prints a row for each call and number of pairs, for paths of about 40 bytes. "Each" is the call for one path, "once" the
/// call for many paths, which validates the list once.
pub fn print() {
    head(&[
        "call",
        "pairs",
        "text to text, each",
        "text to text, once",
        "parsed before, each",
        "parsed before, once",
        "library, once, ns",
    ]);
    for call in &CALLS {
        for pairs in [1, 8, 64] {
            print_row(call, &Setting::new(inputs::map_input(pairs, 40, COUNT)));
        }
    }
}

fn print_row(call: &MapCall, setting: &Setting) {
    assert!(setting.texts.iter().all(|text| sides_agree(call, setting, text)));
    assert!(all_agree(call, setting));
    let mut out = [0; MAX_PATH_LEN];
    let from_texts = || {
        for text in &setting.texts {
            black_box(map_by_original(call, setting, black_box(text), &mut out));
        }
    };
    let [text_each, text_once] = each_and_once(call, setting, from_texts);
    let from_paths = || {
        for path in &setting.paths {
            black_box((call.original)(&setting.map, black_box(path)));
        }
    };
    let [parsed_each, parsed_once] = each_and_once(call, setting, from_paths);
    let ratios = [text_each, text_once, parsed_each, parsed_once].map(|times| ratio(times.ratio()));
    let [a, b, c, d] = ratios.each_ref().map(String::as_str);
    let once = nanoseconds(text_once.measured.min(parsed_once.measured));
    row(&[call.name, &setting.count.to_string(), a, b, c, d, &once]);
}

/// Times the original and the call of the library for one path, then the original and the call for many paths.
fn each_and_once(call: &MapCall, setting: &Setting, mut original: impl FnMut()) -> [Times; 2] {
    let mut out = [0; MAX_PATH_LEN];
    let each = || {
        for text in &setting.texts {
            black_box(map_by_library(call, setting, black_box(text), &mut out));
        }
    };
    let each = best_times(COUNT, &mut original, each);
    let (mut out, mut replies) = buffers_for_all();
    let once = || {
        black_box(map_all_by_library(call, setting, &mut out, &mut replies));
        black_box((&out, &replies));
    };
    [each, best_times(COUNT, original, once)]
}

/// Parses the path, maps it, and copies the bytes of the result.
fn map_by_original(call: &MapCall, setting: &Setting, text: &str, out: &mut [u8]) -> usize {
    let result = (call.original)(&setting.map, &parsed(text)).expect("a path that the map maps");
    let text = result.as_str().as_bytes();
    out[..text.len()].copy_from_slice(text);
    text.len()
}

fn map_by_library(call: &MapCall, setting: &Setting, text: &str, out: &mut [u8]) -> usize {
    apply(call.direction, setting.list(), text.as_bytes(), out).0
}

/// Buffers for the bytes and the replies of all paths.
fn buffers_for_all() -> (Vec<u8>, Vec<usize>) {
    (vec![0; MAX_PATH_LEN * COUNT], vec![0; COUNT])
}

fn map_all_by_library(call: &MapCall, setting: &Setting, out: &mut [u8], replies: &mut [usize]) -> usize {
    apply_all(call.direction, setting.list(), black_box(setting.all()), out, replies).0
}

fn all_agree(call: &MapCall, setting: &Setting) -> bool {
    let (mut out, mut replies) = buffers_for_all();
    assert_eq!(map_all_by_library(call, setting, &mut out, &mut replies), 0);
    let blocks = out.chunks_exact(MAX_PATH_LEN).zip(replies);
    setting.texts.iter().zip(blocks).all(|(text, (block, reply))| {
        let mut expected = [0; MAX_PATH_LEN];
        let length = map_by_original(call, setting, text, &mut expected);
        reply == 256 * length && block == expected
    })
}

fn sides_agree(call: &MapCall, setting: &Setting, text: &str) -> bool {
    let (mut expected, mut found) = ([0; MAX_PATH_LEN], [0; MAX_PATH_LEN]);
    let length = map_by_original(call, setting, text, &mut expected);
    map_by_library(call, setting, text, &mut found) == 256 * length && expected == found
}
