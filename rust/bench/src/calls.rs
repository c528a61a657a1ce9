//! Times `new` and `replace_prefix` on path texts, in and outside ASCII, and on texts with brackets also the calls on the path in
//! them.

mod brackets;

use crate::clock::{Times, best_times};
use crate::inputs::{self, COUNT, Names, Replacement, parsed};
use crate::table::{head, nanoseconds, ratio, row};
use mudvizsor::ffi;
use original::sdf::Path;
use std::hint::black_box;
use texts::MAX_PATH_LEN;

pub fn print() {
    head(&["call", "texts", "mean bytes", "original, ns", "library, ns", "library / original"]);
    time_new(Names::Mixed);
    time_new(Names::LowerCase);
    time_replace_prefix(Names::Mixed);
    for length in [80, 200] {
        brackets::time(length);
    }
    for names in Names::OUTSIDE_ASCII {
        time_new(names);
        time_replace_prefix(names);
    }
}

fn time_new(names: Names) {
    for length in [27, 71, 222] {
        time_new_of(names, length);
    }
}

fn time_replace_prefix(names: Names) {
    for length in [40, 100, 200] {
        time_replace_prefix_of(names, length);
    }
}

fn time_new_of(names: Names, length: usize) {
    let paths = inputs::paths(names, length, COUNT);
    assert!(paths.iter().all(|path| ffi::paths::new(path.as_bytes()).number() == 0));
    let original = || {
        for path in &paths {
            let _ = black_box(Path::new(black_box(path)));
        }
    };
    let library = || {
        for path in &paths {
            black_box(ffi::paths::new(black_box(path.as_bytes())));
        }
    };
    let times = best_times(COUNT, original, library);
    print_row("`new`", names.title(), paths.iter().map(String::len), times);
}

fn time_replace_prefix_of(names: Names, length: usize) {
    let replacements = inputs::replacements(names, length, COUNT);
    assert!(replacements.iter().all(sides_agree));
    let (mut out, mut other_out) = ([0; MAX_PATH_LEN], [0; MAX_PATH_LEN]);
    let original = || {
        for each in &replacements {
            black_box(original_replace(black_box(each), &mut out));
        }
    };
    let library = || {
        for each in &replacements {
            black_box(library_replace(black_box(each), &mut other_out));
        }
    };
    let times = best_times(COUNT, original, library);
    print_row("`replace_prefix`", names.title(), replacements.iter().map(|each| each.path.len()), times);
}

/// From text to text: three paths are parsed, the prefix is replaced, and the bytes of the result are copied.
fn original_replace(each: &Replacement, out: &mut [u8]) -> usize {
    let [path, old, new] = [&each.path, &each.old, &each.new].map(|text| parsed(text));
    copied(&path.replace_prefix(&old, &new).expect("a path with this prefix"), out)
}

/// Copies the bytes of a path and returns their number.
fn copied(path: &Path, out: &mut [u8]) -> usize {
    let text = path.as_str().as_bytes();
    out[..text.len()].copy_from_slice(text);
    text.len()
}

fn library_replace(each: &Replacement, out: &mut [u8]) -> usize {
    ffi::paths::replace_prefix(each.path.as_bytes(), each.old.as_bytes(), each.new.as_bytes(), out).value()
}

fn sides_agree(each: &Replacement) -> bool {
    let (mut expected, mut found) = ([0; MAX_PATH_LEN], [0; MAX_PATH_LEN]);
    original_replace(each, &mut expected) == library_replace(each, &mut found) && expected == found
}

fn print_row(call: &str, texts: &str, lengths: impl Iterator<Item = usize>, times: Times) {
    let mean = lengths.sum::<usize>() as f64 / COUNT as f64;
    row(&[
        call,
        texts,
        &format!("{mean:.0}"),
        &nanoseconds(times.reference),
        &nanoseconds(times.measured),
        &ratio(times.ratio()),
    ]);
}
