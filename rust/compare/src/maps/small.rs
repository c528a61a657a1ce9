//! Every list of a few pairs over a few ends, with and without the mark, and some short paths.

use crate::maps::list::List;
use crate::text::Text;

/// Gets a list and the paths to try with it.
type Visit<'a> = &'a mut dyn FnMut(&List, &[Text]);

pub const ENDS: [&str; 10] = ["", "/", "/A", "/B", "/AB", "/A/A", "/A/B", "/B/A", "/A/B/C", "/A/B/C/A"];

pub const FEW_ENDS: [&str; 5] = ["", "/", "/A", "/A/B", "/B"];

const PATHS: [&str; 50] = [
    "",
    "/",
    "/A",
    "/B",
    "/C",
    "/AB",
    "/ABC",
    "/A/A",
    "/A/B",
    "/A/C",
    "/B/A",
    "/B/B",
    "/AB/A",
    "/A/B/C",
    "/A/B/B",
    "/A/BC",
    "/B/A/B",
    "/A/A/B/C",
    "/A/B/C/A",
    "/A/B/C/A/B",
    "/A.a",
    "/B.a:b",
    "/AB.a",
    "/A/A.a",
    "/A/B.a",
    "/B/A.a:b",
    "/A/B/C.a",
    "/A/B/C/A.a",
    "/A{v=p}",
    "/B{v=p}",
    "/A{v=p}{w=q}",
    "/A{v=p}B",
    "/B{v=p}A",
    "/A{v=p}.a",
    "/A{v=p}B.a",
    "/A/B{v=p}",
    "/A/B{v=p}C",
    "/A/B{v=p}.a",
    "/A{v=p}B/C",
    "/A{v=p}B{w=q}C",
    "/A{v=p}{w=q}B/C.a:b",
    "/C{v=p}A",
    "/AB{v=p}A",
    "/A/B/C{v=p}A.a",
    "/A.a[/B]",
    "/A/B.a[/A{v=p}B]",
    "/B{v=p}A.a[/A/B.a[/]]",
    "/Aé",
    "/A{v=p}é/B",
    "/A/B{v=p}中.é[/é]",
];

pub fn lists_of_at_most_two(visit: Visit) {
    let texts = texts();
    let pairs = pairs(&ENDS);
    either_mark(visit, &[], &texts);
    for one in &pairs {
        either_mark(visit, &[*one], &texts);
        for other in &pairs {
            either_mark(visit, &[*one, *other], &texts);
        }
    }
}

pub fn lists_of_three(visit: Visit) {
    let texts = texts();
    let pairs = pairs(&FEW_ENDS);
    for one in &pairs {
        for two in &pairs {
            for three in &pairs {
                either_mark(visit, &[*one, *two, *three], &texts);
            }
        }
    }
}

fn texts() -> Vec<Text> {
    PATHS.iter().map(|path| Text::new(path.as_bytes())).collect()
}

pub fn pairs(ends: &[&'static str]) -> Vec<[&'static str; 2]> {
    ends.iter().flat_map(|source| ends.iter().map(|target| [*source, *target])).collect()
}

fn either_mark(visit: Visit, pairs: &[[&str; 2]], texts: &[Text]) {
    for mark in [false, true] {
        visit(&List::packed(pairs, mark), texts);
    }
}
