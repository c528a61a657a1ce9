//! Every relocate list of a few pairs over a few ends, and some short paths.

use crate::comparison::Comparison;
use crate::maps::list::List;
use crate::maps::small::{ENDS, FEW_ENDS, pairs};
use crate::text::Text;

/// Ends whose lists have every status: a source with two names can be Active.
const STATUS_ENDS: [&str; 7] = ["", "/", "/A", "/A/A", "/A/B", "/B/A", "/A/B/C"];

const PATHS: [&str; 12] = [
    "",
    "/",
    "/A",
    "/B/A",
    "/A/B",
    "/A/B/C",
    "/A.a",
    "/A/B.a",
    "/A{v=p}B",
    "/AB{v=p}",
    "/A.a[/B]",
    "/A/B.a[/A{v=p}B]",
];

const SKIPPED: [&str; 4] = ["", "/", "/A", "/A/B"];

pub fn lists_of_at_most_two(comparison: &mut Comparison) {
    let pairs = pairs(&ENDS);
    every_call(comparison, &[]);
    for one in &pairs {
        every_call(comparison, &[*one]);
        for other in &pairs {
            every_call(comparison, &[*one, *other]);
        }
    }
}

pub fn lists_of_three(comparison: &mut Comparison) {
    for_three(&pairs(&STATUS_ENDS), |list| comparison.statuses(&List::packed(list, false)));
    for_three(&pairs(&FEW_ENDS), |list| every_call(comparison, list));
}

fn for_three(pairs: &[[&str; 2]], mut visit: impl FnMut(&[[&str; 2]])) {
    for one in pairs {
        for two in pairs {
            for three in pairs {
                visit(&[*one, *two, *three]);
            }
        }
    }
}

/// Compares the statuses, and each path shifted and chained, without and with a skipped source.
fn every_call(comparison: &mut Comparison, pairs: &[[&str; 2]]) {
    let list = List::packed(pairs, false);
    comparison.statuses(&list);
    for path in PATHS {
        let text = Text::new(path.as_bytes());
        comparison.shift(&list, &text);
        comparison.chain(&list, None, &text);
        for skipped in SKIPPED {
            comparison.chain(&list, Some(&Text::new(skipped.as_bytes())), &text);
        }
    }
}
