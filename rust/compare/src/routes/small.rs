//! Every route of one or two legs of a few pairs over a few ends, and every path of a few elements.

use crate::maps::small::{ENDS, pairs};
use crate::routes::lent_route::Route;
use crate::text::Text;

/// Gets a route and the paths to try with it.
type Visit<'a> = &'a mut dyn FnMut(&Route, &[Text]);

/// A map, a map with the mark, and a relocate list.
const KINDS: [usize; 3] = [0, 1, 2];

/// Ends of which there are Active relocates.
const THREE_ENDS: [&str; 3] = ["/A", "/A/A", "/A/B"];

type List = Vec<[&'static str; 2]>;

/// Visits every list of at most one pair with more paths, then of two pairs with fewer paths.
pub fn one_leg(visit: Visit) {
    let (more, fewer) = (paths(4), paths(2));
    for list in lists(&ENDS, 1) {
        every_kind(visit, &list, &more);
    }
    for list in lists(&ENDS, 2).iter().filter(|list| list.len() == 2) {
        every_kind(visit, list, &fewer);
    }
}

/// Visits every two legs of at most one pair over all ends, then of at most two pairs over three ends.
pub fn two_legs(visit: Visit) {
    two_legs_of_one_pair(visit);
    every_two(visit, &lists(&THREE_ENDS, 2), &paths(3));
}

/// Visits every two legs of at most one pair over all ends.
pub fn two_legs_of_one_pair(visit: Visit) {
    every_two(visit, &lists(&ENDS, 1), &paths(2));
}

fn every_kind(visit: Visit, list: &List, texts: &[Text]) {
    for kind in KINDS {
        visit(&Route::packed(&[(kind, list)]), texts);
    }
}

fn every_two(visit: Visit, lists: &[List], texts: &[Text]) {
    let legs: Vec<(usize, &[_])> =
        lists.iter().flat_map(|list| KINDS.map(|kind| (kind, list.as_slice()))).collect();
    for one in &legs {
        for other in &legs {
            visit(&Route::packed(&[*one, *other]), texts);
        }
    }
}

/// Every list of at most `most` pairs over these ends.
fn lists(ends: &[&'static str], most: usize) -> Vec<List> {
    let pairs = pairs(ends);
    let mut lists: Vec<List> = vec![vec![]];
    let mut longest = 0;
    for _ in 0..most {
        let before = longest;
        longest = lists.len();
        for at in before..longest {
            let longer = pairs.iter().map(|pair| [&lists[at][..], &[*pair]].concat());
            lists.extend(longer.collect::<Vec<_>>());
        }
    }
    lists
}

/// Some paths with brackets.
const BRACKETED: [&str; 2] = ["/A/B.a[/A]", "/A{v=p}A.a[/A{v=p}A]"];

/// Every path of at most this many elements, each `A`, `B` or a selection, with and without a property; and some with brackets.
fn paths(elements: usize) -> Vec<Text> {
    let mut paths: Vec<String> = ["", "/"].into_iter().chain(BRACKETED).map(String::from).collect();
    let mut longest = vec![String::new()];
    for _ in 0..elements {
        longest = longest.iter().flat_map(|path| longer(path)).collect();
        paths.extend(longest.iter().flat_map(|path| [path.clone(), format!("{path}.a")]));
    }
    paths.iter().map(|path| Text::new(path.as_bytes())).collect()
}

fn longer(path: &str) -> Vec<String> {
    let slash = if path.ends_with('}') { "" } else { "/" };
    let mut longer = vec![format!("{path}{slash}A"), format!("{path}{slash}B")];
    if !path.is_empty() {
        longer.push(format!("{path}{{v=p}}"));
    }
    longer
}
