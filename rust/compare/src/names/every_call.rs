//! Compares every call that takes a path, with the same text in each place of a path.

use crate::comparison::Comparison;
use crate::frames::script::Script;
use crate::makes::calls::Map;
use crate::maps::list::List;
use crate::routes::lent_route::Route;
use crate::text::Text;
use frames_original::Frame;
use std::slice;
use texts::MAX_PATH_LEN;

/// One byte too few for a path, and just enough.
const CAPACITIES: [usize; 2] = [MAX_PATH_LEN - 1, MAX_PATH_LEN];

const IDENTITY: [f64; 2] = [0.0, 1.0];

/// Kinds of legs.
const MAP: usize = 0;
const RELOCATES: usize = 2;

pub fn every_call(comparison: &mut Comparison, text: &Text) {
    of_texts(comparison, text);
    with_lists(comparison, text);
    for pair in with_other_end(text) {
        in_lists(comparison, pair);
    }
    line_by_line(comparison, text);
}

/// The text as a source, and as a target.
fn with_other_end(text: &Text) -> [[&[u8]; 2]; 2] {
    [[&text.bytes, b"/B"], [b"/A", &text.bytes]]
}

/// Compares the calls that take texts alone.
fn of_texts(comparison: &mut Comparison, text: &Text) {
    let [other, new, bracketed] = [b"/A".as_slice(), b"/C{v=p}", b"/A.r[/T]"].map(Text::new);
    comparison.one_text(text);
    comparison.facts(text);
    for [one, two] in [[text, &other], [&other, text]] {
        comparison.has_prefix(one, two);
        comparison.prefix_facts(one, two);
        comparison.prefix_carried(one, two);
        comparison.one_pair(one, two);
    }
    comparison.replace_embedded_target(text, &other);
    comparison.replace_embedded_target(&bracketed, text);
    comparison.replace_prefix(text, &other, &new);
    comparison.replace_prefix(&other, text, &new);
    comparison.replace_prefix(&other, &other, text);
}

/// Compares the calls that take a text with a list or a route.
fn with_lists(comparison: &mut Comparison, text: &Text) {
    let (pairs, alone) = ([["/A", "/B"]], slice::from_ref(text));
    let (list, other) = (List::packed(&pairs, true), Text::new(b"/A"));
    comparison.map(&list, text);
    comparison.map_all(&list, alone);
    comparison.maps_carried(&list, alone, &CAPACITIES);
    comparison.shift(&list, text);
    comparison.chain(&list, None, text);
    comparison.chain(&list, Some(text), &other);
    let map = Map { list, time: IDENTITY };
    comparison.dropping_source(&map, text);
    comparison.rebase_target(&map, text, &other);
    comparison.rebase_target(&map, &other, text);
    comparison.deepen_to(&map, text);
    let route = Route::packed(&[(MAP, &pairs), (RELOCATES, &pairs)]);
    comparison.route(&route, text, &CAPACITIES);
    comparison.route_all(&route, alone);
    comparison.routes_carried(&route, alone, &CAPACITIES);
}

/// Compares the calls that take a list or a route, with this pair.
fn in_lists(comparison: &mut Comparison, pair: [&[u8]; 2]) {
    let (path, other) =
        ([Text::new(b"/A/C")], Map { list: List::packed(&[["/A", "/B"]], true), time: IDENTITY });
    let list = List::packed(&[pair], false);
    comparison.list_facts(&list);
    comparison.map(&list, &path[0]);
    comparison.map_all(&list, &path);
    comparison.maps_carried(&list, &path, &CAPACITIES);
    comparison.statuses(&list);
    comparison.shift(&list, &path[0]);
    comparison.chain(&list, None, &path[0]);
    let map = Map { list, time: IDENTITY };
    comparison.one_map(&map);
    comparison.two_maps(&map, &other);
    comparison.two_maps(&other, &map);
    for kind in [MAP, RELOCATES] {
        let route = Route::packed(&[(kind, &[pair])]);
        comparison.route(&route, &path[0], &CAPACITIES);
        comparison.route_all(&route, &path);
        comparison.routes_carried(&route, &path, &CAPACITIES);
    }
}

/// Compares the lines of `frames` with the text in each frame that takes one.
fn line_by_line(comparison: &mut Comparison, text: &Text) {
    let pairs = with_other_end(text).map(|[source, target]| Frame::Pair { source, target });
    let others = [
        Frame::Pair { source: b"/A", target: b"/B" },
        Frame::Statuses,
        Frame::CloseMap,
        Frame::Out(&text.bytes),
        Frame::Home(&text.bytes),
        Frame::Out(b"/A/C"),
        Frame::Count,
    ];
    let lines = pairs.iter().chain(&others).map(Frame::line).collect();
    comparison.lines(&Script { lines, open_end: false });
}
