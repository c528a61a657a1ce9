//! Well-formed scripts: legs that map the result of the leg before, and paths out over them and home.

use crate::frames::generate::flawed;
use crate::frames::generate::writer::{Pair, Writer};
use frames_original::{Frame, State};
use texts::ends::path_under;
use texts::generate::{continued, prefixes};
use texts::random::Random;

/// The number of lists that are tried for a leg.
const TRIES: usize = 10;

/// Adds the legs of a route, with a path out after most of them, and at the end paths out and home.
pub fn route(writer: &mut Writer) {
    let pair = writer.any_pair();
    let start = path_under(writer.random, &pair[0], &pair[1]);
    let mut reached = start.clone();
    for _ in 0..leg_count(writer.random) {
        leg(writer, &reached);
        if !writer.random.one_in(6) {
            reached = writer.out(&start).unwrap_or(reached);
        }
    }
    for _ in 0..writer.random.within(2..=10) {
        query(writer, &start);
    }
    writer.frame(Frame::Count);
}

/// A number of legs, mostly small.
fn leg_count(random: &mut Random) -> usize {
    match random.below(10) {
        0 => 0,
        1..=6 => random.within(1..=4),
        7 | 8 => random.within(5..=10),
        _ => random.within(15..=17),
    }
}

/// Adds the pairs of a list, sometimes a frame for its statuses, and the frame that closes it.
fn leg(writer: &mut Writer, reached: &[u8]) {
    let close = writer.any_close();
    for pair in list_for(writer, close, reached) {
        writer.pair(pair);
        if writer.random.one_in(12) {
            writer.frame(Frame::Statuses);
        }
    }
    if writer.random.one_in(3) {
        writer.frame(Frame::Statuses);
    }
    writer.close_or_else(close);
}

/// The first of some lists that maps the path, or, one time in twelve, any list.
fn list_for(writer: &mut Writer, close: Frame, reached: &[u8]) -> Vec<Pair> {
    let tries = if writer.random.one_in(12) { 1 } else { TRIES };
    let mut pairs = list(writer, reached);
    for _ in 1..tries {
        if maps_over(&pairs, close, reached) {
            break;
        }
        pairs = list(writer, reached);
    }
    pairs
}

/// Returns whether a path comes out over a leg of these pairs.
fn maps_over(pairs: &[Pair], close: Frame, path: &[u8]) -> bool {
    let mut state = State::default();
    let added = |[source, target]: &Pair| state.answer(Frame::Pair { source, target }).is_ok();
    pairs.iter().all(added) && state.answer(close).is_ok() && state.answer(Frame::Out(path)).is_ok()
}

/// Pairs of the writer's ends; mostly one of them has a source that is a prefix of the path so far.
fn list(writer: &mut Writer, reached: &[u8]) -> Vec<Pair> {
    let count = if writer.random.one_in(15) { writer.random.within(20..=66) } else { writer.random.below(6) };
    let mut pairs: Vec<Pair> = (0..count).map(|_| writer.any_pair()).collect();
    if !pairs.is_empty() && !writer.random.one_in(6) {
        let at = writer.random.below(count);
        let source = end_above(writer.random, reached);
        let other = writer.any_end();
        let target = target(writer.random, &source, other);
        pairs[at] = [source, target];
    }
    pairs
}

/// A prefix of the path that is an end.
fn end_above(random: &mut Random, path: &[u8]) -> Vec<u8> {
    let names = path.split(|byte| b"{.".contains(byte)).next().unwrap_or_default();
    random.pick(&prefixes(names)).to_vec()
}

/// A target that often has no relation to other targets, so that paths map back through the same pair.
fn target(random: &mut Random, source: &[u8], other: Vec<u8>) -> Vec<u8> {
    let names = |end: &[u8]| if end == b"/" { Vec::new() } else { end.to_vec() };
    match random.below(3) {
        0 => other,
        1 => [&b"/New"[..], &names(source)].concat(),
        _ => [&names(&other), &b"/New"[..]].concat(),
    }
}

/// Adds a random frame that uses the legs closed so far.
fn query(writer: &mut Writer, start: &[u8]) {
    match writer.random.below(12) {
        0..=4 => {
            let path = path_for(writer, start);
            if let Some(out) = writer.out(&path) {
                writer.home(&out);
            }
        }
        5 | 6 => {
            let path = path_home(writer, start);
            writer.home(&path);
        }
        7 if !writer.reached.is_empty() => {
            let path = writer.random.pick(&writer.reached).clone();
            writer.home(&path);
        }
        8 => {
            writer.frame(Frame::Statuses);
        }
        9 => {
            let pair = writer.any_pair();
            writer.pair(pair);
        }
        10 => flawed::frame(writer),
        _ => {
            writer.frame(Frame::Count);
        }
    }
}

/// A path that starts like the first one, or lies below a source of the first leg.
fn path_for(writer: &mut Writer, start: &[u8]) -> Vec<u8> {
    match writer.legs.first().filter(|leg| !leg.is_empty() && writer.random.one_in(2)) {
        Some(leg) => {
            let [source, target] = writer.random.pick(leg);
            path_under(writer.random, source, target)
        }
        None => {
            let end = end_above(writer.random, start);
            let length = (end.len() + writer.random.below(30)).min(texts::MAX_PATH_LEN);
            continued(writer.random, &end, length)
        }
    }
}

/// A path that lies below a target of the last leg, or the start if there are no legs.
fn path_home(writer: &mut Writer, start: &[u8]) -> Vec<u8> {
    match writer.legs.last().filter(|leg| !leg.is_empty()) {
        Some(leg) => {
            let [source, target] = writer.random.pick(leg);
            path_under(writer.random, target, source)
        }
        None => start.to_vec(),
    }
}

/// Adds frames of any kind in any order.
pub fn any_order(writer: &mut Writer) {
    for _ in 0..writer.random.within(1..=40) {
        any_frame(writer);
    }
}

pub fn any_frame(writer: &mut Writer) {
    match writer.random.below(10) {
        0..=3 => {
            let pair = writer.any_pair();
            writer.pair(pair);
        }
        4 => writer.close_as_any(),
        5 => flawed::frame(writer),
        _ => {
            let end = writer.any_end();
            query(writer, &end);
        }
    }
}
