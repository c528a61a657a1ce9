//! A second reading of what the requirements say about the rest, the part of a path that is carried over unaltered. It follows
//! their sentences, which are quoted here, and works on plain texts. It shares no code with the library; from the original
//! it takes the pairs of a map and a path's own part without its selections.

use crate::facts::is_prefix;
use crate::own_part::split;
use crate::text::parsed;
use original::pcp::MapFunction;
use original::sdf::Path;

/// "A part of the text the caller handed in": where it starts, and its length.
#[derive(Debug, Clone, Copy, PartialEq, Eq)]
pub struct Part {
    pub start: usize,
    pub length: usize,
}

/// "An empty part otherwise."
const NO_PART: Part = Part { start: 0, length: 0 };

/// "The prefix test now says also where the rest begins." The prefix is one of the text.
///
/// "A separating slash belongs to the rest, so under the key `/` the rest of a longer text is that whole text."
pub fn rest_start(text: &str, prefix: &str) -> usize {
    if prefix == "/" && text != "/" { 0 } else { prefix.len() }
}

/// One map in one direction.
pub struct Leg<'a> {
    /// The key of each pair, and the other end.
    pairs: Vec<[&'a str; 2]>,
    mark: bool,
    /// Whether an empty other end gives no path.
    empty_blocks: bool,
}

/// The map with its sources as the keys. "An empty target gives no path."
pub fn forward(map: &MapFunction) -> Leg<'_> {
    let pairs = map.path_pairs().iter().map(|(source, target)| [source.as_str(), target.as_str()]);
    Leg { pairs: pairs.collect(), mark: map.has_root_identity(), empty_blocks: true }
}

/// The map with its targets as the keys.
pub fn backward(map: &MapFunction) -> Leg<'_> {
    let pairs = map.path_pairs().iter().map(|(source, target)| [target.as_str(), source.as_str()]);
    Leg { pairs: pairs.collect(), mark: map.has_root_identity(), empty_blocks: false }
}

impl<'a> Leg<'a> {
    /// The pair that is used. "Of the pairs whose key is a prefix of the path, the one whose key has most elements, the later
    /// on a tie; empty keys are skipped."
    pub fn pair_for(&self, path: &str) -> Option<[&'a str; 2]> {
        let keys_match =
            |[key, _]: &&[&str; 2]| !key.is_empty() && is_prefix(path.as_bytes(), key.as_bytes());
        // `max_by_key` returns the last of several equal ones.
        self.pairs.iter().filter(keys_match).max_by_key(|[key, _]| names(key)).copied()
    }
}

/// The number of elements of a key, which has names only.
fn names(key: &str) -> usize {
    key.split('/').filter(|name| !name.is_empty()).count()
}

/// A path on its way over the legs.
struct Step {
    text: String,
    /// For each byte the index in the path given from which it was carried over; `None` for a byte of an end.
    origins: Vec<Option<usize>>,
}

impl Step {
    /// The path that a leg makes of this one: the other end of the pair that is used, followed by the rest. "With no pair, the
    /// mark returns the path itself", so "for a path that only the mark returns the rest is the whole text".
    fn after(&self, leg: &Leg) -> Option<Step> {
        let (end, start) = match leg.pair_for(&self.text) {
            Some([_, ""]) if leg.empty_blocks => return None,
            Some([key, end]) => (end, rest_start(&self.text, key)),
            None if leg.mark => ("", 0),
            None => return None,
        };
        let rest = &self.text[start..];
        let end = before_rest(end, rest);
        let origins = [&vec![None; end.len()], &self.origins[start..]].concat();
        Some(Step { text: format!("{end}{rest}"), origins })
    }

    /// The bytes of the path given that are left. They are its end; if none is left, the part begins where the text ends.
    fn part(&self, given: &str) -> Part {
        let left = self.origins.iter().flatten();
        Part { start: left.clone().copied().next().unwrap_or(given.len()), length: left.count() }
    }
}

/// What comes before the rest: the key or the other end. "A separating slash belongs to the rest", so nothing of `/` comes before
/// a rest that is not empty.
pub fn before_rest<'a>(end: &'a str, rest: &str) -> &'a str {
    if end == "/" && !rest.is_empty() { "" } else { end }
}

/// What the requirements say about one path.
pub struct Reading {
    pub part: Part,
    /// Whether selections were stripped.
    pub is_stripped: bool,
    /// The path with which the first leg begins, and the path that each leg makes.
    pub steps: Vec<String>,
    /// How many bytes of the path given are left after each leg.
    pub left: Vec<usize>,
}

/// Follows a path over the legs, in the order in which it passes them; `None` if a leg gives no path.
///
/// "`translate_to_target` gives the rest only where there is no selection to strip, and an empty part otherwise." Each leg of a
/// route out translates, so `strips` is true for both; a route without legs strips nothing. "Names and selections inside
/// brackets don't count as the path's own", so there is nothing to strip in brackets.
pub fn read(given: &Path, legs: &[Leg], strips: bool) -> Option<Reading> {
    let (own, tail) = split(given.as_str());
    let is_stripped = strips && !legs.is_empty() && own.contains('{');
    let mut step = if is_stripped {
        let text = format!("{}{tail}", parsed(own.as_bytes())?.strip_variant_selections());
        Step { origins: vec![None; text.len()], text }
    } else {
        Step { text: given.as_str().to_string(), origins: (0..given.as_str().len()).map(Some).collect() }
    };
    let mut reading = Reading { part: NO_PART, is_stripped, steps: Vec::new(), left: Vec::new() };
    for leg in legs {
        let next = step.after(leg)?;
        reading.left.push(next.origins.iter().flatten().count());
        reading.steps.push(step.text);
        step = next;
    }
    if !is_stripped {
        reading.part = step.part(given.as_str());
    }
    reading.steps.push(step.text);
    Some(reading)
}
