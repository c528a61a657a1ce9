//! The calls that map a path: the entry of the library, the function of the original, and the expected answer.

use crate::calls::accept;
use crate::comparison::Comparison;
use crate::many::Many;
use crate::maps::list::List;
use crate::tally::Given;
use crate::text::{Answer, Text};
use mudvizsor::ffi::maps::{Direction, Paths, apply, apply_all};
use original::pcp::MapFunction;
use original::sdf::Path;
use std::fmt::{self, Display};
use texts::MAX_PATH_LEN;

/// A call that maps a path.
pub struct MapCall {
    name: &'static str,
    pub direction: Direction,
    original: fn(&MapFunction, &Path) -> Option<Path>,
}

pub const OUT: MapCall = MapCall {
    name: "map_source_to_target",
    direction: Direction::Out,
    original: MapFunction::map_source_to_target,
};

pub const BACK: MapCall = MapCall {
    name: "map_target_to_source",
    direction: Direction::Home,
    original: MapFunction::map_target_to_source,
};

pub const TRANSLATED: MapCall = MapCall {
    name: "translate_to_target",
    direction: Direction::Translated,
    original: MapFunction::translate_to_target,
};

pub const CALLS: [MapCall; 3] = [OUT, BACK, TRANSLATED];

/// The sizes of the buffers lent for the path, in bytes.
pub const CAPACITIES: [usize; 3] = [MAX_PATH_LEN - 1, MAX_PATH_LEN, 300];

impl MapCall {
    pub fn expected(&self, list: &List, text: &Text) -> Answer<Path> {
        let (map, path) = both(list.map(), text.answer())?;
        accept((self.original)(map, path))
    }
}

/// Each question is checked for both before the next question, so of two refusals the smaller number decides.
pub fn both<T, U>(one: Answer<T>, other: Answer<U>) -> Answer<(T, U)> {
    match (one, other) {
        (Ok(one), Ok(other)) => Ok((one, other)),
        (Err(one), Err(other)) => Err(one.min(other)),
        (Err(number), _) | (_, Err(number)) => Err(number),
    }
}

/// The input of a call for a path: another input, such as a list, and the path.
pub struct WithText<'a> {
    pub given: &'a dyn Given,
    pub text: &'a Text,
}

impl Given for WithText<'_> {
    fn size(&self) -> usize {
        self.given.size() + self.text.bytes.len()
    }
}

impl Display for WithText<'_> {
    fn fmt(&self, f: &mut fmt::Formatter<'_>) -> fmt::Result {
        write!(f, "{} \"{}\"", self.given, self.text.bytes.escape_ascii())
    }
}

impl Comparison {
    /// Compares every call that maps one path.
    pub fn map(&mut self, list: &List, text: &Text) {
        for call in &CALLS {
            let expected = call.expected(list, text);
            let entry = |out: &mut [u8]| apply(call.direction, list.for_library(), &text.bytes, out);
            let given = &WithText { given: list, text };
            self.path(call.name, given, &CAPACITIES, &expected, entry);
            if let Ok(map) = list.map() {
                self.tail_fact(given, text, &expected, |own| (call.original)(map, own));
            }
        }
    }

    /// Compares each of the calls for all paths at once.
    pub fn map_all(&mut self, list: &List, texts: &[Text]) {
        for call in &CALLS {
            let expected = texts.iter().map(|text| call.expected(list, text)).collect();
            let entry = |paths: Paths, out: &mut [u8], replies: &mut [usize]| {
                apply_all(call.direction, list.for_library(), paths, out, replies)
            };
            let refused = list.map().err();
            self.many(&Many { name: "map_all", given: list, refused, entry: &entry }, texts, expected);
        }
    }

    pub fn list_facts(&mut self, list: &List) {
        if let Ok(map) = list.map() {
            let exact = list.is_exactly(map);
            self.tally.fact("the original's map has the pairs and the mark given", list, exact);
        }
    }
}
