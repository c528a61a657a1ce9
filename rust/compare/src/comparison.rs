//! Calls both sides with the same texts and compares the results.

use crate::calls::{self, NumberCall, PathCall};
use crate::carried::kinds::Kinds;
use crate::lent::Lent;
use crate::routes::reach::Reach;
use crate::tally::{Call, Given, Tally};
use crate::text::{Answer, Text, Texts};
use mudvizsor::ffi::{Reply, paths};
use original::sdf::Path;
use std::collections::BTreeSet;
use texts::MAX_PATH_LEN;

const NUMBER_CALLS: [NumberCall; 5] = [
    calls::NEW,
    calls::IS_END,
    calls::HAS_VARIANT_SELECTION,
    calls::ELEMENT_COUNT,
    calls::PRIM_ELEMENT_COUNT,
];

const PATH_CALLS: [PathCall; 4] =
    [calls::PARENT, calls::PRIM_PATH, calls::SPLIT_PROPERTY, calls::STRIP_VARIANT_SELECTIONS];

/// The sizes of the buffers lent for a path, in bytes.
const CAPACITIES: [usize; 5] = [0, MAX_PATH_LEN - 1, MAX_PATH_LEN, MAX_PATH_LEN + 1, 300];

/// The sizes for the calls on the path in brackets: one byte too few, and just enough. Most texts have no brackets.
const FEWER_CAPACITIES: [usize; 2] = [MAX_PATH_LEN - 1, MAX_PATH_LEN];

/// The maximum size of a buffer lent for a path.
const LONGEST: usize = CAPACITIES[CAPACITIES.len() - 1];

/// The maximum size of the buffer lent for the lengths of ancestors: one number for each length, and three more.
const NUMBERS: usize = MAX_PATH_LEN + 1 + 3;

pub struct Comparison {
    pub tally: Tally,
    /// The legal texts that `Path::new` refuses.
    pub refused_by_original: BTreeSet<Vec<u8>>,
    /// Statistics on how far the paths of random routes get.
    pub reach: Reach,
    /// What the calls that tell the rest were examples of.
    pub kinds: Kinds,
    pub bytes: Lent<u8>,
    /// The buffer of a second call that is compared with the first.
    pub other_bytes: Lent<u8>,
    numbers: Lent<usize>,
}

impl Comparison {
    pub fn new() -> Self {
        Comparison {
            tally: Tally::default(),
            refused_by_original: BTreeSet::new(),
            reach: Reach::default(),
            kinds: Kinds::default(),
            bytes: Lent::bytes(LONGEST),
            other_bytes: Lent::bytes(LONGEST),
            numbers: Lent::numbers(NUMBERS),
        }
    }

    /// Compares every call that takes one text.
    pub fn one_text(&mut self, text: &Text) {
        for call in &NUMBER_CALLS {
            let found = (call.entry)(&text.bytes);
            self.number(call.name, &Texts(&[text]), call.expected(text), found);
        }
        for call in &PATH_CALLS {
            self.one_path(call, text, &CAPACITIES);
        }
        self.one_path(&calls::EMBEDDED_TARGET, text, &FEWER_CAPACITIES);
        self.ancestors(text);
    }

    /// Compares a call that maps one path to another, with a buffer of each capacity.
    pub fn one_path(&mut self, call: &PathCall, text: &Text, capacities: &[usize]) {
        let expected = call.expected(text);
        let entry = |out: &mut [u8]| (call.entry)(&text.bytes, out);
        self.path(call.name, &Texts(&[text]), capacities, &expected, entry);
    }

    pub fn has_prefix(&mut self, text: &Text, prefix: &Text) {
        let expected = calls::has_prefix(text, prefix).map(usize::from);
        let found = paths::has_prefix(&text.bytes, &prefix.bytes);
        self.number("has_prefix", &Texts(&[text, prefix]), expected, found);
    }

    pub fn replace_prefix(&mut self, text: &Text, old: &Text, new: &Text) {
        let expected = calls::replace_prefix(text, old, new);
        let entry = |out: &mut [u8]| paths::replace_prefix(&text.bytes, &old.bytes, &new.bytes, out);
        self.path("replace_prefix", &Texts(&[text, old, new]), &CAPACITIES, &expected, entry);
    }

    pub fn replace_embedded_target(&mut self, text: &Text, target: &Text) {
        let expected = calls::replace_embedded_target(text, target);
        let entry = |out: &mut [u8]| paths::replace_embedded_target(&text.bytes, &target.bytes, out);
        self.path("replace_embedded_target", &Texts(&[text, target]), &FEWER_CAPACITIES, &expected, entry);
        self.target_fact(text, target);
    }

    fn number(&mut self, name: &'static str, given: &dyn Given, expected: Answer<usize>, found: Reply) {
        let call = Call { name, given, capacity: None };
        self.tally.compare(call, expected, found, None);
    }

    /// Compares a call that writes a path, with a buffer of each capacity. No capacity may exceed the largest of
    /// `CAPACITIES`.
    pub fn path(
        &mut self,
        name: &'static str,
        given: &dyn Given,
        capacities: &[usize],
        expected: &Answer<Path>,
        entry: impl Fn(&mut [u8]) -> Reply,
    ) {
        let full = expected.as_ref().map(|path| path.as_str().as_bytes()).map_err(|number| *number);
        for &capacity in capacities {
            let expected = calls::within(capacity, MAX_PATH_LEN, full);
            let found = entry(self.bytes.lend(capacity));
            let wrong = self.bytes.first_wrong(expected.unwrap_or_default());
            let call = Call { name, given, capacity: Some(capacity) };
            self.tally.compare(call, expected.map(<[u8]>::len), found, wrong);
        }
    }

    /// Compares `ancestors` with a buffer of one number too few, of just enough, and of more.
    fn ancestors(&mut self, text: &Text) {
        let full = calls::ancestors(text);
        let full = full.as_ref().map(Vec::as_slice).map_err(|number| *number);
        let needed = full.map_or(1, <[usize]>::len);
        for capacity in [needed - 1, needed, needed + 3] {
            let expected = calls::within(capacity, needed, full);
            let found = paths::ancestors(&text.bytes, self.numbers.lend(capacity));
            let wrong = self.numbers.first_wrong(expected.unwrap_or_default());
            let call = Call { name: "ancestors", given: &Texts(&[text]), capacity: Some(capacity) };
            self.tally.compare(call, expected.map(<[usize]>::len), found, wrong);
        }
    }
}
