//! Compares a call that tells the rest: with the expected answer, with the plain call, and with the paths and the pair of the
//! case.

use crate::calls::{has_prefix, within};
use crate::carried::kinds::Kind;
use crate::carried::reader::{Leg, Part, Reading, before_rest, read, rest_start};
use crate::comparison::Comparison;
use crate::maps::calls::WithText;
use crate::tally::{Call, Given};
use crate::text::{Answer, NO_PATH, Text, Texts};
use mudvizsor::ffi::Reply;
use original::sdf::Path;
use texts::MAX_PATH_LEN;

/// The name of a call, and of each comparison that is made of it.
pub struct Names {
    pub call: &'static str,
    pub plain: &'static str,
    pub paths: &'static str,
    pub pair: &'static str,
}

macro_rules! names {
    ($call:literal) => {
        Names {
            call: $call,
            plain: concat!($call, " without its rest, and the plain call"),
            paths: concat!($call, ", its rest in every path on the way"),
            pair: concat!($call, ", its rest after the key and after the other end"),
        }
    };
}

pub const REST_START: Names = names!("rest_start");
pub const OUT: Names = names!("map_source_to_target_carried");
pub const HOME: Names = names!("map_target_to_source_carried");
pub const TRANSLATED: Names = names!("translate_to_target_carried");
pub const ROUTE_OUT: Names = names!("route_out_carried");
pub const ROUTE_HOME: Names = names!("route_home_carried");

/// The entry for a call, which gets a buffer.
pub type Entry<'a> = &'a dyn Fn(&mut [u8]) -> Reply;

/// One call for a path, and what it is compared with.
pub struct Carried<'a> {
    pub names: &'a Names,
    /// The list or the route.
    pub given: &'a dyn Given,
    pub text: &'a Text,
    /// The legs in the order in which the path passes them, one for a map.
    pub legs: &'a [Leg<'a>],
    pub is_map: bool,
    /// Whether selections are stripped.
    pub strips: bool,
    /// The expected answer of the plain call.
    pub made: Answer<Path>,
    pub plain: Entry<'a>,
    pub carried: Entry<'a>,
}

impl Carried<'_> {
    /// The second reading of an accepted call.
    pub fn reading(&self) -> Option<Reading> {
        read(self.text.path()?, self.legs, self.strips)
    }

    fn kinds(&self, reading: &Reading) -> Vec<Kind> {
        let mut kinds =
            if self.is_map { Kind::of_mapped(&self.legs[0], reading) } else { Kind::of_routed(reading) };
        kinds.extend(Kind::of_brackets(&reading.steps[0], reading.is_stripped));
        kinds
    }

    /// The pair that a map uses.
    fn pair(&self) -> Option<[&str; 2]> {
        if self.is_map { self.legs[0].pair_for(str::from_utf8(&self.text.bytes).ok()?) } else { None }
    }
}

/// The value of an accepted call.
pub fn value(length: usize, part: Part) -> usize {
    length + 256 * part.start + 65_536 * part.length
}

/// The part that an accepted reply tells.
fn part_of(reply: Reply) -> Part {
    Part { start: reply.value() / 256 % 256, length: reply.value() / 65_536 }
}

/// The reply without what it tells about the rest; a refusal tells nothing.
fn without_rest(reply: Reply) -> Answer<usize> {
    if reply.number() == 0 { Ok(reply.value() % 256) } else { answer(reply) }
}

fn answer(reply: Reply) -> Answer<usize> {
    match reply.number() {
        0 => Ok(reply.value()),
        number => Err(number as u8),
    }
}

impl Comparison {
    /// Compares a reply of the prefix test that tells where the rest begins, and the reply of the plain test.
    pub fn rest_start(&mut self, text: &Text, prefix: &Text, found: Reply, plain: Reply) {
        let given = &Texts(&[text, prefix]);
        let call = |name| Call { name, given, capacity: None };
        let found_plain = without_rest(found).map_or_else(Reply::refusal, Reply::answer);
        self.tally.compare(call(REST_START.plain), answer(plain), found_plain, None);
        let has_prefix = has_prefix(text, prefix);
        let (Ok(true), Some([path, start])) = (has_prefix, both_texts(text, prefix)) else {
            self.kinds.count(REST_START.call, has_prefix.map_or_else(Kind::Refused, |_| Kind::NoPrefix));
            // "The prefix test names a place only with a yes."
            return self.tally.compare(call(REST_START.call), has_prefix.map(usize::from), found, None);
        };
        self.kinds.count(REST_START.call, Kind::of_prefix(path, start));
        if let Some(kind) = Kind::of_brackets(path, false) {
            self.kinds.count(REST_START.call, kind);
        }
        let expected = 1 + 256 * rest_start(path, start);
        self.tally.compare(call(REST_START.call), Ok(expected), found, None);
        let rest = path.get(found.value() / 256..);
        let joined = rest.map(|rest| [before_rest(start, rest), rest].concat());
        let agrees = joined.as_deref() == Some(path);
        self.tally.values(call(REST_START.pair), agrees, path, joined);
    }

    /// Compares a call with a buffer of each capacity.
    pub fn carried(&mut self, call: &Carried, capacities: &[usize]) {
        let given = &WithText { given: call.given, text: call.text };
        let reading = self.read(call, given);
        for kind in reading.iter().flat_map(|reading| call.kinds(reading)) {
            self.kinds.count(call.names.call, kind);
        }
        let expected = match (&call.made, &reading) {
            (Ok(made), Some(reading)) => Ok((made.as_str().as_bytes(), reading.part)),
            (Err(number), _) => Err(*number),
            // `read` has reported it.
            (Ok(_), None) => return,
        };
        for &capacity in capacities {
            let expected = within(capacity, MAX_PATH_LEN, expected);
            let found = self.with_buffer(call, given, capacity, expected);
            if let (Ok(_), 0, Some(reading)) = (expected, found.number(), &reading) {
                self.rest_fits(call, given, reading, part_of(found));
            }
        }
    }

    /// The second reading of an accepted call. That it makes the path that the original makes is checked, and that it has none
    /// where plain mapping of the original has none; translating has further reasons.
    fn read(&mut self, call: &Carried, given: &dyn Given) -> Option<Reading> {
        match &call.made {
            Ok(made) => {
                let reading = call.reading();
                let text = reading.as_ref().and_then(|reading| reading.steps.last());
                let agrees = text.is_some_and(|text| text == made.as_str());
                self.tally.fact(
                    "the other end and the rest are the path that the original makes",
                    given,
                    agrees,
                );
                reading.filter(|_| agrees)
            }
            Err(NO_PATH) if !call.strips => {
                let agrees = call.reading().is_none();
                self.tally.fact(
                    "a path that the original does not map has no pair, or an empty target",
                    given,
                    agrees,
                );
                None
            }
            Err(_) => None,
        }
    }

    /// Compares the reply and the buffer with what is expected, and with what the plain call returns and writes.
    fn with_buffer(
        &mut self,
        call: &Carried,
        given: &dyn Given,
        capacity: usize,
        expected: Answer<(&[u8], Part)>,
    ) -> Reply {
        let found = (call.carried)(self.bytes.lend(capacity));
        let wrong = self.bytes.first_wrong(expected.map_or(&[], |(made, _)| made));
        let value = expected.map(|(made, part)| value(made.len(), part));
        self.tally.compare(
            Call { name: call.names.call, given, capacity: Some(capacity) },
            value,
            found,
            wrong,
        );
        if let Err(number) = expected {
            self.kinds.count(call.names.call, Kind::Refused(number));
        }
        let plain = (call.plain)(self.other_bytes.lend(capacity));
        let wrong = self.bytes.first_difference(&self.other_bytes);
        let found_plain = without_rest(found).map_or_else(Reply::refusal, Reply::answer);
        let of_plain = Call { name: call.names.plain, given, capacity: Some(capacity) };
        self.tally.compare(of_plain, answer(plain), found_plain, wrong);
        found
    }

    /// Compares the part that the library tells with the paths on the way, and with the pair of a map: the key followed by the
    /// rest is the path given, and the other end followed by the rest is the path made. Where selections are stripped the part is
    /// empty, and there is nothing to compare.
    fn rest_fits(&mut self, call: &Carried, given: &dyn Given, reading: &Reading, part: Part) {
        let ([path, ..], Some(made), false) = (&reading.steps[..], reading.steps.last(), reading.is_stripped)
        else {
            return;
        };
        let of = |name| Call { name, given, capacity: None };
        let rest = path.get(part.start..).filter(|rest| rest.len() == part.length);
        let is_end = rest.is_some_and(|rest| reading.steps.iter().all(|step| step.ends_with(rest)));
        self.tally.values(of(call.names.paths), is_end, "the end of every path", part);
        if let (Some(pair), Some(rest)) = (call.pair(), rest) {
            let joined = pair.map(|end| [before_rest(end, rest), rest].concat());
            let agrees = joined == [&path[..], made];
            self.tally.values(of(call.names.pair), agrees, [path, made], joined);
        }
    }
}

/// Both texts, if they are legal.
fn both_texts<'a>(text: &'a Text, prefix: &'a Text) -> Option<[&'a str; 2]> {
    Some([text.path()?.as_str(), prefix.path()?.as_str()])
}
