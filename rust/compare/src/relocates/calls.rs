//! The calls for relocate lists: the entry of the library, the function of the original, and the expected answer.

use crate::calls::{accept, within};
use crate::comparison::Comparison;
use crate::lent::Lent;
use crate::maps::calls::{WithText, both};
use crate::maps::list::List;
use crate::own_part::{Bracketed, with_tail};
use crate::tally::{Call, Given};
use crate::text::{Answer, BUFFER_TOO_SMALL, Text};
use mudvizsor::ffi::relocates as entries;
use original::pcp::relocates;
use original::sdf::Path;
use std::fmt::{self, Display};
use texts::MAX_PATH_LEN;

/// The sizes of the buffers lent for a path, in bytes.
const CAPACITIES: [usize; 3] = [MAX_PATH_LEN - 1, MAX_PATH_LEN, 300];

/// The resulting path of a chain, and the number of replacements.
pub type Chained = (Path, usize);

pub fn statuses(list: &List) -> Answer<Vec<u8>> {
    Ok(relocates::statuses(list.map()?.path_pairs()))
}

pub fn chain(list: &List, skipped: Option<&Text>, text: &Text) -> Answer<Chained> {
    let skipped = skipped.map(Text::answer).transpose();
    let (map, (skipped, path)) = both(list.map(), both(skipped, text.answer()))?;
    chained(map.path_pairs(), skipped, path)
}

/// The chain as the requirements define it, with questions 7 and 8 checked after each replacement.
fn chained(pairs: &[(Path, Path)], skipped: Option<&Path>, path: &Path) -> Answer<Chained> {
    let mut current = path.clone();
    let mut steps = 0;
    while steps < pairs.len() {
        let Some(next) = next(pairs, skipped, &current) else {
            break;
        };
        current = accept(Some(next))?;
        steps += 1;
    }
    Ok((current, steps))
}

/// The same for a path of this own part and this tail: only the own part is chained, and the questions are put to both
/// together.
fn chained_with_tail(
    pairs: &[(Path, Path)],
    skipped: Option<&Path>,
    own: &Path,
    tail: &str,
) -> Answer<Chained> {
    let (mut own, mut steps) = (own.clone(), 0);
    while steps < pairs.len()
        && let Some(next) = next(pairs, skipped, &own)
    {
        with_tail(Some(next.clone()), tail)?;
        own = next;
        steps += 1;
    }
    Ok((with_tail(Some(own), tail)?, steps))
}

/// "Each takes the source longest in bytes, the last on a tie, among non-empty targets that alter the path."
fn next(pairs: &[(Path, Path)], skipped: Option<&Path>, path: &Path) -> Option<Path> {
    let mut longest = 0;
    let mut best = None;
    for (source, target) in pairs {
        let length = source.as_str().len();
        if target.is_empty() || skipped == Some(source) || length < longest {
            continue;
        }
        if let Some(made) = path.replace_prefix(source, target).filter(|made| made != path) {
            longest = length;
            best = Some(made);
        }
    }
    best
}

/// The input of chaining.
pub struct Chaining<'a> {
    pub list: &'a List,
    pub skipped: Option<&'a Text>,
    pub text: &'a Text,
}

impl Given for Chaining<'_> {
    fn size(&self) -> usize {
        let skipped = self.skipped.map_or(0, |text| text.bytes.len() + 1);
        self.list.size() + self.text.bytes.len() + skipped
    }
}

impl Display for Chaining<'_> {
    fn fmt(&self, f: &mut fmt::Formatter<'_>) -> fmt::Result {
        write!(f, "{} \"{}\"", self.list, self.text.bytes.escape_ascii())?;
        match self.skipped {
            Some(text) => write!(f, " skipping \"{}\"", text.bytes.escape_ascii()),
            None => Ok(()),
        }
    }
}

impl Comparison {
    /// Compares the statuses with a buffer of one byte too few, of just enough, and of more.
    pub fn statuses(&mut self, list: &List) {
        let full = statuses(list);
        let full = full.as_ref().map(Vec::as_slice).map_err(|number| *number);
        let needed = full.map_or(1, <[u8]>::len);
        for capacity in [needed.saturating_sub(1), needed, needed + 3] {
            let expected = within(capacity, needed, full);
            let mut bytes = Lent::bytes(capacity);
            let found = entries::analyze_relocate_occurrences(list.for_library(), bytes.lend(capacity));
            let wrong = bytes.first_wrong(expected.unwrap_or_default());
            let call = Call { name: "analyze_relocate_occurrences", given: list, capacity: Some(capacity) };
            self.tally.compare(call, expected.map(<[u8]>::len), found, wrong);
        }
    }

    pub fn shift(&mut self, list: &List, text: &Text) {
        let given = &WithText { given: list, text };
        let expected = both(list.map(), text.answer())
            .and_then(|(map, path)| accept(Some(relocates::shifted(path, map.path_pairs()))));
        self.path("shift_through_nearest_ancestor", given, &CAPACITIES, &expected, |out| {
            entries::shift_through_nearest_ancestor(list.for_library(), &text.bytes, out)
        });
        if let Ok(map) = list.map() {
            let shift = |own: &Path| Some(relocates::shifted(own, map.path_pairs()));
            self.tail_fact(given, text, &expected, shift);
        }
    }

    pub fn chain(&mut self, list: &List, skipped: Option<&Text>, text: &Text) {
        let given = &Chaining { list, skipped, text };
        let full = chain(list, skipped, text);
        if let Ok((end, _)) = &full {
            let agrees = *end == original_end(list, skipped, text);
            self.tally.fact("the chain ends where the original's does", given, agrees);
        }
        self.chain_of_own_part(given, &full);
        // Without a skipped source the text must be ignored, so an illegal one is passed.
        let lent = skipped.map_or(&b"no path"[..], |text| &text.bytes);
        for capacity in CAPACITIES {
            let expected = match &full {
                Err(number) if *number < BUFFER_TOO_SMALL => Err(*number),
                _ if capacity < MAX_PATH_LEN => Err(BUFFER_TOO_SMALL),
                full => full.as_ref().map_err(|number| *number),
            };
            let mut bytes = Lent::bytes(capacity);
            let (library, out) = (list.for_library(), bytes.lend(capacity));
            let found = entries::chain_through_relocates(library, skipped.is_some(), lent, &text.bytes, out);
            let end = expected.map_or(&[][..], |(end, _)| end.as_str().as_bytes());
            let wrong = bytes.first_wrong(end);
            let call = Call { name: "chain_through_relocates", given, capacity: Some(capacity) };
            let value = expected.map(|(end, steps)| 256 * steps + end.as_str().len());
            self.tally.compare(call, value, found, wrong);
        }
    }
}

impl Comparison {
    /// Checks that the chain of a path with brackets is the chain of its own part, with the tail after each step.
    fn chain_of_own_part(&mut self, given: &Chaining, expected: &Answer<Chained>) {
        let skipped = given.skipped.map(Text::answer).transpose();
        let (Ok(map), Ok(skipped), Some(bracketed)) = (given.list.map(), skipped, Bracketed::new(given.text))
        else {
            return;
        };
        let of_own = chained_with_tail(map.path_pairs(), skipped, &bracketed.own, bracketed.tail);
        self.tally.fact("the chain is that of the own part, then the tail", given, of_own == *expected);
    }
}

/// The result of the chain of the original, for valid texts.
fn original_end(list: &List, skipped: Option<&Text>, text: &Text) -> Path {
    let pairs = list.map().expect("a valid list").path_pairs();
    let path = text.path().expect("a valid path");
    relocates::chained(path, pairs, skipped.and_then(Text::path))
}
