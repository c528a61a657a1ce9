//! Calls for many paths: a bad list or route refuses the whole call, then more paths than spots, then a short buffer; otherwise
//! each path must have the result of the single call with a buffer of 255 bytes.

use crate::comparison::Comparison;
use crate::lent::Lent;
use crate::maps::calls::WithText;
use crate::maps::list::TOO_MANY_PAIRS;
use crate::tally::{Call, Given};
use crate::text::{Answer, BUFFER_TOO_SMALL, TOO_LONG, Text};
use mudvizsor::ffi::Reply;
use mudvizsor::ffi::maps::Paths;
use original::sdf::Path;
use texts::MAX_PATH_LEN;

/// The number of bytes and numbers lent beyond those needed.
const MORE: usize = 7;

/// The entry of the library, which gets the paths and the buffers for their results and replies.
type Entry<'a> = &'a dyn Fn(Paths, &mut [u8], &mut [usize]) -> Reply;

/// A call for many paths, and its other input.
pub struct Many<'a> {
    pub name: &'static str,
    pub given: &'a dyn Given,
    /// The refusal of the list or the route, questions 1 to 4.
    pub refused: Option<u8>,
    pub entry: Entry<'a>,
}

/// Paths as they are lent: the concatenated texts, and one more path whose spot lies outside them.
struct LentPaths {
    texts: Vec<u8>,
    spots: Vec<usize>,
    count: usize,
}

impl LentPaths {
    fn new(texts: &[Text]) -> Self {
        let mut lent = LentPaths { texts: Vec::new(), spots: Vec::new(), count: texts.len() + 1 };
        for text in texts {
            lent.spots.extend([lent.texts.len(), text.bytes.len()]);
            lent.texts.extend(&text.bytes);
        }
        let end = lent.texts.len();
        let outside = [[end, 1], [end + 1, 0], [usize::MAX, 2], [0, usize::MAX]];
        lent.spots.extend(outside[end % outside.len()]);
        lent
    }

    /// Lends all paths, with this many of the numbers of their spots.
    fn lend(&self, spots: usize) -> Paths<'_> {
        Paths { texts: &self.texts, spots: &self.spots[..spots], count: self.count }
    }
}

/// The lengths of the lent slices.
#[derive(Clone, Copy)]
struct Lengths {
    spots: usize,
    bytes: usize,
    replies: usize,
}

impl Comparison {
    /// Compares one call for all paths: with just what is needed, with more, with one too few in each slice, and with no paths. The
    /// expected answers are those of the single calls, unless the whole call is refused.
    pub fn many(&mut self, call: &Many, texts: &[Text], mut expected: Vec<Answer<Path>>) {
        expected.push(Err(TOO_LONG));
        let lent = &LentPaths::new(texts);
        let count = lent.count;
        let needed = Lengths { spots: 2 * count, bytes: MAX_PATH_LEN * count, replies: count };
        let more = Lengths { bytes: needed.bytes + MORE, replies: needed.replies + MORE, ..needed };
        for lengths in [needed, more] {
            match call.refused {
                Some(number) => self.all_refused(call, lent, lengths, number),
                None => self.all_mapped(call, texts, lent, lengths, &expected),
            }
        }
        let short = [
            (Lengths { spots: needed.spots - 1, ..needed }, TOO_MANY_PAIRS),
            (Lengths { spots: needed.spots - 1, bytes: 0, replies: 0 }, TOO_MANY_PAIRS),
            (Lengths { bytes: needed.bytes - 1, ..needed }, BUFFER_TOO_SMALL),
            (Lengths { replies: needed.replies - 1, ..needed }, BUFFER_TOO_SMALL),
        ];
        for (lengths, number) in short {
            self.all_refused(call, lent, lengths, call.refused.unwrap_or(number));
        }
        self.no_paths(call);
    }

    /// Compares the call for no paths, which puts the questions of the list or the route all the same.
    fn no_paths(&mut self, call: &Many) {
        let Many { name, given, refused, entry } = *call;
        let (mut bytes, mut numbers) = (Lent::bytes(0), Lent::numbers(0));
        let none = Paths { texts: &[], spots: &[], count: 0 };
        let found = entry(none, bytes.lend(0), numbers.lend(0));
        let wrong = bytes.first_wrong(&[]).or(numbers.first_wrong(&[]));
        self.tally.compare(Call { name, given, capacity: Some(0) }, refused.map_or(Ok(0), Err), found, wrong);
    }

    fn all_mapped(
        &mut self,
        call: &Many,
        texts: &[Text],
        lent: &LentPaths,
        lengths: Lengths,
        expected: &[Answer<Path>],
    ) {
        let Many { name, given, entry, .. } = *call;
        let (mut bytes, mut numbers) = (Lent::bytes(lengths.bytes), Lent::numbers(lengths.replies));
        let replies = numbers.lend(lengths.replies);
        let found = entry(lent.lend(lengths.spots), bytes.lend(lengths.bytes), replies);
        let replies = replies.to_vec();
        let outside = Text::new(b"");
        for (i, text) in texts.iter().chain([&outside]).enumerate() {
            let answer = expected[i].as_ref().map(|path| path.as_str().len()).map_err(|number| *number);
            let of_one = Call { name, given: &WithText { given, text }, capacity: Some(lengths.bytes) };
            self.tally.compare(of_one, answer, Reply(replies[i]), None);
        }
        let memory = memory_after(bytes.before(lengths.bytes), expected);
        let wrong = bytes.first_wrong(&memory).or(numbers.first_wrong(&replies[..lent.count]));
        self.tally.compare(Call { name, given, capacity: Some(lengths.bytes) }, Ok(0), found, wrong);
    }

    fn all_refused(&mut self, call: &Many, lent: &LentPaths, lengths: Lengths, number: u8) {
        let Many { name, given, entry, .. } = *call;
        let (mut bytes, mut numbers) = (Lent::bytes(lengths.bytes), Lent::numbers(lengths.replies));
        let found = entry(lent.lend(lengths.spots), bytes.lend(lengths.bytes), numbers.lend(lengths.replies));
        let wrong = bytes.first_wrong(&[]).or(numbers.first_wrong(&[]));
        let of_all = Call { name, given, capacity: Some(lengths.bytes) };
        self.tally.compare(of_all, Err(number), found, wrong);
    }
}

/// The expected contents of the buffer: each path at the start of its 255 bytes.
fn memory_after(before: &[u8], expected: &[Answer<Path>]) -> Vec<u8> {
    let mut memory = before.to_vec();
    for (i, path) in expected.iter().enumerate() {
        if let Ok(path) = path {
            let text = path.as_str().as_bytes();
            memory[MAX_PATH_LEN * i..][..text.len()].copy_from_slice(text);
        }
    }
    memory
}
