//! The flaws of the input that a call that maps a path checks first, alone and together: of several flaws the one that is
//! checked first decides.

use crate::maps::list::{LentList, List, MAX_PAIRS};
use crate::text::Text;
use texts::MAX_PATH_LEN;
use texts::damage::damaged;
use texts::generate::{end_text, legal_text};
use texts::random::Random;

/// Puts a flaw into the list or the path of a call.
type Flaw = fn(&mut Random, &mut LentList, &mut Vec<u8>);

pub const FLAWS: [Flaw; 9] = [
    long_path,
    illegal_path,
    long_end,
    place_outside,
    illegal_end,
    property_or_selection,
    too_many_pairs,
    count_beyond_the_slice,
    garbage_after_the_list,
];

/// Illegal texts.
const ILLEGAL: [&[u8]; 15] = [
    b"A",
    b".",
    b"//",
    b"/A/",
    b"/A//B",
    b"/1",
    b"/A b",
    b"/\xC2\xA0",
    b"/A\xE3\x80\x80",
    b"/\xC3/B",
    b"/A\xED\xA0\x80",
    b"/A[/C]",
    b"/A.b[C]",
    b"/A.b[/C",
    b"/A.b[/C].d",
];

/// Legal texts that are not ends.
const NOT_ENDS: [&[u8]; 7] =
    [b"/A.b", b"/A/B.c:d", b"/A{v=p}", b"/A{v=p}B", b"/A{v=p}.b", b"/A.b[/C]", b"/A.b[/C{v=p}.d[/]]"];

/// Visits so many lists and paths with each set of flaws.
pub fn every_set(random: &mut Random, rounds: usize, visit: &mut impl FnMut(List, Text)) {
    for set in 0..1 << FLAWS.len() {
        for _ in 0..rounds {
            let (list, text) = with_flaws(random, set);
            visit(list, text);
        }
    }
}

/// A list and a path with the flaws given by the bits of `set`.
fn with_flaws(random: &mut Random, set: usize) -> (List, Text) {
    let count = *random.pick(&[1, 2, 5, MAX_PAIRS]);
    let mut list = LentList::packed(&vec![["/A", "/B"]; count], random.one_in(2));
    let mut path = b"/A/C".to_vec();
    for (at, flaw) in FLAWS.iter().enumerate() {
        if set >> at & 1 == 1 {
            flaw(random, &mut list, &mut path);
        }
    }
    (List::new(list), Text::new(&path))
}

pub fn long_path(random: &mut Random, _: &mut LentList, path: &mut Vec<u8>) {
    let length = random.within(MAX_PATH_LEN + 1..=2 * MAX_PATH_LEN);
    *path = legal_text(random, length);
}

pub fn illegal_path(random: &mut Random, _: &mut LentList, path: &mut Vec<u8>) {
    *path = illegal(random, path);
}

pub fn long_end(random: &mut Random, list: &mut LentList, _: &mut Vec<u8>) {
    let length = random.within(MAX_PATH_LEN + 1..=2 * MAX_PATH_LEN);
    let end = end_text(random, length);
    replace_an_end(random, list, &end);
}

pub fn illegal_end(random: &mut Random, list: &mut LentList, _: &mut Vec<u8>) {
    let end = illegal(random, b"/A/B");
    replace_an_end(random, list, &end);
}

pub fn property_or_selection(random: &mut Random, list: &mut LentList, _: &mut Vec<u8>) {
    let end = *random.pick(&NOT_ENDS);
    replace_an_end(random, list, end);
}

/// An illegal text, or `text` with one wrong byte, which sometimes is legal.
fn illegal(random: &mut Random, text: &[u8]) -> Vec<u8> {
    if random.one_in(2) { random.pick(&ILLEGAL).to_vec() } else { damaged(random, text) }
}

/// Appends the text to the store and sets the place of one end to it.
fn replace_an_end(random: &mut Random, list: &mut LentList, text: &[u8]) {
    let place = list.stored(text);
    set_a_place(random, list, place);
}

/// Sets the place of one end, if there is any.
fn set_a_place(random: &mut Random, list: &mut LentList, place: [usize; 2]) {
    if list.present() > 0 {
        let at = 2 * random.below(2 * list.present());
        list.places[at..at + 2].copy_from_slice(&place);
    }
}

/// A place just outside the store, far outside, or so far that the sum of start and length overflows.
pub fn place_outside(random: &mut Random, list: &mut LentList, _: &mut Vec<u8>) {
    let end = list.store.len();
    let back = random.below(4);
    let place = match random.below(7) {
        0 => [end + 1, 0],
        1 => [end, 1],
        2 => [end.saturating_sub(back), back + 1],
        3 => [usize::MAX, 0],
        4 => [usize::MAX - back, back + 1 + random.within(0..=end)],
        5 => [random.within(0..=end), usize::MAX - back],
        _ => [usize::MAX - back, usize::MAX],
    };
    set_a_place(random, list, place);
}

/// Repeats the list beyond the maximum number of pairs.
fn too_many_pairs(random: &mut Random, list: &mut LentList, _: &mut Vec<u8>) {
    let pairs = random.within(MAX_PAIRS + 1..=MAX_PAIRS + 3);
    list.places = list.places.iter().copied().cycle().take(4 * pairs).collect();
    list.count = list.places.len() / 4;
}

/// The count exceeds the places; four times the largest counts overflows.
fn count_beyond_the_slice(random: &mut Random, list: &mut LentList, _: &mut Vec<u8>) {
    let present = list.present();
    let quarter = 1 << (usize::BITS - 2);
    match random.below(3) {
        0 => list.places.truncate((4 * present).saturating_sub(random.within(1..=4))),
        1 => list.count = present + random.within(1..=3),
        _ => list.count = *random.pick(&[quarter, quarter + present, 2 * quarter + present, usize::MAX]),
    }
}

/// Not a flaw: places after those of the counted pairs are ignored. It is applied last, so that a count that exceeds the
/// slice is sometimes made valid by garbage.
pub fn garbage_after_the_list(random: &mut Random, list: &mut LentList, _: &mut Vec<u8>) {
    for _ in 0..random.within(1..=9) {
        list.places.push(random.within(0..=2 * MAX_PATH_LEN));
    }
}
