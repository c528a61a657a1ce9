//! That the comparison detects wrong answers: stand-ins for the entries give the answers of the table, and then altered ones.

use super::calls::{HOME, Names, OUT, REST_START, ROUTE_OUT, TRANSLATED, value};
use super::entries::EXPECTED;
use super::kinds::{Kind, Kinds};
use super::reader::Part;
use super::table::{MAP_ROWS, MapRow, PREFIX_ROWS, ROUTE_ROWS, RouteRow, Stated};
use crate::comparison::Comparison;
use crate::maps::calls::CAPACITIES;
use crate::maps::list::List;
use crate::routes::lent_route::Route;
use crate::text::{BUFFER_TOO_SMALL, Text};
use mudvizsor::ffi::Reply;
use texts::MAX_PATH_LEN;

/// What a stand-in replies and writes instead of a right answer: the number of the refusal, the length, the part, and the buffer.
struct Reported<'a> {
    number: usize,
    length: usize,
    part: Part,
    out: &'a mut [u8],
}

/// Alters an answer.
type Alter = fn(&mut Reported);

fn unaltered(_: &mut Reported) {}

fn one_byte_later(reported: &mut Reported) {
    if reported.number == 0 && reported.part.length > 0 {
        reported.part.start += 1;
        reported.part.length -= 1;
    }
}

fn one_byte_earlier(reported: &mut Reported) {
    if reported.number == 0 && reported.part.start > 0 {
        reported.part.start -= 1;
        reported.part.length += 1;
    }
}

fn one_byte_less(reported: &mut Reported) {
    reported.part.length = reported.part.length.saturating_sub(1);
}

/// An empty part from the start of the path.
fn always_from_the_start(reported: &mut Reported) {
    if reported.part.length == 0 {
        reported.part.start = 0;
    }
}

fn refused_with_a_part(reported: &mut Reported) {
    if reported.number != 0 {
        reported.part.length = 1;
    }
}

fn refused_and_written(reported: &mut Reported) {
    if let (1.., Some(byte)) = (reported.number, reported.out.first_mut()) {
        *byte = b'/';
    }
}

fn longer(reported: &mut Reported) {
    if reported.number == 0 {
        reported.length += 1;
    }
}

fn written_after_the_path(reported: &mut Reported) {
    if reported.number == 0 {
        reported.out[reported.length] = b'/';
    }
}

/// The plain call as the table states it.
fn plain(answer: &Stated, out: &mut [u8]) -> Reply {
    match answer {
        Err(number) if *number < BUFFER_TOO_SMALL => Reply::refusal(*number),
        _ if out.len() < MAX_PATH_LEN => Reply::refusal(BUFFER_TOO_SMALL),
        Err(number) => Reply::refusal(*number),
        Ok((made, ..)) => {
            out[..made.len()].copy_from_slice(made.as_bytes());
            Reply::answer(made.len())
        }
    }
}

/// The call that tells the rest, altered.
fn carried(answer: &Stated, alter: Alter, out: &mut [u8]) -> Reply {
    let reply = plain(answer, out);
    let (start, length) = match answer {
        Ok((_, start, length)) if reply.number() == 0 => (*start, *length),
        _ => (0, 0),
    };
    let mut reported =
        Reported { number: reply.number(), length: reply.value(), part: Part { start, length }, out };
    alter(&mut reported);
    Reply(reported.number + 256 * value(reported.length, reported.part))
}

/// Returns whether the alteration alters what the call with some capacity replies or writes.
fn alters(answer: &Stated, alter: Alter) -> bool {
    CAPACITIES.iter().any(|&capacity| {
        let (mut right, mut wrong) = (vec![b'-'; capacity], vec![b'-'; capacity]);
        carried(answer, unaltered, &mut right) != carried(answer, alter, &mut wrong) || right != wrong
    })
}

fn map_row((pairs, mark, path, call, answer): &MapRow, alter: Alter) -> Comparison {
    let (list, text) = (List::packed(pairs, *mark), Text::new(path.as_bytes()));
    let (plain, carried) =
        (|out: &mut [u8]| plain(answer, out), |out: &mut [u8]| carried(answer, alter, out));
    let mut comparison = Comparison::new();
    comparison.carried(&call.call(&list, &call.legs(&list), &text, &plain, &carried), &CAPACITIES);
    comparison
}

fn route_row((legs, path, call, answer): &RouteRow, alter: Alter) -> Comparison {
    let (route, text) = (Route::packed(legs), Text::new(path.as_bytes()));
    let (plain, carried) =
        (|out: &mut [u8]| plain(answer, out), |out: &mut [u8]| carried(answer, alter, out));
    let mut comparison = Comparison::new();
    comparison.carried(&call.call(&route, &call.legs(&route), &text, &plain, &carried), &CAPACITIES);
    comparison
}

/// The comparison of each row, and whether its answer is altered.
fn all_rows(alter: Alter) -> Vec<(bool, Comparison)> {
    let maps = MAP_ROWS.iter().map(|row| (alters(&row.4, alter), map_row(row, alter)));
    let routes = ROUTE_ROWS.iter().map(|row| (alters(&row.3, alter), route_row(row, alter)));
    maps.chain(routes).collect()
}

#[test]
fn the_stated_answers_agree() {
    for (at, (_, comparison)) in all_rows(unaltered).iter().enumerate() {
        assert_eq!(comparison.tally.differences(), 0, "row {at}: {}", comparison.tally);
    }
}

#[test]
fn every_altered_answer_is_a_difference() {
    let alterations: [Alter; 8] = [
        one_byte_later,
        one_byte_earlier,
        one_byte_less,
        always_from_the_start,
        refused_with_a_part,
        refused_and_written,
        longer,
        written_after_the_path,
    ];
    for (which, alter) in alterations.into_iter().enumerate() {
        let rows = all_rows(alter);
        assert!(rows.iter().any(|(altered, _)| *altered), "alteration {which}");
        for (at, (altered, comparison)) in rows.iter().enumerate() {
            assert_eq!(comparison.tally.differences() > 0, *altered, "alteration {which}, row {at}");
        }
    }
}

/// The first row of maps for this path and call, altered.
fn mapped(path: &str, names: &Names, alter: Alter) -> Comparison {
    let row = MAP_ROWS.iter().find(|row| row.2 == path && row.3.names.call == names.call);
    map_row(row.expect("a row"), alter)
}

#[test]
fn each_comparison_detects_what_it_is_for() {
    // Under `/`, the rest without its slash is an end of both paths, but does not follow the key.
    let under_root = mapped("/A", &HOME, one_byte_later);
    assert!(under_root.tally.has_difference(HOME.call) && under_root.tally.has_difference(HOME.pair));
    assert!(!under_root.tally.has_difference(HOME.paths));
    let too_much = mapped("/A/B.c", &OUT, one_byte_earlier);
    assert!(too_much.tally.has_difference(OUT.paths) && too_much.tally.has_difference(OUT.pair));
    let stripped = mapped("/A{v=p}b", &TRANSLATED, |reported| reported.part.start = 2);
    assert!(stripped.tally.has_difference(TRANSLATED.call));
    let other_length = mapped("/A/B.c", &OUT, longer);
    assert!(other_length.tally.has_difference(OUT.plain));
    let written = mapped("/Q", &OUT, refused_and_written);
    assert!(written.tally.has_difference(OUT.plain));
    // What only the first of two legs carries over.
    let row = ROUTE_ROWS.iter().find(|row| row.0.len() == 2).expect("a row");
    let of_one_leg = route_row(row, |reported| reported.part = Part { start: 2, length: 4 });
    assert!(
        of_one_leg.tally.has_difference(ROUTE_OUT.call) && of_one_leg.tally.has_difference(ROUTE_OUT.paths)
    );
}

/// The differences of a reply to the prefix test that is altered.
fn prefix_test(text: &str, prefix: &str, start: Option<usize>, alter: fn(usize) -> usize) -> Comparison {
    let [text, prefix] = [text, prefix].map(|text| Text::new(text.as_bytes()));
    let plain = usize::from(start.is_some());
    let found = alter(plain + 256 * start.unwrap_or(0));
    let mut comparison = Comparison::new();
    comparison.rest_start(&text, &prefix, Reply::answer(found), Reply::answer(plain));
    comparison
}

#[test]
fn wrong_places_of_the_prefix_test_are_differences() {
    for &(text, prefix, start) in PREFIX_ROWS {
        assert_eq!(prefix_test(text, prefix, start, |value| value).tally.differences(), 0, "{text} {prefix}");
        // One byte later, which is also a place with a no.
        let later = prefix_test(text, prefix, start, |value| value + 256);
        assert!(later.tally.has_difference(REST_START.call), "{text} {prefix}");
        // A no for a yes, or a yes for a no.
        let other = prefix_test(text, prefix, start, |value| value ^ 1);
        assert!(other.tally.has_difference(REST_START.plain), "{text} {prefix}");
    }
    let without_slash = prefix_test("/A/B", "/", Some(1), |value| value);
    assert!(without_slash.tally.has_difference(REST_START.call));
    assert!(without_slash.tally.has_difference(REST_START.pair));
}

#[test]
fn a_kind_that_does_not_occur_is_a_difference() {
    let mut kinds = Kinds::default();
    let all: Vec<(&str, Kind)> =
        EXPECTED.iter().flat_map(|each| each.all().map(|kind| (each.call, kind))).collect();
    for (missing, (call, kind)) in all.iter().enumerate() {
        let mut comparison = Comparison::new();
        kinds.check(&EXPECTED, &mut comparison.tally);
        assert_eq!(comparison.tally.differences() as usize, all.len() - missing);
        kinds.count(call, *kind);
    }
    let mut comparison = Comparison::new();
    kinds.check(&EXPECTED, &mut comparison.tally);
    assert_eq!(comparison.tally.differences(), 0);
}
