//! Cases of what the requirements say about the rest, with the answers that follow from their sentences.

use crate::carried::calls::Carried;
use crate::carried::entries::{
    CarriedMap, CarriedRoute, HOME_OVER, MAP_HOME, MAP_OUT, MAP_TRANSLATED, OUT_OVER,
};
use crate::carried::reader::{Part, rest_start};
use crate::comparison::Comparison;
use crate::maps::calls::{CAPACITIES, WithText};
use crate::maps::list::List;
use crate::routes::lent_route::Route;
use crate::tally::Given;
use crate::text::{Answer, MADE_NOT_LEGAL, NO_PATH, NOT_LEGAL, Text, Texts};
use mudvizsor::ffi::Reply;
use texts::MAX_PATH_LEN;

/// A text, a prefix, and where the rest begins, if it is a prefix.
pub type PrefixRow = (&'static str, &'static str, Option<usize>);

pub const PREFIX_ROWS: &[PrefixRow] = &[
    ("/A/B", "/A", Some(2)),
    ("/A.b", "/A", Some(2)),
    ("/A{v=p}B", "/A", Some(2)),
    ("/A{v=p}B", "/A{v=p}", Some(7)),
    ("/A/B", "/A/B", Some(4)),
    ("/A/B", "/", Some(0)),
    ("/", "/", Some(1)),
    ("/A/B", "", Some(0)),
    ("/", "", Some(0)),
    ("", "", Some(0)),
    ("/A.r[/B]", "/A", Some(2)),
    ("/A.r[/B]", "/A.r[/B]", Some(8)),
    ("/A.r[/B]", "/", Some(0)),
    ("/A.r[/B]", "/A.r", None),
    ("/AB", "/A", None),
    ("/A", "/A/B", None),
    ("", "/", None),
];

/// The path made, and start and length of the rest.
pub type Stated = Answer<(&'static str, usize, usize)>;

type Pairs = &'static [[&'static str; 2]];

/// The pairs, the mark, the path, the call, and its answer.
pub type MapRow = (Pairs, bool, &'static str, CarriedMap, Stated);

const A_TO_X: Pairs = &[["/A", "/X"]];

pub const MAP_ROWS: &[MapRow] = &[
    (A_TO_X, false, "/A/B.c", MAP_OUT, Ok(("/X/B.c", 2, 4))),
    (A_TO_X, false, "/A{v=p}B", MAP_OUT, Ok(("/X{v=p}B", 2, 6))),
    (A_TO_X, false, "/A", MAP_OUT, Ok(("/X", 2, 0))),
    (&[["/A", "/X"], ["/A", "/Y"]], false, "/A/c", MAP_OUT, Ok(("/Y/c", 2, 2))),
    (&[["/A/B", "/Y"], ["/A", "/X"]], false, "/A/B/C", MAP_OUT, Ok(("/Y/C", 4, 2))),
    // "For a path that only the mark returns the rest is the whole text."
    (A_TO_X, true, "/Q/r", MAP_OUT, Ok(("/Q/r", 0, 4))),
    (A_TO_X, true, "", MAP_OUT, Ok(("", 0, 0))),
    // "Under the key `/` the rest of a longer text is that whole text."
    (&[["/", "/X"]], false, "/A", MAP_OUT, Ok(("/X/A", 0, 2))),
    (&[["/", "/X"]], false, "/", MAP_OUT, Ok(("/X", 1, 0))),
    (&[["/", "/"]], false, "/A", MAP_OUT, Ok(("/A", 0, 2))),
    (&[["/A", "/"]], false, "/A/B", MAP_OUT, Ok(("/B", 2, 2))),
    (&[["/A", "/"]], false, "/A", MAP_OUT, Ok(("/", 2, 0))),
    (&[["/A", "/"]], false, "/A.b", MAP_OUT, Err(MADE_NOT_LEGAL)),
    (&[["/A", ""]], true, "/A/B", MAP_OUT, Err(NO_PATH)),
    (A_TO_X, false, "/Q", MAP_OUT, Err(NO_PATH)),
    (A_TO_X, false, "A", MAP_OUT, Err(NOT_LEGAL)),
    (A_TO_X, false, "/X{v=p}", MAP_HOME, Ok(("/A{v=p}", 2, 5))),
    (&[["", "/X"]], false, "/X/b", MAP_HOME, Ok(("/b", 2, 2))),
    (&[["", "/"]], false, "/A", MAP_HOME, Ok(("/A", 0, 2))),
    (&[["", "/"]], false, "/", MAP_HOME, Ok(("", 1, 0))),
    // "`translate_to_target` gives the rest only where there is no selection to strip, and an empty part otherwise."
    (A_TO_X, false, "/A/b", MAP_TRANSLATED, Ok(("/X/b", 2, 2))),
    (A_TO_X, false, "/A{v=p}b", MAP_TRANSLATED, Ok(("/X/b", 0, 0))),
    (&[], true, "/Q{v=p}", MAP_TRANSLATED, Ok(("/Q", 0, 0))),
    (&[], true, "/Q", MAP_TRANSLATED, Ok(("/Q", 0, 2))),
    (A_TO_X, true, "/X/y", MAP_TRANSLATED, Err(NO_PATH)),
    // The brackets belong to the rest, and a selection in them is none to strip.
    (A_TO_X, false, "/A.r[/A]", MAP_OUT, Ok(("/X.r[/A]", 2, 6))),
    (A_TO_X, false, "/X.r[/A{v=p}]", MAP_HOME, Ok(("/A.r[/A{v=p}]", 2, 11))),
    (A_TO_X, false, "/A.r[/A{v=p}]", MAP_TRANSLATED, Ok(("/X.r[/A{v=p}]", 2, 11))),
    (A_TO_X, false, "/A{v=p}.r[/A{v=p}]", MAP_TRANSLATED, Ok(("/X.r[/A{v=p}]", 0, 0))),
    (&[], true, "/Q.r[/A]", MAP_TRANSLATED, Ok(("/Q.r[/A]", 0, 8))),
    (&[["/A", "/"]], false, "/A.r[/A]", MAP_OUT, Err(MADE_NOT_LEGAL)),
];

/// The legs with their kinds, the path, the call, and its answer.
pub type RouteRow = (&'static [Leg], &'static str, CarriedRoute, Stated);

type Leg = (usize, Pairs);

const MAP: usize = 0;
const RELOCATES: usize = 2;

const A_THEN_XB: &[Leg] = &[(MAP, A_TO_X), (MAP, &[["/X/B", "/Y"]])];
const AB_THEN_X: &[Leg] = &[(MAP, &[["/A/B", "/X/Y"]]), (MAP, &[["/X", "/Z"]])];
const MOVED: &[Leg] = &[(RELOCATES, &[["/R/a", "/R/b"]])];

pub const ROUTE_ROWS: &[RouteRow] = &[
    (&[], "/A{v=p}B.c", OUT_OVER, Ok(("/A{v=p}B.c", 0, 10))),
    (&[], "/A{v=p}B.c", HOME_OVER, Ok(("/A{v=p}B.c", 0, 10))),
    (&[], "", OUT_OVER, Ok(("", 0, 0))),
    (&[(MAP, A_TO_X)], "/A/C", OUT_OVER, Ok(("/X/C", 2, 2))),
    (&[(MAP, A_TO_X)], "/A{v=p}C", OUT_OVER, Ok(("/X/C", 0, 0))),
    (&[(MAP, A_TO_X)], "/X{v=p}C", HOME_OVER, Ok(("/A{v=p}C", 2, 6))),
    (&[(MAP, A_TO_X)], "/Q", OUT_OVER, Err(NO_PATH)),
    // The first leg carries over `/B/C`, the second one only `/C`.
    (A_THEN_XB, "/A/B/C", OUT_OVER, Ok(("/Y/C", 4, 2))),
    (A_THEN_XB, "/A/B", OUT_OVER, Ok(("/Y", 4, 0))),
    (A_THEN_XB, "/Y/C", HOME_OVER, Ok(("/A/B/C", 2, 2))),
    // The second leg carries over `/Y/C`, of which `/Y` is not from the path given.
    (AB_THEN_X, "/A/B/C", OUT_OVER, Ok(("/Z/Y/C", 4, 2))),
    (AB_THEN_X, "/Z/Y/C", HOME_OVER, Ok(("/A/B/C", 4, 2))),
    (&[(MAP, &[["/", "/X"]]), (MAP, &[["/X", "/"]])], "/A", OUT_OVER, Ok(("/A", 0, 2))),
    (MOVED, "/R/a/c", OUT_OVER, Ok(("/R/b/c", 4, 2))),
    (MOVED, "/Q/r", OUT_OVER, Ok(("/Q/r", 0, 4))),
    (MOVED, "/R/b", HOME_OVER, Ok(("/R/a", 4, 0))),
    (A_THEN_XB, "/A/B/C.r[/A/B]", OUT_OVER, Ok(("/Y/C.r[/A/B]", 4, 10))),
    (A_THEN_XB, "/A/B.r[/A{v=p}]", OUT_OVER, Ok(("/Y.r[/A{v=p}]", 4, 11))),
    (A_THEN_XB, "/A{v=p}B.r[/A{v=p}]", OUT_OVER, Ok(("/Y.r[/A{v=p}]", 0, 0))),
    (A_THEN_XB, "/Y.r[/A/B]", HOME_OVER, Ok(("/A/B.r[/A/B]", 2, 8))),
];

pub fn run(comparison: &mut Comparison) {
    for (text, prefix, start) in PREFIX_ROWS {
        let [text, prefix] = [text, prefix].map(|text| Text::new(text.as_bytes()));
        let (path, end) = (text.path().expect("a path"), prefix.path().expect("a path"));
        let read = path.has_prefix(end).then(|| rest_start(path.as_str(), end.as_str()));
        as_stated(comparison, &Texts(&[&text, &prefix]), read == *start);
        comparison.prefix_carried(&text, &prefix);
    }
    for (pairs, mark, path, call, answer) in MAP_ROWS {
        let (list, text) = (List::packed(pairs, *mark), Text::new(path.as_bytes()));
        let legs = call.legs(&list);
        let read = call.call(&list, &legs, &text, &no_entry, &no_entry);
        as_stated(comparison, &WithText { given: &list, text: &text }, is_stated(&read, answer));
        comparison.maps_carried(&list, &[text], &CAPACITIES);
    }
    for (legs, path, call, answer) in ROUTE_ROWS {
        let (route, text) = (Route::packed(legs), Text::new(path.as_bytes()));
        let legs = call.legs(&route);
        let read = call.call(&route, &legs, &text, &no_entry, &no_entry);
        as_stated(comparison, &WithText { given: &route, text: &text }, is_stated(&read, answer));
        comparison.routes_carried(&route, &[text], &CAPACITIES);
    }
    for length in MAX_PATH_LEN - 3..=MAX_PATH_LEN + 1 {
        long_path(comparison, length);
    }
}

fn as_stated(comparison: &mut Comparison, given: &dyn Given, agrees: bool) {
    comparison.tally.fact("a case of the rest is read as stated", given, agrees);
}

/// Stands for the entries where only the expected answer is needed.
fn no_entry(_: &mut [u8]) -> Reply {
    Reply::refusal(0)
}

/// Returns whether the expected answer is the stated one.
fn is_stated(call: &Carried, answer: &Stated) -> bool {
    match (&call.made, *answer) {
        (Ok(made), Ok((text, start, length))) => {
            let part = call.reading().map(|reading| reading.part);
            made.as_str() == text && part == Some(Part { start, length })
        }
        (made, answer) => made.as_ref().err().copied() == answer.err(),
    }
}

/// A path of `length` bytes as a prefix of itself, and mapped to one that is two bytes longer, out and home.
fn long_path(comparison: &mut Comparison, length: usize) {
    let text = || Text::new(format!("/AB/{}", "L".repeat(length - 4)).as_bytes());
    comparison.prefix_carried(&text(), &text());
    for pairs in [[["/AB", "/A/BC"]], [["/A/BC", "/AB"]]] {
        comparison.maps_carried(&List::packed(&pairs, false), &[text()], &CAPACITIES);
        comparison.routes_carried(&Route::packed(&[(MAP, &pairs)]), &[text()], &CAPACITIES);
    }
}
