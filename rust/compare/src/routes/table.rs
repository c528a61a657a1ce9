//! The cases of the requirements for routes, and routes, lists and paths at the limits, with the answers stated there.

use crate::comparison::Comparison;
use crate::maps::calls::WithText;
use crate::maps::list::{NOT_AN_END, TOO_MANY_PAIRS};
use crate::routes::calls::{CAPACITIES, HOME, OUT, RouteCall};
use crate::routes::lent_route::Route;
use crate::text::{Answer, MADE_NOT_LEGAL, MADE_TOO_LONG, NO_PATH, TOO_LONG, Text};
use texts::MAX_PATH_LEN;

type Leg = (usize, &'static [[&'static str; 2]]);

struct Row {
    legs: &'static [Leg],
    path: &'static str,
    call: RouteCall,
    answer: Answer<&'static str>,
}

const MAP: usize = 0;
const MAP_WITH_MARK: usize = 1;
const RELOCATES: usize = 2;

const A_TO_B: Leg = (MAP, &[["/A", "/B"]]);
const A_TO_A: Leg = (MAP, &[["/A", "/A"]]);
const TWO_MAPS: &[Leg] = &[(MAP, &[["/A", "/X"], ["/A/B", "/Y"]]), (MAP, &[["/X/B/C", "/Z"], ["/Y", "/W"]])];
const CONFLICTS: Leg = (RELOCATES, &[["/R/a", "/R/b"], ["/R/c", "/R/b"], ["/R/b", "/R/d"]]);
const CROSSED: Leg = (RELOCATES, &[["/R/a/b", "/R/c"], ["/R/c/d", "/R/a"]]);
const MOVED: Leg = (RELOCATES, &[["/R/a", "/R/b"]]);
const MARKED: Leg = (MAP_WITH_MARK, &[["/A", "/X"]]);

const ROWS: &[Row] = &[
    // The example of the program `frames`.
    Row { legs: &[A_TO_B], path: "/A/C", call: OUT, answer: Ok("/B/C") },
    Row { legs: &[A_TO_B], path: "/B/C", call: HOME, answer: Ok("/A/C") },
    Row { legs: &[A_TO_B], path: "/Q", call: OUT, answer: Err(NO_PATH) },
    // "With no legs, 05 and 06 give the path itself."
    Row { legs: &[], path: "/A{v=p}B.c", call: OUT, answer: Ok("/A{v=p}B.c") },
    Row { legs: &[], path: "/A{v=p}B.c", call: HOME, answer: Ok("/A{v=p}B.c") },
    Row { legs: &[], path: "", call: OUT, answer: Ok("") },
    Row { legs: TWO_MAPS, path: "/A/B/C", call: OUT, answer: Ok("/W/C") },
    Row { legs: TWO_MAPS, path: "/W/C", call: HOME, answer: Ok("/A/B/C") },
    Row { legs: &[MARKED], path: "/X/y", call: OUT, answer: Err(NO_PATH) },
    Row { legs: &[MARKED, MARKED], path: "/A/y", call: OUT, answer: Err(NO_PATH) },
    Row { legs: &[MARKED, MARKED], path: "/X/y", call: HOME, answer: Ok("/A/y") },
    Row { legs: &[(MAP_WITH_MARK, &[["", "/"]])], path: "/A", call: OUT, answer: Err(NO_PATH) },
    Row { legs: &[(MAP, &[["/A", "/"]])], path: "/A.b", call: OUT, answer: Err(MADE_NOT_LEGAL) },
    // Statuses 0, 1, 3 and 0: the map of the leg has only the Active pairs and `/`→`/`.
    Row { legs: &[(RELOCATES, &[["/R", ""]])], path: "/R/a", call: OUT, answer: Err(NO_PATH) },
    Row { legs: &[(RELOCATES, &[["/R", "/S"]])], path: "/R/a", call: OUT, answer: Ok("/R/a") },
    Row { legs: &[CONFLICTS], path: "/R/c", call: OUT, answer: Ok("/R/c") },
    Row { legs: &[CROSSED], path: "/R/a/b/x", call: OUT, answer: Ok("/R/c/x") },
    Row { legs: &[CROSSED, A_TO_B], path: "/R/a/b/x", call: OUT, answer: Err(NO_PATH) },
    Row { legs: &[A_TO_B], path: "/A{v=p}C", call: OUT, answer: Ok("/B/C") },
    // "A scenario author relies on such an address coming home from a route like any other."
    Row { legs: &[A_TO_B], path: "/A/S.next[/A/T]", call: OUT, answer: Ok("/B/S.next[/A/T]") },
    Row { legs: &[A_TO_B], path: "/B/S.next[/A/T]", call: HOME, answer: Ok("/A/S.next[/A/T]") },
    Row { legs: TWO_MAPS, path: "/A/B/C.r[/A{v=p}B]", call: OUT, answer: Ok("/W/C.r[/A{v=p}B]") },
    Row { legs: TWO_MAPS, path: "/W/C.r[/A{v=p}B]", call: HOME, answer: Ok("/A/B/C.r[/A{v=p}B]") },
    Row { legs: &[CROSSED], path: "/R/a/b.r[/R/c]", call: OUT, answer: Ok("/R/c.r[/R/c]") },
    Row { legs: &[CROSSED], path: "/R/c.r[/R/c]", call: HOME, answer: Ok("/R/a/b.r[/R/c]") },
    Row { legs: &[A_TO_B], path: "/A{v=p}C.r[/A{v=p}C]", call: OUT, answer: Ok("/B/C.r[/A{v=p}C]") },
    Row { legs: &[(MAP, &[["/A", "/B.r[/T]"]])], path: "/A", call: OUT, answer: Err(NOT_AN_END) },
    Row { legs: &[(MAP, &[["/A", "/B"]; 64])], path: "/A", call: OUT, answer: Ok("/B") },
    Row { legs: &[(MAP, &[["/A", "/B"]; 65])], path: "/A", call: OUT, answer: Err(TOO_MANY_PAIRS) },
    Row { legs: &[(RELOCATES, &[["/R/a", ""]; 64])], path: "/A", call: OUT, answer: Ok("/A") },
    Row { legs: &[(RELOCATES, &[["/R/a", ""]; 65])], path: "/A", call: OUT, answer: Err(TOO_MANY_PAIRS) },
    Row { legs: &[A_TO_A; 16], path: "/A", call: OUT, answer: Ok("/A") },
    Row { legs: &[A_TO_A; 17], path: "/A", call: OUT, answer: Err(TOO_MANY_PAIRS) },
    Row { legs: &[MOVED; 16], path: "/R/b/c", call: HOME, answer: Ok("/R/a/c") },
    Row { legs: &[MOVED; 17], path: "/R/b/c", call: HOME, answer: Err(TOO_MANY_PAIRS) },
];

pub fn run(comparison: &mut Comparison) {
    for Row { legs, path, call, answer } in ROWS {
        let (route, text) = (Route::packed(legs), Text::new(path.as_bytes()));
        one_case(comparison, &route, &text, call, answer);
    }
    for length in MAX_PATH_LEN - 3..=MAX_PATH_LEN + 1 {
        long_path(comparison, length);
    }
}

fn one_case(
    comparison: &mut Comparison,
    route: &Route,
    text: &Text,
    call: &RouteCall,
    answer: &Answer<&str>,
) {
    let expected = call.expected(route, text);
    let agrees = expected.as_ref().map(|path| path.as_str()) == answer.as_ref().map(|text| *text);
    let given = &WithText { given: route, text };
    comparison.tally.fact("a route of the requirements is answered as stated there", given, agrees);
    comparison.route(route, text, &CAPACITIES);
    comparison.route_all(route, &[Text::new(b"/A"), Text::new(&text.bytes)]);
}

/// A path of `length` bytes whose length one leg keeps and the next one increases by two.
fn long_path(comparison: &mut Comparison, length: usize) {
    let path = |first: &str| format!("{first}/{}", "L".repeat(length - 3));
    let route = Route::packed(&[A_TO_B, (MAP, &[["/B", "/B/C"]])]);
    let longer = path("/B/C");
    let answer = match length {
        ..=MAX_PATH_LEN if longer.len() <= MAX_PATH_LEN => Ok(longer.as_str()),
        ..=MAX_PATH_LEN => Err(MADE_TOO_LONG),
        _ => Err(TOO_LONG),
    };
    one_case(comparison, &route, &Text::new(path("/A").as_bytes()), &OUT, &answer);
}
