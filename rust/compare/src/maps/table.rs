//! The cases of the requirements for maps, with the answers stated there.

use crate::comparison::Comparison;
use crate::maps::calls::{BACK, MapCall, OUT, TRANSLATED, WithText};
use crate::maps::list::{List, NOT_AN_END, TOO_MANY_PAIRS};
use crate::text::{Answer, MADE_NOT_LEGAL, NO_PATH, NOT_LEGAL, Text};

struct Row {
    pairs: &'static [[&'static str; 2]],
    mark: bool,
    path: &'static str,
    call: MapCall,
    answer: Answer<&'static str>,
}

const A_TO_X: &[[&str; 2]] = &[["/A", "/X"]];

const ROWS: &[Row] = &[
    Row { pairs: &[["/A", "/X"], ["/A", "/Y"]], mark: false, path: "/A/c", call: OUT, answer: Ok("/Y/c") },
    // What `new` keeps of `/A`→empty, `/A/B`→`/B`.
    Row { pairs: &[["/A", ""]], mark: false, path: "/A/B/C", call: OUT, answer: Err(NO_PATH) },
    Row { pairs: &[["/A", "/X"]], mark: true, path: "/X/y", call: OUT, answer: Ok("/X/y") },
    Row { pairs: &[["/A", "/X"]], mark: true, path: "/X/y", call: TRANSLATED, answer: Err(NO_PATH) },
    Row { pairs: &[["", "/"]], mark: true, path: "/A", call: OUT, answer: Ok("/A") },
    Row { pairs: &[["", "/"]], mark: true, path: "/A", call: BACK, answer: Ok("/A") },
    Row { pairs: &[["", "/"]], mark: true, path: "/A", call: TRANSLATED, answer: Err(NO_PATH) },
    // Two maps applied in turn.
    Row {
        pairs: &[["/A", "/X"], ["/A/B", "/Y"]],
        mark: false,
        path: "/A/B/C",
        call: OUT,
        answer: Ok("/Y/C"),
    },
    Row {
        pairs: &[["/X/B/C", "/Z"], ["/Y", "/W"]],
        mark: false,
        path: "/Y/C",
        call: OUT,
        answer: Ok("/W/C"),
    },
    Row { pairs: &[["/A", "/"]], mark: false, path: "/A.b", call: OUT, answer: Err(MADE_NOT_LEGAL) },
    // "Mapping treats the bracketed part as plain tail and leaves it."
    Row { pairs: A_TO_X, mark: false, path: "/A/S.next[/A/T]", call: OUT, answer: Ok("/X/S.next[/A/T]") },
    Row { pairs: A_TO_X, mark: false, path: "/X/S.next[/X/T]", call: BACK, answer: Ok("/A/S.next[/X/T]") },
    Row { pairs: A_TO_X, mark: false, path: "/Q.next[/A]", call: OUT, answer: Err(NO_PATH) },
    Row { pairs: A_TO_X, mark: true, path: "/Q.next[/A]", call: OUT, answer: Ok("/Q.next[/A]") },
    Row { pairs: &[["/A", "/"]], mark: false, path: "/A.r[/T]", call: OUT, answer: Err(MADE_NOT_LEGAL) },
    // Stripping leaves the names and selections in brackets, "in `translate_to_target` too".
    Row {
        pairs: A_TO_X,
        mark: false,
        path: "/A{v=p}S.next[/A{v=p}T]",
        call: TRANSLATED,
        answer: Ok("/X/S.next[/A{v=p}T]"),
    },
    Row { pairs: &[["/A.r[/T]", "/X"]], mark: false, path: "/A", call: OUT, answer: Err(NOT_AN_END) },
    Row { pairs: &[["/A", "/X.r[/T]"]], mark: false, path: "/A", call: BACK, answer: Err(NOT_AN_END) },
    Row { pairs: &[["/A", "/X.r[T]"]], mark: false, path: "/A", call: BACK, answer: Err(NOT_LEGAL) },
    Row { pairs: &[["/A", "/B"]; 64], mark: false, path: "/A", call: OUT, answer: Ok("/B") },
    Row { pairs: &[["/A", "/B"]; 65], mark: false, path: "/A", call: OUT, answer: Err(TOO_MANY_PAIRS) },
];

pub fn run(comparison: &mut Comparison) {
    for row in ROWS {
        let list = List::packed(row.pairs, row.mark);
        let text = Text::new(row.path.as_bytes());
        let expected = row.call.expected(&list, &text);
        let agrees = expected.as_ref().map(|path| path.as_str()) == row.answer.as_ref().map(|text| *text);
        let given = WithText { given: &list, text: &text };
        comparison.tally.fact("a case of the requirements is answered as stated there", &given, agrees);
        comparison.map(&list, &text);
    }
}
