//! The cases of the requirements for relocates, with the answers stated there.

use crate::comparison::Comparison;
use crate::maps::list::{List, NOT_AN_END, TOO_MANY_PAIRS};
use crate::relocates::calls::{Chaining, chain, statuses};
use crate::text::{Answer, Text};

type Row = (&'static [[&'static str; 2]], Answer<&'static [u8]>);

const CROSSED: &[[&str; 2]] = &[["/R/a/b", "/R/c"], ["/R/c/d", "/R/a"]];

const STATUSES: &[Row] = &[
    (&[["/R", ""]], Ok(&[0])),
    (&[["/R", "/S"]], Ok(&[1])),
    (&[["/R/a", "/R/b"], ["/R/c", "/R/b"], ["/R/b", "/R/d"]], Ok(&[3, 3, 3])),
    (CROSSED, Ok(&[0, 0])),
    (&[["/R", ""]; 65], Err(TOO_MANY_PAIRS)),
    (&[["/R/a.r[/T]", "/R/b"]], Err(NOT_AN_END)),
];

/// A path, where its chain over the crossed pairs ends, and after how many steps.
const CHAINS: &[(&str, &str, usize)] = &[
    ("/R/a/b/d/b/d", "/R/a/b/d", 2),
    // "Mapping treats the bracketed part as plain tail and leaves it."
    ("/R/a/b/d/b/d.r[/R/a/b]", "/R/a/b/d.r[/R/a/b]", 2),
    ("/R.r[/R/a/b]", "/R.r[/R/a/b]", 0),
];

pub fn run(comparison: &mut Comparison) {
    for (pairs, answer) in STATUSES {
        let list = List::packed(pairs, false);
        let agrees = statuses(&list) == answer.map(<[u8]>::to_vec);
        comparison.tally.fact("the statuses are as stated in the requirements", &list, agrees);
        comparison.statuses(&list);
    }
    let list = &List::packed(CROSSED, false);
    for (path, end, steps) in CHAINS {
        let text = &Text::new(path.as_bytes());
        let found = chain(list, None, text);
        let given = &Chaining { list, skipped: None, text };
        let agrees = found.is_ok_and(|(path, count)| (path.as_str(), count) == (*end, *steps));
        comparison.tally.fact("the chain ends as stated in the requirements", given, agrees);
        comparison.chain(list, None, text);
    }
}
