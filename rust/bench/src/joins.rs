//! Times two forms of the join that replaces a prefix, on the same joins: the one that chooses the separator by branches, as
//! the library did before, and the one that computes its length from tests as numbers, as the library does. Both are written
//! in Rust here, function by function as in crates/path_join, so that they are compiled alike.

mod arithmetic;
mod branching;
mod inputs;

use crate::clock::{best_times, cycles_per_nanosecond};
use crate::options::Order;
use crate::table::{head, nanoseconds, ratio, row};
use inputs::Join;
use mudvizsor::ffi;
use std::hint::black_box;
use texts::MAX_PATH_LEN;

/// Prints a row for each set of joins and each of the orders.
pub fn print(orders: &[Order]) {
    head(&[
        "joins",
        "order",
        "branches, ns",
        "arithmetic, ns",
        "branches, cycles",
        "arithmetic, cycles",
        "arithmetic / branches",
    ]);
    for set in inputs::SETS {
        for &order in orders {
            time_joins(set.title, order, &set.joins(order));
        }
    }
}

fn time_joins(title: &str, order: Order, joins: &[Join]) {
    joins.iter().for_each(assert_forms_agree);
    let (mut out, mut other_out) = ([0; MAX_PATH_LEN], [0; MAX_PATH_LEN]);
    let branching = || {
        for each in joins {
            black_box(branching::join(each.old, each.new, each.rest, black_box(&mut out)));
        }
    };
    let arithmetic = || {
        for each in joins {
            black_box(arithmetic::join(each.old, each.new, each.rest, black_box(&mut other_out)));
        }
    };
    let times = best_times(joins.len(), branching, arithmetic);
    let cycles = |time: f64| cycles_per_nanosecond().map_or("-".into(), |rate| nanoseconds(time * rate));
    row(&[
        title,
        order.title(),
        &nanoseconds(times.reference),
        &nanoseconds(times.measured),
        &cycles(times.reference),
        &cycles(times.measured),
        &ratio(times.ratio()),
    ]);
}

/// Both forms write the same bytes, and those of the library's `replace_prefix` if it accepts the result.
fn assert_forms_agree(join: &Join) {
    let [mut by_branches, mut by_arithmetic, mut by_library] = [[b'x'; MAX_PATH_LEN]; 3];
    let length = branching::join(join.old, join.new, join.rest, &mut by_branches);
    assert_eq!(length, arithmetic::join(join.old, join.new, join.rest, &mut by_arithmetic));
    assert_eq!(by_branches, by_arithmetic);
    let path = [join.old, join.rest].concat();
    let reply = ffi::paths::replace_prefix(&path, join.old, join.new, &mut by_library);
    const MADE_ILLEGAL: usize = 8;
    if reply.number() != MADE_ILLEGAL {
        assert_eq!((reply.number(), Some(reply.value())), (0, length));
        assert_eq!(by_branches, by_library);
    }
}
