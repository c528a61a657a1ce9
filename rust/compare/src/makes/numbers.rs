//! The calls that need only the number of pairs, the mark and the time offset of a map: the entry of the library and the
//! function of the original.

use crate::comparison::Comparison;
use crate::makes::calls::{time_of, value, with_time_buffer};
use crate::maps::list::{MAX_PAIRS, TOO_MANY_PAIRS};
use crate::tally::{Call, Given};
use crate::text::Answer;
use crate::times::special::FLOATS;
use mudvizsor::ffi::{Reply, map_info};
use original::pcp::MapFunction;
use original::sdf::{LayerOffset, Path};
use std::fmt::{self, Display};

/// The numbers of pairs: none, some, the maximum, and one more.
const COUNTS: [usize; 5] = [0, 1, 2, MAX_PAIRS, MAX_PAIRS + 1];

/// A call that returns a property of a map.
struct InfoCall {
    name: &'static str,
    entry: extern "C" fn(usize, bool, f64, f64) -> bool,
    original: fn(&MapFunction) -> bool,
}

const INFO_CALLS: [InfoCall; 4] = [
    InfoCall { name: "is_null", entry: map_info::is_null, original: MapFunction::is_null },
    InfoCall {
        name: "path_is_identity",
        entry: map_info::path_is_identity,
        original: MapFunction::leaves_every_path,
    },
    InfoCall { name: "is_identity", entry: map_info::is_identity, original: MapFunction::is_identity },
    InfoCall {
        name: "has_root_identity",
        entry: map_info::has_root_identity,
        original: MapFunction::has_root_identity,
    },
];

/// Tries every number of pairs with and without the mark and with every time offset of special floats.
pub fn run(comparison: &mut Comparison) {
    let (identity, null) = (MapFunction::identity(), MapFunction::null());
    comparison
        .build_without_list("identity", &MapInfo(&identity), Ok(&identity), |time| map_info::identity(time));
    comparison.build_without_list("null", &MapInfo(&null), Ok(&null), |time| map_info::null(time));
    let pair = ["/A", "/B"].map(|end| Path::new(end).expect("a path"));
    for count in COUNTS {
        for mark in [false, true] {
            let map = MapFunction::with_exactly(vec![pair.clone().into(); count], mark);
            for &offset in FLOATS {
                for &scale in FLOATS {
                    let time = LayerOffset::new(offset, scale);
                    comparison.map_info(&map.clone().with_time_offset(time));
                }
            }
        }
    }
}

impl Comparison {
    /// Compares each of these calls. The new time offset is the old one with its two numbers exchanged.
    pub fn map_info(&mut self, map: &MapFunction) {
        let given = &MapInfo(map);
        let (count, mark, [offset, scale]) = (map.path_pairs().len(), map.has_root_identity(), time_of(map));
        for info in &INFO_CALLS {
            let (expected, found) = ((info.original)(map), (info.entry)(count, mark, offset, scale));
            let call = Call { name: info.name, given, capacity: None };
            self.tally.values(call, expected == found, expected, found);
        }
        let ((), time) = with_time_buffer(|time| map_info::time_offset(count, mark, offset, scale, time));
        self.time(Call { name: "time_offset", given, capacity: None }, Ok(map), time);
        let made = map.clone().with_time_offset(LayerOffset::new(scale, offset));
        let expected = if count > MAX_PAIRS { Err(TOO_MANY_PAIRS) } else { Ok(&made) };
        self.build_without_list("with_time_offset", given, expected, |time| {
            map_info::with_time_offset(count, mark, offset, scale, scale, offset, time)
        });
    }

    /// Compares a call that builds a map and writes no list.
    fn build_without_list(
        &mut self,
        name: &'static str,
        given: &dyn Given,
        expected: Answer<&MapFunction>,
        entry: impl FnOnce(&mut [f64; 2]) -> Reply,
    ) {
        let (found, time) = with_time_buffer(entry);
        let call = Call { name, given, capacity: None };
        self.tally.compare(call, expected.map(value), found, None);
        self.time(call, expected, time);
    }
}

/// A map of which only the number of pairs, the mark and the time offset are passed.
struct MapInfo<'a>(&'a MapFunction);

impl Given for MapInfo<'_> {
    fn size(&self) -> usize {
        self.0.path_pairs().len()
    }
}

impl Display for MapInfo<'_> {
    fn fmt(&self, f: &mut fmt::Formatter<'_>) -> fmt::Result {
        let mark = if self.0.has_root_identity() { "mark" } else { "no mark" };
        write!(f, " {} pairs, {mark}, time {:?}:", self.0.path_pairs().len(), time_of(self.0))
    }
}
