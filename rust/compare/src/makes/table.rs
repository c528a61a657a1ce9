//! The cases of the requirements for building maps, and lists and ends at the limits.

use crate::comparison::Comparison;
use crate::makes::calls::Map;
use crate::maps::list::List;
use crate::text::Text;
use texts::MAX_PATH_LEN;

const IDENTITY: [f64; 2] = [0.0, 1.0];

fn map<T: AsRef<[u8]>>(pairs: &[[T; 2]]) -> Map {
    Map { list: List::packed(pairs, false), time: IDENTITY }
}

fn map_with_mark<T: AsRef<[u8]>>(pairs: &[[T; 2]]) -> Map {
    Map { list: List::packed(pairs, true), time: IDENTITY }
}

fn text(bytes: &str) -> Text {
    Text::new(bytes.as_bytes())
}

pub fn run(comparison: &mut Comparison) {
    comparison.one_map(&map(&[["/A", ""], ["/A/B", "/B"]]));
    let inner = map(&[["/A", "/X"], ["/A/B", "/Y"]]);
    let outer = map(&[["/X/B/C", "/Z"], ["/Y", "/W"]]);
    comparison.two_maps(&outer, &inner);
    for count in [63, 64, 65] {
        many_pairs(comparison, count);
        comparison.two_maps(&map_with_mark(&[["/X", "/Y"]]), &map_with_mark(&numbered(count - 1)));
        comparison.two_maps(&map_with_mark(&numbered(count - 1)), &map_with_mark(&[["/X", "/Y"]]));
    }
    for length in MAX_PATH_LEN - 3..=MAX_PATH_LEN {
        long_ends(comparison, length);
    }
}

fn many_pairs(comparison: &mut Comparison, count: usize) {
    let many = map(&vec![["/A", "/B"]; count]);
    comparison.one_map(&many);
    comparison.rebase_target(&many, &text("/B"), &text("/C"));
    comparison.rebase_target(&many, &text("/C"), &text("/B"));
    comparison.deepen_to(&many, &text("/A/C"));
    comparison.deepen_to(&many, &text("/B"));
    comparison.two_maps(&many, &map::<&str>(&[]));
    comparison.two_maps(&map(&[["/A", "/B"]]), &map(&vec![["/C", "/A"]; count - 1]));
    comparison.two_maps(&map(&[["/A", "/B"], ["/D", "/E"]]), &map(&vec![["/C", "/A"]; count - 1]));
}

/// Pairs with different sources and targets.
fn numbered(count: usize) -> Vec<[String; 2]> {
    (0..count).map(|number| [format!("/A{number}"), format!("/B{number}")]).collect()
}

/// Resulting ends of which some are at the length limit, some beyond it, and some are not legal.
fn long_ends(comparison: &mut Comparison, length: usize) {
    let long = format!("/{}", "L".repeat(length - 1));
    for [source, target] in [["/A", "/B"], ["/A/B", "/A"], ["", "/B"], ["/", "/"], ["/A", "/"]] {
        for map in [map(&[[source, target], ["/C", "/B/A"]]), map(&[[source, &long], ["/C", "/"]])] {
            for path in ["", "/", "/A", "/A/B", "/A/BC", "/B", &long] {
                comparison.deepen_to(&map, &text(path));
                comparison.rebase_target(&map, &text(path), &text(&long));
                comparison.rebase_target(&map, &text(&long), &text(path));
            }
            comparison.two_maps(&map, &map_with_mark(&[[long.as_str(), "/A/B"], ["/B/A", "/A"]]));
            comparison.two_maps(&map_with_mark(&[["/A", long.as_str()], ["/B", "/D"]]), &map);
        }
    }
}
