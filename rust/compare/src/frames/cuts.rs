//! Sends the same input in two pieces, cut at every position.

use crate::comparison::Comparison;
use crate::frames::Described;
use crate::frames::program::Program;
use crate::frames::sending::Sending;
use crate::phase::phase;

pub fn run(comparison: &mut Comparison, program: &Program) {
    for (input, places) in inputs() {
        let (bytes, lines) = (input.len(), input.split(|byte| *byte == b'\n').count());
        let name = format!("an input of {bytes} bytes in two pieces, cut at {} places", places.len());
        phase(comparison, &name, |comparison| {
            for place in places {
                let text = format!("an input of {bytes} bytes, cut after byte {place}");
                if !comparison.send_and_compare(
                    program,
                    &Described { text, lines },
                    &input,
                    Sending::InTwo(place),
                ) {
                    return;
                }
            }
        });
    }
}

/// The inputs, each with the positions at which it is cut.
fn inputs() -> Vec<(Vec<u8>, Vec<usize>)> {
    let short =
        b"07\n0100022F4100022F42\n02\n03\n052F412F43\n\n062f422f43\n052F51\n07\r\nFF\n05\n07".to_vec();
    // The last digits of such a line alone would be a frame.
    let digits = |count| b"05".iter().copied().cycle().take(count).collect();
    let long = [b"07".to_vec(), digits(4_096), digits(4_097), digits(9_000), b"07".to_vec()].join(&b'\n');
    let every_place = |input: &[u8]| (0..=input.len()).collect();
    let places = every_place(&short);
    let far = (0..=long.len()).filter(|place| place % 97 == 0);
    let ends = [3, 4_099, 4_100, 8_196, 8_197, 8_198, 17_198].into_iter().flat_map(|end| end - 3..=end + 3);
    let mut near: Vec<usize> = ends.chain(far).filter(|place| *place <= long.len()).collect();
    near.sort_unstable();
    near.dedup();
    vec![(short, places), (long, near)]
}
