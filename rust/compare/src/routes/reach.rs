//! Statistics on how far paths get on their way out, which show that most of them do not stop at the first leg.

use crate::routes::calls::trace;
use crate::routes::lent_route::Route;
use crate::text::Text;
use std::fmt::{self, Display};

/// Paths out over routes of at least two legs, with valid input.
#[derive(Default)]
pub struct Reach {
    ways: usize,
    /// How many of these stopped at the first leg, and how many came out.
    stopped_at_first: usize,
    came_out: usize,
    /// The legs of all these paths, how many of them had a result, and how many of those changed the path.
    legs: usize,
    passed: usize,
    changed: usize,
}

impl Reach {
    pub fn count(&mut self, route: &Route, text: &Text) {
        let (Ok(maps), Some(path)) = (route.maps(), text.path()) else {
            return;
        };
        if maps.len() < 2 {
            return;
        }
        let paths = trace(maps, path);
        let passed = paths.len() - 1;
        self.ways += 1;
        self.stopped_at_first += usize::from(passed == 0);
        self.came_out += usize::from(passed == maps.len());
        self.legs += maps.len();
        self.passed += passed;
        self.changed += paths.windows(2).filter(|paths| paths[0] != paths[1]).count();
    }
}

impl Display for Reach {
    fn fmt(&self, f: &mut fmt::Formatter<'_>) -> fmt::Result {
        let Reach { ways, stopped_at_first, came_out, legs, passed, changed } = *self;
        let percent = |part: usize, whole: usize| 100 * part / whole.max(1);
        let mean = legs as f64 / ways.max(1) as f64;
        write!(f, "ways out over two or more legs, {mean:.1} on average: {ways}; ")?;
        write!(f, "{}% came out, {}% ", percent(came_out, ways), percent(stopped_at_first, ways))?;
        write!(f, "were stopped at the first leg; {}% of all legs were passed, ", percent(passed, legs))?;
        write!(f, "{}% of these with another path", percent(changed, passed))
    }
}
