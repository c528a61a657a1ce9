//! Mapping signals out over the legs and home again.

use crate::scenario::{Section, Signal};
use mudvizsor::{Leg, MapFunction, Path, Refusal, Result, Route};
use std::ops::Range;

/// The trace of a signal: the path after each leg, and how it ended.
#[derive(Debug)]
pub struct Trace<'a> {
    pub signal: &'a Signal,
    /// The path after each leg.
    pub steps: Vec<Path>,
    /// The range of the signal's text that all legs carried over unaltered: the end of the signal and of each step. `None` if
    /// it was not asked for, or if the signal did not come out over all legs.
    pub unaltered: Option<Range<usize>>,
    /// The target in the signal's brackets. `None` if it has no brackets, or if it did not come out over all legs. It is boxed
    /// because few signals have one, and larger traces make a long input slower.
    pub target: Option<Box<Target>>,
    pub outcome: Outcome,
}

/// A target in brackets. Mapping leaves it as it is, so after the last leg it still names a path of the first layer.
#[derive(Debug, PartialEq)]
pub struct Target {
    /// The path in the brackets.
    pub path: Path,
    pub moved: Moved,
}

/// What becomes of a target in brackets if it is mapped out over the legs itself. Its own brackets are left as they are.
#[derive(Debug, PartialEq)]
pub enum Moved {
    /// It came out as `path`. The address is the signal after the last leg with that path in its brackets.
    Out { path: Path, address: Result<Path> },
    /// A leg, counted from 1, had no result for it.
    Stopped { leg: usize, refusal: Refusal },
}

/// How a trace ends.
#[derive(Debug, PartialEq)]
pub enum Outcome {
    /// The signal came home: it was mapped back to itself without its selections.
    Home(Path),
    /// The text of the signal is not a legal path.
    BadPath(Refusal),
    /// A leg, counted from 1, had no result for the path.
    Stopped { leg: usize, refusal: Refusal },
    /// The signal was not mapped back to itself. It is proved that this does not happen.
    Elsewhere(Result<Path>),
}

/// A route for each single leg, and the route of all legs.
pub struct LegRoutes {
    legs: Vec<Route>,
    whole: Route,
    /// The route of all legs with the map of each relocate list in its place. The library builds these maps in each call, so
    /// calls for single signals are much faster over this route.
    maps: Route,
}

/// The trace of a signal so far.
struct PartialTrace {
    start: Path,
    steps: Vec<Path>,
    unaltered: Option<Range<usize>>,
    target: Option<Box<Target>>,
    /// `None` while the path is on its way.
    outcome: Option<Outcome>,
}

impl PartialTrace {
    fn new(start: Path) -> Self {
        PartialTrace { start, steps: Vec::new(), unaltered: None, target: None, outcome: None }
    }

    /// The path after the last leg.
    fn current(&self) -> &Path {
        self.steps.last().unwrap_or(&self.start)
    }
}

impl LegRoutes {
    /// Creates the routes. A scenario has no more legs than a route may have.
    pub fn new(sections: &[Section]) -> Self {
        let route = |some: &[Section], leg: fn(&Leg) -> Leg| {
            Route::new(some.iter().map(|section| leg(&section.leg))).expect("a scenario has at most 16 legs")
        };
        let legs = sections.chunks(1).map(|section| route(section, Leg::clone)).collect();
        LegRoutes { legs, whole: route(sections, Leg::clone), maps: route(sections, map_of) }
    }

    /// Traces the signals and returns the traces in the same order. All signals are mapped over a leg in one call. What was
    /// carried over unaltered takes one more call for each signal, and is determined only if `with_unaltered` is true.
    pub fn trace_all<'a>(&self, signals: &'a [Signal], with_unaltered: bool) -> Vec<Trace<'a>> {
        let starts = signals.iter().map(|signal| Path::new(&signal.text));
        let mut partials: Vec<Result<PartialTrace>> =
            starts.map(|start| start.map(PartialTrace::new)).collect();
        self.map_out(partials.iter_mut().flatten());
        self.move_targets(partials.iter_mut().flatten());
        if with_unaltered {
            self.find_unaltered(partials.iter_mut().flatten());
        }
        self.map_home(partials.iter_mut().flatten());
        signals.iter().zip(partials).map(|(signal, partial)| trace(signal, partial)).collect()
    }

    /// Maps the paths out over all legs, each as far as it comes.
    fn map_out<'a>(&self, partials: impl Iterator<Item = &'a mut PartialTrace>) {
        let mut partials: Vec<_> = partials.collect();
        for (i, leg) in self.legs.iter().enumerate() {
            map_over_leg(leg, i + 1, &mut partials);
        }
    }

    /// Maps the targets in brackets out over the legs, for all signals that came out over the last leg.
    fn move_targets<'a>(&self, partials: impl Iterator<Item = &'a mut PartialTrace>) {
        let came_out = partials.filter(|partial| partial.outcome.is_none());
        let (addresses, mut targets): (Vec<_>, Vec<_>) = came_out
            .filter_map(|partial| {
                let target = partial.start.embedded_target().ok()?;
                Some((partial, PartialTrace::new(target)))
            })
            .unzip();
        self.map_out(targets.iter_mut());
        for (address, target) in addresses.into_iter().zip(targets) {
            let moved = moved(&target, address.current());
            address.target = Some(Box::new(Target { path: target.start, moved }));
        }
    }

    /// Determines what was carried over unaltered, for all signals that came out over the last leg.
    fn find_unaltered<'a>(&self, partials: impl Iterator<Item = &'a mut PartialTrace>) {
        for partial in partials.filter(|partial| partial.outcome.is_none()) {
            let there = self.maps.out_carried(&partial.start);
            partial.unaltered = Some(there.expect("what comes out over each leg comes out over all").rest);
        }
    }

    /// Maps all signals home that came out over the last leg.
    fn map_home<'a>(&self, partials: impl Iterator<Item = &'a mut PartialTrace>) {
        let mut active: Vec<_> = partials.filter(|partial| partial.outcome.is_none()).collect();
        let homes = self.whole.home_all(active.iter().map(|partial| partial.current()));
        for (partial, home) in active.iter_mut().zip(homes) {
            let own = match self.legs.is_empty() {
                true => partial.start.clone(),
                false => partial.start.strip_variant_selections(),
            };
            partial.outcome =
                Some(if home == Ok(own.clone()) { Outcome::Home(own) } else { Outcome::Elsewhere(home) });
        }
    }
}

/// The leg as a map. A relocate list stands for the map of its active pairs and `/` to `/`, which is the mark. The mark is
/// added here after the map is built, since 64 active pairs leave no place for another pair. The map is the same: beside the
/// mark only a pair with equal ends is redundant, and no such pair is active, unless both ends are empty and it never matches.
fn map_of(leg: &Leg) -> Leg {
    let Leg::Relocates(relocates) = leg else {
        return leg.clone();
    };
    let active = MapFunction::new(relocates.active_pairs()).expect("a list has at most 64 pairs of ends");
    Leg::Map(active.with_root_identity())
}

/// Maps all paths that have not stopped over one leg.
fn map_over_leg(route: &Route, leg: usize, partials: &mut [&mut PartialTrace]) {
    let mut active: Vec<_> = partials.iter_mut().filter(|partial| partial.outcome.is_none()).collect();
    let steps = route.out_all(active.iter().map(|partial| partial.current()));
    for (partial, step) in active.iter_mut().zip(steps) {
        match step {
            Ok(path) => partial.steps.push(path),
            Err(refusal) => partial.outcome = Some(Outcome::Stopped { leg, refusal }),
        }
    }
}

/// What became of a target that was mapped out; `there` is its signal after the last leg.
fn moved(target: &PartialTrace, there: &Path) -> Moved {
    match target.outcome {
        Some(Outcome::Stopped { leg, refusal }) => Moved::Stopped { leg, refusal },
        _ => {
            let path = target.current().clone();
            Moved::Out { address: there.replace_embedded_target(&path), path }
        }
    }
}

fn trace(signal: &Signal, partial: Result<PartialTrace>) -> Trace<'_> {
    match partial {
        Ok(PartialTrace { steps, unaltered, target, outcome, .. }) => {
            let outcome = outcome.expect("every trace has an outcome");
            Trace { signal, steps, unaltered, target, outcome }
        }
        Err(refusal) => {
            let outcome = Outcome::BadPath(refusal);
            Trace { signal, steps: Vec::new(), unaltered: None, target: None, outcome }
        }
    }
}

/// Describes a refusal in a trace.
pub fn meaning(refusal: Refusal) -> String {
    match refusal {
        Refusal::NoPath => {
            format!(
                "{refusal}: no pair of the leg takes it, its target is empty, or another pair would take it back"
            )
        }
        _ => refusal.to_string(),
    }
}

#[cfg(test)]
mod tests {
    use super::*;
    use crate::scenario::Scenario;

    /// The steps and the outcome of each signal.
    fn outcomes(text: &str) -> Vec<(Vec<String>, Outcome)> {
        let scenario = Scenario::read(text.as_bytes()).unwrap();
        let traces = LegRoutes::new(&scenario.legs).trace_all(&scenario.signals, false);
        assert!(traces.iter().all(|trace| trace.unaltered.is_none()));
        let steps = |trace: &Trace| trace.steps.iter().map(Path::to_string).collect();
        traces.into_iter().map(|trace| (steps(&trace), trace.outcome)).collect()
    }

    fn path(text: &str) -> Path {
        Path::new(text).unwrap()
    }

    #[test]
    fn every_outcome() {
        let long = "n".repeat(250);
        let text = format!(
            "map\n/A -> /B\n/L -> /{long}\n/R -> /\nrelocates\n/B/c -> /B/d\n/B/e -> -\n\
             signals\n/A{{v=p}}c.x\n/A/d\n/A/e\n/Q\n/A.\n/L/longer\n/R.x\n"
        );
        let outcomes = outcomes(&text);
        let stopped = |leg, refusal| Outcome::Stopped { leg, refusal };
        assert_eq!(outcomes[0], (vec!["/B/c.x".into(), "/B/d.x".into()], Outcome::Home(path("/A/c.x"))));
        assert_eq!(outcomes[1], (vec!["/B/d".into()], stopped(2, Refusal::NoPath)));
        assert_eq!(outcomes[2], (vec!["/B/e".into()], stopped(2, Refusal::NoPath)));
        assert_eq!(outcomes[3], (vec![], stopped(1, Refusal::NoPath)));
        assert_eq!(outcomes[4], (vec![], Outcome::BadPath(Refusal::NotLegal)));
        assert_eq!(outcomes[5], (vec![], stopped(1, Refusal::MadeTooLong)));
        assert_eq!(outcomes[6], (vec![], stopped(1, Refusal::MadeNotLegal)));
    }

    #[test]
    fn names_outside_ascii() {
        let outcomes = outcomes(
            "map\n/Jelző -> /Tér/Jelző_1\nrelocates\n/Tér/Jelző_1 -> /Tér/Jelző_12\n\
             signals\n/Jelző{idő=fagy}Lámpa.szín\n/Jelzőé\n/Jelzo\u{30b}\n/Jelző\u{a0}\n/Jelző{idő=hó}\n",
        );
        let steps = vec!["/Tér/Jelző_1/Lámpa.szín".into(), "/Tér/Jelző_12/Lámpa.szín".into()];
        assert_eq!(outcomes[0], (steps, Outcome::Home(path("/Jelző/Lámpa.szín"))));
        for outcome in &outcomes[1..3] {
            assert_eq!(outcome.1, Outcome::Stopped { leg: 1, refusal: Refusal::NoPath });
        }
        for outcome in &outcomes[3..] {
            assert_eq!(outcome.1, Outcome::BadPath(Refusal::NotLegal));
        }
    }

    /// The target of each signal, and what becomes of it.
    fn targets(text: &str) -> Vec<Option<Target>> {
        let scenario = Scenario::read(text.as_bytes()).unwrap();
        let traces = LegRoutes::new(&scenario.legs).trace_all(&scenario.signals, false);
        traces.into_iter().map(|trace| trace.target.map(|target| *target)).collect()
    }

    fn out(target: &str, moved: &str, address: Result<Path>) -> Option<Target> {
        Some(Target { path: path(target), moved: Moved::Out { path: path(moved), address } })
    }

    #[test]
    fn targets_in_brackets_are_mapped_themselves() {
        let targets = targets(
            "map\n/A -> /B\n/S -> /T\nrelocates\n/B/c -> /B/d\n/B/e -> -\nsignals\n\
             /S.r[/A/c]\n/S.r[/A{v=p}f.x[/A/c]]\n/S.r[/S.r]\n",
        );
        assert_eq!(targets[0], out("/A/c", "/B/d", Path::new("/T.r[/B/d]")));
        assert_eq!(targets[1], out("/A{v=p}f.x[/A/c]", "/B/f.x[/A/c]", Path::new("/T.r[/B/f.x[/A/c]]")));
        assert_eq!(targets[2], out("/S.r", "/T.r", Path::new("/T.r[/T.r]")));
    }

    #[test]
    fn targets_that_do_not_come_out() {
        let text = "map\n/A -> /B\n/S -> /T\nrelocates\n/B/e -> -\nsignals\n/S.r[/Q]\n/S.r[/A/e]\n/S.r[/]\n";
        for (target, (name, leg)) in targets(text).into_iter().zip([("/Q", 1), ("/A/e", 2), ("/", 1)]) {
            let moved = Moved::Stopped { leg, refusal: Refusal::NoPath };
            assert_eq!(target, Some(Target { path: path(name), moved }));
        }
        let long = "n".repeat(130);
        let target = &targets(&format!("map\n/A -> /{long}\nsignals\n/A.r[/A]\n"))[0];
        assert_eq!(*target, out("/A", &format!("/{long}"), Err(Refusal::MadeTooLong)));
    }

    #[test]
    fn signals_without_a_target() {
        for signal in ["/A", "/A.r", "/A{v=p}", "-", "/Q.r[/A]", "/A[/A]"] {
            assert_eq!(targets(&format!("map\n/A -> /B\nsignals\n{signal}\n")), [None], "{signal}");
        }
    }

    #[test]
    fn without_legs_a_target_is_unchanged() {
        let address = Path::new("/A.r[/B{v=p}]");
        assert_eq!(targets("signals\n/A.r[/B{v=p}]"), [out("/B{v=p}", "/B{v=p}", address)]);
    }

    #[test]
    fn addresses_come_home() {
        let outcomes = outcomes("map\n/A -> /B\nsignals\n/A.r[/A]\n/A{v=p}.r[/A{v=p}]\n");
        assert_eq!(outcomes[0], (vec!["/B.r[/A]".into()], Outcome::Home(path("/A.r[/A]"))));
        assert_eq!(outcomes[1], (vec!["/B.r[/A{v=p}]".into()], Outcome::Home(path("/A.r[/A{v=p}]"))));
    }

    #[test]
    fn without_legs_a_signal_is_unchanged() {
        assert_eq!(outcomes("signals\n/A{v=p}B"), [(vec![], Outcome::Home(path("/A{v=p}B")))]);
    }

    #[test]
    fn single_legs_agree_with_the_route() {
        let text =
            "map\n/A -> /B\n/B -> /A\nrelocates\n/A/c -> /A/d\nmap\n/ -> /\nsignals\n/A/c\n/B/c\n/B/d\n/A\n";
        let scenario = Scenario::read(text.as_bytes()).unwrap();
        let routes = LegRoutes::new(&scenario.legs);
        for trace in routes.trace_all(&scenario.signals, false) {
            let whole = routes.whole.out(&path(&trace.signal.text));
            assert_eq!(whole.is_ok(), matches!(trace.outcome, Outcome::Home(_)));
            assert!(whole.is_err() || whole.as_ref().ok() == trace.steps.last());
        }
    }

    /// A relocate list and the map in its place have the same results, also for 64 active pairs.
    #[test]
    fn maps_agree_with_relocates() {
        let many: String = (0..64).map(|i| format!("/L/s{i} -> /L/t{i}\n")).collect();
        for pairs in
            ["/A/c -> /A/d\n/A/e -> -\n/A -> /B\n", "- -> -\n/ -> -\n", "- -> -\n/A/c -> /A/d\n", &many]
        {
            let text = format!("relocates\n{pairs}signals\n/A/c.x\n/A/e\n/A/d\n/B\n/L/s63/x\n/L/t0\n/\n");
            let scenario = Scenario::read(text.as_bytes()).unwrap();
            let routes = LegRoutes::new(&scenario.legs);
            for signal in &scenario.signals {
                let start = path(&signal.text);
                assert_eq!(routes.maps.out_carried(&start), routes.whole.out_carried(&start), "{start}");
            }
        }
    }

    /// What all legs carried over, or `None` for a signal that stopped. It is the end of the signal and of each step.
    #[test]
    fn unaltered_ends() {
        let text = "map\n/A -> /B\n/ -> /\nrelocates\n/B/c -> /B/d\nsignals\n\
                    /A/c.x\n/A/e.x\n/A/c\n/Q/r\n/A{v=p}c.x\n/A/d\n/A.\n-\n";
        let scenario = Scenario::read(text.as_bytes()).unwrap();
        let traces = LegRoutes::new(&scenario.legs).trace_all(&scenario.signals, true);
        let ranges: Vec<_> = traces.iter().map(|trace| trace.unaltered.clone()).collect();
        let expected = [Some(4..6), Some(2..6), Some(4..4), Some(0..4), Some(0..0), None, None, Some(0..0)];
        assert_eq!(ranges, expected);
        for trace in traces {
            let Some(range) = trace.unaltered else { continue };
            let tail = &trace.signal.text[range];
            assert!(trace.steps.iter().all(|step| step.as_str().ends_with(tail)), "{}", trace.signal.text);
        }
    }

    #[test]
    fn without_legs_the_whole_signal_is_unaltered() {
        let scenario = Scenario::read(b"signals\n/A{v=p}B").unwrap();
        let traces = LegRoutes::new(&scenario.legs).trace_all(&scenario.signals, true);
        assert_eq!(traces[0].unaltered, Some(0..8));
    }
}
