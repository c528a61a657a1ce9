//! Tests of routes.

use super::*;
use crate::MAX_LEGS;

fn path(text: &str) -> Path {
    Path::new(text).unwrap()
}

fn map(pairs: &[(&str, &str)]) -> Leg {
    MapFunction::new(pairs.iter().copied()).unwrap().into()
}

fn relocates(pairs: &[(&str, &str)]) -> Leg {
    Relocates::new(pairs.iter().copied()).unwrap().into()
}

fn tram_line() -> Route {
    let placed = map(&[
        ("/Mast", "/Line7/Harbour/Signal_1"),
        ("/Mast/Spare", ""),
        ("/Switch", "/Line7/Harbour/Points_A"),
    ]);
    let moved = relocates(&[
        ("/Line7/Harbour/Signal_1", "/Line7/Quay/Signal_12"),
        ("/Line7/Harbour/Bench", ""),
        ("/Line7", "/Line8"),
        ("/Line7/Harbour/Signal_1", "/Line7/Depot/Signal_40"),
    ]);
    Route::new([placed, moved, map(&[("/Line7", "/Town/Trams/Line7")])]).unwrap()
}

/// The scenario of line 7.
#[test]
fn out_and_home() {
    let route = tram_line();
    for (text, there, home) in [
        (
            "/Mast/Lamp_2.aspect:state",
            "/Town/Trams/Line7/Quay/Signal_12/Lamp_2.aspect:state",
            "/Mast/Lamp_2.aspect:state",
        ),
        ("/Mast{season=winter}Head", "/Town/Trams/Line7/Quay/Signal_12/Head", "/Mast/Head"),
        ("/Switch.position", "/Town/Trams/Line7/Harbour/Points_A.position", "/Switch.position"),
    ] {
        assert_eq!(route.out(&path(text)), Path::new(there));
        assert_eq!(route.home(&path(there)), Path::new(home));
    }
    for text in ["/Mast/Spare.aspect:state", "/Barrier/Arm.angle"] {
        assert_eq!(route.out(&path(text)), Err(Refusal::NoPath));
    }
}

/// An address comes home as it set out; the path in its brackets is left as it is on the way.
#[test]
fn addresses_come_home() {
    let route = tram_line();
    for (text, there) in [
        ("/Mast/Head.next[/Switch]", "/Town/Trams/Line7/Quay/Signal_12/Head.next[/Switch]"),
        ("/Switch.guard[/Mast/Spare{v=p}]", "/Town/Trams/Line7/Harbour/Points_A.guard[/Mast/Spare{v=p}]"),
        ("/Switch.a[/Mast.b[/Q.c[/R.d[/]]]]", "/Town/Trams/Line7/Harbour/Points_A.a[/Mast.b[/Q.c[/R.d[/]]]]"),
    ] {
        assert_eq!(route.out(&path(text)), Path::new(there));
        assert_eq!(route.home(&path(there)), Path::new(text));
        assert_eq!(route.out_all([&path(text)]), [Path::new(there)]);
    }
    assert_eq!(route.out(&path("/Mast/Spare.next[/Switch]")), Err(Refusal::NoPath));
    let stripped = route.out(&path("/Mast{v=p}.next[/Mast{v=p}]"));
    assert_eq!(stripped, Path::new("/Town/Trams/Line7/Quay/Signal_12.next[/Mast{v=p}]"));
}

/// A path with names outside ASCII comes home; its rest begins at a character.
#[test]
fn names_outside_ascii_come_home() {
    let legs = [
        map(&[("/Oszlop", "/Vonal/Krisztina_körút/Jelző_1")]),
        relocates(&[("/Vonal/Krisztina_körút/Jelző_1", "/Vonal/Széll_Kálmán_tér/Jelző_12")]),
        map(&[("/Vonal", "/Város/Villamos")]),
    ];
    let route = Route::new(legs).unwrap();
    let there = path("/Város/Villamos/Széll_Kálmán_tér/Jelző_12/Lámpa.szín");
    for (text, rest) in [("/Oszlop/Lámpa.szín", "/Lámpa.szín"), ("/Oszlop{idő=fagy}Lámpa.szín", "")] {
        let carried = route.out_carried(&path(text)).unwrap();
        assert_eq!((&carried.path, carried.rest_str()), (&there, rest), "{text}");
        assert_eq!(route.out_all([&path(text)]), [Ok(there.clone())]);
    }
    assert_eq!(route.home(&there), Path::new("/Oszlop/Lámpa.szín"));
    assert_eq!(route.out(&path("/Oszlopé")), Err(Refusal::NoPath));
}

/// The last step has the result of the whole route, and the way home visits the same paths in reverse.
#[test]
fn steps_are_the_route() {
    let route = tram_line();
    for text in
        ["/Mast", "/Mast/Head.lit", "/Mast.next[/Switch]", "/Mast/Spare", "/Switch", "/Barrier", "/", ""]
    {
        let start = path(text);
        let out: Vec<_> = route.steps_out(&start).collect();
        assert_eq!(*out.last().unwrap(), route.out(&start), "{text}");
        let Ok(there) = route.out(&start) else { continue };
        let home: Vec<_> = route.steps_home(&there).collect();
        let mut expected: Vec<_> = out.into_iter().rev().skip(1).collect();
        expected.push(Ok(start));
        assert_eq!(home, expected, "{text}");
    }
}

#[test]
fn steps_end_at_a_refusal() {
    let (route, start) = (tram_line(), path("/Mast/Spare"));
    let mut steps = route.steps_out(&start);
    assert_eq!(steps.next(), Some(Err(Refusal::NoPath)));
    assert_eq!(steps.next(), None);
    assert_eq!(steps.next(), None);
}

#[test]
fn many_paths_map_like_single_ones() {
    let route = tram_line();
    let paths: Vec<Path> =
        ["/Mast/x", "/Mast/Spare", "/Switch", "/", "/Town/Trams/Line7/Quay/Signal_12"].map(path).into();
    assert_eq!(route.out_all(&paths), paths.iter().map(|each| route.out(each)).collect::<Vec<_>>());
    assert_eq!(route.home_all(&paths), paths.iter().map(|each| route.home(each)).collect::<Vec<_>>());
}

/// The rest over a route is the end that every leg carried over.
#[test]
fn rests_over_several_legs() {
    let route = tram_line();
    for (text, rest) in [
        ("/Mast/Lamp_2.aspect:state", 5..25),
        ("/Mast", 5..5),
        ("/Mast{season=winter}Head", 0..0),
        ("/Switch.position", 7..16),
        ("/Switch.guard[/Mast{v=p}]", 7..25),
    ] {
        let there = route.out_carried(&path(text)).unwrap();
        assert_eq!((&there.path, &there.rest), (&route.out(&path(text)).unwrap(), &rest), "{text}");
        assert_eq!(there.rest_str(), &text[rest], "{text}");
        let home = route.home_carried(&there.path).unwrap();
        assert_eq!(home.path, route.home(&there.path).unwrap(), "{text}");
        assert_eq!(home.rest.end, there.path.as_str().len(), "{text}");
        assert_eq!(home.rest_str(), &there.path.as_str()[home.rest.clone()], "{text}");
    }
    for text in ["/Mast/Spare", "/Barrier", "/", ""] {
        assert_eq!(route.out_carried(&path(text)), Err(Refusal::NoPath), "{text}");
        assert_eq!(route.home_carried(&path(text)), Err(Refusal::NoPath), "{text}");
    }
}

/// The leg with the shortest rest decides, wherever it is on the way.
#[test]
fn the_shortest_rest_decides() {
    let legs = [map(&[("/A", "/B")]), relocates(&[("/B/c/d", "/B/e")]), map(&[("/", "/"), ("/B", "/F")])];
    let route = Route::new(legs).unwrap();
    let carried = |text, rest| Ok(Carried { path: path(text), rest });
    assert_eq!(route.out_carried(&path("/A/c/d/x.y")), carried("/F/e/x.y", 6..10));
    assert_eq!(route.home_carried(&path("/F/e/x.y")), carried("/A/c/d/x.y", 4..8));
    assert_eq!(route.out_carried(&path("/A/c/d")), carried("/F/e", 6..6));
    assert_eq!(route.out_carried(&path("/A/g")), carried("/F/g", 2..4));
    let marked = Route::new([map(&[("/", "/"), ("/A", "/B")]), relocates(&[])]).unwrap();
    assert_eq!(marked.out_carried(&path("/C.d")), carried("/C.d", 0..4));
    assert_eq!(marked.home_carried(&path("/C{v=p}")), carried("/C{v=p}", 0..7));
}

#[test]
fn no_legs() {
    let route = Route::new([]).unwrap();
    let start = path("/A{v=p}B.c");
    assert_eq!((route.out(&start), route.home(&start)), (Ok(start.clone()), Ok(start.clone())));
    assert_eq!(route.steps_out(&start).count(), 0);
    let whole = Carried { rest: 0..start.as_str().len(), path: start.clone() };
    assert_eq!(route.out_carried(&start), Ok(whole.clone()));
    assert_eq!(route.home_carried(&start), Ok(whole));
}

#[test]
fn limits() {
    let most = relocates(&[]);
    assert!(Route::new(vec![most.clone(); MAX_LEGS]).is_ok());
    assert_eq!(Route::new(vec![most; MAX_LEGS + 1]).unwrap_err(), Refusal::TooMany);
    // The `/` to `/` that a relocate leg adds is not counted.
    let pairs = (0..64).map(|i| (format!("/A/s{i}"), format!("/A/t{i}")));
    let full = Route::new(vec![Relocates::new(pairs).unwrap().into(); MAX_LEGS]).unwrap();
    assert_eq!(full.out(&path("/A/s63.p")), Err(Refusal::NoPath));
    assert_eq!(full.out(&path("/B")), Path::new("/B"));
}

#[test]
fn marks_are_passed_on() {
    let marked = Route::new([MapFunction::from_pair_identity("/A", "/X").unwrap().into()]).unwrap();
    assert_eq!(marked.out(&path("/B")), Path::new("/B"));
    let unmarked = Route::new([MapFunction::from_pair("/A", "/X").unwrap().into()]).unwrap();
    assert_eq!(unmarked.out(&path("/B")), Err(Refusal::NoPath));
}
