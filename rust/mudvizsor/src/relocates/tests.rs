//! Tests of relocate lists.

use super::*;
use crate::Refusal;

fn path(text: &str) -> Path {
    Path::new(text).unwrap()
}

fn relocates(pairs: &[(&str, &str)]) -> Relocates {
    Relocates::new(pairs.iter().copied()).unwrap()
}

fn bytes(pairs: &[(&str, &str)]) -> Vec<u8> {
    relocates(pairs).statuses().iter().map(|&status| status as u8).collect()
}

/// Cases of docs/REQUIREMENTS.md.
#[test]
fn statuses() {
    assert_eq!(bytes(&[("/R", "")]), [0]);
    assert_eq!(bytes(&[("/R", "/S")]), [1]);
    assert_eq!(bytes(&[("/R/a", "/R/b"), ("/R/c", "/R/b"), ("/R/b", "/R/d")]), [3, 3, 3]);
    assert_eq!(bytes(&[("/R/a/b", "/R/c"), ("/R/c/d", "/R/a")]), [0, 0]);
    assert_eq!(bytes(&[("/R/a", "/R/b"), ("/R/a", "/R/c")]), [0, 2]);
    assert_eq!(bytes(&[]), []);
}

/// A case of docs/REQUIREMENTS.md, and a skipped source.
#[test]
fn chains() {
    let moved = relocates(&[("/R/a/b", "/R/c"), ("/R/c/d", "/R/a")]);
    let end = |text, steps| Ok(Chain { path: path(text), steps });
    assert_eq!(moved.chain(&path("/R/a/b/d/b/d")), end("/R/a/b/d", 2));
    assert_eq!(moved.chain_skipping(&path("/R/c/d"), &path("/R/a/b/d")), end("/R/c/d", 1));
    assert_eq!(moved.chain(&path("/R/x")), end("/R/x", 0));
    let from_empty = relocates(&[("", "/X")]);
    assert_eq!(from_empty.chain(&path("/A")), end("/X/A", 1));
    assert_eq!(from_empty.chain_skipping(&Path::empty(), &path("/A")), end("/A", 0));
}

#[test]
fn brackets_are_left() {
    let moved = relocates(&[("/R/a/b", "/R/c"), ("/R/c/d", "/R/a")]);
    let end = Chain { path: path("/R/a.r[/R/a/b]"), steps: 2 };
    assert_eq!(moved.chain(&path("/R/a/b/d.r[/R/a/b]")), Ok(end));
    assert_eq!(moved.shift(&path("/R/a/b.r[/R/a/b]")), Path::new("/R/c.r[/R/a/b]"));
    assert_eq!(moved.shift(&path("/Q.r[/R/a/b]")), Path::new("/Q.r[/R/a/b]"));
    assert_eq!(Relocates::new([("/R/a", "/R/b.r[/R]")]), Err(Refusal::NotAnEnd));
}

/// A name is no prefix of a longer name, and `é` is not `e` with a combining accent.
#[test]
fn names_outside_ascii() {
    assert_eq!(bytes(&[("/R/é", "/R/éé"), ("/R/e\u{301}", "/R/ő"), ("/R/é", "/R/ű")]), [0, 0, 2]);
    assert_eq!(bytes(&[("/R/é", "/R/é/b"), ("/É", "/Á")]), [1, 1]);
    let moved = relocates(&[("/R/é", "/R/ő"), ("/R/ő/ü", "/R/ß")]);
    assert_eq!(moved.chain(&path("/R/é/ü.á")), Ok(Chain { path: path("/R/ß.á"), steps: 2 }));
    assert_eq!(moved.shift(&path("/R/éü")), Path::new("/R/éü"));
}

#[test]
fn refused_steps() {
    let to_root = relocates(&[("/A/b", "/")]);
    assert_eq!(to_root.chain(&path("/A/b.c")), Err(Refusal::MadeNotLegal));
    let long = format!("/{}", "n".repeat(254));
    let longer = relocates(&[("/A/b", &long)]);
    assert_eq!(longer.chain(&path("/A/b/c")), Err(Refusal::MadeTooLong));
    assert_eq!(longer.shift(&path("/A/b/c")), Err(Refusal::MadeTooLong));
}

#[test]
fn at_most_64_pairs() {
    let pairs = |count: usize| (0..count).map(|i| (format!("/A/s{i}"), format!("/A/t{i}")));
    assert_eq!(Relocates::new(pairs(64)).unwrap().active_pairs().count(), 64);
    assert_eq!(Relocates::new(pairs(65)), Err(Refusal::TooMany));
    assert_eq!(Relocates::new([("/A{v=p}", "bad")]), Err(Refusal::NotLegal));
}

#[test]
fn statuses_have_names() {
    for (i, status) in Status::ALL.into_iter().enumerate() {
        assert_eq!(Status::from_byte(i as u8), Some(status));
    }
    assert_eq!(
        Status::ALL.map(|status| status.to_string()),
        ["active", "structural", "duplicate source", "conflict"]
    );
}
