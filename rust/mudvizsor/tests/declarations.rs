//! The module `ffi` declares every entry as the source of the library does: the same argument types in the same order, and
//! the same return type.

use std::collections::BTreeMap;
use std::fs;
use std::path::Path;

/// The argument types of each entry, followed by its return type.
type Declarations = BTreeMap<String, Vec<String>>;

#[test]
fn the_binding_declares_every_entry_as_the_source_has_it() {
    let here = Path::new(env!("CARGO_MANIFEST_DIR"));
    let expected = in_source(&sources(&here.join("../../crates/mudvizsor/src"), "rt"));
    let binding = sources(&here.join("src/ffi"), "rs");
    let mut declared = by_macro(&binding);
    declared.extend(by_name(&binding));
    assert!(!expected.is_empty());
    assert_eq!(declared, expected);
}

/// The concatenated files of a folder with this extension, without comments and without the file of the macro.
fn sources(folder: &Path, ending: &str) -> String {
    let files = fs::read_dir(folder).expect("a folder of sources").map(|file| file.expect("a file").path());
    let mut files: Vec<_> =
        files.filter(|file| file.extension().is_some_and(|found| found == ending)).collect();
    files.retain(|file| !file.ends_with("entry.rs"));
    files.sort();
    let texts = files.iter().map(|file| fs::read_to_string(file).expect("a source"));
    let lines = texts.flat_map(|text| text.lines().map(str::to_owned).collect::<Vec<_>>());
    lines.filter(|line| !line.trim_start().starts_with("//")).map(|line| line + "\n").collect()
}

/// The entries of the Rattle source.
fn in_source(text: &str) -> Declarations {
    text.split("pub extern \"C\" fn ").skip(1).map(|rest| declaration(name_of(rest), rest)).collect()
}

/// The entries that the module declares with `link_name`.
fn by_name(text: &str) -> Declarations {
    let entries = text.split("#[link_name = \"").skip(1);
    entries
        .map(|rest| declaration(rest.split('"').next().expect("a name"), after(rest, "pub safe fn ")))
        .collect()
}

/// The entries that the module declares with the macro `entry!`.
fn by_macro(text: &str) -> Declarations {
    let calls = text.split("entry!(").skip(1);
    calls
        .map(|rest| {
            let (name, arguments) = rest.split_once(':').expect("a name and its arguments");
            let kinds = parts(&enclosed(arguments));
            let mut types: Vec<_> = kinds.iter().flat_map(|kind| types_of_kind(name_of(kind))).collect();
            types.push("usize".to_owned());
            (name.to_owned(), types)
        })
        .collect()
}

/// The declaration of an entry; the text starts with the name of a function: `f(a: A, b: B) -> C`.
fn declaration(name: &str, text: &str) -> (String, Vec<String>) {
    let arguments = enclosed(after(text, "("));
    let mut types: Vec<_> =
        parts(&arguments).iter().flat_map(|argument| types_of(after(argument, ":").trim())).collect();
    let given = after(text, &format!("{arguments})")).trim_start();
    types.push(given.strip_prefix("-> ").map_or("nothing", |given| return_type(name_of(given))).to_owned());
    (name.to_owned(), types)
}

fn after<'a>(text: &'a str, mark: &str) -> &'a str {
    text.split_once(mark).unwrap_or_else(|| panic!("{mark} in {text}")).1
}

/// The name at the start of the text.
fn name_of(text: &str) -> &str {
    let text = text.trim_start();
    &text[..text.find(|c: char| !c.is_alphanumeric() && c != '_').unwrap_or(text.len())]
}

/// The text up to the closing bracket.
fn enclosed(text: &str) -> String {
    let mut depth = 0;
    let end = text.find(|c| {
        depth += i32::from(c == '(') - i32::from(c == ')');
        depth < 0
    });
    text[..end.expect("a closing bracket")].to_owned()
}

/// The parts between commas, ignoring commas within brackets.
fn parts(text: &str) -> Vec<String> {
    let mut depth = 0;
    let parts = text.split(|c| {
        depth += i32::from(matches!(c, '(' | '[')) - i32::from(matches!(c, ')' | ']'));
        depth == 0 && c == ','
    });
    parts.map(|part| part.trim().to_owned()).filter(|part| !part.is_empty()).collect()
}

fn owned(types: &[&str]) -> Vec<String> {
    types.iter().map(|name| (*name).to_owned()).collect()
}

/// The types that an argument is passed as: a slice as a pointer and a length.
fn types_of(name: &str) -> Vec<String> {
    match name {
        "&[u8]" => owned(&["*const u8", "usize"]),
        "&[usize]" => owned(&["*const usize", "usize"]),
        "&mut [u8]" => owned(&["*mut u8", "usize"]),
        "&mut [usize]" => owned(&["*mut usize", "usize"]),
        name => owned(&[name]),
    }
}

/// The types that a kind of argument of the macro `entry!` is passed as.
fn types_of_kind(kind: &str) -> Vec<String> {
    let kinds = |kinds: &[&str]| kinds.iter().flat_map(|kind| types_of_kind(kind)).collect();
    match kind {
        "text" => types_of("&[u8]"),
        "numbers" => types_of("&[usize]"),
        "out" => types_of("&mut [u8]"),
        "slots" => types_of("&mut [usize]"),
        "number" => owned(&["usize"]),
        "flag" => owned(&["bool"]),
        "float" => owned(&["f64"]),
        "time" => owned(&["&mut [f64; 2]"]),
        "pairs" => kinds(&["text", "numbers", "number"]),
        "list" => kinds(&["pairs", "flag"]),
        "map" => kinds(&["list", "float", "float"]),
        "route" => kinds(&["text", "numbers", "numbers", "number"]),
        "paths" => kinds(&["text", "numbers", "number"]),
        kind => panic!("unknown kind {kind}"),
    }
}

/// The return type; a reply is a number.
fn return_type(name: &str) -> &str {
    if name == "Reply" { "usize" } else { name }
}
