//! Locates the source tree of the original and writes, for each of its folders, a file that declares the modules used from
//! it and contains the items extracted from its `mod.rs`. A module is compiled in place or, if something is added to it, from
//! a copy that ends with the addition. From a file that depends on more than is available here, only the named items are
//! extracted. The text of the original is never changed.

use std::path::{Path, PathBuf};
use std::{env, fs};

/// A folder of the original and what is used from it.
struct Folder {
    name: &'static str,
    files: &'static [File],
    /// The first lines of items of `mod.rs`, after their comments and attributes.
    items: &'static [&'static str],
    cuts: &'static [Cut],
}

/// A file from which some items are extracted, into a file of the same name in the build folder.
struct Cut {
    file: &'static str,
    /// The first lines of the items, as for a folder.
    items: &'static [&'static str],
}

struct File {
    name: &'static str,
    /// A file of this crate whose text is appended.
    addition: Option<&'static str>,
}

const FOLDERS: &[Folder] = &[
    Folder {
        name: "sdf",
        files: &[File { name: "path", addition: None }],
        items: &["pub struct LayerOffset {", "impl Default for LayerOffset {", "impl LayerOffset {"],
        cuts: &[],
    },
    Folder {
        name: "pcp",
        files: &[File { name: "mapping", addition: Some("additions/mapping.rs") }],
        items: &[],
        cuts: &[Cut { file: "relocates", items: RELOCATES }],
    },
];

const RELOCATES: &[&str] = &[
    "pub(crate) enum RelocateOccurrence {",
    "impl RelocateOccurrence {",
    "pub(crate) fn chain_through_relocates(path: &Path, relocates: &[(Path, Path)], skip_source: Option<&Path>) -> Path {",
    "fn shift_through_nearest_ancestor(endpoint: &Path, renames: &[(Path, Path)]) -> Path {",
    "fn relocate_pair_conflicts(sa: &Path, ta: &Path, sb: &Path, tb: &Path) -> Vec<RelocateConflictReason> {",
    "fn duplicate_source_mask<'a>(sources: impl Iterator<Item = (bool, &'a Path)>) -> Vec<bool> {",
    "pub(crate) fn analyze_relocate_occurrences(pairs: &[(Path, Path)]) -> Vec<RelocateOccurrence> {",
    "fn relocate_invalid_reason(source: &Path, target: &Path) -> Option<InvalidRelocateReason> {",
];

/// The folder of the sources in the tree.
const SOURCES: &str = "crates/openusd/src";

/// A tree in a folder that contains the repository.
const BESIDE: &str = "shared/docs/src";

fn main() {
    println!("cargo::rerun-if-changed=build.rs");
    println!("cargo::rerun-if-env-changed=OPENUSD_SRC");
    let sources = tree().join(SOURCES);
    for folder in FOLDERS {
        write_folder(&sources.join(folder.name), folder);
    }
}

fn tree() -> PathBuf {
    match env::var_os("OPENUSD_SRC") {
        Some(tree) => named_tree(PathBuf::from(tree)),
        None => tree_beside_the_repository(),
    }
}

fn named_tree(tree: PathBuf) -> PathBuf {
    assert!(
        tree.join(SOURCES).is_dir(),
        "OPENUSD_SRC names {}, which has no folder {SOURCES}",
        tree.display()
    );
    tree.canonicalize().expect("an existing folder has a path")
}

fn tree_beside_the_repository() -> PathBuf {
    here()
        .ancestors()
        .map(|folder| folder.join(BESIDE))
        .find(|tree| tree.join(SOURCES).is_dir())
        .unwrap_or_else(|| {
            panic!(
                "the original's source tree is missing: set OPENUSD_SRC to the folder that holds {SOURCES}"
            )
        })
}

/// Writes `folder.rs`, with one module for each file and the extracted items.
fn write_folder(from: &Path, folder: &Folder) {
    let modules: String = folder.files.iter().map(|file| module(from, file)).collect();
    write(&format!("{}.rs", folder.name), &(modules + &items(&from.join("mod.rs"), folder.items)));
    for cut in folder.cuts {
        let file = format!("{}.rs", cut.file);
        write(&file, &items(&from.join(&file), cut.items));
    }
}

/// The declaration of one module. Much of it is not called here, hence `dead_code`.
fn module(from: &Path, file: &File) -> String {
    let name = file.name;
    let path = from.join(format!("{name}.rs"));
    assert!(path.is_file(), "the original's file {} is missing", path.display());
    println!("cargo::rerun-if-changed={}", path.display());
    let path = match file.addition {
        Some(addition) => with_addition(&path, name, addition),
        None => path,
    };
    format!("#[allow(dead_code)]\n#[path = {path:?}]\npub mod {name};\n")
}

/// Writes a copy of a file of the original to the build folder, with the addition appended.
fn with_addition(original: &Path, name: &str, addition: &str) -> PathBuf {
    let addition = here().join(addition);
    println!("cargo::rerun-if-changed={}", addition.display());
    write(&format!("{name}_and_addition.rs"), &(read(original) + "\n" + &read(&addition)))
}

/// The text of the items with these first lines.
fn items(file: &Path, first_lines: &[&str]) -> String {
    if first_lines.is_empty() {
        return String::new();
    }
    println!("cargo::rerun-if-changed={}", file.display());
    let text = read(file);
    let lines: Vec<&str> = text.lines().collect();
    first_lines.iter().map(|first| item(file, &lines, first)).collect()
}

/// One item, from the blank line before its comments and attributes to its closing brace at the left margin.
fn item(file: &Path, lines: &[&str], first: &str) -> String {
    let places: Vec<usize> = (0..lines.len()).filter(|at| lines[*at] == first).collect();
    let [at] = places[..] else {
        panic!("{} has the line `{first}` {} times, not once", file.display(), places.len());
    };
    let start = lines[..at].iter().rposition(|line| line.is_empty()).map_or(0, |blank| blank + 1);
    let Some(length) = lines[at..].iter().position(|line| *line == "}") else {
        panic!("{}: nothing closes `{first}`", file.display());
    };
    lines[start..=at + length].join("\n") + "\n"
}

fn read(file: &Path) -> String {
    fs::read_to_string(file).unwrap_or_else(|error| panic!("{}: {error}", file.display()))
}

/// Writes a file in the build folder and returns its path.
fn write(name: &str, text: &str) -> PathBuf {
    let path = PathBuf::from(variable("OUT_DIR")).join(name);
    fs::write(&path, text).expect("the build's own folder can be written");
    path
}

fn here() -> PathBuf {
    PathBuf::from(variable("CARGO_MANIFEST_DIR"))
}

fn variable(name: &str) -> String {
    env::var(name).unwrap_or_else(|_| panic!("cargo sets {name}"))
}
