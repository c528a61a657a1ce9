//! Links the static library `libmudvizsor.a`.
//!
//! The library is written in Rattle and is not built here, since proving it takes a while. If it is missing or
//! older than its sources, the build stops with a message that says how to build it. A library in the folder that
//! `MUDVIZSOR_LIB_DIR` names is used as it is.

use std::path::{Path, PathBuf};
use std::process::exit;
use std::time::SystemTime;
use std::{env, fs};

const LIBRARY: &str = "libmudvizsor.a";

/// The folders of each Rattle crate that hold its sources.
const SOURCE_FOLDERS: [&str; 3] = ["src", "specs", "proofs"];

const HOW_TO_BUILD: &str = "run `tools/build library` in the repository first (it proves the library), \
                            or set MUDVIZSOR_LIB_DIR to a folder that holds the library";

fn main() {
    println!("cargo::rerun-if-changed=build.rs");
    println!("cargo::rerun-if-env-changed=MUDVIZSOR_LIB_DIR");
    let folder = match env::var_os("MUDVIZSOR_LIB_DIR") {
        Some(folder) => given_folder(PathBuf::from(folder)),
        None => repository_folder(),
    };
    println!("cargo::rerun-if-changed={}", folder.join(LIBRARY).display());
    println!("cargo::rustc-link-search=native={}", folder.display());
    println!("cargo::rustc-link-lib=static=mudvizsor");
}

/// The folder that MUDVIZSOR_LIB_DIR names, which must hold the library.
fn given_folder(folder: PathBuf) -> PathBuf {
    if !folder.join(LIBRARY).is_file() {
        fail(&format!("MUDVIZSOR_LIB_DIR names {}, which holds no {LIBRARY}", folder.display()));
    }
    folder
}

/// The folder in which the repository's own build leaves the library. Stops the build if the library is missing or out of
/// date.
fn repository_folder() -> PathBuf {
    let repository = Path::new(env!("CARGO_MANIFEST_DIR")).join("../..");
    let repository = repository.canonicalize().unwrap_or(repository);
    let folder = repository.join("target/staticlib");
    let library = folder.join(LIBRARY);
    let Some(built) = modified(&library) else {
        fail(&format!("{} is missing: {HOW_TO_BUILD}", library.display()));
    };
    for source in sources(&repository) {
        println!("cargo::rerun-if-changed={}", source.display());
        if let Some(file) = newer_file(&source, built) {
            fail(&format!("{} is older than {}: {HOW_TO_BUILD}", library.display(), file.display()));
        }
    }
    folder
}

/// The list of crates and the existing source folders of all crates.
fn sources(repository: &Path) -> Vec<PathBuf> {
    let folders = entries(&repository.join("crates"));
    let folders = folders.iter().flat_map(|folder| SOURCE_FOLDERS.map(|name| folder.join(name)));
    [repository.join("crates.txt")].into_iter().chain(folders).filter(|source| source.exists()).collect()
}

/// A file that was modified after the given time: the path itself, or a file at any depth below it.
fn newer_file(path: &Path, time: SystemTime) -> Option<PathBuf> {
    if path.is_dir() {
        return entries(path).iter().find_map(|entry| newer_file(entry, time));
    }
    modified(path).filter(|modified| *modified > time).map(|_| path.to_path_buf())
}

/// The entries of a folder; none if it cannot be read.
fn entries(folder: &Path) -> Vec<PathBuf> {
    fs::read_dir(folder).into_iter().flatten().flatten().map(|entry| entry.path()).collect()
}

/// When a file was last modified; `None` if there is no such file.
fn modified(file: &Path) -> Option<SystemTime> {
    fs::metadata(file).ok()?.modified().ok()
}

/// Ends the build with a message.
fn fail(message: &str) -> ! {
    println!("cargo::error={message}");
    exit(1);
}
