//! Links a static library that `bin/build` wrote. One that is older than what it is made of is refused.

use std::collections::BTreeSet;
use std::path::{Path, PathBuf};
use std::time::SystemTime;
use std::{env, fs, process};

/// Names the folder that has the static libraries, where it is not this repository's own.
const FOLDER: &str = "PRESSBADGER_LIB_DIR";

/// Links the library of a crate: from the folder that is named, else from the repository at `root`.
pub fn link(name: &str, root: &Path) {
    println!("cargo::rerun-if-env-changed={FOLDER}");
    let elsewhere = env::var_os(FOLDER).map(PathBuf::from);
    let folder = elsewhere.clone().unwrap_or(root.join("target/staticlib"));
    let library = folder.join(format!("lib{name}.a"));
    println!("cargo::rerun-if-changed={}", library.display());
    let Some(written) = changed(&library) else {
        let or = format!("or set {FOLDER} to the folder that has it, as an absolute path");
        stop(&format!(
            "{} is not there: run `bin/build {name}`, {or}",
            library.display()
        ));
    };
    // A library that stands elsewhere has no sources here: the wrapper holds its version to its own.
    if elsewhere.is_none() {
        for source in sources(name, root) {
            println!("cargo::rerun-if-changed={}", source.display());
            if let Some(newer) = newer(&source, written) {
                let newer = newer.display();
                stop(&format!(
                    "{} is older than {newer}: run `bin/build {name}`",
                    library.display()
                ));
            }
        }
    }
    println!("cargo::rustc-link-search=native={}", folder.display());
    println!("cargo::rustc-link-lib=static={name}");
}

fn stop(why: &str) -> ! {
    eprintln!("{why}");
    process::exit(1);
}

/// What a crate's library is made of: the list of the crates, and the files of the crate and of all
/// that it reaches.
fn sources(name: &str, root: &Path) -> Vec<PathBuf> {
    let list = root.join("crates.txt");
    let text = fs::read_to_string(&list).unwrap_or_default();
    let mut reached = BTreeSet::new();
    let mut todo = vec![name];
    while let Some(name) = todo.pop() {
        if reached.insert(name) {
            todo.extend(needed(name, &text));
        }
    }
    let parts =
        |name| ["src", "specs", "proofs"].map(|part| root.join("crates").join(name).join(part));
    let folders = reached
        .into_iter()
        .flat_map(parts)
        .filter(|folder| folder.exists());
    [list].into_iter().chain(folders).collect()
}

/// The crates that a crate names in the list: a line for each, `NAME KIND: NEEDED NEEDED # comment`.
fn needed<'list>(name: &str, list: &'list str) -> Vec<&'list str> {
    list.lines()
        .filter_map(|line| line.split('#').next()?.split_once(':'))
        .filter(|(listed, _)| listed.split_whitespace().next() == Some(name))
        .flat_map(|(_, needed)| needed.split_whitespace())
        .collect()
}

/// A file or folder, at the path or below it, that was changed later than that. A folder is changed
/// where one of its files comes or goes.
fn newer(path: &Path, than: SystemTime) -> Option<PathBuf> {
    if changed(path).is_some_and(|time| time > than) {
        return Some(path.to_owned());
    }
    let entries = fs::read_dir(path).into_iter().flatten().flatten();
    entries
        .into_iter()
        .find_map(|entry| newer(&entry.path(), than))
}

/// When a file was last changed; nothing where there is none.
fn changed(path: &Path) -> Option<SystemTime> {
    fs::metadata(path).and_then(|file| file.modified()).ok()
}
