//! The public calls: the library defines those that the header declares and no
//! other, and the wrapper names each of them.

use std::collections::BTreeSet;
use std::path::{Path, PathBuf};
use std::process::Command;
use std::{env, fs};

fn repository(name: &str) -> PathBuf {
    Path::new(env!("CARGO_MANIFEST_DIR"))
        .join("../..")
        .join(name)
}

/// The name before the first bracket, if it is a call's.
fn call(text: &str) -> Option<String> {
    let (before, _) = text.split_once('(')?;
    let word = before.rsplit([' ', '*']).next()?;
    word.starts_with("plus_").then(|| word.to_string())
}

/// Those that the header declares. What it defines itself is none of the library's.
fn declared() -> BTreeSet<String> {
    let header = fs::read_to_string(repository("include/plus.h")).unwrap();
    let begins = |line: &&str| line.starts_with(|first: char| first.is_ascii_alphabetic());
    let lines = header.lines().filter(begins);
    lines
        .filter(|line| !line.starts_with("static"))
        .filter_map(call)
        .collect()
}

/// Every name that the library gives its hosts, by binutils.
fn defined() -> BTreeSet<String> {
    let folder = env::var_os("PLUS_LIB_DIR").map(PathBuf::from);
    let folder = folder.unwrap_or_else(|| repository("target/staticlib"));
    let library = folder.join("libplus.a");
    let ran = Command::new("nm")
        .args(["-g", "--defined-only", "--format=posix"])
        .arg(library)
        .output();
    let ran = ran.expect("nm, of binutils");
    assert!(ran.status.success());
    let text = String::from_utf8(ran.stdout).unwrap();
    // A line with one word names a member of the archive.
    let names = text.lines().filter_map(|line| line.split_once(' '));
    names.map(|(name, _)| name.to_string()).collect()
}

#[test]
fn the_library_has_the_headers_calls() {
    let declared = declared();
    assert!(declared.len() > 20, "{declared:?}");
    assert!(declared.contains("plus_line"));
    assert_eq!(defined(), declared);
}

#[test]
fn the_wrapper_has_them_too() {
    let text = fs::read_to_string(repository("host/plus/src/ffi.rs")).unwrap();
    let function = |line: &str| call(line.trim().strip_prefix("pub(crate) fn ")?);
    let named: BTreeSet<String> = text.lines().filter_map(function).collect();
    assert_eq!(named, declared());
}

/// A line is one call: what it took the place of is in neither.
#[test]
fn a_line_is_one_call() {
    for gone in ["plus_step", "plus_draw"] {
        assert!(!declared().contains(gone), "{gone}");
        assert!(!defined().contains(gone), "{gone}");
    }
}
