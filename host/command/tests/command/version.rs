//! The version, wherever it stands.

use crate::tools::{plus, repository};
use plus::{built, Built, State, VERSION};
use std::fs;

const TEXT: &str = env!("CARGO_PKG_VERSION");

#[test]
fn the_version_is_printed() {
    for word in ["--version", "-V", "version"] {
        plus([word]).prints(&format!("plus {TEXT}\n"));
    }
    let ran = plus(["--version", "more"]);
    assert_eq!(ran.status, Some(2));
    assert!(ran
        .err
        .starts_with("plus: 'more' is one argument too many\n"));
}

/// In the workspace, the header, the wrapper, the library and the list of changes.
#[test]
fn one_version_everywhere() {
    let mut parts = TEXT.split('.').map(|part| part.parse::<u32>().unwrap());
    let number = parts.by_ref().take(3).fold(0, |sum, part| 100 * sum + part);
    assert_eq!(VERSION, number);
    assert_eq!(
        built(),
        Built {
            version: number,
            state: size_of::<State>() as u32
        }
    );
    let header = fs::read_to_string(repository("include/plus.h")).unwrap();
    for line in [
        format!("#define PLUS_VERSION {number}"),
        format!("#define PLUS_VERSION_TEXT \"{TEXT}\""),
    ] {
        assert!(header.lines().any(|found| found == line), "{line}");
    }
    let workspace = fs::read_to_string(repository("host/Cargo.toml")).unwrap();
    assert!(workspace.contains(&format!("version = \"{TEXT}\"\n")));
    let changes = fs::read_to_string(repository("CHANGELOG.md")).unwrap();
    let newest = changes.lines().find(|line| line.starts_with("## "));
    assert_eq!(newest, Some(&*format!("## {TEXT}")));
}
