//! Tells the program which library it is linked with, and makes a shared library of
//! the same code, so that the program can install both.

use std::env;
use std::path::Path;
use std::process::Command;

fn main() {
    println!("cargo:rerun-if-changed=build.rs");
    println!("cargo:rerun-if-env-changed=DEP_PLUS_LIBRARY");
    println!("cargo:rerun-if-env-changed=CC");
    let library = env::var("DEP_PLUS_LIBRARY").expect("the package plus names its library");
    println!("cargo:rerun-if-changed={library}");
    println!("cargo:rustc-env=PLUS_LIBRARY={library}");

    // A program that was linked with one minor version runs with no other.
    let version = env::var("CARGO_PKG_VERSION").expect("cargo tells the version");
    let (minor, _patch) = version.rsplit_once('.').expect("a version has three parts");
    let name = format!("libplus.so.{minor}");
    let folder = env::var("OUT_DIR").expect("cargo tells the folder");
    let shared = Path::new(&folder).join(&name);
    share(&library, &name, &shared);
    println!("cargo:rustc-env=PLUS_SHARED={}", shared.display());
    println!("cargo:rustc-env=PLUS_SHARED_NAME={name}");
}

/// Links the whole static library as a shared one of this name, by the compiler
/// that links the program itself.
fn share(library: &str, name: &str, shared: &Path) {
    let compiler = env::var("CC").unwrap_or("cc".to_string());
    let status = Command::new(&compiler)
        .args(["-shared", "-o"])
        .arg(shared)
        .arg(format!("-Wl,-soname,{name}"))
        .args(["-Wl,--whole-archive", library, "-Wl,--no-whole-archive"])
        .status();
    match status {
        Ok(status) if status.success() => {}
        Ok(status) => panic!("{compiler} can't link {library} as a shared library: {status}"),
        Err(error) => panic!("{compiler}, the C compiler, can't be run: {error}"),
    }
}
