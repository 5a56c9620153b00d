//! Links the proved library: libplus.a of the folder that PLUS_LIB_DIR names (by
//! its whole path), or else the one that the script `plus` builds in this
//! repository.

use std::env;
use std::path::{Path, PathBuf};

fn main() {
    println!("cargo:rerun-if-env-changed=PLUS_LIB_DIR");
    let folder = match env::var_os("PLUS_LIB_DIR") {
        Some(folder) => PathBuf::from(folder),
        None => Path::new(env!("CARGO_MANIFEST_DIR")).join("../../target/staticlib"),
    };
    assert!(
        folder.is_absolute(),
        "PLUS_LIB_DIR has to be a whole path, and is {}",
        folder.display()
    );
    let library = folder.join("libplus.a");
    println!("cargo:rerun-if-changed={}", library.display());
    assert!(
        library.exists(),
        "{} is not there: the script `plus` builds it, or PLUS_LIB_DIR names its folder",
        library.display()
    );
    println!("cargo:rustc-link-search=native={}", folder.display());
    println!("cargo:rustc-link-lib=static=plus");
    // For a build script of a package that depends on this one, as DEP_PLUS_LIBRARY.
    println!("cargo:library={}", library.display());
}
