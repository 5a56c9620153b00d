//! `plus install PREFIX`.

use super::Command;
use crate::failure::Failure;
use crate::given::Given;
use crate::man;
use crate::output::Output;
use crate::replace::replace;
use crate::Done;
use std::os::unix::fs::symlink;
use std::path::{self, Path};
use std::{env, fs, process};

pub const COMMAND: Command = Command {
    name: "install",
    run,
};

const HEADER: &[u8] = include_bytes!(concat!(env!("CARGO_MANIFEST_DIR"), "/../../include/plus.h"));

/// The library that this program is linked with, and the same as a shared one.
const LIBRARY: &[u8] = include_bytes!(env!("PLUS_LIBRARY"));
const SHARED: &[u8] = include_bytes!(env!("PLUS_SHARED"));

/// Where the shared library is, and the name by which a linker finds it.
const SHARED_NAME: &str = env!("PLUS_SHARED_NAME");
const SHARED_LINK: &str = "libplus.so";

/// What pkg-config is told. The files are found from where this one stands, so that
/// all can be moved together. The static library is named, since a program that is
/// linked with it runs wherever it is.
const FLAGS: &str = concat!(
    "\
prefix=${pcfiledir}/../..
includedir=${prefix}/include
libdir=${prefix}/lib

Name: plus
Description: The proved core of the Amstrad Plus chip
Version: ",
    env!("CARGO_PKG_VERSION"),
    "
Cflags: -I${includedir}
Libs: -L${libdir} -l:libplus.a
"
);

fn run(given: &Given, output: &mut Output) -> Done {
    let named = given.path(0);
    let prefix = path::absolute(named).map_err(Failure::file(named))?;
    if !is_fit(&prefix) {
        return Err(given.wrong("PREFIX has a character that pkg-config can't handle"));
    }
    let program = env::current_exe().and_then(fs::read);
    let program = program.map_err(Failure::file(Path::new("plus")))?;
    let (shared, link) = (
        format!("lib/{SHARED_NAME}"),
        prefix.join("lib").join(SHARED_LINK),
    );
    let page = man::page();
    for (name, contents, mode) in [
        ("include/plus.h", HEADER, 0o644),
        ("lib/libplus.a", LIBRARY, 0o644),
        (&shared, SHARED, 0o755),
        ("lib/pkgconfig/plus.pc", FLAGS.as_bytes(), 0o644),
        ("share/man/man1/plus.1", page.as_bytes(), 0o644),
        ("bin/plus", &program, 0o755),
    ] {
        let path = prefix.join(name);
        put(&path, contents, mode)?;
        output.line(path.display())?;
        if name == shared {
            put_link(SHARED_NAME, &link).map_err(Failure::file(&link))?;
            output.line(link.display())?;
        }
    }
    Ok(())
}

/// Whether pkg-config gives flags that a shell takes, with this in their names.
fn is_fit(prefix: &Path) -> bool {
    let unfit = |c: char| c.is_control() || ['"', '\\', '$', '#'].contains(&c);
    prefix
        .to_str()
        .is_some_and(|prefix| !prefix.contains(unfit))
}

/// Writes a file, in a folder that is made if need be.
fn put(path: &Path, contents: &[u8], mode: u32) -> Done {
    let folder = path.parent().unwrap_or(path);
    fs::create_dir_all(folder).map_err(Failure::file(folder))?;
    replace(path, contents, Some(mode)).map_err(Failure::file(path))
}

/// Makes a link, in the place of one that is there.
fn put_link(to: &str, link: &Path) -> std::io::Result<()> {
    let beside = link.with_extension(format!("{}.new", process::id()));
    symlink(to, &beside)?;
    fs::rename(&beside, link).inspect_err(|_| {
        let _ = fs::remove_file(&beside);
    })
}
