//! `plus install`.

use crate::tools::{plus, repository, Folder, Ran};
use std::fs;
use std::os::unix::fs::PermissionsExt;
use std::path::Path;
use std::process::Command;

/// The name of the shared library: that of the minor version.
fn shared() -> String {
    let (minor, _) = env!("CARGO_PKG_VERSION").rsplit_once('.').unwrap();
    format!("lib/libplus.so.{minor}")
}

/// The places of the files below a prefix, as the command prints them.
fn places(prefix: &str) -> String {
    [
        "include/plus.h",
        "lib/libplus.a",
        &shared(),
        "lib/libplus.so",
        "lib/pkgconfig/plus.pc",
        "share/man/man1/plus.1",
        "bin/plus",
    ]
    .map(|name| format!("{prefix}/{name}\n"))
    .concat()
}

#[test]
fn the_files() {
    let folder = Folder::new();
    let prefix = folder.place("a prefix");
    plus(["install", &prefix]).prints(&places(&prefix));
    let place = |name: &str| Path::new(&prefix).join(name);
    let installed = |name: &str| fs::read(place(name)).unwrap();
    assert_eq!(
        installed("include/plus.h"),
        fs::read(repository("include/plus.h")).unwrap()
    );
    assert!(installed("lib/libplus.a").starts_with(b"!<arch>\n"));
    assert!(installed(&shared()).starts_with(b"\x7FELF"));
    let link = fs::read_link(place("lib/libplus.so")).unwrap();
    assert_eq!(Path::new("lib").join(link), Path::new(&shared()));
    assert_eq!(
        installed("bin/plus"),
        fs::read(env!("CARGO_BIN_EXE_plus")).unwrap()
    );
    let modes = [
        ("include/plus.h", 0o644),
        ("lib/libplus.a", 0o644),
        (&shared(), 0o755),
        ("share/man/man1/plus.1", 0o644),
        ("bin/plus", 0o755),
    ];
    for (name, mode) in modes {
        let found = fs::metadata(place(name)).unwrap();
        assert_eq!(found.permissions().mode() & 0o777, mode, "{name}");
    }
    // The help names them all.
    let help = plus(["help", "install"]).out;
    for name in places("").lines() {
        assert!(help.contains(&name[1..]), "{name}");
    }
}

/// Nothing in it says where it was put.
#[test]
fn the_flags() {
    let folder = Folder::new();
    let prefix = folder.place("flags");
    plus(["install", &prefix]).prints(&places(&prefix));
    let flags = fs::read_to_string(Path::new(&prefix).join("lib/pkgconfig/plus.pc")).unwrap();
    for line in [
        "prefix=${pcfiledir}/../..",
        "includedir=${prefix}/include",
        "libdir=${prefix}/lib",
        "Name: plus",
        concat!("Version: ", env!("CARGO_PKG_VERSION")),
        "Cflags: -I${includedir}",
        "Libs: -L${libdir} -l:libplus.a",
    ] {
        assert!(flags.lines().any(|found| found == line), "{line}");
    }
    assert!(!flags.contains(&prefix));
}

/// The manual has all that the help has, but for the marks around names.
#[test]
fn the_manual() {
    let folder = Folder::new();
    let prefix = folder.place("manual");
    plus(["install", &prefix]).prints(&places(&prefix));
    let page = fs::read_to_string(Path::new(&prefix).join("share/man/man1/plus.1")).unwrap();
    let plain = page
        .replace("\\-", "-")
        .replace("\\(aq", "'")
        .replace("\\(dq", "\"")
        .replace("\\fB", "`")
        .replace("\\fR", "`");
    let help = plus(["help"]).out;
    let commands = help.lines().skip(2).take_while(|line| !line.is_empty());
    for command in commands.filter_map(|line| line.split_whitespace().next()) {
        if ["help", "--version"].contains(&command) {
            assert!(plain.contains(&format!(".B plus {command}")));
            continue;
        }
        for line in plus(["help", command]).out.lines().skip(1) {
            assert!(
                plain.lines().any(|found| found == line || line.is_empty()),
                "{line}"
            );
        }
    }
    assert!(page.starts_with(".TH PLUS 1 "));
}

/// The installed program works by itself, over itself too.
#[test]
fn the_installed_program_stands_alone() {
    let folder = Folder::new();
    let prefix = folder.place("first");
    plus(["install", &prefix]).prints(&places(&prefix));
    let run = |words: &[&str]| {
        let mut installed = Command::new(Path::new(&prefix).join("bin/plus"));
        Ran::from(installed.args(words).env_clear().output().unwrap())
    };
    let list = repository("examples/arpeggio.list");
    let printed = "lines 181 cycles 311\nmost 365\ntime 0.58 frames 11.584 ms\n";
    run(&["forecast", list.to_str().unwrap()]).prints(printed);
    let second = folder.place("second");
    for prefix in [&prefix, &second] {
        run(&["install", prefix]).prints(&places(prefix));
    }
    for name in places("").lines() {
        let [one, two] =
            [&prefix, &second].map(|prefix| fs::read(format!("{prefix}{name}")).unwrap());
        assert!(one == two, "{name}");
    }
}

#[test]
fn a_prefix_from_where_one_stands() {
    let folder = Folder::new();
    let mut command = crate::tools::command(["install", "here"]);
    let ran = Ran::from(command.current_dir(folder.place("")).output().unwrap());
    ran.prints(&places(&folder.place("here")));
}

#[test]
fn a_prefix_that_cant_be_written_is_named() {
    let folder = Folder::new();
    let file = folder.file("file", b"");
    let said = format!("{file}/include: Not a directory (os error 20)\n");
    plus(["install", &file]).fails(1, &said);
}

#[test]
fn a_prefix_that_no_flags_can_name() {
    for prefix in ["a\"b", "a$b", "a\nb"] {
        let ran = plus(["install", prefix]);
        let said = "\
plus: install: PREFIX has a character that pkg-config can't handle
usage: plus install PREFIX
`plus help install` says more
";
        ran.fails(2, said);
    }
}
