//! That no command loses a file: an output is never an input, a write that fails
//! leaves what was there, and every failed write is told.

use crate::tools::{command, plus, Folder, Ran, Scene};
use plus::{RAM, STORE};
use std::ffi::OsStr;
use std::fs::{self, File, Permissions};
use std::os::unix::fs::{symlink, PermissionsExt};
use std::path::Path;
use std::process::Command;
use std::thread;

/// A command that writes a file: its words but for that file, which goes to a
/// place among them, its inputs, and what it prints.
struct Writer {
    before: Vec<String>,
    after: Vec<String>,
    inputs: Vec<String>,
    prints: &'static str,
}

impl Writer {
    /// Its words with the file that it writes.
    fn words(&self, out: &str) -> Vec<String> {
        [&self.before[..], &[out.to_string()], &self.after].concat()
    }
}

/// All of them, with good inputs in a folder.
fn writers(folder: &Folder) -> Vec<Writer> {
    let text = folder.file("song.txt", b"LOAD 7 38\nPAUSE 2\nSTOP\n");
    let words = folder.file("words", &[0x00, 0x10, 0x20, 0x40]);
    let records = folder.file("records.txt", b"0 1 0 9\n0 2 0 7\n");
    let comment = folder.file("comment", b"rows of 8 lines");
    let scene = folder.file("a.scene", &Scene::new().record('B', 0, 9).bytes());
    let placed = folder.file("b.txt", b"area 8000 9000\nplace 0 6\n");
    let (ram, store) = (
        folder.file("ram", &[0; RAM]),
        folder.file("store", &[0; STORE]),
    );
    let take = folder.file("none.take", b"\0\0\0\0\0\0\0\0PLTK");
    let writer = |before: &[&str], after: &[&str], prints| {
        let strings = |words: &[&str]| words.iter().map(|word| word.to_string()).collect();
        let words = [&before[1..], after].concat();
        let is_input = |word: &&&str| !word.starts_with("--");
        Writer {
            before: strings(before),
            after: strings(after),
            inputs: words
                .iter()
                .filter(is_input)
                .map(|w| w.to_string())
                .collect(),
            prints,
        }
    };
    vec![
        writer(&["read", &text], &[], "words 3\n"),
        writer(&["mend", &words], &[], "0 1000 4000\nwords 2\n"),
        writer(&["take", &records], &[&comment], ""),
        writer(&["export", &scene], &[], "159 registers\n"),
        writer(&["frame", &scene], &[], "640 x 1\n"),
        writer(&["map", &placed], &[], "area 08000 09000\n0 8000 6\n"),
        writer(&["run", &scene, "--take"], &[], "0\n"),
        writer(&["play", &ram, &store, &take], &[], "lines 0\n"),
    ]
}

/// Every file of a folder with what it holds, by name.
fn files(folder: &Folder) -> Vec<(String, Vec<u8>)> {
    let entries = fs::read_dir(folder.place("")).unwrap();
    let mut files: Vec<_> = entries
        .map(|entry| entry.unwrap().path())
        .filter(|path| path.is_file())
        .map(|path| (path.display().to_string(), fs::read(&path).unwrap()))
        .collect();
    files.sort();
    files
}

/// The program, started by the shell with something done before.
fn by_shell<S: AsRef<OsStr>>(first: &str, words: impl IntoIterator<Item = S>) -> Command {
    let mut shell = Command::new("sh");
    let script = format!("{first}\nexec \"$0\" \"$@\"");
    shell.args(["-c", &script, env!("CARGO_BIN_EXE_plus")]);
    shell.args(words);
    shell
}

fn ran(mut command: Command) -> Ran {
    Ran::from(command.output().unwrap())
}

/// By its own name, by a link, by another name of the same file, and by a way
/// round.
#[test]
fn an_output_that_is_an_input_is_wrong_use() {
    let folder = Folder::new();
    for writer in writers(&folder) {
        for input in &writer.inputs {
            let (link, name) = (folder.place("link"), folder.place("name"));
            symlink(input, &link).unwrap();
            fs::hard_link(input, &name).unwrap();
            let round = input.replace("/tmp/", "/tmp/../tmp/");
            let before = files(&folder);
            for out in [input, &link, &name, &round] {
                let words = writer.words(out);
                let said = format!("plus: {}: '{out}' is an input\nusage: plus ", words[0]);
                let ran = plus(&words);
                assert_eq!((ran.status, &*ran.out), (Some(2), ""), "{words:?}");
                assert!(ran.err.starts_with(&said), "{}", ran.err);
                assert_eq!(files(&folder), before);
            }
            fs::remove_file(link).unwrap();
            fs::remove_file(name).unwrap();
        }
    }
}

/// Standard output that goes on in an input.
#[test]
fn standard_output_that_is_an_input_is_wrong_use() {
    let folder = Folder::new();
    let words = folder.file("words", &[0x20, 0x40]);
    let output = File::options().append(true).open(&words).unwrap();
    let mut command = command(["list", &words]);
    let ran = Ran::from(command.stdout(output).output().unwrap());
    let said = format!("plus: list: '{words}' is standard output too\n");
    assert_eq!(ran.status, Some(2));
    assert!(ran.err.starts_with(&said), "{}", ran.err);
    assert_eq!(fs::read(&words).unwrap(), [0x20, 0x40]);
}

/// A terminal, /dev/null and the like lose nothing if they are both.
#[test]
fn a_device_can_be_both() {
    plus(["read", "/dev/null", "/dev/null"]).prints("words 0\n");
}

/// With no byte allowed in a file, as on a full disc, the old file is as it was,
/// and nothing stands beside it.
#[test]
fn a_write_that_fails_leaves_what_was_there() {
    let folder = Folder::new();
    for writer in writers(&folder) {
        let (new, old) = (folder.place("new"), folder.file("old", b"as it was"));
        let link = folder.place("link");
        symlink(&old, &link).unwrap();
        let before = files(&folder);
        for out in [new, old, link.clone()] {
            let ran = ran(by_shell("ulimit -f 0", writer.words(&out)));
            ran.fails(1, &format!("{out}: File too large (os error 27)\n"));
            assert_eq!(files(&folder), before);
        }
        fs::remove_file(link).unwrap();
    }
    let prefix = folder.place("prefix");
    let ran = ran(by_shell("ulimit -f 0", ["install", &prefix]));
    let said = format!("{prefix}/include/plus.h: File too large (os error 27)\n");
    ran.fails(1, &said);
    let names = fs::read_dir(Path::new(&prefix).join("include")).unwrap();
    assert_eq!(names.count(), 0);
}

/// Half of the contents have room, and then no more.
#[test]
fn a_write_that_fails_half_way_leaves_what_was_there() {
    let folder = Folder::new();
    let words: String = "LOAD 7 38\n".repeat(30_000);
    let text = folder.file("long.txt", words.as_bytes());
    let old = folder.file("old", &[7; 50_000]);
    let before = files(&folder);
    let ran = ran(by_shell("ulimit -f 20", ["read", &text, &old]));
    ran.fails(1, &format!("{old}: File too large (os error 27)\n"));
    assert_eq!(files(&folder), before);
}

#[test]
fn nothing_is_left_beside_what_was_written() {
    let folder = Folder::new();
    for writer in writers(&folder) {
        let before = files(&folder).len();
        let out = folder.place("out");
        for _ in 0..2 {
            let ran = plus(writer.words(&out));
            assert_eq!((ran.status, &*ran.err), (Some(0), ""));
            assert!(ran.out.starts_with(writer.prints), "{}", ran.out);
            assert_eq!(files(&folder).len(), before + 1);
        }
        fs::remove_file(out).unwrap();
    }
}

/// A link goes on being one, and leads to what was written, whether or not there
/// was something.
#[test]
fn a_link_is_written_through() {
    let folder = Folder::new();
    let text = folder.file("song.txt", b"STOP\n");
    fs::create_dir(folder.place("far")).unwrap();
    let (link, second) = (folder.place("link"), folder.place("second"));
    symlink("far/song", &link).unwrap();
    symlink("link", &second).unwrap();
    for _ in 0..2 {
        plus(["read", &text, &second]).prints("words 1\n");
        assert_eq!(fs::read(folder.place("far/song")).unwrap(), [0x20, 0x40]);
        assert!([&link, &second]
            .iter()
            .all(|link| Path::new(link).is_symlink()));
    }
    symlink("round", folder.place("round")).unwrap();
    let round = folder.place("round");
    let said = format!("{round}: Too many levels of symbolic links (os error 40)\n");
    plus(["read", &text, &round]).fails(1, &said);
}

/// A file that was there keeps its permissions; a new one has the usual ones.
#[test]
fn permissions() {
    let folder = Folder::new();
    let text = folder.file("song.txt", b"STOP\n");
    let mode = |path: &str| fs::metadata(path).unwrap().permissions().mode() & 0o7777;
    for kept in [0o600, 0o664, 0o755] {
        let old = folder.file("old", b"");
        fs::set_permissions(&old, Permissions::from_mode(kept)).unwrap();
        plus(["read", &text, &old]).prints("words 1\n");
        assert_eq!(mode(&old), kept);
    }
    for (mask, usual) in [("022", 0o644), ("077", 0o600)] {
        let new = folder.place(mask);
        ran(by_shell(&format!("umask {mask}"), ["read", &text, &new])).prints("words 1\n");
        assert_eq!(mode(&new), usual);
    }
}

/// What is no regular file is written as it stands.
#[test]
fn pipes_and_devices() {
    let folder = Folder::new();
    let text = folder.file("song.txt", b"STOP\n");
    plus(["read", &text, "/dev/null"]).prints("words 1\n");
    let said = "/dev/full: No space left on device (os error 28)\n";
    plus(["read", &text, "/dev/full"]).fails(1, said);
    let pipe = folder.place("pipe");
    assert!(Command::new("mkfifo")
        .arg(&pipe)
        .status()
        .unwrap()
        .success());
    let reader = {
        let pipe = pipe.clone();
        thread::spawn(move || fs::read(pipe).unwrap())
    };
    plus(["read", &text, &pipe]).prints("words 1\n");
    assert_eq!(reader.join().unwrap(), [0x20, 0x40]);
    assert!(!Path::new(&pipe).is_file());
    // Standard output as a pipe, and as a file that goes on.
    plus(["read", &text, "/dev/stdout"]).prints(" @words 1\n");
    let log = folder.file("log", b"before\n");
    let output = File::options().append(true).open(&log).unwrap();
    let mut appending = command(["read", &text, "/dev/stdout"]);
    assert!(appending.stdout(output).status().unwrap().success());
    assert_eq!(fs::read(&log).unwrap(), b"before\n @words 1\n");
}

/// Closed, or open for reading alone.
#[test]
fn an_output_that_is_not_open_is_told() {
    let folder = Folder::new();
    let words = folder.file("words", &[0x20, 0x40]);
    for closed in ["exec >&-", "exec 1</dev/null"] {
        for printing in [&["list", &words][..], &["help"], &["help", "list"]] {
            let said = "standard output: Bad file descriptor (os error 9)\n";
            ran(by_shell(closed, printing)).fails(1, said);
        }
        // Nothing was asked to be printed.
        let records = folder.file("records.txt", b"");
        let take = folder.place("take");
        ran(by_shell(closed, ["take", &records, &take])).prints("");
        assert_eq!(fs::read(&take).unwrap(), b"\0\0\0\0\0\0\0\0PLTK");
    }
    // Standard error closed beside it: nobody is left to tell, but the status.
    let ran = ran(by_shell("exec >&- 2>&-", ["list", &words]));
    ran.fails(1, "");
}

/// The descriptor of a closed output is never taken by a file.
#[test]
fn a_closed_output_changes_no_file() {
    let folder = Folder::new();
    let scene = folder.file("a.scene", &Scene::new().record('B', 0, 9).bytes());
    let take = folder.place("take");
    let said = "standard output: Bad file descriptor (os error 9)\n";
    let words = ["run", &scene, "--take", &take];
    ran(by_shell("exec 0<&- >&-", words)).fails(1, said);
    plus(["records", &take]).prints("comment 0\n0 1 0 9\n");
}
