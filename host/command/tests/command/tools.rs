//! The program run, and the files it is run on.

use std::ffi::OsStr;
use std::fs;
use std::path::{Path, PathBuf};
use std::process::{self, Command, Output};
use std::sync::atomic::{AtomicUsize, Ordering};

/// What a run of the program gave.
pub struct Ran {
    pub status: Option<i32>,
    pub out: String,
    pub err: String,
}

impl From<Output> for Ran {
    fn from(output: Output) -> Ran {
        let text = |bytes| String::from_utf8(bytes).expect("the program prints UTF-8");
        Ran {
            status: output.status.code(),
            out: text(output.stdout),
            err: text(output.stderr),
        }
    }
}

impl Ran {
    /// It did what it was asked, and printed this.
    #[track_caller]
    pub fn prints(&self, out: &str) {
        assert_eq!((self.status, &*self.err), (Some(0), ""));
        assert_eq!(self.out, out);
    }

    /// It printed nothing, said this on standard error, and ended with a status.
    #[track_caller]
    pub fn fails(&self, status: i32, err: &str) {
        assert_eq!((&*self.out, &*self.err), ("", err));
        assert_eq!(self.status, Some(status));
    }
}

/// The program with some arguments.
pub fn command<S: AsRef<OsStr>>(words: impl IntoIterator<Item = S>) -> Command {
    let mut command = Command::new(env!("CARGO_BIN_EXE_plus"));
    command.args(words);
    command
}

/// The program run with some arguments.
pub fn plus<S: AsRef<OsStr>>(words: impl IntoIterator<Item = S>) -> Ran {
    let output = command(words).output().expect("the program starts");
    Ran::from(output)
}

/// A file of the repository.
pub fn repository(name: &str) -> PathBuf {
    Path::new(env!("CARGO_MANIFEST_DIR"))
        .join("../..")
        .join(name)
}

/// A folder of its own for a test, which goes with it.
pub struct Folder(PathBuf);

impl Folder {
    pub fn new() -> Folder {
        static COUNT: AtomicUsize = AtomicUsize::new(0);
        let count = COUNT.fetch_add(1, Ordering::Relaxed);
        let name = format!("{}-{count}", process::id());
        let path = Path::new(env!("CARGO_TARGET_TMPDIR")).join(name);
        fs::create_dir_all(&path).unwrap();
        Folder(path)
    }

    /// A place in it, as text for arguments and messages.
    pub fn place(&self, name: &str) -> String {
        self.0.join(name).into_os_string().into_string().unwrap()
    }

    /// A file in it.
    pub fn file(&self, name: &str, contents: &[u8]) -> String {
        let place = self.place(name);
        fs::write(&place, contents).unwrap();
        place
    }
}

impl Drop for Folder {
    fn drop(&mut self) {
        let _ = fs::remove_dir_all(&self.0);
    }
}

/// Words as bytes, low byte first.
pub fn bytes(words: &[u16]) -> Vec<u8> {
    words.iter().flat_map(|word| word.to_le_bytes()).collect()
}

/// A scene being written.
pub struct Scene {
    pub ram: Vec<u8>,
    pub store: Vec<u8>,
    pub records: Vec<u8>,
}

impl Scene {
    /// Of zeros, and no records.
    pub fn new() -> Scene {
        Scene {
            ram: vec![0; plus::RAM],
            store: vec![0; plus::STORE],
            records: vec![],
        }
    }

    /// A record more.
    pub fn record(mut self, op: char, address: u16, value: u8) -> Scene {
        let [low, high] = address.to_le_bytes();
        self.records.extend([op as u8, low, high, value]);
        self
    }

    /// A record that takes a value alone, for each value.
    pub fn each(self, op: char, values: &[u8]) -> Scene {
        values
            .iter()
            .fold(self, |scene, &value| scene.record(op, 0, value))
    }

    /// Bytes put where they wait, from a place on.
    pub fn wait(self, place: u16, bytes: &[u8]) -> Scene {
        let put = |scene: Scene, (place, &byte)| scene.record('T', place, byte);
        (place..).zip(bytes).fold(self, put)
    }

    /// Lines that mode 3 refuses, some of them to be shown, and mode 0 after them.
    pub fn refused_lines(self, count: usize) -> Scene {
        let lines = (0..count).fold(self.record('G', 0, 0x83), |scene, n| {
            scene.record(['L', 'P'][n % 2], 0, 0)
        });
        lines.record('G', 0, 0x80)
    }

    /// 6845 registers.
    pub fn registers(self, values: &[(u8, u8)]) -> Scene {
        values.iter().fold(self, |scene, &(number, value)| {
            scene.record('B', 0, number).record('D', 0, value)
        })
    }

    pub fn bytes(&self) -> Vec<u8> {
        [&self.ram[..], &self.store, &self.records].concat()
    }
}

/// An export in which some registers hold something, and the others 0.
pub fn exported(held: &[(u16, u8)]) -> Vec<u8> {
    let sprites = (0x6000..0x6080).filter(|address| address % 8 < 5);
    let channels = (0x6C00..0x6C0C).filter(|address| address % 4 < 3);
    let blocks = sprites.chain(0x6400..0x6440).chain(0x6800..0x6806);
    let three = |address: u16| {
        let [low, high] = address.to_le_bytes();
        let found = held.iter().find(|(at, _)| *at == address);
        [low, high, found.map_or(0, |(_, byte)| *byte)]
    };
    blocks.chain(channels).flat_map(three).collect()
}

/// Two digits a byte.
pub fn hexadecimal(bytes: &[u8]) -> String {
    bytes.iter().map(|byte| format!("{byte:02x}")).collect()
}
