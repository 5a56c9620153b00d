//! Standard output.

use crate::failure::Failure;
use crate::Done;
use std::fmt::Display;
use std::fs::{File, Metadata};
use std::io::{self, BufWriter, Write};
use std::os::fd::AsFd;
use std::sync::atomic::{AtomicBool, Ordering};

/// What a command prints. It waits in a buffer until that is full or the command
/// is done.
#[derive(Default)]
pub struct Output(Option<BufWriter<File>>);

impl Output {
    /// One line.
    pub fn line(&mut self, text: impl Display) -> Done {
        self.write(|file| writeln!(file, "{text}"))
    }

    /// A text as it is.
    pub fn text(&mut self, text: &[u8]) -> Done {
        self.write(|file| file.write_all(text))
    }

    /// All that still waits.
    pub fn finish(&mut self) -> Done {
        match &mut self.0 {
            Some(file) => file.flush().map_err(Failure::Output),
            None => Ok(()),
        }
    }

    fn write(&mut self, text: impl FnOnce(&mut BufWriter<File>) -> io::Result<()>) -> Done {
        let file = match self.0.take() {
            Some(file) => file,
            None => BufWriter::new(file().map_err(Failure::Output)?),
        };
        text(self.0.insert(file)).map_err(Failure::Output)
    }
}

/// Standard output as a file, of which every failed write is told; std's own takes
/// one that can't be written for one that swallows everything.
pub fn file() -> io::Result<File> {
    if CLOSED.load(Ordering::Relaxed) {
        return Err(io::Error::from_raw_os_error(EBADF));
    }
    Ok(File::from(io::stdout().as_fd().try_clone_to_owned()?))
}

/// What standard output is.
pub fn metadata() -> io::Result<Metadata> {
    file()?.metadata()
}

/// Whether the program was started with standard output closed. By the time that
/// `main` runs, std has opened /dev/null in its place.
static CLOSED: AtomicBool = AtomicBool::new(false);

/// Linux calls what stands in this section before it calls `main`.
#[used]
#[link_section = ".init_array"]
static LOOK: extern "C" fn() = look;

extern "C" fn look() {
    // SAFETY: it only asks for the flags of a descriptor.
    if unsafe { fcntl(1, F_GETFD) } == -1 {
        CLOSED.store(true, Ordering::Relaxed);
    }
}

/// "Bad file descriptor".
const EBADF: i32 = 9;

const F_GETFD: i32 = 1;

extern "C" {
    fn fcntl(descriptor: i32, command: i32, ...) -> i32;
}
