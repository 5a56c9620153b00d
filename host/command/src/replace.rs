//! A file written so that it never holds half of its new contents.

use crate::files::identity;
use crate::output;
use std::fs::{self, File, Metadata, OpenOptions, Permissions};
use std::io::{self, ErrorKind, Write};
use std::os::unix::fs::{fchown, MetadataExt, OpenOptionsExt, PermissionsExt};
use std::path::{Path, PathBuf};
use std::process;

/// How many links Linux follows in one name.
const LINKS: usize = 40;

/// Writes a file, or writes it over: beside its place, and moved there once it is
/// on the disc. Where that fails the old file stays, and nothing is left beside
/// it. A link stays one, and what it leads to is written. What is no regular file,
/// as a pipe or a device, is written as it stands. With no mode given an old file
/// keeps its owner and its permissions, and a new one has the usual ones.
pub fn replace(path: &Path, contents: &[u8], mode: Option<u32>) -> io::Result<()> {
    match fs::metadata(path) {
        Ok(old) if old.is_file() => over(path, &old, contents, mode),
        Ok(_) => OpenOptions::new()
            .write(true)
            .open(path)?
            .write_all(contents),
        Err(error) if error.kind() == ErrorKind::NotFound => {
            beside(&end_of_links(path)?, None, contents, mode)
        }
        Err(error) => Err(error),
    }
}

/// Over a regular file that is there.
fn over(path: &Path, old: &Metadata, contents: &[u8], mode: Option<u32>) -> io::Result<()> {
    // As `/dev/stdout` it can be written to from where it is, and no further.
    if output::metadata().is_ok_and(|data| identity(&data) == identity(old)) {
        return output::file()?.write_all(contents);
    }
    match OpenOptions::new().write(true).open(path) {
        Err(error) if error.kind() != ErrorKind::ExecutableFileBusy => return Err(error),
        _ => {}
    }
    let end = end_of_links(path)?;
    // A file that is open and has no name any more can still be reached by /proc.
    if fs::metadata(&end).ok().and_then(|data| identity(&data)) != identity(old) {
        let mut file = OpenOptions::new().write(true).truncate(true).open(path)?;
        return file.write_all(contents);
    }
    beside(&end, Some(old), contents, mode)
}

/// The name that a chain of links ends in, whether or not there is a file.
pub fn end_of_links(path: &Path) -> io::Result<PathBuf> {
    let mut path = path.to_owned();
    for _ in 0..LINKS {
        let Ok(next) = fs::read_link(&path) else {
            return Ok(path);
        };
        path = folder_of(&path).join(next);
    }
    // "Too many levels of symbolic links".
    Err(io::Error::from_raw_os_error(40))
}

pub fn folder_of(path: &Path) -> &Path {
    match path.parent() {
        Some(folder) if !folder.as_os_str().is_empty() => folder,
        _ => Path::new("."),
    }
}

/// Writes a new file in the same folder, and gives it the name.
fn beside(
    path: &Path,
    old: Option<&Metadata>,
    contents: &[u8],
    mode: Option<u32>,
) -> io::Result<()> {
    let (name, file) = new_beside(path, old.is_some())?;
    let written = filled(file, old, contents, mode).and_then(|()| fs::rename(&name, path));
    if written.is_err() {
        // What went wrong is told, and not that this did too.
        let _ = fs::remove_file(&name);
    }
    written
}

/// A file of no other's name in the same folder. One that takes the place of
/// another is nobody's to read until it has that one's permissions.
fn new_beside(path: &Path, hidden: bool) -> io::Result<(PathBuf, File)> {
    let folder = folder_of(path);
    let mode = if hidden { 0o600 } else { 0o666 };
    let mut number = 0;
    loop {
        let name = folder.join(format!(".plus-{}-{number}.new", process::id()));
        let mut options = OpenOptions::new();
        match options.write(true).create_new(true).mode(mode).open(&name) {
            Ok(file) => return Ok((name, file)),
            Err(error) if error.kind() == ErrorKind::AlreadyExists => number += 1,
            Err(error) if error.kind() == ErrorKind::PermissionDenied => {
                let folder = folder.display();
                let why = format!("no file can be written in {folder}: {error}");
                return Err(io::Error::new(error.kind(), why));
            }
            Err(error) => return Err(error),
        }
    }
}

/// Writes the contents through to the disc, with owner and permissions.
fn filled(
    mut file: File,
    old: Option<&Metadata>,
    contents: &[u8],
    mode: Option<u32>,
) -> io::Result<()> {
    file.write_all(contents)?;
    if let Some(old) = old {
        // Only root can give a file away.
        let _ = fchown(&file, Some(old.uid()), Some(old.gid()));
    }
    if let Some(mode) = mode.or(old.map(|old| old.mode() & 0o777)) {
        file.set_permissions(Permissions::from_mode(mode))?;
    }
    file.sync_all()
}
