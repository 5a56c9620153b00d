//! The files that a command reads, and where it writes.

use crate::failure::Failure;
use crate::given::Given;
use crate::output;
use crate::replace::{end_of_links, folder_of, replace};
use crate::Done;
use std::fs::{self, File, Metadata};
use std::io::Read;
use std::os::unix::fs::{FileTypeExt, MetadataExt};
use std::path::{Path, PathBuf};

/// What a file is known by, whatever its name: its device, and its number there.
type Identity = (u64, u64);

/// The files of one command. It writes none of those that it has read.
pub struct Files<'a> {
    given: &'a Given,
    inputs: Vec<Identity>,
}

/// Where a command writes.
pub struct Place(PathBuf);

impl<'a> Files<'a> {
    pub fn of(given: &'a Given) -> Files<'a> {
        Files {
            given,
            inputs: vec![],
        }
    }

    /// A whole file.
    pub fn contents(&mut self, path: &Path) -> Result<Vec<u8>, Failure> {
        self.first(path, u64::MAX)
    }

    /// A file, or as much of it as this if it is longer.
    pub fn first(&mut self, path: &Path, bytes: u64) -> Result<Vec<u8>, Failure> {
        let file = File::open(path).map_err(Failure::file(path))?;
        let data = file.metadata().map_err(Failure::file(path))?;
        if let Some(identity) = identity(&data) {
            if output::metadata().is_ok_and(|data| self::identity(&data) == Some(identity)) {
                let what = format!("'{}' is standard output too", path.display());
                return Err(self.wrong(what));
            }
            self.inputs.push(identity);
        }
        let mut contents = Vec::new();
        let read = file.take(bytes).read_to_end(&mut contents);
        read.map_err(Failure::file(path))?;
        Ok(contents)
    }

    /// Wrong use of the command that these are files of.
    pub fn wrong(&self, what: impl AsRef<str>) -> Failure {
        self.given.wrong(what)
    }

    /// Something said that stops nothing.
    pub fn note(&self, what: impl AsRef<str>) {
        self.given.note(what);
    }

    /// A file to be written, which is none that was read.
    pub fn place(&self, path: &Path) -> Result<Place, Failure> {
        let found = fs::metadata(path).ok().and_then(|data| identity(&data));
        if found.is_some_and(|identity| self.inputs.contains(&identity)) {
            let what = format!("'{}' is an input", path.display());
            return Err(self.wrong(what));
        }
        Ok(Place(path.to_owned()))
    }
}

impl Place {
    /// Whether two places are one, by whatever names and links.
    pub fn is(&self, other: &Place) -> bool {
        let file = |place: &Place| fs::metadata(&place.0).ok().map(|data| identity(&data));
        match (file(self), file(other)) {
            (Some(one), Some(two)) => one.is_some() && one == two,
            (None, None) => self.name() == other.name() && self.name().is_some(),
            _ => false,
        }
    }

    /// The whole name of a file that isn't there yet, if its folder is.
    fn name(&self) -> Option<PathBuf> {
        let end = end_of_links(&self.0).ok()?;
        let folder = fs::canonicalize(folder_of(&end)).ok()?;
        Some(folder.join(end.file_name()?))
    }

    /// Writes the file, or writes it over.
    pub fn write(&self, contents: impl AsRef<[u8]>) -> Done {
        let path = &self.0;
        replace(path, contents.as_ref(), None).map_err(Failure::file(path))
    }
}

/// A file that would lose what it holds if it were written. A terminal, a pipe and
/// the like can be read and written by one command.
pub fn identity(data: &Metadata) -> Option<Identity> {
    let kind = data.file_type();
    (kind.is_file() || kind.is_block_device()).then(|| (data.dev(), data.ino()))
}
