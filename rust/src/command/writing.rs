//! The one way in which the command writes a file.
//!
//! It writes beside the file, syncs that to the disk, and renames it. So whoever looks finds the old bytes or the new
//! ones, whatever fails and whenever the command is killed. Links are followed. Owner, group and mode stay.
//!
//! A killed write leaves a file `.spoonharbor-*.new` beside. Nothing needs it, and it is in no run's way. No other run
//! removes it, as it cannot know whether the one that made it still runs.

use super::block::{has_right_block, LONGEST_FILE};
use super::source::{read_limited, Identity, Source, Trouble};
use std::ffi::OsStr;
use std::fs::{self, File, Metadata, OpenOptions};
use std::io::{self, ErrorKind, Write};
use std::os::unix::fs::{fchown, FileTypeExt, MetadataExt, OpenOptionsExt, PermissionsExt};
use std::path::{Path, PathBuf};

/// Where something is to be written.
pub enum Place {
    /// A pipe or a device that keeps nothing.
    Stream(PathBuf),
    /// A path at which there is nothing.
    New(PathBuf),
    /// A file, behind all links.
    Old(Old),
}

/// A file that is there: its path without links, what is known of it, and its bytes, as far as a stored table can
/// have any.
pub struct Old {
    path: PathBuf,
    metadata: Metadata,
    bytes: Vec<u8>,
}

/// Writes a stored table to a path where it may be written.
pub fn write_table(
    path: &OsStr,
    table: &[u8],
    text: &Source,
    is_forced: bool,
) -> Result<(), Trouble> {
    let place = place_of_table(path, text, is_forced)?;
    place
        .write(table, is_forced)
        .map_err(|error| Trouble::new(path, error))
}

/// The place of a path, if a stored table may be written there. The text that it is made of is never written over.
/// Another file is if it is empty, has one right block of a stored table, or if that is forced.
pub fn place_of_table(path: &OsStr, text: &Source, is_forced: bool) -> Result<Place, Trouble> {
    let place =
        Place::find(Path::new(path)).and_then(|place| match place.why_not(text, is_forced) {
            None => Ok(place),
            Some(why) => Err(io::Error::other(why)),
        });
    place.map_err(|error| Trouble::new(path, error))
}

impl Place {
    /// Looks at what stands at a path.
    pub fn find(path: &Path) -> io::Result<Place> {
        let kind = match fs::metadata(path) {
            Ok(metadata) => metadata.file_type(),
            Err(error) if error.kind() == ErrorKind::NotFound => return new_place(path),
            Err(error) => return Err(error),
        };
        if kind.is_dir() {
            return Err(io::Error::other("it is a directory"));
        }
        if kind.is_fifo() || kind.is_char_device() {
            return Ok(Place::Stream(path.to_path_buf()));
        }
        if !kind.is_file() {
            return Err(io::Error::other("it is no file that could be written"));
        }
        let path = fs::canonicalize(path)?;
        let file = File::open(&path)?;
        let metadata = file.metadata()?;
        let bytes = read_limited(file, LONGEST_FILE)?;
        Ok(Place::Old(Old {
            path,
            metadata,
            bytes,
        }))
    }

    /// Whether it is a file with just these bytes, which no pipe and no device is.
    pub fn holds(&self, bytes: &[u8]) -> bool {
        matches!(self, Place::Old(old) if old.bytes == bytes)
    }

    /// Why no table may be written here, if so.
    fn why_not(&self, text: &Source, is_forced: bool) -> Option<&'static str> {
        let Place::Old(old) = self else {
            return None;
        };
        if Identity::of(&old.metadata) == text.identity {
            Some("it is the text itself, and stays")
        } else if is_forced || old.bytes.is_empty() || has_right_block(&old.bytes) {
            None
        } else {
            Some("it has not one right block of a stored table, and stays; --force writes over it")
        }
    }

    /// Writes these bytes. A file that has further names, which would keep the old bytes, is written if it is forced.
    pub fn write(&self, bytes: &[u8], is_forced: bool) -> io::Result<()> {
        match self {
            Place::Stream(path) => OpenOptions::new().write(true).open(path)?.write_all(bytes),
            Place::New(path) => put(path, None, bytes),
            Place::Old(old) if old.metadata.nlink() > 1 && !is_forced => {
                let names = old.metadata.nlink();
                let why =
                    "and under the others would stay as it is; --force writes it under this one";
                Err(io::Error::other(format!("it has {names} names, {why}")))
            }
            Place::Old(old) => {
                // Whoever may not write the file may not put another in its place either.
                OpenOptions::new().write(true).open(&old.path)?;
                put(&old.path, Some(&old.metadata), bytes)
            }
        }
    }
}

/// The place of a path that leads to no file. A link is no such path: what it should lead to is missing.
fn new_place(path: &Path) -> io::Result<Place> {
    if path.as_os_str().as_encoded_bytes().ends_with(b"/") {
        return Err(io::Error::other("it is a directory that is not there"));
    }
    match fs::symlink_metadata(path) {
        Ok(_) => Err(io::Error::other("it is a link to a file that is not there")),
        Err(_) => Ok(Place::New(path.to_path_buf())),
    }
}

/// Puts a file with these bytes at a path, in the place of the old one if there is one.
fn put(path: &Path, old: Option<&Metadata>, bytes: &[u8]) -> io::Result<()> {
    let folder = match path.parent() {
        Some(folder) if folder != Path::new("") => folder,
        _ => Path::new("."),
    };
    let opened = File::open(folder)?;
    let (file, beside) = create_beside(folder, old)?;
    let result = fill(file, old, bytes)
        .and_then(|()| stands(path, old))
        .and_then(|()| fs::rename(&beside, path));
    if result.is_err() {
        let _ = fs::remove_file(&beside);
    }
    result.and_then(|()| sync_folder(&opened))
}

/// A new file in a folder, under a name that no file has; nobody else reads it before it has the old one's mode.
fn create_beside(folder: &Path, old: Option<&Metadata>) -> io::Result<(File, PathBuf)> {
    let mode = old.map_or(0o666, |_| 0o600);
    for number in 0..1000 {
        let name = format!(".spoonharbor-{}-{number}.new", std::process::id());
        let path = folder.join(name);
        let mut options = OpenOptions::new();
        match options.write(true).create_new(true).mode(mode).open(&path) {
            Err(error) if error.kind() == ErrorKind::AlreadyExists => {}
            Err(error) => return Err(error),
            Ok(file) => return Ok((file, path)),
        }
    }
    Err(io::Error::other("no name beside it is free"))
}

/// Gives a new file the owner, group and mode of the old one, and its bytes, as far as to the disk.
fn fill(mut file: File, old: Option<&Metadata>, bytes: &[u8]) -> io::Result<()> {
    if let Some(old) = old {
        let new = file.metadata()?;
        if (new.uid(), new.gid()) != (old.uid(), old.gid()) {
            fchown(&file, Some(old.uid()), Some(old.gid())).map_err(|error| {
                let (user, group) = (old.uid(), old.gid());
                let why = format!("it belongs to user {user} and group {group}, which cannot be kept, and stays: {error}");
                io::Error::other(why)
            })?;
        }
        file.set_permissions(PermissionsExt::from_mode(old.mode() & 0o7777))?;
    }
    file.write_all(bytes)?;
    file.sync_all()
}

/// Whether at a path there still is what was looked at.
fn stands(path: &Path, old: Option<&Metadata>) -> io::Result<()> {
    let known = |file: &Metadata| {
        (
            Identity::of(file),
            file.len(),
            file.mtime(),
            file.mtime_nsec(),
        )
    };
    let now = match fs::symlink_metadata(path) {
        Ok(now) => Some(known(&now)),
        Err(error) if error.kind() == ErrorKind::NotFound => None,
        Err(error) => return Err(error),
    };
    match now == old.map(known) {
        true => Ok(()),
        false => Err(io::Error::other("it was changed meanwhile, and stays")),
    }
}

/// Brings a folder's names to the disk, where its file system can.
fn sync_folder(folder: &File) -> io::Result<()> {
    match folder.sync_all() {
        Err(error)
            if !matches!(
                error.kind(),
                ErrorKind::InvalidInput | ErrorKind::Unsupported
            ) =>
        {
            Err(io::Error::other(format!(
                "it is written, but perhaps not on the disk yet: {error}"
            )))
        }
        _ => Ok(()),
    }
}

#[cfg(test)]
mod tests {
    use super::*;

    /// A path of this test alone, with nothing there.
    fn free_path(name: &str) -> PathBuf {
        let name = format!("spoonharbor-{}-{name}", std::process::id());
        let path = std::env::temp_dir().join(name);
        let _ = fs::remove_file(&path);
        path
    }

    /// What is said where something else is written between the look and the rename; that stays.
    fn said_after(path: &Path, other: &[u8]) -> String {
        let place = Place::find(path).unwrap();
        fs::write(path, other).unwrap();
        let error = place.write(b"new", false).unwrap_err();
        assert_eq!(fs::read(path).unwrap(), other);
        error.to_string()
    }

    #[test]
    fn what_was_changed_meanwhile_stays() {
        let path = free_path("meanwhile");
        let said = "it was changed meanwhile, and stays";
        assert_eq!(said_after(&path, b"came up"), said);
        assert_eq!(said_after(&path, b"became longer"), said);
        let place = Place::find(&path).unwrap();
        place.write(b"new", false).unwrap();
        assert_eq!(fs::read(&path).unwrap(), b"new");
        let place = Place::find(&path).unwrap();
        fs::remove_file(&path).unwrap();
        assert!(place.write(b"newer", false).is_err());
        assert!(!path.exists());
    }
}
