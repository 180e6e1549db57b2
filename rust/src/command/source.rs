//! The bytes of a file, or why they cannot be had.

use std::ffi::OsStr;
use std::fmt;
use std::fs::{File, Metadata};
use std::io::{self, Read};
use std::os::fd::AsFd;
use std::os::unix::fs::MetadataExt;
use std::path::Path;

/// A file's name as it is printed, its bytes, at most one more than it may have, and which file it is.
pub struct Source {
    pub name: String,
    pub bytes: Vec<u8>,
    pub identity: Identity,
}

/// Which file it is, whatever its name and whatever links lead to it.
#[derive(Debug, Clone, Copy, PartialEq, Eq)]
pub struct Identity {
    device: u64,
    inode: u64,
}

/// A file that cannot be read or written.
pub struct Trouble {
    name: String,
    error: io::Error,
}

impl Source {
    /// Reads a path, or standard input for `-`. One byte over the most that it may have is enough to see that it is too long.
    pub fn read(file: &OsStr, most: usize) -> Result<Source, Trouble> {
        let name = match file.to_str() {
            Some("-") => "standard input".to_string(),
            _ => Path::new(file).display().to_string(),
        };
        let opened = match file.to_str() {
            Some("-") => standard_input(),
            _ => File::open(file),
        };
        match opened.and_then(|opened| read_file(opened, most)) {
            Ok((bytes, identity)) => Ok(Source {
                name,
                bytes,
                identity,
            }),
            Err(error) => Err(Trouble { name, error }),
        }
    }
}

impl Identity {
    pub fn of(file: &Metadata) -> Identity {
        Identity {
            device: file.dev(),
            inode: file.ino(),
        }
    }
}

impl Trouble {
    /// What became of a path that is to be written.
    pub fn new(path: &OsStr, error: io::Error) -> Trouble {
        let name = Path::new(path).display().to_string();
        Trouble { name, error }
    }
}

/// Standard input as a file, which it may be: then it is known by its identity.
fn standard_input() -> io::Result<File> {
    let input = io::stdin().as_fd().try_clone_to_owned()?;
    Ok(File::from(input))
}

fn read_file(file: File, most: usize) -> io::Result<(Vec<u8>, Identity)> {
    let metadata = file.metadata()?;
    if metadata.is_dir() {
        return Err(io::Error::other("it is a directory"));
    }
    Ok((read_limited(file, most)?, Identity::of(&metadata)))
}

/// The first bytes of a file, at most one more than the most that it may have.
pub fn read_limited(reader: impl Read, most: usize) -> io::Result<Vec<u8>> {
    let mut bytes = Vec::new();
    reader.take(most as u64 + 1).read_to_end(&mut bytes)?;
    Ok(bytes)
}

impl fmt::Display for Trouble {
    fn fmt(&self, out: &mut fmt::Formatter<'_>) -> fmt::Result {
        write!(out, "{}: {}", self.name, self.error)
    }
}
