//! Files and rings that are read.

use crate::ended::{reason, Failure};
use crate::refusal;
use crate::shown;
use snoekeldraf::{forget, Ring, FILE_BYTES_MAX};
use std::fs::{self, File};
use std::io::{self, Read};
use std::os::unix::fs::MetadataExt;
use std::path::{Path, PathBuf};

/// Bytes of a ring.
const RING_BYTES: usize = 256;

/// A file that was read: at most one byte more than the format allows, which the library refuses with status 20.
pub struct Input {
    pub path: PathBuf,
    pub bytes: Vec<u8>,
}

impl Input {
    /// Reads a shift file or a draft.
    pub fn read(path: &Path) -> Result<Input, Failure> {
        let bytes = read_at_most(path, FILE_BYTES_MAX + 1)?;
        Ok(Input { path: path.to_owned(), bytes })
    }

    /// The name as it is shown.
    pub fn name(&self) -> String {
        shown::name(&self.path)
    }

    /// The file's length in words.
    pub fn length(&self) -> String {
        match self.bytes.len() {
            length if length > FILE_BYTES_MAX => format!("more than {} bytes", shown::thousands(FILE_BYTES_MAX)),
            length => shown::count(length, "byte", "bytes"),
        }
    }
}

/// The first bytes of a file, device or pipe.
pub fn read_at_most(path: &Path, most: usize) -> Result<Vec<u8>, Failure> {
    let mut bytes = Vec::new();
    let read = File::open(path).and_then(|file| file.take(most as u64).read_to_end(&mut bytes));
    match read {
        Ok(_) => Ok(bytes),
        Err(error) => Err(cannot_be_read(path, &error)),
    }
}

fn cannot_be_read(path: &Path, error: &io::Error) -> Failure {
    Failure::broken(format!("{} cannot be read: {}", shown::name(path), reason(error)))
}

/// Reads a ring. No copy of the keys is left in a freed buffer or on the stack.
pub fn ring(path: &Path) -> Result<Box<Ring>, Failure> {
    let read = read_ring(path);
    forget();
    read
}

fn read_ring(path: &Path) -> Result<Box<Ring>, Failure> {
    // one byte more, so that a longer file is refused
    let mut bytes = [0; RING_BYTES + 1];
    let mut length = 0;
    let mut file = File::open(path).map_err(|error| cannot_be_read(path, &error))?;
    while length < bytes.len() {
        match file.read(&mut bytes[length..]) {
            Ok(0) => break,
            Ok(count) => length += count,
            Err(error) if error.kind() == io::ErrorKind::Interrupted => {}
            Err(error) => return Err(cannot_be_read(path, &error)),
        }
    }
    Ring::try_from(&bytes[..length]).map(Box::new).map_err(|refused| refusal::of_ring(path, length, refused))
}

/// Whether two paths lead to one file.
pub fn same_file(one: &Path, other: &Path) -> bool {
    let identity = |path| fs::metadata(path).map(|found| (found.dev(), found.ino())).ok();
    match (identity(one), identity(other)) {
        (Some(one), Some(other)) => one == other,
        _ => false,
    }
}
