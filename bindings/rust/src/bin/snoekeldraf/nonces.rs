//! The nonce counter: a file that holds how many nonces were given out.
//!
//! A nonce is a random prefix, which every run draws for itself, and the count. The count is advanced and on the disk before a nonce is
//! used, so that no two nonces of one counter are equal, also if a run is killed. Should a counter be lost, copied or restored
//! from a backup, two nonces are equal only if the same 7 or 8 random bytes come twice.

use crate::console::Console;
use crate::ended::{reason, Failure};
use crate::output::{self, cannot_be_written, Content};
use crate::shown;
use crate::system;
use snoekeldraf::{Nonce, Suite};
use std::env;
use std::fs::{self, File, OpenOptions};
use std::io::{self, Read};
use std::os::unix::fs::{MetadataExt, OpenOptionsExt};
use std::path::{Path, PathBuf};

const FIRST_LINE: &str = "snoekeldraf nonce counter, version 1";

/// No counter is longer.
const COUNTER_BYTES_MAX: u64 = 128;

/// A counter that no other process can read before this one has let go of it.
pub struct Counter {
    path: PathBuf,
    next: u64,
    prefix: [u8; 8],
    /// The lock lasts as long as the file is open.
    _locked: File,
}

impl Counter {
    /// Waits for the counter, and reads it. One that is not there, or is empty, starts at 0.
    pub fn lock(path: &Path, console: &mut Console) -> Result<Counter, Failure> {
        let broken = |error: &io::Error| {
            Failure::broken(format!("the nonce counter {} cannot be used: {}", shown::name(path), reason(error)))
        };
        let mut locked = locked(path, console).map_err(|error| broken(&error))?;
        let mut text = String::new();
        let read = (&mut locked).take(COUNTER_BYTES_MAX).read_to_string(&mut text);
        read.map_err(|error| broken(&error))?;
        let next = count(&text).ok_or_else(|| {
            Failure::refused(format!(
                "{} is no nonce counter, or is damaged\nAnother one can be named by --nonces; a new one is made.",
                shown::name(path)
            ))
        })?;
        let prefix = random().map_err(|error| broken(&error))?;
        Ok(Counter { path: path.to_owned(), next, prefix, _locked: locked })
    }

    /// The nonce with an index among those of this run. Nobody may have it before `advance`.
    pub fn nonce(&self, suite: Suite, index: usize) -> Result<Nonce, Failure> {
        let used_up = || Failure::refused(format!("{}: every nonce is used", shown::name(&self.path)));
        let count = self.next.checked_add(index as u64).filter(|count| *count < u64::MAX).ok_or_else(used_up)?;
        let prefix = &self.prefix[..suite.nonce_size() - size_of::<u64>()];
        let bytes = [prefix, &count.to_le_bytes()].concat();
        Nonce::assume_fresh(&bytes).map_err(|refused| Failure::refused(refused.to_string()))
    }

    /// Stores, on the disk, that so many nonces are given out.
    pub fn advance(self, by: usize) -> Result<(), Failure> {
        let text = format!("{FIRST_LINE}\nnext {}\n", self.next + by as u64);
        let written = output::write(&self.path, text.as_bytes(), Content::Plain);
        written.map_err(|error| cannot_be_written(&self.path, &error))
    }
}

/// The counter of this user, if no other is named.
pub fn default_path() -> Result<PathBuf, Failure> {
    let folder = |name: &str| env::var_os(name).map(PathBuf::from).filter(|folder| folder.is_absolute());
    let state = folder("XDG_STATE_HOME").or_else(|| folder("HOME").map(|home| home.join(".local/state")));
    let folder = state.ok_or_else(|| Failure::usage("--nonces is missing, and there is no HOME"))?.join("snoekeldraf");
    match fs::create_dir_all(&folder) {
        Ok(()) => Ok(folder.join("nonces")),
        Err(error) => Err(cannot_be_written(&folder, &error)),
    }
}

/// The counter's file, locked. Every run replaces the file, so that after waiting for the lock the path may lead to another.
fn locked(path: &Path, console: &mut Console) -> io::Result<File> {
    loop {
        let file = OpenOptions::new().read(true).write(true).create(true).truncate(false).mode(0o600).open(path)?;
        if !file.metadata()?.is_file() {
            return Err(io::Error::other("it is no regular file"));
        }
        if !system::lock(&file, false)? {
            console.say(&format!("waiting for another run that uses the nonce counter {}", shown::name(path)));
            system::lock(&file, true)?;
        }
        let (ours, there) = (file.metadata()?, fs::metadata(path));
        if there.is_ok_and(|there| (there.dev(), there.ino()) == (ours.dev(), ours.ino())) {
            return Ok(file);
        }
    }
}

/// The count in a counter's text; 0 if it is empty.
fn count(text: &str) -> Option<u64> {
    if text.is_empty() {
        return Some(0);
    }
    let rest = text.strip_prefix(FIRST_LINE)?.strip_prefix("\nnext ")?.strip_suffix('\n')?;
    rest.parse().ok().filter(|_| rest.bytes().all(|byte| byte.is_ascii_digit()))
}

/// Eight random bytes.
fn random() -> io::Result<[u8; 8]> {
    let mut bytes = [0; 8];
    File::open("/dev/urandom")?.read_exact(&mut bytes)?;
    Ok(bytes)
}

#[cfg(test)]
mod tests {
    use super::*;

    #[test]
    fn only_whole_counters_are_read() {
        let whole = format!("{FIRST_LINE}\nnext 17\n");
        assert_eq!(count(&whole), Some(17));
        assert_eq!(count(""), Some(0));
        for cut in 1..whole.len() {
            assert_eq!(count(&whole[..cut]), None, "{cut}");
        }
        for wrong in ["next 17\n", "snoekeldraf nonce counter, version 1\nnext +7\n", "\n", "0"] {
            assert_eq!(count(wrong), None, "{wrong}");
        }
    }
}
