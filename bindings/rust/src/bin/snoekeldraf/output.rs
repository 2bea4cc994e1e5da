//! Files that are written. OUT is there whole or not at all.
//!
//! A regular file is replaced: its bytes go to a new file in the same folder, `.snoekeldraf-` with the process number, which is
//! brought to the disk and then renamed. A link is followed first, so that its target is replaced. A device or a pipe is opened
//! once and written whole. The new file is locked as long as it is written; one without a lock was left by a run that was
//! killed, and the next run that writes to the folder removes it.

use crate::ended::{reason, Failure};
use crate::shown;
use crate::system::{self, unfinished};
use std::fs::{self, File, Metadata, OpenOptions, Permissions};
use std::io::{self, ErrorKind, Write};
use std::os::unix::fs::{fchown, MetadataExt, OpenOptionsExt, PermissionsExt};
use std::path::{Path, PathBuf};
use std::process;

/// How the names of unfinished files begin.
const UNFINISHED: &str = ".snoekeldraf-";

/// As many links one after another as Linux follows.
const LINKS_MAX: usize = 40;

const IS_A_DIRECTORY: i32 = 21;
const INVALID: i32 = 22;
const NOT_SUPPORTED: i32 = 95;

/// What the bytes are.
#[derive(Clone, Copy, PartialEq, Eq, Debug)]
pub enum Content {
    /// Nothing that was secret: a new file has the mode that the user's umask allows.
    Sealed,
    /// Decrypted text: for the owner alone, from the first byte.
    Plain,
}

/// Where the bytes go.
enum Place {
    /// A device or a pipe.
    Stream,
    /// What `/dev/stdout` and its like lead to: bytes are added at the end of what is there.
    Inherited,
    /// A path without links, and the file that is there.
    File(PathBuf, Option<Metadata>),
}

/// Writes OUT whole. On an error the old OUT is unchanged, unless it is a device or a pipe.
pub fn write(out: &Path, bytes: &[u8], content: Content) -> io::Result<()> {
    match place(out)? {
        Place::Stream => OpenOptions::new().write(true).open(out)?.write_all(bytes),
        Place::Inherited => OpenOptions::new().append(true).open(out)?.write_all(bytes),
        Place::File(path, old) => replace(&path, old.as_ref(), bytes, content),
    }
}

/// Where OUT leads. Nothing is changed.
fn place(out: &Path) -> io::Result<Place> {
    match fs::metadata(out) {
        Ok(found) if found.is_dir() => Err(io::Error::from_raw_os_error(IS_A_DIRECTORY)),
        Ok(_) if is_inherited(out) => Ok(Place::Inherited),
        Ok(found) if found.is_file() => {
            OpenOptions::new().write(true).open(out)?; // a file that may not be written is not replaced either
            Ok(Place::File(fs::canonicalize(out)?, Some(found)))
        }
        Ok(_) => Ok(Place::Stream),
        Err(error) if error.kind() == ErrorKind::NotFound => Ok(Place::File(end_of_links(out), None)),
        Err(error) => Err(error),
    }
}

/// The folder of a path.
fn folder_of(path: &Path) -> &Path {
    match path.parent() {
        Some(parent) if parent != Path::new("") => parent,
        _ => Path::new("."),
    }
}

/// The paths from OUT to where its links lead, OUT first.
fn links(out: &Path) -> impl Iterator<Item = PathBuf> {
    let next = |path: &PathBuf| fs::read_link(path).ok().map(|target| folder_of(path).join(target));
    std::iter::successors(Some(out.to_owned()), next).take(LINKS_MAX)
}

/// Where the links of a path lead that leads to nothing yet.
fn end_of_links(out: &Path) -> PathBuf {
    links(out).last().unwrap_or_else(|| out.to_owned())
}

/// Whether OUT leads to an open file of a process, as /dev/stdout does. Such a link leads to the open file and has no path.
fn is_inherited(out: &Path) -> bool {
    links(out).any(|path| fs::canonicalize(folder_of(&path)).is_ok_and(|folder| folder.starts_with("/proc")))
}

/// Replaces a file by a new one that is on the disk before it has the name.
fn replace(path: &Path, old: Option<&Metadata>, bytes: &[u8], content: Content) -> io::Result<()> {
    let folder = folder_of(path);
    // A file that replaces another is for the owner alone until it has the other's mode.
    let mode = if content == Content::Plain || old.is_some() { 0o600 } else { 0o666 };
    let mut unfinished = Unfinished::create(folder, mode)?;
    remove_left_over(folder, unfinished.file.metadata()?.uid());
    unfinished.file.write_all(bytes)?;
    if let Some(old) = old {
        keep_owner_and_mode(&unfinished.file, old, content)?;
    }
    unfinished.file.sync_all()?;
    fs::rename(&unfinished.path, path)?;
    sync_folder(folder)
}

/// A file that has no name of its own yet. It is removed when it is dropped, and on a signal; after it was renamed there is
/// nothing to remove.
struct Unfinished {
    file: File,
    path: PathBuf,
}

impl Unfinished {
    fn create(folder: &Path, mode: u32) -> io::Result<Unfinished> {
        for attempt in 0.. {
            let path = folder.join(format!("{UNFINISHED}{}-{attempt}", process::id()));
            unfinished(Some(&path));
            match OpenOptions::new().write(true).create_new(true).mode(mode).open(&path) {
                Ok(file) => {
                    // A file system without locks has no left over files removed either.
                    let _ = system::lock(&file, true);
                    // Between the two calls another run may have taken it for left over.
                    if file.metadata()?.nlink() > 0 {
                        return Ok(Unfinished { file, path });
                    }
                }
                Err(error) if error.kind() == ErrorKind::AlreadyExists => {}
                Err(error) => {
                    unfinished(None);
                    return Err(error);
                }
            }
        }
        unreachable!("attempts do not end")
    }
}

impl Drop for Unfinished {
    fn drop(&mut self) {
        let _ = fs::remove_file(&self.path); // after a rename there is nothing to remove
        unfinished(None);
    }
}

/// Removes unfinished files that this user's earlier runs left in the folder. One that is locked is being written.
fn remove_left_over(folder: &Path, owner: u32) {
    let Ok(entries) = fs::read_dir(folder) else { return };
    for entry in entries.flatten() {
        let is_ours = |found: &Metadata| found.is_file() && found.uid() == owner;
        if is_unfinished(&entry.file_name().to_string_lossy()) && entry.metadata().is_ok_and(|found| is_ours(&found)) {
            let free = File::open(entry.path()).and_then(|file| Ok((system::lock(&file, false)?, file)));
            if let Ok((true, _locked)) = free {
                let _ = fs::remove_file(entry.path()); // it stays for the next run
            }
        }
    }
}

/// Whether a name is one of `Unfinished`: two numbers after the beginning.
fn is_unfinished(name: &str) -> bool {
    let is_number = |text: &str| !text.is_empty() && text.bytes().all(|byte| byte.is_ascii_digit());
    let numbers = name.strip_prefix(UNFINISHED).and_then(|rest| rest.split_once('-'));
    numbers.is_some_and(|(process, attempt)| is_number(process) && is_number(attempt))
}

/// Gives the new file the owner and group of the old one where the system allows it, and its mode: of plain text only what
/// the owner may do, and nothing for a group that is another one.
fn keep_owner_and_mode(file: &File, old: &Metadata, content: Content) -> io::Result<()> {
    if fchown(file, Some(old.uid()), Some(old.gid())).is_err() {
        let _ = fchown(file, None, Some(old.gid())); // a user may give a file to a group of theirs
    }
    let mut mode = old.mode() & 0o777;
    if content == Content::Plain {
        mode &= 0o600;
    }
    if file.metadata()?.gid() != old.gid() {
        mode &= 0o707;
    }
    file.set_permissions(Permissions::from_mode(mode))
}

/// Brings a folder's names to the disk. Some file systems do it by themselves and refuse the call.
fn sync_folder(folder: &Path) -> io::Result<()> {
    match File::open(folder)?.sync_all() {
        Err(error) if matches!(error.raw_os_error(), Some(INVALID | NOT_SUPPORTED)) => Ok(()),
        synced => synced,
    }
}

/// Writes OUT, and says the system's reason if it cannot.
pub fn write_or_say(out: &Path, bytes: &[u8], content: Content) -> Result<(), Failure> {
    write(out, bytes, content).map_err(|error| cannot_be_written(out, &error))
}

/// OUT, or another file, and the system's reason.
pub fn cannot_be_written(out: &Path, error: &io::Error) -> Failure {
    Failure::broken(format!("{} cannot be written: {}", shown::name(out), reason(error)))
}

/// A ring that would be overwritten is lost.
pub fn is_the_ring(out: &Path) -> Failure {
    Failure::usage(format!("{} is the ring: it is not overwritten", shown::name(out)))
}
