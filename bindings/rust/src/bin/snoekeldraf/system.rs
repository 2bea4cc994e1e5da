//! Two things that the standard library does not have in Rust 1.81: locks on files, and signals. All `unsafe` code of this
//! program is here.

use std::ffi::{c_char, c_int, CString};
use std::fs::File;
use std::io::{self, ErrorKind};
use std::os::fd::AsRawFd;
use std::os::unix::ffi::OsStrExt;
use std::path::Path;
use std::ptr::null_mut;
use std::sync::atomic::{AtomicPtr, Ordering};

extern "C" {
    fn flock(fd: c_int, operation: c_int) -> c_int;
    fn signal(number: c_int, handler: usize) -> usize;
    fn raise(number: c_int) -> c_int;
    fn unlink(path: *const c_char) -> c_int;
}

const LOCK_EXCLUSIVE: c_int = 2;
const LOCK_WITHOUT_WAITING: c_int = 4;

const DEFAULT: usize = 0;
const IGNORE: usize = 1;

const HANGUP: c_int = 1;
const INTERRUPT: c_int = 2;
const QUIT: c_int = 3;
const TERMINATE: c_int = 15;
const FILE_SIZE: c_int = 25;

/// Locks a file until it is closed. Without waiting, `false` says that another process has the lock.
pub fn lock(file: &File, wait: bool) -> io::Result<bool> {
    let operation = if wait { LOCK_EXCLUSIVE } else { LOCK_EXCLUSIVE | LOCK_WITHOUT_WAITING };
    loop {
        // SAFETY: the descriptor is that of an open file; flock reads no memory.
        if unsafe { flock(file.as_raw_fd(), operation) } == 0 {
            return Ok(true);
        }
        let error = io::Error::last_os_error();
        match error.kind() {
            ErrorKind::Interrupted => {}
            ErrorKind::WouldBlock => return Ok(false),
            _ => return Err(error),
        }
    }
}

/// The path of the unfinished file, ended by a zero byte; null if there is none.
static UNFINISHED: AtomicPtr<c_char> = AtomicPtr::new(null_mut());

/// Names the file that a signal removes before it ends the process; `None` if there is none any more. The few bytes of a
/// path are never freed: a signal may read them at any moment.
pub fn unfinished(path: Option<&Path>) {
    let path = path.and_then(|path| CString::new(path.as_os_str().as_bytes()).ok());
    UNFINISHED.store(path.map_or(null_mut(), CString::into_raw), Ordering::SeqCst);
}

/// Removes the unfinished file, then ends the process as the signal would have.
extern "C" fn interrupted(number: c_int) {
    let path = UNFINISHED.swap(null_mut(), Ordering::SeqCst);
    // SAFETY: unlink, signal and raise may be called in a handler. A path that is not null comes from CString::into_raw and
    // is never freed. The raised signal is delivered when the handler returns.
    unsafe {
        if !path.is_null() {
            unlink(path);
        }
        signal(number, DEFAULT);
        raise(number);
    }
}

/// Installs the handler for the signals by which a person or a shell ends a program, except for those that the caller has
/// set to be ignored (`nohup`). A file that grows over the shell's limit then gives an error and not a signal.
pub fn remove_unfinished_when_interrupted() {
    for number in [HANGUP, INTERRUPT, QUIT, TERMINATE] {
        // SAFETY: the handler calls only functions that are allowed there.
        unsafe {
            if signal(number, interrupted as extern "C" fn(c_int) as usize) == IGNORE {
                signal(number, IGNORE);
            }
        }
    }
    // SAFETY: no handler is installed.
    unsafe { signal(FILE_SIZE, IGNORE) };
}
