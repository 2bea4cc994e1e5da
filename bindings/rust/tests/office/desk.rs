//! A folder of its own for each test, with copies of the samples, and runs of the program there.

use snoekeldraf::{DraftBuilder, DraftEntry, Nonce, Suite, Unit};
use std::ffi::OsStr;
use std::fs;
use std::os::unix::fs::{MetadataExt, PermissionsExt};
use std::path::{Path, PathBuf};
use std::process::{Child, Command, Output, Stdio};

pub const PROGRAM: &str = env!("CARGO_BIN_EXE_snoekeldraf");

/// A folder that is removed at the end.
pub struct Desk {
    pub folder: PathBuf,
}

/// How a run ended.
#[derive(Debug)]
pub struct Ran {
    pub status: Option<i32>,
    pub out: String,
    pub err: String,
}

impl From<Output> for Ran {
    fn from(output: Output) -> Ran {
        let text = |bytes: Vec<u8>| String::from_utf8(bytes).expect("the program prints UTF-8");
        Ran { status: output.status.code(), out: text(output.stdout), err: text(output.stderr) }
    }
}

impl Ran {
    /// The run succeeded without a word on the standard error.
    #[track_caller]
    pub fn done(self) -> String {
        assert_eq!((self.status, &self.err[..]), (Some(0), ""), "{}", self.out);
        self.out
    }

    /// The run ended with this status, and the standard error has all these words.
    #[track_caller]
    pub fn ended(self, status: i32, words: &[&str]) -> Ran {
        assert_eq!(self.status, Some(status), "{self:?}");
        for words in words {
            assert!(self.err.contains(words), "no `{words}` in: {}", self.err);
        }
        self
    }
}

impl Desk {
    pub fn new(name: &str) -> Desk {
        let folder = Path::new(env!("CARGO_TARGET_TMPDIR")).join(format!("office-{name}-{}", std::process::id()));
        let _ = fs::remove_dir_all(&folder);
        fs::create_dir_all(&folder).unwrap();
        for sample in fs::read_dir("../../samples").unwrap().flatten() {
            fs::copy(sample.path(), folder.join(sample.file_name())).unwrap();
        }
        Desk { folder }
    }

    pub fn path(&self, name: &str) -> PathBuf {
        self.folder.join(name)
    }

    pub fn read(&self, name: &str) -> Vec<u8> {
        fs::read(self.path(name)).unwrap_or_else(|error| panic!("{name}: {error}"))
    }

    pub fn write(&self, name: &str, bytes: impl AsRef<[u8]>) {
        fs::write(self.path(name), bytes).unwrap();
    }

    pub fn mode(&self, name: &str) -> u32 {
        fs::metadata(self.path(name)).unwrap().mode() & 0o7777
    }

    pub fn set_mode(&self, name: &str, mode: u32) {
        fs::set_permissions(self.path(name), fs::Permissions::from_mode(mode)).unwrap();
    }

    /// The names in the folder that no test made: files that a run left.
    pub fn left_over(&self) -> Vec<String> {
        let names = fs::read_dir(&self.folder).unwrap().flatten().map(|entry| entry.file_name());
        names.map(|name| name.to_string_lossy().into_owned()).filter(|name| name.starts_with('.')).collect()
    }

    /// The program, to be run in the folder, with a nonce counter of this test.
    pub fn command(&self) -> Command {
        let mut command = Command::new(PROGRAM);
        command.current_dir(&self.folder).env("XDG_STATE_HOME", self.path("state")).stdin(Stdio::null());
        command
    }

    pub fn run<T: AsRef<OsStr>>(&self, args: &[T]) -> Ran {
        self.command().args(args).output().unwrap().into()
    }

    /// Runs words, separated by spaces.
    pub fn call(&self, line: &str) -> Ran {
        self.run(&line.split(' ').collect::<Vec<_>>())
    }

    /// Runs a line of a shell, in which `$program` is the program.
    pub fn shell(&self, line: &str) -> Ran {
        self.shell_command(line).output().unwrap().into()
    }

    pub fn shell_command(&self, line: &str) -> Command {
        let mut command = Command::new("bash");
        command.args(["-c", line]).current_dir(&self.folder).env("program", PROGRAM).stdin(Stdio::null());
        command.env("XDG_STATE_HOME", self.path("state"));
        command
    }

    pub fn start(&self, line: &str) -> Child {
        let mut command = self.command();
        command.args(line.split(' ')).stdout(Stdio::null()).stderr(Stdio::null());
        command.spawn().unwrap()
    }

    /// Writes a draft with messages of these lengths, jobs counted from 0, 5 bytes of associated data each.
    pub fn draft(&self, name: &str, suite: Suite, messages: &[usize]) -> Vec<u8> {
        let mut builder = DraftBuilder::new();
        let message = vec![b'x'; messages.iter().copied().max().unwrap_or(0)];
        for (job, length) in messages.iter().enumerate() {
            let job = job as u32;
            let mut nonce = [0; 16];
            nonce[..4].copy_from_slice(&job.to_le_bytes());
            let nonce = Nonce::assume_fresh(&nonce[..suite.nonce_size()]).unwrap();
            let (unit, message) = (Unit::InchPounds, &message[..*length]);
            builder.push(DraftEntry { job, suite, key_number: 9, nonce, unit, data: b"", message });
        }
        let draft = builder.finish().unwrap();
        self.write(name, &draft);
        draft
    }

    /// A draft of exactly so many bytes with so many entries of suite 3: 45 bytes an entry beside the message.
    pub fn draft_of(&self, name: &str, bytes: usize, rows: usize) -> Vec<u8> {
        let messages = bytes - 8 - 45 * rows;
        let mut lengths = vec![messages / rows; rows];
        lengths[rows - 1] += messages % rows;
        let draft = self.draft(name, Suite::Speck64, &lengths);
        assert_eq!(draft.len(), bytes);
        draft
    }
}

impl Drop for Desk {
    fn drop(&mut self) {
        let _ = fs::remove_dir_all(&self.folder);
    }
}

/// Whether the tests run as root: some things can be tried only then, others only otherwise.
pub fn is_root() -> bool {
    fs::metadata("/proc/self").unwrap().uid() == 0
}

/// What stands before a command so that it runs without root's rights.
pub const AS_NOBODY: &str = "setpriv --reuid=65534 --regid=65534 --clear-groups";
