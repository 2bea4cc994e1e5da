//! Helpers of the tests that run programs: the repository's root, and a temporary folder for each test.

#![allow(dead_code, reason = "each test file uses a part of it")]

use std::path::{Path, PathBuf};
use std::process::{Command, Output};
use std::sync::OnceLock;

pub const PROGRAMS: [&str; 6] = ["job", "current", "write", "convert", "differ", "inspect"];

pub fn root() -> PathBuf {
    Path::new(env!("CARGO_MANIFEST_DIR")).join("..").canonicalize().unwrap()
}

/// Whether every program is built from these sources, by the functions of `./run` itself, which do not start the prover here.
pub fn is_built() -> bool {
    static BUILT: OnceLock<bool> = OnceLock::new();
    let script =
        ". \"$root/tools/run/prove.sh\"; for name; do is_built \"$name\" \"$(folders \"$name\")\" || exit 1; done";
    let built = BUILT.get_or_init(|| {
        let mut command = Command::new("bash");
        command.args(["-c", script, "run"]).args(PROGRAMS).env("root", root());
        command.status().unwrap().success()
    });
    if !built {
        eprintln!("skipped: the programs are not built from these sources (./run build)");
    }
    *built
}

/// A temporary folder of one test, removed when the test ends.
pub struct Folder(pub PathBuf);

impl Folder {
    pub fn new(name: &str) -> Folder {
        let path = std::env::temp_dir().join(format!("snoekeldraf-{name}-{}", std::process::id()));
        std::fs::create_dir_all(&path).unwrap();
        Folder(path)
    }

    pub fn put(&self, name: &str, bytes: &[u8]) {
        std::fs::write(self.0.join(name), bytes).unwrap();
    }

    pub fn get(&self, name: &str) -> Vec<u8> {
        std::fs::read(self.0.join(name)).unwrap()
    }

    pub fn names(&self) -> Vec<String> {
        let entries = std::fs::read_dir(&self.0).unwrap();
        let mut names: Vec<String> = entries.map(|entry| entry.unwrap().file_name().into_string().unwrap()).collect();
        names.sort();
        names
    }

    /// The command `./run` in this folder, not yet started.
    pub fn command(&self, arguments: &[&str]) -> Command {
        let mut command = Command::new(root().join("run"));
        command.args(arguments).current_dir(&self.0);
        command
    }

    /// Runs `./run`: exit status, standard output and standard error.
    pub fn run(&self, arguments: &[&str]) -> (i32, String, String) {
        ended(self.command(arguments).output().unwrap())
    }

    /// Runs a shell script in this folder, in which `$0` is `./run`: exit status, standard output and standard error.
    pub fn shell(&self, script: &str) -> (i32, String, String) {
        let mut command = Command::new("bash");
        ended(command.args(["-c", script]).arg(root().join("run")).current_dir(&self.0).output().unwrap())
    }
}

/// Exit status (-1 if a signal ended the program), standard output and standard error.
pub fn ended(output: Output) -> (i32, String, String) {
    let text = |bytes: Vec<u8>| String::from_utf8_lossy(&bytes).into_owned();
    (output.status.code().unwrap_or(-1), text(output.stdout), text(output.stderr))
}

impl Drop for Folder {
    fn drop(&mut self) {
        let _ = std::fs::remove_dir_all(&self.0);
    }
}
