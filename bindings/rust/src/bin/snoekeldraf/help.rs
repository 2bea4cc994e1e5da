//! Help, version and shell completion.

use crate::args::Args;
use crate::command::{find, Command, COMMANDS};
use crate::console::Console;
use crate::ended::{Failure, Status};
use snoekeldraf::library_version;
use std::ffi::OsString;

const STATUSES: &str = "\
Exit status: 0 done; 1 a file was refused, a tag is wrong, or two files differ;
2 wrong usage; 3 a file could not be read or written.
";

/// The program's version and the library's.
pub fn version() -> String {
    let (major, minor, patch) = library_version();
    format!("snoekeldraf {} (library {major}.{minor}.{patch})", env!("CARGO_PKG_VERSION"))
}

/// What there is.
pub fn overview() -> String {
    let mut text = "usage: snoekeldraf COMMAND ARGUMENTS\n\n".to_owned();
    for command in &COMMANDS {
        text += &format!("  {:<11} {}\n", command.name, command.about);
    }
    text += "\n`snoekeldraf help COMMAND` says more, `snoekeldraf --version` the version.\n";
    text + STATUSES
}

/// How a command is called, and what it does.
pub fn of(command: &Command) -> String {
    let mut text = format!("usage: snoekeldraf {} {}\n\n", command.name, command.usage);
    text += &format!("`{}` {}.\n{}\n", command.name, command.about, details(command.name));
    for option in command.options {
        let call = format!("--{} {}", option.name, option.value.unwrap_or(""));
        text += &format!("  {call:<18} {}\n", option.about);
    }
    text + "  --help             print this\n\n" + STATUSES
}

/// Help on one command, or on all.
pub fn print(about: Option<&OsString>, console: &mut Console) -> Result<Status, Failure> {
    let text = match about {
        None => overview(),
        Some(name) => of(find(name)?),
    };
    console.print(&text).map(|()| Status::Done)
}

/// What help says of the commands beside what each does.
const DETAILS: [(&[&str], &str); 9] = [
    (
        &["list"],
        "\
Without a ring nothing is verified: units are shown as claimed. With a ring each
tag is compared, and a unit is shown without that word if its tag is right. A
tag never covers the station. A file that is refused does not end the run.
",
    ),
    (
        &["verify"],
        "\
It prints a line for each file. The standard error names the jobs with wrong
tags. A file that is refused or cannot be read does not end the run.
",
    ),
    (
        &["open", "current"],
        "\
The tag is compared first: if it is wrong, nothing of the entry is printed. Data
and message are shown as text if they are UTF-8 without control characters, else
in hexadecimal. With --out the message is written to OUT, byte for byte, for the
owner alone.
",
    ),
    (
        &["diff"],
        "\
No tag is compared. The exit status is 1 if the files differ.
",
    ),
    (
        &["draft"],
        "\
The first line of the table names the columns, in any order: job, suite (1 to
6), key (0 to 15), unit (newton-metres or inch-pounds), data, message. data_hex
and message_hex take bytes in hexadecimal. The separator is a comma, a semicolon
or a tab. The draft's entries are in the order of their job numbers.
Nonces come from a counter, which is advanced and on the disk before the draft
is written. It is COUNTER, or $XDG_STATE_HOME/snoekeldraf/nonces, or else
~/.local/state/snoekeldraf/nonces. It is made if it is not there.
OUT is readable by its owner alone: it is not sealed yet.
",
    ),
    (
        &["unseal"],
        "\
OUT is readable by its owner alone. It may be FILE, and may not be the ring.
",
    ),
    (
        &["seal", "reseal"],
        "\
OUT is there whole or not at all. It may be the input, and may not be the ring.
",
    ),
    (
        &["convert"],
        "\
Edition 2 has a station number in each row. --to 2 sets every station to 0;
--to 1 is refused if a station is not 0. No entry is opened. OUT may be FILE.
",
    ),
    (
        &["completion"],
        "\
  bash: ~/.local/share/bash-completion/completions/snoekeldraf
  zsh:  _snoekeldraf in a folder of $fpath
  fish: ~/.config/fish/completions/snoekeldraf.fish
",
    ),
];

fn details(name: &str) -> &'static str {
    DETAILS.iter().find(|(names, _)| names.contains(&name)).map_or("", |(_, text)| text)
}

/// Prints a shell's completion.
pub fn completion(args: &Args, console: &mut Console) -> Result<Status, Failure> {
    let script = match args.at(0).to_str() {
        Some("bash") => include_str!("../../../completions/snoekeldraf.bash"),
        Some("zsh") => include_str!("../../../completions/_snoekeldraf"),
        Some("fish") => include_str!("../../../completions/snoekeldraf.fish"),
        _ => return Err(Failure::usage("there is completion for bash, zsh and fish")),
    };
    console.print(script).map(|()| Status::Done)
}
