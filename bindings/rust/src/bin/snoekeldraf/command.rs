//! The commands, how each is called, and what runs it.

use crate::args::{Args, Opt};
use crate::console::Console;
use crate::ended::{Failure, Status};
use crate::{convert, diff, draft, help, list, open, shown, verify};
use std::ffi::OsString;
use std::ops::RangeInclusive;

/// What runs a command.
type Run = fn(&Args, &mut Console) -> Result<Status, Failure>;

/// A command.
pub struct Command {
    pub name: &'static str,
    /// How it is called, after its name.
    pub usage: &'static str,
    /// What it does, in one line.
    pub about: &'static str,
    pub options: &'static [Opt],
    count: RangeInclusive<usize>,
    run: Run,
}

#[rustfmt::skip]
mod options {
    use super::Opt;

    pub const RING: Opt = Opt { name: "ring", value: Some("RING"), about: "the file of 256 bytes with the sixteen keys" };
    pub const CSV: Opt = Opt { name: "csv", value: None, about: "print CSV" };
    pub const JSON: Opt = Opt { name: "json", value: None, about: "print JSON" };
    pub const OUT: Opt = Opt { name: "out", value: Some("OUT"), about: "the file for the message" };
    pub const TO: Opt = Opt { name: "to", value: Some("EDITION"), about: "the edition to move to, 1 or 2" };
    pub const NONCES: Opt = Opt { name: "nonces", value: Some("COUNTER"), about: "the file of the nonce counter" };
}

use options::{CSV, JSON, NONCES, OUT, RING, TO};

const ANY: RangeInclusive<usize> = 1..=usize::MAX;

/// Every command, in the order in which help lists them.
pub const COMMANDS: [Command; 11] = [
    Command {
        name: "list",
        usage: "FILE.. [--ring RING] [--csv | --json]",
        about: "lists the entries of shift files",
        options: &[RING, CSV, JSON],
        count: ANY,
        run: list::run,
    },
    Command {
        name: "verify",
        usage: "FILE.. --ring RING",
        about: "compares every tag of shift files",
        options: &[RING],
        count: ANY,
        run: verify::run,
    },
    Command {
        name: "open",
        usage: "FILE JOB --ring RING [--out OUT] [--json]",
        about: "opens one job",
        options: &[RING, OUT, JSON],
        count: 2..=2,
        run: open::open,
    },
    Command {
        name: "current",
        usage: "AMENDMENT DAY JOB --ring RING [--out OUT] [--json]",
        about: "opens a job as it stands after an amendment",
        options: &[RING, OUT, JSON],
        count: 3..=3,
        run: open::current,
    },
    Command {
        name: "diff",
        usage: "FIRST SECOND [--csv | --json]",
        about: "names the jobs in which two shift files differ, and the fields",
        options: &[CSV, JSON],
        count: 2..=2,
        run: diff::run,
    },
    Command {
        name: "draft",
        usage: "CSV OUT [--nonces COUNTER]",
        about: "makes a draft of a table of jobs",
        options: &[NONCES],
        count: 2..=2,
        run: draft::run,
    },
    Command {
        name: "seal",
        usage: "DRAFT OUT --ring RING",
        about: "seals a draft: OUT is the shift file",
        options: &[RING],
        count: 2..=2,
        run: convert::seal,
    },
    Command {
        name: "unseal",
        usage: "FILE OUT --ring RING",
        about: "opens a whole shift file: OUT is its draft",
        options: &[RING],
        count: 2..=2,
        run: convert::unseal,
    },
    Command {
        name: "reseal",
        usage: "FILE OUT --ring RING",
        about: "seals suite 4 entries again as suite 3",
        options: &[RING],
        count: 2..=2,
        run: convert::reseal,
    },
    Command {
        name: "convert",
        usage: "FILE OUT --to EDITION",
        about: "moves a shift file from edition 1 to 2, or from 2 to 1",
        options: &[TO],
        count: 2..=2,
        run: convert::convert,
    },
    Command {
        name: "completion",
        usage: "SHELL",
        about: "prints the completion for bash, zsh or fish",
        options: &[],
        count: 1..=1,
        run: help::completion,
    },
];

/// Runs what the arguments ask for.
pub fn run(mut arguments: Vec<OsString>, console: &mut Console) -> Result<Status, Failure> {
    if arguments.is_empty() {
        console.explain(&help::overview());
        return Ok(Status::Usage);
    }
    let name = arguments.remove(0);
    match name.to_str() {
        Some("--version" | "-V") => console.line(&help::version()).map(|()| Status::Done),
        Some("help" | "--help" | "-h") => help::print(arguments.first(), console),
        _ => {
            let command = find(&name)?;
            if arguments.iter().take_while(|argument| *argument != "--").any(asks_for_help) {
                return console.print(&help::of(command)).map(|()| Status::Done);
            }
            let args = Args::parse(arguments, command.options, &command.count);
            args.and_then(|args| (command.run)(&args, console)).map_err(|failure| with_usage(failure, command))
        }
    }
}

/// The command with a name.
pub fn find(name: &OsString) -> Result<&'static Command, Failure> {
    let found = COMMANDS.iter().find(|command| name == command.name);
    found.ok_or_else(|| {
        let names: Vec<&str> = COMMANDS.iter().map(|command| command.name).collect();
        Failure::usage(format!("there is no command {}; there are: {}", shown::name(name), names.join(", ")))
    })
}

fn asks_for_help(argument: &OsString) -> bool {
    argument == "--help" || argument == "-h"
}

/// A wrong call is followed by how the command is called.
fn with_usage(failure: Failure, command: &Command) -> Failure {
    match failure.status {
        Status::Usage => Failure {
            words: format!("{}\nusage: snoekeldraf {} {}", failure.words, command.name, command.usage),
            ..failure
        },
        _ => failure,
    }
}
