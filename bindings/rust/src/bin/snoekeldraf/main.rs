//! `snoekeldraf`: lists, verifies, opens, seals and compares shift files, for the plant's office and its suppliers.
//!
//! Every verdict comes from the proved library, through the crate of this package. What this program adds (arguments, files,
//! tables of text) is tested, not proved.

#![deny(unsafe_code)]

mod args;
mod command;
mod console;
mod convert;
mod csv;
mod diff;
mod draft;
mod ended;
mod help;
mod input;
mod json;
mod list;
mod nonces;
mod open;
mod output;
mod refusal;
mod shown;
#[allow(unsafe_code)]
mod system;
mod table;
mod verify;

use console::Console;
use std::env::args_os;
use std::process::ExitCode;

fn main() -> ExitCode {
    system::remove_unfinished_when_interrupted();
    let mut console = Console::new();
    let ran = command::run(args_os().skip(1).collect(), &mut console);
    let ended = ran.and_then(|status| console.flush().map(|()| status));
    ExitCode::from(match ended {
        Ok(status) => status.number(),
        Err(failure) => {
            // What was printed before stays before the reason; that it cannot be printed is no second reason.
            let _ = console.flush();
            console.say(&failure.words);
            failure.status.number()
        }
    })
}
