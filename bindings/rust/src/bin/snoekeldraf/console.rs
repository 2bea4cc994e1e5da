//! The standard output and the standard error.

use crate::ended::{reason, Failure};
use std::env;
use std::io::{self, BufWriter, ErrorKind, IsTerminal, Stderr, Stdout, Write};
use std::time::{Duration, Instant};

/// Work that takes less than this shows no progress line, and the line changes no more often.
const PROGRESS_EVERY: Duration = Duration::from_millis(250);

/// What colour says. It never says it alone.
#[derive(Clone, Copy, PartialEq, Eq, Debug)]
pub enum Tone {
    Plain,
    Good,
    Bad,
}

/// The standard output, buffered, and the standard error.
pub struct Console {
    out: BufWriter<Stdout>,
    err: Stderr,
    coloured: bool,
    /// The reader of the standard output went away: the work goes on, so that the exit status is right.
    gone: bool,
    progress: Option<Instant>,
    progress_shown: bool,
}

impl Console {
    pub fn new() -> Console {
        let (out, err) = (io::stdout(), io::stderr());
        let wanted = env::var_os("NO_COLOR").map_or(true, |value| value.is_empty());
        let able = env::var_os("TERM").map_or(true, |terminal| terminal != "dumb");
        let coloured = wanted && able && out.is_terminal();
        let progress = (able && err.is_terminal()).then(Instant::now);
        Console { out: BufWriter::new(out), err, coloured, gone: false, progress, progress_shown: false }
    }

    /// Prints a line on the standard output.
    pub fn line(&mut self, line: &str) -> Result<(), Failure> {
        self.print(&format!("{line}\n"))
    }

    /// Prints on the standard output.
    pub fn print(&mut self, text: &str) -> Result<(), Failure> {
        self.clear_progress();
        let written = if self.gone { Ok(()) } else { self.out.write_all(text.as_bytes()) };
        self.accept(written)
    }

    /// Sends what was printed on its way.
    pub fn flush(&mut self) -> Result<(), Failure> {
        self.clear_progress();
        let flushed = if self.gone { Ok(()) } else { self.out.flush() };
        self.accept(flushed)
    }

    /// A reader that goes away is no error; a full disk is one.
    fn accept(&mut self, written: io::Result<()>) -> Result<(), Failure> {
        match written {
            Ok(()) => Ok(()),
            Err(error) if error.kind() == ErrorKind::BrokenPipe => {
                self.gone = true;
                Ok(())
            }
            Err(error) => {
                self.gone = true; // what is still buffered is not tried again
                Err(Failure::broken(format!("the standard output cannot be written: {}", reason(&error))))
            }
        }
    }

    /// Prints lines on the standard error, after what was printed on the standard output.
    pub fn say(&mut self, words: &str) {
        self.clear_progress();
        if !self.gone {
            let _ = self.out.flush(); // tried again, and reported, by `flush`
        }
        for line in words.lines() {
            let _ = writeln!(self.err, "snoekeldraf: {line}"); // there is nowhere left to report it
        }
    }

    /// Prints help on the standard error.
    pub fn explain(&mut self, text: &str) {
        let _ = self.err.write_all(text.as_bytes()); // there is nowhere left to report it
    }

    /// Text in a colour, if the standard output is a terminal and NO_COLOR is not set.
    pub fn toned(&self, text: &str, tone: Tone) -> String {
        match tone {
            Tone::Good if self.coloured => format!("\x1b[32m{text}\x1b[0m"),
            Tone::Bad if self.coloured => format!("\x1b[1;31m{text}\x1b[0m"),
            _ => text.to_owned(),
        }
    }

    /// Shows how far long work is, if the standard error is a terminal.
    pub fn progress(&mut self, done: usize, of: usize) {
        let Some(last) = self.progress else { return };
        if of > 1 && last.elapsed() >= PROGRESS_EVERY {
            let _ = write!(self.err, "\r\x1b[K{done} of {of} files");
            self.progress = Some(Instant::now());
            self.progress_shown = true;
        }
    }

    fn clear_progress(&mut self) {
        if self.progress_shown {
            let _ = write!(self.err, "\r\x1b[K");
            self.progress_shown = false;
        }
    }
}
