//! What `job` and `current` print. `difference` and `report` have what `differ` and `inspect` print.

use super::amendment::{amended, open_current};
use super::shift::{edition, open_job, rows, Row};
use crate::show::hex;

/// The greatest length of a file that these programs and those that write a file accept.
pub const ROOM: usize = 1_048_576;

/// Whether a character is shown as itself: no control character, none that sets the direction of writing or ends a line, and
/// no byte order mark.
fn is_shown(character: char) -> bool {
    !character.is_control()
        && !matches!(character, '\u{61c}' | '\u{200e}' | '\u{200f}' | '\u{feff}')
        && !matches!(character, '\u{2028}'..='\u{202e}' | '\u{2066}'..='\u{2069}')
}

/// The bytes as text, if they are UTF-8 and every character is shown as itself.
fn text(bytes: &[u8]) -> Option<&str> {
    std::str::from_utf8(bytes).ok().filter(|text| text.chars().all(is_shown))
}

/// A line with the bytes as text if they are readable, else in hex.
fn bytes_line(name: &str, bytes: &[u8]) -> String {
    match (bytes, text(bytes)) {
        ([], _) => format!("{name} empty\n"),
        (_, Some(text)) => format!("{name} text {text}\n"),
        (_, None) => format!("{name} hex {}\n", hex(bytes)),
    }
}

/// The row that has the job.
fn row_of(file: &[u8], job: u32) -> Row {
    rows(file).into_iter().find(|row| row.job == job).expect("a row")
}

/// The lines of an opened entry: unit, job, suite, key number, station in edition 2, the associated data after job and
/// unit, and the message.
fn entry_lines(file: &[u8], job: u32, message: &[u8]) -> String {
    let row = row_of(file, job);
    let ad = &file[row.associated()];
    let unit = ["", "newton-metres", "inch-pounds"][ad[4] as usize];
    let mut lines = format!("unit {} {unit}\njob {job}\nsuite {}\nkey {}\n", ad[4], row.suite, row.key);
    if edition(file) == 2 {
        lines += &format!("station {}\n", row.station);
    }
    lines + &bytes_line("data", &ad[5..]) + &bytes_line("message", message)
}

/// What `job FILE RING JOB` prints: status and row and, after 0, the entry's lines.
pub fn job(file: &[u8], ring: &[u8], job: u32) -> String {
    let (found, _) = super::shift::lookup(file, job);
    let mut out = vec![0; if found == 0 { row_of(file, job).message } else { 0 }];
    let (status, row) = open_job(file, ring, job, &mut out);
    let lines = if status == 0 { entry_lines(file, job, &out) } else { String::new() };
    format!("{status} {row}\n{lines}")
}

/// What `current AMENDMENT DAY RING JOB` prints: status, file and row and, after 0, the entry's lines.
pub fn current(amendment: &[u8], day: &[u8], ring: &[u8], job: u32) -> String {
    let found = amended(amendment, day, job);
    let source = if found.file == 1 { amendment } else { day };
    let mut out = vec![0; if found.number == 0 { row_of(source, job).message } else { 0 }];
    let (status, file, row) = open_current(amendment, day, ring, job, &mut out);
    let lines = if status == 0 { entry_lines(source, job, &out) } else { String::new() };
    format!("{status} {file} {row}\n{lines}")
}
