//! `draft`: a draft of a table of jobs.

use crate::args::Args;
use crate::console::Console;
use crate::csv::{self, Record};
use crate::ended::{Failure, Status};
use crate::input::{read_at_most, same_file};
use crate::nonces::{self, Counter};
use crate::output::{self, Content};
use crate::shown;
use snoekeldraf::{DraftBuilder, DraftEntry, Reason, Refused, Suite, Unit};
use std::path::Path;

/// A table of jobs is not longer: every byte of the longest draft in hexadecimal, and space for the rest.
const TABLE_BYTES_MAX: usize = 4_194_304;

const COLUMNS: &str = "job, suite, key, unit, data (or data_hex), message (or message_hex)";

/// A line of the table.
struct Job {
    line: usize,
    job: u32,
    suite: Suite,
    key_number: u8,
    unit: Unit,
    data: Vec<u8>,
    message: Vec<u8>,
}

pub fn run(args: &Args, console: &mut Console) -> Result<Status, Failure> {
    let (table, out) = (args.at(0), args.at(1));
    let jobs = read(table)?;
    let counter_path = match args.path("nonces") {
        Some(path) => path.to_owned(),
        None => nonces::default_path()?,
    };
    let counter = Counter::lock(&counter_path, console)?;
    // The counter is there by now, so that its other names are recognised too.
    if same_file(out, &counter_path) {
        return Err(Failure::usage(format!("{} is the nonce counter: it is not overwritten", shown::name(out))));
    }
    let draft = draft(&jobs, &counter)?.map_err(|refused| refused_job(table, &jobs, &refused))?;
    counter.advance(jobs.len())?;
    output::write_or_say(out, &draft, Content::Plain)?;
    Ok(Status::Done)
}

/// The draft of the jobs, which the library has checked.
fn draft(jobs: &[Job], counter: &Counter) -> Result<Result<Vec<u8>, Refused>, Failure> {
    let mut builder = DraftBuilder::new();
    for (index, entry) in jobs.iter().enumerate() {
        let Job { job, suite, key_number, unit, .. } = *entry;
        let nonce = counter.nonce(suite, index)?;
        builder.push(DraftEntry { job, suite, key_number, nonce, unit, data: &entry.data, message: &entry.message });
    }
    Ok(builder.finish())
}

/// A refusal with the line of the table that it is about.
fn refused_job(table: &Path, jobs: &[Job], refused: &Refused) -> Failure {
    let row = refused.row.map(|row| row as usize);
    let place = row.and_then(|row| jobs.get(row));
    let place = place.map_or(String::new(), |entry| format!(" line {}, job {}:", entry.line, entry.job));
    let mut words = format!("{}:{place} {} (status {})", shown::name(table), refused.words(), refused.number());
    match (refused.reason, row.and_then(|row| jobs.get(row.checked_sub(1)?))) {
        (Reason::SuiteRetired, _) => words += "\nUse suite 3 or 6 for new records.",
        // The jobs are sorted: one that is not above the one before is the same.
        (Reason::RowOrder, Some(before)) => words += &format!("\nLine {} has this job too.", before.line),
        _ => {}
    }
    Failure::refused(words)
}

/// The jobs of a table, in rising order of their numbers.
fn read(table: &Path) -> Result<Vec<Job>, Failure> {
    let bytes = read_at_most(table, TABLE_BYTES_MAX + 1)?;
    let malformed = |words: String| Failure::refused(format!("{}: {words}", shown::name(table)));
    if bytes.len() > TABLE_BYTES_MAX {
        return Err(malformed(format!("longer than {} bytes", shown::thousands(TABLE_BYTES_MAX))));
    }
    let records = csv::records(&bytes).map_err(|wrong| malformed(format!("line {} {}", wrong.line, wrong.words)))?;
    let mut records = records.into_iter();
    let header =
        records.next().ok_or_else(|| malformed(format!("empty; its first line names the columns: {COLUMNS}")))?;
    let columns = Columns::of(&header).map_err(malformed)?;
    let jobs =
        records.map(|record| columns.job(&record).map_err(|words| malformed(format!("line {}: {words}", record.line))));
    let mut jobs = jobs.collect::<Result<Vec<Job>, Failure>>()?;
    jobs.sort_by_key(|entry| entry.job);
    Ok(jobs)
}

/// Which column holds what. Data and message are text, or bytes in hexadecimal.
struct Columns {
    count: usize,
    job: usize,
    suite: usize,
    key: usize,
    unit: usize,
    data: (usize, IsHex),
    message: (usize, IsHex),
}

type IsHex = bool;

impl Columns {
    /// Reads the first line. Columns may stand in any order; each is there once, and there is no other.
    fn of(header: &Record) -> Result<Columns, String> {
        let named = |name: &str| {
            let mut found = (0..header.fields.len()).filter(|index| header.fields[*index].trim() == name);
            match (found.next(), found.next()) {
                (_, Some(_)) => Err(format!("the column {name} is there twice")),
                (found, None) => Ok(found),
            }
        };
        let one = |name: &str| named(name)?.ok_or_else(|| format!("there is no column {name}; the columns: {COLUMNS}"));
        let either = |name: &str| match (named(name)?, named(&format!("{name}_hex"))?) {
            (Some(_), Some(_)) => Err(format!("the columns {name} and {name}_hex exclude each other")),
            (Some(index), None) => Ok((index, false)),
            (None, Some(index)) => Ok((index, true)),
            (None, None) => one(name).map(|index| (index, false)),
        };
        let columns = Columns {
            count: header.fields.len(),
            job: one("job")?,
            suite: one("suite")?,
            key: one("key")?,
            unit: one("unit")?,
            data: either("data")?,
            message: either("message")?,
        };
        match columns.count {
            6 => Ok(columns),
            _ => Err(format!("there are columns with other names; the columns: {COLUMNS}")),
        }
    }

    fn job(&self, record: &Record) -> Result<Job, String> {
        let fields = &record.fields;
        if fields.len() != self.count {
            return Err(format!("{} fields, the first line has {}", fields.len(), self.count));
        }
        Ok(Job {
            line: record.line,
            job: number(&fields[self.job], u32::MAX).ok_or("the job is no number from 0 to 4294967295")?,
            suite: suite(&fields[self.suite])?,
            key_number: number(&fields[self.key], 15).ok_or("the key is no number from 0 to 15")? as u8,
            unit: unit(&fields[self.unit])?,
            data: content(&fields[self.data.0], self.data.1).ok_or("the data is not hexadecimal")?,
            message: content(&fields[self.message.0], self.message.1).ok_or("the message is not hexadecimal")?,
        })
    }
}

fn number(field: &str, most: u32) -> Option<u32> {
    let digits = field.trim();
    let plain = !digits.is_empty() && digits.bytes().all(|byte| byte.is_ascii_digit());
    digits.parse().ok().filter(|number| plain && *number <= most)
}

fn suite(field: &str) -> Result<Suite, String> {
    let suite = number(field, 6).and_then(|number| Suite::try_from(number as u8).ok());
    suite.ok_or_else(|| "the suite is no number from 1 to 6".to_owned())
}

/// A unit is written out, or is its number: nothing is guessed from an abbreviation.
fn unit(field: &str) -> Result<Unit, String> {
    let units = [Unit::NewtonMetres, Unit::InchPounds];
    let found = units.into_iter().find(|unit| {
        let (words, number) = (unit.to_string(), unit.number().to_string());
        [words, number].contains(&field.trim().to_owned())
    });
    found.ok_or_else(|| "the unit is not newton-metres (or 1) or inch-pounds (or 2)".to_owned())
}

fn content(field: &str, is_hex: IsHex) -> Option<Vec<u8>> {
    if !is_hex {
        return Some(field.as_bytes().to_vec());
    }
    let digits: Option<Vec<u8>> =
        field.trim().chars().map(|digit| digit.to_digit(16).map(|digit| digit as u8)).collect();
    let digits = digits.filter(|digits| digits.len() % 2 == 0)?;
    Some(digits.chunks(2).map(|pair| 16 * pair[0] + pair[1]).collect())
}

#[cfg(test)]
mod tests {
    use super::*;

    #[test]
    fn fields_are_strict() {
        assert_eq!(number(" 15 ", 15), Some(15));
        for wrong in ["", "16", "-1", "+1", "1.0", "1e1", "0x1", "4294967296"] {
            assert_eq!(number(wrong, 15), None, "{wrong}");
        }
        assert_eq!(unit("inch-pounds"), Ok(Unit::InchPounds));
        assert_eq!(unit("1"), Ok(Unit::NewtonMetres));
        for wrong in ["", "Nm", "0", "3", "newton metres", "INCH-POUNDS"] {
            assert!(unit(wrong).is_err(), "{wrong}");
        }
        assert_eq!(content("00fF", true), Some(vec![0, 255]));
        assert_eq!([content("0", true), content("0g", true)], [None, None]);
        assert_eq!(content("0g", false), Some(b"0g".to_vec()));
    }
}
