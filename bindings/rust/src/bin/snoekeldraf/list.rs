//! `list`: the entries of shift files.

use crate::args::Args;
use crate::console::{Console, Tone};
use crate::ended::{Failure, Status};
use crate::input::{self, Input};
use crate::json::{csv_line, Form, Json};
use crate::refusal::{self, Takes};
use crate::shown;
use crate::table::{self, Cell, Heading};
use crate::verify::wrong_tags;
use snoekeldraf::{Entry, Ring, ShiftFile, Suite};
use std::path::Path;

pub fn run(args: &Args, console: &mut Console) -> Result<Status, Failure> {
    let form = Form::asked(args)?;
    let ring = args.path("ring").map(input::ring).transpose()?;
    let (mut status, of) = (Status::Done, args.all().len());
    match form {
        Form::Table => {}
        Form::Csv => console.line(&csv_line(&COLUMNS))?,
        Form::Json => console.line("[")?,
    }
    for (index, path) in args.all().enumerate() {
        console.progress(index, of);
        let listing = Listing { path, form, is_first: index == 0, is_last: index + 1 == of };
        status = status.max(listing.of_file(ring.as_deref(), console)?);
    }
    if form == Form::Json {
        console.line("]")?;
    }
    Ok(status)
}

/// What is known of an entry's tag.
#[derive(Clone, Copy, PartialEq, Eq, Debug)]
enum Verdict {
    /// No ring was given.
    Claimed,
    Verified,
    WrongTag,
}

impl Verdict {
    /// Compares the tag if there is a ring.
    fn of(entry: &Entry, ring: Option<&Ring>) -> Verdict {
        match ring.map(|ring| entry.verify(ring)) {
            None => Verdict::Claimed,
            Some(Ok(_)) => Verdict::Verified,
            Some(Err(_)) => Verdict::WrongTag,
        }
    }

    fn words(self) -> &'static str {
        match self {
            Verdict::Claimed => "claimed",
            Verdict::Verified => "verified",
            Verdict::WrongTag => "WRONG TAG",
        }
    }

    fn tone(self) -> Tone {
        match self {
            Verdict::Claimed => Tone::Plain,
            Verdict::Verified => Tone::Good,
            Verdict::WrongTag => Tone::Bad,
        }
    }

    /// The unit in words; it is a fact only after the tag was compared.
    fn unit(self, entry: &Entry) -> String {
        match self {
            Verdict::Verified => entry.unverified_unit.to_string(),
            Verdict::Claimed | Verdict::WrongTag => format!("claimed {}", entry.unverified_unit),
        }
    }
}

/// The suite's number, its cipher and its version of COMET: `3 Speck-64/128 v1`.
pub fn suite(suite: Suite) -> String {
    format!("{} {}", suite.number(), suite.to_string().replace(", COMET version ", " v"))
}

const COLUMNS: [&str; 9] = ["file", "job", "unit", "unit_verified", "station", "suite", "key", "length", "verdict"];

type Row<'a> = (Entry<'a>, Verdict);

/// The listing of one file.
struct Listing<'p> {
    path: &'p Path,
    form: Form,
    is_first: bool,
    is_last: bool,
}

impl Listing<'_> {
    /// Lists the file. That it is refused or cannot be read is said, and does not end the run.
    fn of_file(&self, ring: Option<&Ring>, console: &mut Console) -> Result<Status, Failure> {
        let input = match Input::read(self.path) {
            Ok(input) => input,
            Err(failure) => return self.failed(&failure, console),
        };
        match ShiftFile::check(&input.bytes) {
            Ok(file) => self.entries(file, ring, console),
            Err(refused) => self.failed(&refusal::of_file(&input, Takes::Either, refused), console),
        }
    }

    fn failed(&self, failure: &Failure, console: &mut Console) -> Result<Status, Failure> {
        if self.form == Form::Json {
            self.object(vec![("error", Json::text(&failure.words))], console)?;
        }
        console.say(&failure.words);
        Ok(failure.status)
    }

    fn entries(&self, file: ShiftFile, ring: Option<&Ring>, console: &mut Console) -> Result<Status, Failure> {
        let rows: Vec<Row> = file.entries().map(|entry| (entry, Verdict::of(&entry, ring))).collect();
        match self.form {
            Form::Table => self.table(file, &rows, console)?,
            Form::Csv => self.csv(file, &rows, console)?,
            Form::Json => {
                let entries = rows.iter().map(|row| json(file, row)).collect();
                let edition = ("edition", Json::from(file.edition()));
                self.object(vec![edition, ("entries", Json::List(entries))], console)?;
            }
        }
        let wrong: Vec<u32> =
            rows.iter().filter(|row| row.1 == Verdict::WrongTag).map(|(entry, _)| entry.unverified_job).collect();
        if wrong.is_empty() {
            return Ok(Status::Done);
        }
        console.say(&wrong_tags(self.path, rows.len(), &wrong));
        Ok(Status::Refused)
    }

    fn table(&self, file: ShiftFile, rows: &[Row], console: &mut Console) -> Result<(), Failure> {
        if !self.is_first {
            console.line("")?;
        }
        let entries = shown::count(rows.len(), "entry", "entries");
        console.line(&format!("{}: edition {}, {entries}", shown::name(self.path), file.edition()))?;
        if rows.is_empty() {
            return Ok(());
        }
        let cells: Vec<[Cell; 7]> = rows.iter().map(|row| cells(file, row)).collect();
        table::print(console, &HEADINGS, &cells)?;
        if file.edition() == 2 {
            console.line("A tag does not cover the station: stations are what the file claims.")?;
        }
        Ok(())
    }

    fn csv(&self, file: ShiftFile, rows: &[Row], console: &mut Console) -> Result<(), Failure> {
        for (entry, verdict) in rows {
            console.line(&csv_line(&[
                self.path.to_string_lossy().into_owned(),
                entry.unverified_job.to_string(),
                entry.unverified_unit.to_string(),
                (*verdict == Verdict::Verified).to_string(),
                station(file, entry).map_or(String::new(), |station| station.to_string()),
                entry.suite.number().to_string(),
                entry.key_number.to_string(),
                entry.text.len().to_string(),
                verdict.words().to_owned(),
            ]))?;
        }
        Ok(())
    }

    /// Prints the file's object on a line of the list.
    fn object(&self, mut members: Vec<(&'static str, Json)>, console: &mut Console) -> Result<(), Failure> {
        members.insert(0, ("file", Json::text(self.path.to_string_lossy())));
        let comma = if self.is_last { "" } else { "," };
        console.line(&format!("{}{comma}", Json::Object(members).written()))
    }
}

const HEADINGS: [Heading; 7] = [
    Heading::Right("job"),
    Heading::Left("unit"),
    Heading::Right("station"),
    Heading::Left("suite"),
    Heading::Right("key"),
    Heading::Right("bytes"),
    Heading::Left("verdict"),
];

fn cells(file: ShiftFile, (entry, verdict): &Row) -> [Cell; 7] {
    [
        entry.unverified_job.to_string().into(),
        verdict.unit(entry).into(),
        station(file, entry).map_or("-".to_owned(), |station| station.to_string()).into(),
        suite(entry.suite).into(),
        entry.key_number.to_string().into(),
        entry.text.len().to_string().into(),
        Cell::toned(verdict.words(), verdict.tone()),
    ]
}

fn json(file: ShiftFile, (entry, verdict): &Row) -> Json {
    Json::Object(vec![
        ("job", entry.unverified_job.into()),
        ("unit", Json::text(entry.unverified_unit.to_string())),
        ("unit_verified", Json::Bool(*verdict == Verdict::Verified)),
        ("station", station(file, entry).map_or(Json::Null, Json::from)),
        ("suite", entry.suite.number().into()),
        ("key", entry.key_number.into()),
        ("length", (entry.text.len() as u64).into()),
        ("verdict", Json::text(verdict.words())),
    ])
}

/// The station; a file of edition 1 has none.
fn station(file: ShiftFile, entry: &Entry) -> Option<u32> {
    (file.edition() == 2).then_some(entry.unverified_station)
}
