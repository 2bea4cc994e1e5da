//! `diff`: the jobs in which two shift files differ, and in what.

use crate::args::Args;
use crate::console::Console;
use crate::ended::{Failure, Status};
use crate::input::Input;
use crate::json::{csv_line, Form, Json};
use crate::list::suite;
use crate::refusal::{self, Takes};
use crate::shown;
use snoekeldraf::{compare_vec, Differences, Entry, Refused, ShiftFile};
use std::fmt::Display;

/// A field in which two entries differ, and its values where they are short.
struct Field {
    name: &'static str,
    values: Option<[String; 2]>,
}

pub fn run(args: &Args, console: &mut Console) -> Result<Status, Failure> {
    let form = Form::asked(args)?;
    let (first, second) = (Input::read(args.at(0))?, Input::read(args.at(1))?);
    let found = compare_vec(&first.bytes, &second.bytes).map_err(|refused| {
        let input = if refused.file == Some(1) { &first } else { &second };
        refusal::of_file(input, Takes::Either, refused)
    })?;
    let fields =
        fields_of_all(&first, &second, &found.differ).map_err(|refused| Failure::refused(refused.to_string()))?;
    match form {
        Form::Table => print_lines(&first, &second, &found, &fields, console)?,
        Form::Csv => print_csv(&found, &fields, console)?,
        Form::Json => console.line(&json(&found, &fields).written())?,
    }
    let same = found.only_first.is_empty() && found.only_second.is_empty() && found.differ.is_empty();
    Ok(if same { Status::Done } else { Status::Refused })
}

/// The fields of each job that is in both files but different.
fn fields_of_all(first: &Input, second: &Input, jobs: &[u32]) -> Result<Vec<(u32, Vec<Field>)>, Refused> {
    let (first, second) = (ShiftFile::check(&first.bytes)?, ShiftFile::check(&second.bytes)?);
    let of_job = |job: &u32| Ok((*job, fields(&first.unverified_entry(*job)?, &second.unverified_entry(*job)?)));
    jobs.iter().map(of_job).collect()
}

fn fields(a: &Entry, b: &Entry) -> Vec<Field> {
    let mut fields = vec![];
    let mut shown = |name, one: String, other: String| {
        if one != other {
            fields.push(Field { name, values: Some([one, other]) });
        }
    };
    shown("unit", a.unverified_unit.to_string(), b.unverified_unit.to_string());
    shown("station", a.unverified_station.to_string(), b.unverified_station.to_string());
    shown("suite", suite(a.suite), suite(b.suite));
    shown("key", a.key_number.to_string(), b.key_number.to_string());
    shown("length", a.text.len().to_string(), b.text.len().to_string());
    let parts = [
        ("data", &a.unverified_ad[5..], &b.unverified_ad[5..]),
        ("nonce", a.nonce, b.nonce),
        ("ciphertext", a.text, b.text),
        ("tag", a.tag, b.tag),
    ];
    let other = parts.into_iter().filter(|(_, one, other)| one != other);
    fields.extend(other.map(|(name, ..)| Field { name, values: None }));
    fields
}

fn joined<T: Display>(items: impl IntoIterator<Item = T>, separator: &str) -> String {
    items.into_iter().map(|item| item.to_string()).collect::<Vec<_>>().join(separator)
}

impl Display for Field {
    fn fmt(&self, f: &mut std::fmt::Formatter) -> std::fmt::Result {
        match &self.values {
            Some([one, other]) => write!(f, "{} {one} -> {other}", self.name),
            None => f.write_str(self.name),
        }
    }
}

fn print_lines(
    first: &Input,
    second: &Input,
    found: &Differences,
    fields: &[(u32, Vec<Field>)],
    console: &mut Console,
) -> Result<(), Failure> {
    for (input, jobs) in [(first, &found.only_first), (second, &found.only_second)] {
        if !jobs.is_empty() {
            let count = shown::count(jobs.len(), "job", "jobs");
            console.line(&format!("only in {}, {count}: {}", input.name(), joined(jobs, " ")))?;
        }
    }
    if !fields.is_empty() {
        console.line(&format!("in both and different, {}:", shown::count(fields.len(), "job", "jobs")))?;
        let width = fields.iter().map(|(job, _)| job.to_string().len()).max().unwrap_or(0);
        for (job, fields) in fields {
            console.line(&format!("  {job:>width$}  {}", joined(fields, ", ")))?;
        }
        console.line("No tag was compared: units, stations and data are what each file claims.")?;
    }
    Ok(())
}

fn print_csv(found: &Differences, fields: &[(u32, Vec<Field>)], console: &mut Console) -> Result<(), Failure> {
    console.line("job,where,field,first,second")?;
    for (jobs, place) in [(&found.only_first, "first"), (&found.only_second, "second")] {
        for job in jobs {
            console.line(&csv_line(&[&job.to_string(), place, "", "", ""]))?;
        }
    }
    for (job, fields) in fields {
        for field in fields {
            let [one, other] = field.values.clone().unwrap_or_default();
            console.line(&csv_line(&[&job.to_string(), "both", field.name, &one, &other]))?;
        }
    }
    Ok(())
}

fn json(found: &Differences, fields: &[(u32, Vec<Field>)]) -> Json {
    let of_field = |field: &Field| {
        let [one, other] = match &field.values {
            Some(values) => values.clone().map(Json::text),
            None => [Json::Null, Json::Null],
        };
        Json::Object(vec![("field", Json::text(field.name)), ("first", one), ("second", other)])
    };
    let of_job = |(job, fields): &(u32, Vec<Field>)| {
        let fields = fields.iter().map(of_field).collect();
        Json::Object(vec![("job", (*job).into()), ("fields", Json::List(fields))])
    };
    Json::Object(vec![
        ("only_first", Json::numbers(&found.only_first)),
        ("only_second", Json::numbers(&found.only_second)),
        ("differ", Json::List(fields.iter().map(of_job).collect())),
    ])
}
