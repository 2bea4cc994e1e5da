//! `open` and `current`: one job, after its tag was compared.

use crate::args::Args;
use crate::console::Console;
use crate::ended::{Failure, Status};
use crate::input::{self, same_file, Input};
use crate::json::Json;
use crate::output::{self, Content};
use crate::refusal::{self, Takes};
use crate::shown;
use snoekeldraf::{open_amended, unverified_current, Entry, Holder, Refused, Ring, ShiftFile, Verified};
use std::path::Path;

/// An opened entry.
struct Opened<'a> {
    from: &'a Input,
    entry: Entry<'a>,
    verified: Verified<'a>,
    message: Vec<u8>,
}

pub fn open(args: &Args, console: &mut Console) -> Result<Status, Failure> {
    let job = args.job(1)?;
    let ring_path = args.needed("ring")?;
    let out = checked_out(args, ring_path)?;
    let (input, ring) = (Input::read(args.at(0))?, input::ring(ring_path)?);
    let refused = |refused| refusal::with_ring(&input, &ring, Takes::Either, refused);
    let opened = opened(&input, &ring, job).map_err(|refused_by| of_job(refused(refused_by), job))?;
    show(&opened, out, args.has("json"), console)
}

fn opened<'a>(from: &'a Input, ring: &Ring, job: u32) -> Result<Opened<'a>, Refused> {
    let file = ShiftFile::check(&from.bytes)?;
    let entry = file.unverified_entry(job)?;
    let mut message = vec![0; entry.text.len()];
    let verified = file.open_job(ring, job, &mut message)?;
    Ok(Opened { from, entry, verified, message })
}

pub fn current(args: &Args, console: &mut Console) -> Result<Status, Failure> {
    let job = args.job(2)?;
    let ring_path = args.needed("ring")?;
    let out = checked_out(args, ring_path)?;
    let (amendment, day) = (Input::read(args.at(0))?, Input::read(args.at(1))?);
    let ring = input::ring(ring_path)?;
    let opened = opened_current(&amendment, &day, &ring, job).map_err(|refused| {
        let failure = match refused.file {
            Some(1) => refusal::with_ring(&amendment, &ring, Takes::Either, refused),
            Some(_) => refusal::with_ring(&day, &ring, Takes::Either, refused),
            None => Failure::refused(format!("{} and {}: {refused}", amendment.name(), day.name())),
        };
        of_job(failure, job)
    })?;
    show(&opened, out, args.has("json"), console)
}

fn opened_current<'a>(amendment: &'a Input, day: &'a Input, ring: &Ring, job: u32) -> Result<Opened<'a>, Refused> {
    let from = match unverified_current(&amendment.bytes, &day.bytes, job)?.holder {
        Holder::Amendment => amendment,
        Holder::Day => day,
    };
    let entry = ShiftFile::check(&from.bytes)?.unverified_entry(job)?;
    let mut message = vec![0; entry.text.len()];
    let (_, verified) = open_amended(&amendment.bytes, &day.bytes, ring, job, &mut message)?;
    Ok(Opened { from, entry, verified, message })
}

/// The option `--out`, which may not be the ring.
fn checked_out<'a>(args: &'a Args, ring: &Path) -> Result<Option<&'a Path>, Failure> {
    match args.path("out") {
        Some(out) if same_file(out, ring) => Err(output::is_the_ring(out)),
        out => Ok(out),
    }
}

/// Names the job that a refusal is about.
fn of_job(failure: Failure, job: u32) -> Failure {
    Failure { words: format!("job {job} is not opened\n{}", failure.words), ..failure }
}

/// Writes the message to a file if one is named, and prints what the entry holds.
fn show(opened: &Opened, out: Option<&Path>, as_json: bool, console: &mut Console) -> Result<Status, Failure> {
    if let Some(out) = out {
        output::write_or_say(out, &opened.message, Content::Plain)?;
    }
    match as_json {
        true => console.line(&json(opened).written())?,
        false => lines(opened, out, console)?,
    }
    Ok(Status::Done)
}

fn lines(opened: &Opened, out: Option<&Path>, console: &mut Console) -> Result<(), Failure> {
    let Opened { from, entry, verified, message } = opened;
    console.line(&format!("file     {}", from.name()))?;
    console.line(&format!("job      {}", verified.job()))?;
    console.line(&format!("unit     {}, verified", verified.unit()))?;
    console.line(&format!("suite    {}, {}", entry.suite.number(), entry.suite))?;
    console.line(&format!("key      {}", entry.key_number))?;
    if has_station(from) {
        console.line(&format!("station  {}, claimed: a tag does not cover it", entry.unverified_station))?;
    }
    console.line(&format!("data     {}", shown::bytes(verified.data())))?;
    match out {
        Some(out) => console.line(&format!("message  {} bytes in {}", message.len(), shown::name(out))),
        None => console.line(&format!("message  {}", shown::bytes(message))),
    }
}

fn json(opened: &Opened) -> Json {
    let Opened { from, entry, verified, message } = opened;
    let station = if has_station(from) { entry.unverified_station.into() } else { Json::Null };
    Json::Object(vec![
        ("file", Json::text(from.path.to_string_lossy())),
        ("job", verified.job().into()),
        ("unit", Json::text(verified.unit().to_string())),
        ("unit_verified", Json::Bool(true)),
        ("station", station),
        ("suite", entry.suite.number().into()),
        ("key", entry.key_number.into()),
        ("data", Json::bytes(verified.data())),
        ("message", Json::bytes(message)),
    ])
}

fn has_station(from: &Input) -> bool {
    ShiftFile::check(&from.bytes).is_ok_and(|file| file.edition() == 2)
}
