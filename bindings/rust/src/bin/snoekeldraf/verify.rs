//! `verify`: compares every tag of shift files.

use crate::args::Args;
use crate::console::{Console, Tone};
use crate::ended::{Failure, Status};
use crate::input::{self, Input};
use crate::refusal::{self, Takes, DO_NOT_USE, RIGHT_RING};
use crate::shown;
use snoekeldraf::{Ring, ShiftFile};
use std::path::Path;

pub fn run(args: &Args, console: &mut Console) -> Result<Status, Failure> {
    let ring = input::ring(args.needed("ring")?)?;
    let (mut status, of) = (Status::Done, args.all().len());
    for (index, path) in args.all().enumerate() {
        console.progress(index, of);
        let verified = verify(path, &ring, console);
        status = status.max(match verified {
            Ok(status) => status,
            Err(failure) => {
                let verdict = if failure.status == Status::Refused { "REFUSED" } else { "NOT READ" };
                console.line(&format!("{}: {}", shown::name(path), console.toned(verdict, Tone::Bad)))?;
                console.say(&failure.words);
                failure.status
            }
        });
    }
    Ok(status)
}

/// Compares the tags of one file and prints its line.
fn verify(path: &Path, ring: &Ring, console: &mut Console) -> Result<Status, Failure> {
    let input = Input::read(path)?;
    let file = ShiftFile::check(&input.bytes).map_err(|refused| refusal::of_file(&input, Takes::Either, refused))?;
    let wrong: Vec<u32> =
        file.entries().filter(|entry| entry.verify(ring).is_err()).map(|entry| entry.unverified_job).collect();
    let of = file.entries().len();
    if wrong.is_empty() {
        let verdict = console.toned("verified", Tone::Good);
        console.line(&format!("{}: {}, {verdict}", input.name(), shown::count(of, "entry", "entries")))?;
        return Ok(Status::Done);
    }
    let verdict = console.toned("WRONG TAG", Tone::Bad);
    let some = shown::thousands(wrong.len());
    console.line(&format!("{}: {}, {some} {verdict}", input.name(), shown::count(of, "entry", "entries")))?;
    console.say(&wrong_tags(path, of, &wrong));
    Ok(Status::Refused)
}

/// How many tags are wrong, of which jobs, and what that means. There is at least one.
pub fn wrong_tags(path: &Path, of: usize, jobs: &[u32]) -> String {
    let list: Vec<String> = jobs.iter().map(u32::to_string).collect();
    let which = format!("{} {}", if jobs.len() == 1 { "job" } else { "jobs" }, list.join(" "));
    let next = match jobs.len() {
        1 if of > 1 => DO_NOT_USE.to_owned(),
        wrong if wrong < of => "Do not use them: they are not what was sealed with this ring.".to_owned(),
        _ => RIGHT_RING.to_owned(),
    };
    let has = if jobs.len() == 1 { "has" } else { "have" };
    let entries = shown::count(of, "entry", "entries");
    format!("{}: {} of {entries} {has} a wrong tag (status 8): {which}\n{next}", shown::name(path), jobs.len())
}
