//! `seal`, `unseal`, `reseal` and `convert`: a file in, a file out.

use crate::args::Args;
use crate::console::Console;
use crate::ended::{Failure, Status};
use crate::input::{self, same_file, Input};
use crate::output::{self, Content};
use crate::refusal::{self, Takes};
use snoekeldraf::{to_edition1_vec, to_edition2_vec, Draft, Refused, Ring};

pub fn seal(args: &Args, _: &mut Console) -> Result<Status, Failure> {
    with_ring(args, Takes::Draft, Content::Sealed, |bytes, ring| Draft::check(bytes)?.seal_vec(ring))
}

pub fn unseal(args: &Args, _: &mut Console) -> Result<Status, Failure> {
    with_ring(args, Takes::Edition1, Content::Plain, snoekeldraf::unseal_vec)
}

pub fn reseal(args: &Args, _: &mut Console) -> Result<Status, Failure> {
    with_ring(args, Takes::Edition1, Content::Sealed, snoekeldraf::reseal_vec)
}

/// Makes OUT of a file and a ring. OUT may be the file, and may not be the ring.
fn with_ring(
    args: &Args,
    takes: Takes,
    content: Content,
    make: impl Fn(&[u8], &Ring) -> Result<Vec<u8>, Refused>,
) -> Result<Status, Failure> {
    let (ring_path, out) = (args.needed("ring")?, args.at(1));
    if same_file(out, ring_path) {
        return Err(output::is_the_ring(out));
    }
    let (input, ring) = (Input::read(args.at(0))?, input::ring(ring_path)?);
    let made = make(&input.bytes, &ring);
    let made = made.map_err(|refused| refusal::with_ring(&input, &ring, takes, refused))?;
    output::write_or_say(out, &made, content)?;
    Ok(Status::Done)
}

/// A move between editions.
type Move = fn(&[u8]) -> Result<Vec<u8>, Refused>;

pub fn convert(args: &Args, _: &mut Console) -> Result<Status, Failure> {
    let to = args.needed("to")?;
    let (takes, make): (Takes, Move) = match to.to_str() {
        Some("1") => (Takes::ToMoveTo1, to_edition1_vec),
        Some("2") => (Takes::ToMoveTo2, to_edition2_vec),
        _ => return Err(Failure::usage("--to is the edition to move to, 1 or 2")),
    };
    let input = Input::read(args.at(0))?;
    let made = make(&input.bytes).map_err(|refused| refusal::of_file(&input, takes, refused))?;
    output::write_or_say(args.at(1), &made, Content::Sealed)?;
    Ok(Status::Done)
}
