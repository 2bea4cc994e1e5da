//! Sessions against the reference implementation: its runs, call by call.

mod common;

use common::sealing;
use reference::calls::{Case, FILLER, REFERENCE};
use reference::data::sessions::{self, Run, SessionCall, StepOutcome};
use reference::random::Random;
use snoekeldraf::{HandedBack, Key, Nonce, Refused, Session, Suite};

/// What a call of the crate gives: number, count, and what is written. The count is 0 on a refusal.
type Gave = (u32, usize, Vec<u8>, Vec<u8>);

/// The number alone, with no output.
fn only(result: Result<(), Refused>) -> Gave {
    (result.map_or_else(|refused| refused.number(), |()| 0), 0, vec![], vec![])
}

fn part(session: &mut Session, msg: &[u8], out: usize) -> Gave {
    let mut out = vec![FILLER; out];
    let start = out.as_ptr();
    let (number, count) = match session.part(msg, &mut out) {
        Ok(text) => {
            assert!(text.is_empty() || text.as_ptr() == start);
            (0, text.len())
        }
        Err(refused) => (refused.number(), 0),
    };
    (number, count, out, vec![])
}

fn end(session: Session, out: usize, tag_size: usize) -> (Option<Session>, Gave) {
    let (mut out, fits) = (vec![FILLER; out], session.suite().tag_size() == tag_size);
    match session.end(&mut out) {
        Ok((rest, tag)) => {
            assert!(fits);
            let (count, tag) = (rest.len(), tag.as_bytes().to_vec());
            (None, (0, count, out, tag))
        }
        Err(HandedBack { session, refused }) => (Some(session), (refused.number(), 0, out, vec![FILLER; tag_size])),
    }
}

/// One call. There is no session before the start, after a refused one, and after the end.
fn call(session: Option<Session>, call: &SessionCall) -> Option<(Option<Session>, Gave)> {
    let (next, gave) = match call {
        SessionCall::Start { suite, key, nonce } => {
            let started = sealing(*suite, key, nonce)
                .and_then(|(suite, key, nonce)| Session::start(suite, &key, nonce).map_err(|refused| refused.number()));
            let number = started.as_ref().map_or_else(|number| *number, |_| 0);
            (started.ok(), (number, 0, vec![], vec![]))
        }
        SessionCall::Data(ad) => {
            let mut session = session?;
            let gave = only(session.data(ad));
            (Some(session), gave)
        }
        SessionCall::Part { msg, out } => {
            let mut session = session?;
            let gave = part(&mut session, msg, *out);
            (Some(session), gave)
        }
        SessionCall::End { out, tag } => end(session?, *out, *tag),
        SessionCall::Forge { .. } => unreachable!("a session's fields are the crate's own"),
    };
    Some((next, gave))
}

/// Runs with a forged value, and ends with a tag of another length, cannot be written.
fn can_be_written(run: &Run, steps: &[StepOutcome]) -> bool {
    let forges = run.0.iter().any(|call| matches!(call, SessionCall::Forge { .. }));
    !forges && steps.iter().all(|step| step.number != 7)
}

/// Puts a run: every step is the reference's. Where the crate has no session the reference says 9.
fn put(run: &Run, tally: &mut [usize; 2]) {
    let steps = run.answer(&REFERENCE);
    if !can_be_written(run, &steps) {
        tally[1] += 1;
        return;
    }
    tally[0] += 1;
    let mut session = None;
    for (i, (each, expected)) in run.0.iter().zip(&steps).enumerate() {
        match call(session.take(), each) {
            Some((next, (number, count, out, tag))) => {
                let same = (number, count) == (expected.number, expected.count);
                assert!(
                    same && out == expected.out && tag == expected.tag,
                    "step {i}: {number} for {}",
                    expected.number
                );
                session = next;
            }
            None => assert_eq!(expected.number, 9, "step {i}"),
        }
    }
}

#[test]
fn runs_of_the_program_sessions() {
    let mut tally = [0; 2];
    sessions::runs().iter().for_each(|run| put(run, &mut tally));
    println!("{} runs, {} that cannot be written: the program sessions", tally[0], tally[1]);
    assert!(tally[0] > 4 * tally[1]);
}

#[test]
fn every_cutting_in_three() {
    let mut tally = [0; 2];
    sessions::all_cuttings(&mut Random::new(131), |run| put(run, &mut tally));
    println!("{} runs: every cutting into three parts of up to three blocks", tally[0]);
    assert_eq!(tally[1], 0);
}

#[test]
fn long_runs() {
    let mut tally = [0; 2];
    sessions::long_runs(&mut Random::new(132), 5_000, |run| put(run, &mut tally));
    println!("{} runs, {} that cannot be written: long sessions, refused calls among theirs", tally[0], tally[1]);
    assert!(tally[0] > 4 * tally[1]);
}

/// The totals at their limits, by true parts: 4 and 5, and the session goes on after each.
#[test]
fn limits() {
    let bytes: Vec<u8> = (0..65_536).map(|i| (i % 251) as u8).collect();
    let mut buffer = vec![0; 65_536 + 7];
    let nonce = Nonce::assume_fresh(&[1; 15]).unwrap();
    let mut session = Session::start(Suite::Speck64, &Key::from([7; 16]), nonce).unwrap();
    session.data(&bytes[..65_530]).unwrap();
    assert_eq!(session.data(&bytes[..7]).unwrap_err().number(), 4);
    session.data(&bytes[65_530..]).unwrap();
    assert_eq!(session.data(&[0]).unwrap_err().number(), 4);

    let mut text = vec![];
    text.extend_from_slice(session.part(&bytes[..65_533], &mut buffer).unwrap());
    assert_eq!(session.part(&[0; 4], &mut []).unwrap_err().number(), 5); // 5 comes before 6
    assert_eq!(session.data(&[0]).unwrap_err().number(), 9); // 9 comes before 4
    text.extend_from_slice(session.part(&bytes[65_533..], &mut buffer).unwrap());
    assert_eq!(session.part(&[0], &mut buffer).unwrap_err().number(), 5);
    let (rest, tag) = session.end(&mut buffer).unwrap();
    text.extend_from_slice(rest);

    let (mut expected, mut its_tag) = (vec![0; 65_536], [0; 8]);
    assert_eq!(reference::comet::seal(3, &[7; 16], &[1; 15], &bytes, &bytes, &mut expected, &mut its_tag), 0);
    assert!(text == expected && tag.as_bytes() == its_tag);
}
