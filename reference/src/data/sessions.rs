//! Cases for `test_session`: sequences of calls on one session.

use super::{parts_of, Part};
use crate::calls::{head, Case, Library, FILLER, REFERENCE};
use crate::comet::{self, block_size, nonce_size, LIMIT, SEALED};
use crate::random::Random;
use crate::session::{Session, Step, OVER};
use crate::show::shown;

/// A call on a session. `Forge` overwrites the suite and the totals in the session's value.
#[derive(Clone)]
pub enum SessionCall {
    Start { suite: u8, key: Vec<u8>, nonce: Vec<u8> },
    Data(Vec<u8>),
    Part { msg: Vec<u8>, out: usize },
    End { out: usize, tag: usize },
    Forge { suite: u8, ad_total: usize, text_total: usize },
}

use SessionCall::{Data, End, Forge, Start};

/// The result of a call. `next` is normalised: bytes that no later call reads are zero. `wiped` is the session after a wipe.
#[derive(PartialEq)]
pub struct StepOutcome {
    pub number: u32,
    pub count: usize,
    pub next: Session,
    pub wiped: Session,
    pub is_as_it_was: bool,
    pub out: Vec<u8>,
    pub tag: Vec<u8>,
}

/// The session with zeros after Y and after the held bytes.
fn settled(mut session: Session) -> Session {
    let block = block_size(session.suite);
    if block > 0 {
        let held = session.held().len();
        session.y[block..].fill(0);
        session.held[held..].fill(0);
    }
    session
}

impl SessionCall {
    fn answer(&self, session: Session, by: &Library) -> (Session, StepOutcome) {
        let (mut out, mut tag) = (vec![], vec![]);
        let Step { next, number: status, count } = match self {
            Start { suite, key, nonce } => (by.session_start)(*suite, key, nonce),
            Data(ad) => (by.session_data)(session, ad),
            SessionCall::Part { msg, out: length } => {
                out.resize(*length, FILLER);
                (by.session_part)(session, msg, &mut out)
            }
            End { out: length, tag: tag_length } => {
                out.resize(*length, FILLER);
                tag.resize(*tag_length, FILLER);
                (by.session_end)(session, &mut out, &mut tag)
            }
            Forge { suite, ad_total, text_total } => {
                let next = Session { suite: *suite, ad_total: *ad_total, text_total: *text_total, ..session };
                Step { next, number: 0, count: 0 }
            }
        };
        let is_as_it_was = next == session;
        let wiped = (by.session_wipe)(next);
        (next, StepOutcome { number: status, count, next: settled(next), wiped, is_as_it_was, out, tag })
    }

    fn record(&self) -> Vec<u8> {
        let (op, suite, lengths, parts): (u8, u8, [usize; 3], [&[u8]; 2]) = match self {
            Start { suite, key, nonce } => (0, *suite, [key.len(), nonce.len(), 0], [key, nonce]),
            Data(ad) => (1, 0, [ad.len(), 0, 0], [ad, &[]]),
            SessionCall::Part { msg, out } => (2, 0, [msg.len(), *out, 0], [msg, &[]]),
            End { out, tag } => (3, 0, [0, *out, *tag], [&[], &[]]),
            Forge { suite, ad_total, text_total } => (4, *suite, [0, *ad_total, *text_total], [&[], &[]]),
        };
        [&head(op, suite, 0, &lengths)[..], parts[0], parts[1]].concat()
    }

    fn line(&self, outcome: &StepOutcome) -> String {
        let StepOutcome { number: status, count, out, tag, .. } = outcome;
        match self {
            Start { .. } | Data(_) => format!("{status} {count}\n"),
            SessionCall::Part { .. } => format!("{status} {count} {}\n", shown(out)),
            End { .. } => format!("{status} {count} {} {}\n", shown(out), shown(tag)),
            Forge { .. } => String::new(),
        }
    }
}

/// Calls on one session in sequence. Before the first call the session is over.
#[derive(Clone)]
pub struct Run(pub Vec<SessionCall>);

impl Case for Run {
    type Outcome = Vec<StepOutcome>;

    fn answer(&self, by: &Library) -> Vec<StepOutcome> {
        let mut session = OVER;
        let mut answer = |call: &SessionCall| {
            let (next, outcome) = call.answer(session, by);
            session = next;
            outcome
        };
        self.0.iter().map(&mut answer).collect()
    }

    fn record(&self) -> Vec<u8> {
        self.0.iter().flat_map(SessionCall::record).collect()
    }

    fn lines(&self, by: &Library) -> String {
        self.0.iter().zip(self.answer(by)).map(|(call, outcome)| call.line(&outcome)).collect()
    }
}

fn start(random: &mut Random, suite: u8) -> SessionCall {
    Start { suite, key: random.bytes(16), nonce: random.bytes(nonce_size(suite)) }
}

/// A part of the message with an output of exactly the length that it needs.
fn part(suite: u8, msg: &[u8]) -> SessionCall {
    SessionCall::Part { msg: msg.to_vec(), out: msg.len() + block_size(suite) - 1 }
}

fn end(suite: u8) -> SessionCall {
    End { out: block_size(suite), tag: block_size(suite) }
}

/// A run that seals a record in these parts, after a check that ciphertext and tag are those of `seal`.
pub fn cut(random: &mut Random, suite: u8, ad: &[&[u8]], msg: &[&[u8]]) -> Run {
    let start = start(random, suite);
    let Start { key, nonce, .. } = &start else { unreachable!() };
    let (mut text, mut tag) = (vec![0; msg.concat().len()], vec![0; block_size(suite)]);
    assert_eq!(comet::seal(suite, key, nonce, &ad.concat(), &msg.concat(), &mut text, &mut tag), 0);
    let mut calls = vec![start];
    calls.extend(ad.iter().map(|piece| Data(piece.to_vec())));
    calls.extend(msg.iter().map(|piece| part(suite, piece)));
    calls.push(end(suite));
    let run = Run(calls);
    let steps = run.answer(&REFERENCE);
    assert!(steps.iter().all(|step| step.number == 0));
    let joined: Vec<u8> = steps.iter().flat_map(|step| &step.out[..step.count]).copied().collect();
    assert!(joined == text && steps.last().unwrap().tag == tag);
    run
}

/// The bytes cut at random into `count` pieces, some of them empty.
fn pieces<'a>(random: &mut Random, bytes: &'a [u8], count: usize) -> Vec<&'a [u8]> {
    let mut cuts: Vec<usize> = (1..count).map(|_| random.below(bytes.len() + 1)).collect();
    cuts.extend([0, bytes.len()]);
    cuts.sort();
    cuts.windows(2).map(|pair| &bytes[pair[0]..pair[1]]).collect()
}

/// Lengths around block boundaries, cut at random into up to four parts; an empty text may have no part.
fn cuttings(random: &mut Random) -> Vec<Run> {
    let mut runs = vec![];
    for suite in SEALED {
        let block = block_size(suite);
        let lengths = [0, 1, block - 1, block, block + 1, 2 * block + 3];
        for (a, m) in lengths.iter().flat_map(|a| lengths.iter().map(move |m| (*a, *m))) {
            let (ad, msg) = (random.bytes(a), random.bytes(m));
            let counts = [random.below(4) + 1, random.below(4) + 1];
            let ad = if a == 0 { vec![] } else { pieces(random, &ad, counts[0]) };
            let msg = if m == 0 { vec![] } else { pieces(random, &msg, counts[1]) };
            runs.push(cut(random, suite, &ad, &msg));
        }
    }
    runs
}

/// Parts of one byte each, and every cut of a text of two blocks and a byte into two parts.
fn small_parts(random: &mut Random) -> Vec<Run> {
    let mut runs = vec![];
    for suite in [1, 3, 5, 6] {
        let bytes = random.bytes(2 * block_size(suite) + 1);
        let single: Vec<&[u8]> = bytes.chunks(1).collect();
        runs.push(cut(random, suite, &single, &single));
        for at in 0..=bytes.len() {
            let (one, two) = bytes.split_at(at);
            runs.push(cut(random, suite, &[one, two], &[b"message"]));
            runs.push(cut(random, suite, &[b"data"], &[one, two]));
        }
    }
    runs
}

/// Each refusal of the start, alone and together with later ones; afterwards every call returns 9.
fn refused_starts(random: &mut Random) -> Vec<Run> {
    let mut runs = vec![];
    for faults in 1..16 {
        let suite = match faults & 9 {
            0 => SEALED[faults % SEALED.len()],
            8 => 4,
            _ => [0, 7, 255][faults / 2 % 3],
        };
        let key = random.bytes(if faults & 2 != 0 { [15, 17, 0][faults % 3] } else { 16 });
        let nonce = random.bytes(if faults & 4 != 0 { [14, 17, 0][faults % 3] } else { nonce_size(suite) });
        let mut calls = vec![Start { suite, key, nonce }];
        calls.extend(probes(3));
        runs.push(Run(calls));
    }
    runs.push(Run(probes(1)));
    runs
}

/// Calls for a suite that are good or refused, depending on the phase: each status alone and together with later ones.
fn probes(suite: u8) -> Vec<SessionCall> {
    let block = block_size(suite);
    let part = |length: usize, out: usize| SessionCall::Part { msg: vec![7; length], out };
    vec![
        Data(vec![]),
        Data(vec![1; 3]),
        part(0, block - 1),
        part(0, block - 2),
        part(0, 0),
        part(block, 2 * block - 2),
        part(5, 0),
        part(5, block + 4),
        part(block + 1, 2 * block + 30),
        End { out: block - 1, tag: block },
        End { out: block, tag: block - 1 },
        End { out: block + 3, tag: block + 1 },
        End { out: 0, tag: 0 },
        End { out: block + 3, tag: block },
    ]
}

/// Each probe in each phase. The run then continues to its end, so that it shows in which state a refusal leaves the session.
fn phases(random: &mut Random) -> Vec<Run> {
    let mut runs = vec![];
    for suite in [1, 3, 2, 5, 6] {
        let begins = start(random, suite);
        let prefixes = [
            vec![begins.clone()],
            vec![begins.clone(), Data(vec![9; 5])],
            vec![begins.clone(), part(suite, b"")],
            vec![begins.clone(), Data(vec![9; 5]), part(suite, b"abc")],
            vec![begins.clone(), Data(vec![9; 5]), part(suite, b"abc"), end(suite)],
        ];
        let prefixes = if suite % 2 == 1 { &prefixes[..] } else { &prefixes[3..4] };
        for prefix in prefixes {
            for probe in probes(suite) {
                let rest = [Data(vec![2]), part(suite, b"and so on"), end(suite)];
                runs.push(Run([&prefix[..], &[probe], &rest].concat()));
            }
        }
    }
    runs
}

/// The running totals at their limits, from a session whose totals were increased by whole blocks; 5 comes before 6.
fn limits(random: &mut Random) -> Vec<Run> {
    let mut runs = vec![];
    for suite in [1, 3, 6] {
        let zeros = |length: usize| vec![0; length];
        let start = start(random, suite);
        let near = LIMIT - 3;
        let held = Data(zeros(near % block_size(suite)));
        let raise = |ad_total: usize, text_total: usize| Forge { suite, ad_total, text_total };
        let narrow = |length: usize| SessionCall::Part { msg: zeros(length), out: 0 };
        runs.push(Run(vec![
            start.clone(),
            held,
            raise(near, 0),
            Data(zeros(4)),
            Data(zeros(300)),
            Data(zeros(3)),
            Data(zeros(0)),
            Data(zeros(1)),
            part(suite, b"x"),
            Data(zeros(1)),
            end(suite),
        ]));
        runs.push(Run(vec![
            start,
            part(suite, &zeros(near % block_size(suite))),
            raise(0, near),
            part(suite, &zeros(4)),
            narrow(4),
            narrow(3),
            part(suite, &zeros(300)),
            part(suite, &zeros(3)),
            part(suite, b""),
            part(suite, &zeros(1)),
            end(suite),
        ]));
    }
    runs
}

/// The longest record, in a few parts.
fn longest(random: &mut Random) -> Vec<Run> {
    let bytes: Vec<u8> = (0..LIMIT).map(|i| (i % 251) as u8).collect();
    let run =
        cut(random, 3, &[&bytes[..LIMIT - 9], b"", &bytes[..9]], &[&bytes[..40_003], &bytes[..5], &bytes[40_008..]]);
    vec![run]
}

/// Values that no call returns: no suite, a suite that cannot be started, totals over the limits. Every call returns 9; then
/// the run continues with the old value.
fn forged(random: &mut Random) -> Vec<Run> {
    let mut runs = vec![];
    for suite in [1, 3, 5] {
        let over = LIMIT + 1;
        let values = [
            (0, 3, 0),
            (7, 3, 0),
            (255, 0, 9),
            (4, 3, 0),
            (4, 0, 9),
            (suite, over, 0),
            (suite, 3, over),
            (suite, u32::MAX as usize, 0),
            (suite, 0, u32::MAX as usize),
        ];
        for (forged, ad_total, text_total) in values {
            let forge = Forge { suite: forged, ad_total, text_total };
            let mut calls = vec![start(random, suite), Data(b"abc".to_vec()), forge];
            calls.extend(probes(suite));
            calls.extend([Forge { suite, ad_total: 3, text_total: 0 }, part(suite, b"message"), end(suite)]);
            runs.push(Run(calls));
        }
    }
    runs
}

/// All runs of the test data.
pub fn runs() -> Vec<Run> {
    let mut random = Random::new(7);
    let groups = [cuttings, small_parts, refused_starts, phases, limits, longest, forged];
    groups.into_iter().flat_map(|group| group(&mut random)).collect()
}

pub fn parts() -> [Part; 2] {
    parts_of(&runs())
}

/// Every cut of a text of up to three blocks into three parts, which may be empty: of the associated data, and of the
/// message.
pub fn all_cuttings(random: &mut Random, mut each: impl FnMut(&Run)) {
    for suite in SEALED {
        let bytes = random.bytes(3 * block_size(suite));
        for length in 0..=bytes.len() {
            for (one, two) in (0..=length).flat_map(|one| (one..=length).map(move |two| (one, two))) {
                let parts = [&bytes[..one], &bytes[one..two], &bytes[two..length]];
                each(&cut(random, suite, &parts, &[b"message"]));
                each(&cut(random, suite, &[b"data"], &parts));
            }
        }
    }
}

/// Runs with long texts in many parts, in which some calls are refused.
pub fn long_runs(random: &mut Random, count: usize, mut each: impl FnMut(&Run)) {
    for _ in 0..count {
        let suite = SEALED[random.below(SEALED.len())];
        let lengths = [random.below(3000), random.below(3000)];
        let (ad, msg) = (random.bytes(lengths[0]), random.bytes(lengths[1]));
        let counts = [1 + random.below(8), 1 + random.below(8)];
        let (ad, msg) = (pieces(random, &ad, counts[0]), pieces(random, &msg, counts[1]));
        let mut run = cut(random, suite, &ad, &msg);
        for _ in 0..random.below(3) {
            let (index, probes) = (random.below(run.0.len() + 1), probes(suite));
            run.0.insert(index, probes[random.below(probes.len())].clone());
        }
        each(&run);
    }
}

/// A session of any value, and one call.
pub struct Forged(pub Session, pub SessionCall);

impl Case for Forged {
    type Outcome = StepOutcome;

    fn answer(&self, by: &Library) -> StepOutcome {
        self.1.answer(self.0, by).1
    }

    fn record(&self) -> Vec<u8> {
        [format!("{:?}", self.0).into_bytes(), self.1.record()].concat()
    }

    fn lines(&self, by: &Library) -> String {
        self.1.line(&self.answer(by))
    }
}

/// Values with random state and held bytes, a suite that may not exist, and totals at and over their limits.
pub fn forged_values(random: &mut Random, count: usize, mut each: impl FnMut(&Forged)) {
    for _ in 0..count {
        let total = |random: &mut Random| match random.below(6) {
            0 => 0,
            1 => LIMIT + random.below(20) - 10,
            2 => usize::MAX - random.below(20),
            _ => random.below(60),
        };
        let (ad_total, text_total) = (total(random), total(random));
        let suite = random.below(9) as u8;
        let (y, z, held) = (random.array(), random.array(), random.array());
        let session = Session { suite, y, z, held, ad_total, text_total };
        let calls = probes([1, 3][random.below(2)]);
        each(&Forged(session, calls[random.below(calls.len())].clone()));
    }
}
