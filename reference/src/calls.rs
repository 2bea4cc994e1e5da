//! An implementation as a table of functions, and the calls of its sealer, opener and shift file with their outcomes.

use crate::amendment::{self, Amended};
use crate::contents;
use crate::difference::{self, Compared};
use crate::report::{self, Report};
use crate::session::{Session, Step};
use crate::show::{fold, shown};
use crate::{comet, editions, reseal, search, session, shift, writer};

/// Every byte of an output buffer before a call.
pub const FILLER: u8 = 0xa5;

/// Every element of an output list of integers before a call.
pub const FILLER_NUMBER: u32 = u32::from_le_bytes([FILLER; 4]);

pub type Seal = fn(u8, &[u8], &[u8], &[u8], &[u8], &mut [u8], &mut [u8]) -> u32;
pub type Open = fn(u8, &[u8], &[u8], &[u8], &[u8], &[u8], &mut [u8]) -> u32;

/// The sealer and the opener that return the status and the number of cipher calls.
pub type SealCounted = fn(u8, &[u8], &[u8], &[u8], &[u8], &mut [u8], &mut [u8]) -> (u32, u64);
pub type OpenCounted = fn(u8, &[u8], &[u8], &[u8], &[u8], &[u8], &mut [u8]) -> (u32, u64);

/// Seals, opens or verifies a record in place and returns the status. Text and tag are mutable in all three, so that the
/// caller can compare them with what they were, even where they may only be read.
pub type OnRecord = fn(u8, &[u8], &[u8], &[u8], &mut [u8], &mut [u8]) -> u32;

/// Verifies a job's entry: status and row, offset and length of its associated data.
pub type Verified = fn(&[u8], &[u8], u32) -> (shift::Answer, usize, usize);

/// Compares two files and writes three lists of jobs.
pub type Compare = fn(&[u8], &[u8], [&mut [u32]; 3]) -> Compared;

/// Opens a job's current entry: status, file and row.
pub type OpenCurrent = fn(&[u8], &[u8], &[u8], u32, &mut [u8]) -> (u32, u32, u32);

/// Checks every entry of a file and writes the lists of jobs and of statuses.
pub type MakeReport = fn(&[u8], &[u8], &mut [u32], &mut [u8]) -> Report;

/// Reads a file and a ring, and writes a file.
pub type Rewrite = fn(&[u8], &[u8], &mut [u8]) -> shift::Answer;

/// An implementation. `associated` returns the lookup's status, and offset and length in the file.
#[derive(Clone, Copy)]
pub struct Library {
    pub seal: Seal,
    pub open: Open,
    pub seal_in_place: OnRecord,
    pub open_in_place: OnRecord,
    pub verify: OnRecord,
    pub check: fn(&[u8]) -> shift::Answer,
    pub lookup: fn(&[u8], u32) -> shift::Answer,
    pub associated: fn(&[u8], u32) -> (u32, usize, usize),
    pub entry: fn(&[u8], u32) -> (shift::Answer, shift::Places),
    pub open_job: fn(&[u8], &[u8], u32, &mut [u8]) -> shift::Answer,
    pub verified: Verified,
    pub session_start: fn(u8, &[u8], &[u8]) -> Step,
    pub session_data: fn(Session, &[u8]) -> Step,
    pub session_part: fn(Session, &[u8], &mut [u8]) -> Step,
    pub session_end: fn(Session, &mut [u8], &mut [u8]) -> Step,
    pub session_wipe: fn(Session) -> Session,
    pub seal_file: Rewrite,
    pub unseal_file: Rewrite,
    pub search: fn(&[u8], u32) -> (shift::Answer, u32),
    pub reseal: Rewrite,
    pub compare: Compare,
    pub moved_length: fn(&[u8]) -> usize,
    pub to_edition2: fn(&[u8], &mut [u8]) -> shift::Answer,
    pub to_edition1: fn(&[u8], &mut [u8]) -> shift::Answer,
    pub amended: fn(&[u8], &[u8], u32) -> Amended,
    pub open_current: OpenCurrent,
    pub seal_counted: SealCounted,
    pub open_counted: OpenCounted,
    pub report: MakeReport,
    pub contents_header: fn(&[u8]) -> contents::Header,
    pub contents_row: fn(&[u8], u32) -> (u32, contents::Fields),
}

pub const REFERENCE: Library = Library {
    seal: comet::seal,
    open: comet::open,
    seal_in_place: comet::seal_in_place,
    open_in_place: |suite, key, nonce, ad, text, tag| comet::open_in_place(suite, key, nonce, ad, text, tag),
    verify: |suite, key, nonce, ad, text, tag| comet::verify(suite, key, nonce, ad, text, tag),
    check: shift::check,
    lookup: shift::lookup,
    associated: |file, job| {
        let (at, length) = shift::associated_place(file, job);
        (shift::lookup(file, job).0, at, length)
    },
    entry: shift::entry,
    open_job: shift::open_job,
    verified: shift::verified,
    session_start: session::start,
    session_data: session::data,
    session_part: session::part,
    session_end: session::end,
    session_wipe: |_| session::OVER,
    seal_file: writer::seal_file,
    unseal_file: writer::unseal_file,
    search: search::search,
    reseal: reseal::reseal,
    compare: difference::compare,
    moved_length: editions::moved_length,
    to_edition2: editions::to_edition2,
    to_edition1: editions::to_edition1,
    amended: amendment::amended,
    open_current: amendment::open_current,
    seal_counted: comet::seal_counted,
    open_counted: comet::open_counted,
    report: report::report,
    contents_header: contents::header,
    contents_row: contents::row,
};

/// The first 30 bytes of every call as the test programs read it: op, suite, job and six integers, most of them lengths.
pub fn head(op: u8, suite: u8, job: u32, numbers: &[usize]) -> Vec<u8> {
    let mut bytes = vec![op, suite];
    let mut six = [0; 6];
    six[..numbers.len()].copy_from_slice(numbers);
    for number in [job].into_iter().chain(six.map(|number| number as u32)) {
        bytes.extend(number.to_le_bytes());
    }
    bytes
}

/// A call, or a sequence of calls.
pub trait Case {
    type Outcome: PartialEq;

    /// What the implementation returns, and every byte of its output buffers.
    fn answer(&self, by: &Library) -> Self::Outcome;

    /// The case as its test program reads it.
    fn record(&self) -> Vec<u8>;

    /// The outcome as its test program writes it.
    fn lines(&self, by: &Library) -> String;
}

/// A call of the sealer or the opener. The sealer's `tag` is the content of its tag buffer before the call.
#[derive(Clone)]
pub struct Call {
    pub opens: bool,
    pub suite: u8,
    pub key: Vec<u8>,
    pub nonce: Vec<u8>,
    pub ad: Vec<u8>,
    pub text: Vec<u8>,
    pub out: usize,
    pub tag: Vec<u8>,
}

/// The status (`number`), and every byte of the output buffers (for the opener, `tag` is the input).
#[derive(PartialEq, Debug)]
pub struct Outcome {
    pub number: u32,
    pub out: Vec<u8>,
    pub tag: Vec<u8>,
}

impl Call {
    /// The call as `test_comet` reads it; op 0 and 2 seal, 1 and 3 open, 2 and 3 counted; 4 seals and 5 opens in place,
    /// and 6 verifies.
    fn record_as(&self, op: u8) -> Vec<u8> {
        let parts = [&self.key, &self.nonce, &self.ad, &self.text];
        let [key, nonce, ad, text] = parts.map(|part| part.len());
        let mut bytes = head(op, self.suite, 0, &[key, nonce, ad, text, self.out, self.tag.len()]);
        parts.iter().for_each(|part| bytes.extend(*part));
        if self.opens {
            bytes.extend(&self.tag);
        }
        bytes
    }

    /// The call that opens what this one seals; under a retired suite, what the specification's sealer outputs.
    pub fn reopened(&self) -> Call {
        assert!(!self.opens && (self.answer(&REFERENCE).number == 0 || comet::is_retired(self.suite)));
        let (text, tag) = comet::specified(self.suite, &self.key, &self.nonce, &self.ad, &self.text);
        Call { opens: true, text, tag, ..self.clone() }
    }
}

impl Case for Call {
    type Outcome = Outcome;

    fn answer(&self, by: &Library) -> Outcome {
        let mut out = vec![FILLER; self.out];
        let mut tag = self.tag.clone();
        let number = if self.opens {
            (by.open)(self.suite, &self.key, &self.nonce, &self.ad, &self.text, &tag, &mut out)
        } else {
            (by.seal)(self.suite, &self.key, &self.nonce, &self.ad, &self.text, &mut out, &mut tag)
        };
        Outcome { number, out, tag }
    }

    fn record(&self) -> Vec<u8> {
        self.record_as(self.opens as u8)
    }

    fn lines(&self, by: &Library) -> String {
        let Outcome { number, out, tag } = self.answer(by);
        if self.opens {
            format!("{number} {}\n", shown(&out))
        } else {
            format!("{number} {} {}\n", shown(&out), shown(&tag))
        }
    }
}

/// The same call, by the sealer and the opener that count the cipher calls.
#[derive(Clone)]
pub struct CountedCall(pub Call);

impl Case for CountedCall {
    type Outcome = (u64, Outcome);

    fn answer(&self, by: &Library) -> (u64, Outcome) {
        let Call { opens, suite, key, nonce, ad, text, .. } = &self.0;
        let mut out = vec![FILLER; self.0.out];
        let mut tag = self.0.tag.clone();
        let (number, calls) = if *opens {
            (by.open_counted)(*suite, key, nonce, ad, text, &tag, &mut out)
        } else {
            (by.seal_counted)(*suite, key, nonce, ad, text, &mut out, &mut tag)
        };
        (calls, Outcome { number, out, tag })
    }

    fn record(&self) -> Vec<u8> {
        self.0.record_as(2 + self.0.opens as u8)
    }

    fn lines(&self, by: &Library) -> String {
        let (calls, Outcome { number, out, tag }) = self.answer(by);
        if self.0.opens {
            format!("{number} {calls} {}\n", shown(&out))
        } else {
            format!("{number} {calls} {} {}\n", shown(&out), shown(&tag))
        }
    }
}

/// What a function does with a record in place.
#[derive(Clone, Copy, PartialEq, Debug)]
pub enum Deed {
    Seal,
    Open,
    Verify,
}

/// A call that works on a record in place, without the output of `call`.
#[derive(Clone)]
pub struct InPlaceCall {
    pub deed: Deed,
    pub call: Call,
}

impl InPlaceCall {
    /// The same call in place: for the sealer one call, for the opener two (open and verify).
    pub fn of(call: &Call) -> Vec<InPlaceCall> {
        let deeds: &[Deed] = if call.opens { &[Deed::Open, Deed::Verify] } else { &[Deed::Seal] };
        deeds.iter().map(|deed| InPlaceCall { deed: *deed, call: call.clone() }).collect()
    }
}

/// The outcome's `out` is the text after the call.
impl Case for InPlaceCall {
    type Outcome = Outcome;

    fn answer(&self, by: &Library) -> Outcome {
        let Call { suite, key, nonce, ad, .. } = &self.call;
        let (mut out, mut tag) = (self.call.text.clone(), self.call.tag.clone());
        let function = match self.deed {
            Deed::Seal => by.seal_in_place,
            Deed::Open => by.open_in_place,
            Deed::Verify => by.verify,
        };
        let number = function(*suite, key, nonce, ad, &mut out, &mut tag);
        Outcome { number, out, tag }
    }

    fn record(&self) -> Vec<u8> {
        let call = Call { out: 0, ..self.call.clone() };
        call.record_as(4 + self.deed as u8)
    }

    fn lines(&self, by: &Library) -> String {
        let Outcome { number, out, tag } = self.answer(by);
        match self.deed {
            Deed::Seal => format!("{number} {} {}\n", shown(&out), shown(&tag)),
            Deed::Open => format!("{number} {}\n", shown(&out)),
            Deed::Verify => format!("{number}\n"),
        }
    }
}

/// One call each of the functions that read a shift file.
#[derive(Clone)]
pub struct FileCall {
    pub file: Vec<u8>,
    pub ring: Vec<u8>,
    pub job: u32,
    pub out: usize,
}

#[derive(PartialEq, Debug)]
pub struct FileOutcome {
    pub check: shift::Answer,
    pub lookup: shift::Answer,
    pub associated: (u32, usize, usize),
    pub entry: (shift::Answer, shift::Places),
    pub open: shift::Answer,
    pub verified: (shift::Answer, usize, usize),
    pub out: Vec<u8>,
}

impl FileCall {
    /// The call as `test_shift` reads it; op 0 is the file as it is, op 1 every single-byte change of it.
    pub fn record_as(&self, op: u8) -> Vec<u8> {
        let head = head(op, 0, self.job, &[self.file.len(), self.ring.len(), self.out]);
        [&head[..], &self.file, &self.ring].concat()
    }

    /// The lines of op 1: for each byte of the file, the fold of the outcomes for its 255 other values. An outcome is the
    /// statuses and rows of check and lookup, the status of opening, and the output buffer after opening.
    pub fn damage_lines(&self) -> String {
        let mut damaged = self.clone();
        let mut lines = String::new();
        for at in 0..self.file.len() {
            let mut answers = vec![];
            for x in 1..=255 {
                damaged.file[at] = self.file[at] ^ x;
                let FileOutcome { check, lookup, open, out, .. } = damaged.answer(&REFERENCE);
                answers.extend([check.0, check.1, lookup.0, lookup.1, open.0].map(|number| number as u8));
                answers.extend(out);
            }
            damaged.file[at] = self.file[at];
            lines += &format!("{}\n", fold(&answers));
        }
        lines
    }
}

impl Case for FileCall {
    type Outcome = FileOutcome;

    fn answer(&self, by: &Library) -> FileOutcome {
        let mut out = vec![FILLER; self.out];
        FileOutcome {
            check: (by.check)(&self.file),
            lookup: (by.lookup)(&self.file, self.job),
            associated: (by.associated)(&self.file, self.job),
            entry: (by.entry)(&self.file, self.job),
            open: (by.open_job)(&self.file, &self.ring, self.job, &mut out),
            verified: (by.verified)(&self.file, &self.ring, self.job),
            out,
        }
    }

    fn record(&self) -> Vec<u8> {
        self.record_as(0)
    }

    fn lines(&self, by: &Library) -> String {
        let FileOutcome { check, lookup, associated: (_, at, length), open, out, .. } = self.answer(by);
        let (ad, out) = (shown(&self.file[at..at + length]), shown(&out));
        let numbers = [check.0, check.1, lookup.0, lookup.1].map(|number| number.to_string()).join(" ");
        format!("{numbers} {at} {length} {ad} {} {} {out}\n", open.0, open.1)
    }
}
