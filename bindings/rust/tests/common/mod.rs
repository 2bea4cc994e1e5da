//! The crate as an implementation that the cases of the reference implementation are put to.
//!
//! Some calls of the reference cannot be written with the crate's types: another suite, a key, nonce, tag or ring of another
//! length. There the type is refused when it is made; the functions below make it where the order of the numbers has it.

#![allow(dead_code)]

use reference::amendment::Amended;
use reference::calls::{Case, Library, REFERENCE};
use reference::difference::Compared;
use reference::report::Report;
use reference::shift::{Answer, Places};
use reference::show::hex;
use snoekeldraf::{Counted, Draft, Holder, Key, Nonce, Reason, Record, Refused, Ring, Sealed, ShiftFile, Suite, Tag};

/// Number and row as the documents give them: 0 where none is carried.
pub fn answer<T>(result: Result<T, Refused>) -> Answer {
    result.map_or_else(|refused| (refused.number(), refused.row.unwrap_or(0)), |_| (0, 0))
}

/// Number, file and row.
fn of_two(refused: Refused) -> (u32, u32, u32) {
    (refused.number(), refused.file.unwrap_or(0), refused.row.unwrap_or(0))
}

/// Suite, key and nonce for the sealer, or the number that applies first: 1, 10, 2, 3.
pub fn sealing(suite: u8, key: &[u8], nonce: &[u8]) -> Result<(Suite, Key, Nonce), u32> {
    let suite = Suite::try_from(suite).map_err(|refused| refused.number())?;
    if suite.is_retired() {
        return Err(10);
    }
    let made = || Ok((suite, Key::try_from(key)?, Nonce::assume_fresh(nonce)?));
    made().map_err(|refused: Refused| refused.number())
}

/// Suite and key for the opener, or the number that applies first: 1, 2.
pub fn opening(suite: u8, key: &[u8]) -> Result<(Suite, Key), u32> {
    let made = || Ok((Suite::try_from(suite)?, Key::try_from(key)?));
    made().map_err(|refused: Refused| refused.number())
}

/// The number, and the tag copied to where the reference wants it.
fn put(sealed: Result<Tag, Refused>, to: &mut [u8]) -> u32 {
    if let Ok(tag) = &sealed {
        to.copy_from_slice(tag.as_bytes());
    }
    answer(sealed).0
}

fn seal(suite: u8, key: &[u8], nonce: &[u8], ad: &[u8], msg: &[u8], out: &mut [u8], tag: &mut [u8]) -> u32 {
    match sealing(suite, key, nonce) {
        Err(number) => number,
        Ok((suite, key, nonce)) => put(snoekeldraf::seal(suite, &key, nonce, Record { ad, text: msg }, out), tag),
    }
}

fn open(suite: u8, key: &[u8], nonce: &[u8], ad: &[u8], text: &[u8], tag: &[u8], out: &mut [u8]) -> u32 {
    match opening(suite, key) {
        Err(number) => number,
        Ok((suite, key)) => answer(snoekeldraf::open(suite, &key, Sealed { nonce, ad, text, tag }, out)).0,
    }
}

#[rustfmt::skip]
fn seal_counted(
    suite: u8, key: &[u8], nonce: &[u8], ad: &[u8], msg: &[u8], out: &mut [u8], tag: &mut [u8],
) -> (u32, u64) {
    match sealing(suite, key, nonce) {
        Err(number) => (number, 0),
        Ok((suite, key, nonce)) => {
            let record = Record { ad, text: msg };
            let Counted { result, calls } = snoekeldraf::seal_counted(suite, &key, nonce, record, out);
            (put(result, tag), calls)
        }
    }
}

#[rustfmt::skip]
fn open_counted(
    suite: u8, key: &[u8], nonce: &[u8], ad: &[u8], text: &[u8], tag: &[u8], out: &mut [u8],
) -> (u32, u64) {
    match opening(suite, key) {
        Err(number) => (number, 0),
        Ok((suite, key)) => {
            let sealed = Sealed { nonce, ad, text, tag };
            let Counted { result, calls } = snoekeldraf::open_counted(suite, &key, sealed, out);
            (answer(result).0, calls)
        }
    }
}

fn seal_in_place(suite: u8, key: &[u8], nonce: &[u8], ad: &[u8], text: &mut [u8], tag: &mut [u8]) -> u32 {
    match sealing(suite, key, nonce) {
        Err(number) => number,
        Ok((suite, key, nonce)) => put(snoekeldraf::seal_in_place(suite, &key, nonce, ad, text), tag),
    }
}

/// A tag that is neither 8 nor 16 bytes long cannot be made: one of the other length stands in for it and gets 7 too.
fn open_in_place(suite: u8, key: &[u8], nonce: &[u8], ad: &[u8], text: &mut [u8], tag: &mut [u8]) -> u32 {
    match opening(suite, key) {
        Err(number) => number,
        Ok((suite, key)) => {
            let other = &[0; 16][..24 - suite.tag_size()];
            let tag = Tag::try_from(&*tag).or_else(|_| Tag::try_from(other)).unwrap();
            answer(snoekeldraf::open_in_place(suite, &key, nonce, ad, text, tag)).0
        }
    }
}

fn verify(suite: u8, key: &[u8], nonce: &[u8], ad: &[u8], text: &mut [u8], tag: &mut [u8]) -> u32 {
    match opening(suite, key) {
        Err(number) => number,
        Ok((suite, key)) => answer(snoekeldraf::verify(suite, &key, Sealed { nonce, ad, text, tag })).0,
    }
}

fn check(file: &[u8]) -> Answer {
    answer(ShiftFile::check(file))
}

fn lookup(file: &[u8], job: u32) -> Answer {
    match ShiftFile::check(file).and_then(|file| file.lookup(job)) {
        Ok(row) => (0, row),
        refused => answer(refused),
    }
}

/// Where a part of the bytes lies in them.
fn place(part: &[u8], bytes: &[u8]) -> usize {
    let place = part.as_ptr() as usize - bytes.as_ptr() as usize;
    assert!(place + part.len() <= bytes.len());
    place
}

fn associated(file: &[u8], job: u32) -> (u32, usize, usize) {
    match ShiftFile::check(file).and_then(|file| file.unverified_ad(job)) {
        Ok(part) => (0, place(part, file), part.len()),
        Err(refused) => (refused.number(), 0, 0),
    }
}

fn entry(file: &[u8], job: u32) -> (Answer, Places) {
    match ShiftFile::check(file).and_then(|file| file.unverified_entry(job)) {
        Ok(e) => ((0, e.row), [place(e.unverified_ad, file), e.unverified_ad.len(), place(e.text, file), e.text.len()]),
        refused => (answer(refused), [0; 4]),
    }
}

/// The job's entry opened by itself, without checking the file again, gives what opening the job gives.
fn entry_opens(file: ShiftFile, ring: &Ring, job: u32, opened: Answer, out: &[u8]) {
    let (Ok(entry), true) = (file.unverified_entry(job), matches!(opened.0, 0 | 6 | 8)) else { return };
    let mut again = vec![0xa5; out.len()];
    let by_entry = entry.open(ring, &mut again);
    assert_eq!(answer(by_entry), opened);
    assert_eq!(again, if opened.0 == 6 { vec![0xa5; out.len()] } else { out.to_vec() });
    assert_eq!(entry.verify(ring).is_ok(), file.verified(ring, job).is_ok());
    if let Ok(verified) = by_entry {
        assert_eq!(file.verified(ring, job), Ok(verified));
        assert_eq!((verified.job(), verified.unit(), verified.ad()), (job, entry.unverified_unit, entry.unverified_ad));
    }
}

fn open_job(file: &[u8], ring: &[u8], job: u32, out: &mut [u8]) -> Answer {
    let mut opened = || {
        let file = ShiftFile::check(file)?;
        file.lookup(job)?;
        let ring = Ring::try_from(ring)?;
        let opened = file.open_job(&ring, job, out);
        entry_opens(file, &ring, job, answer(opened), out);
        opened.map(drop)
    };
    answer(opened())
}

fn verified(file: &[u8], ring: &[u8], job: u32) -> (Answer, usize, usize) {
    let made = || {
        let file = ShiftFile::check(file)?;
        file.lookup(job)?;
        file.verified(&Ring::try_from(ring)?, job)
    };
    match made() {
        Ok(verified) => {
            let [unit, data] = [&verified.ad()[4..5], &verified.ad()[5..]];
            assert_eq!((verified.job(), &[verified.unit().number()][..], verified.data()), (job, unit, data));
            ((0, 0), place(verified.ad(), file), verified.ad().len())
        }
        refused => (answer(refused), 0, 0),
    }
}

fn seal_file(draft: &[u8], ring: &[u8], out: &mut [u8]) -> Answer {
    let mut sealed = || Draft::check(draft)?.seal(&Ring::try_from(ring)?, out);
    answer(sealed())
}

type Pass = fn(&[u8], &Ring, &mut [u8]) -> Result<(), Refused>;

/// A pass over a file and a ring. With a ring of another length it is called with a stand-in and no output: 6, which comes
/// right after 2 and which every file then gets, means that nothing before 2 applies.
fn rewrite(pass: Pass, file: &[u8], ring: &[u8], out: &mut [u8]) -> Answer {
    let result = match Ring::try_from(ring) {
        Ok(ring) => pass(file, &ring, out),
        Err(short) => match pass(file, &Ring::from([0; 256]), &mut []) {
            Err(Refused { reason: Reason::OutputLength, .. }) => Err(short),
            earlier => earlier,
        },
    };
    answer(result)
}

fn search(file: &[u8], job: u32) -> (Answer, u32) {
    let searched = snoekeldraf::search(file, job);
    if let Ok(file) = ShiftFile::check(file) {
        assert_eq!(file.search(job), searched);
        assert_eq!(file.lookup(job), searched.found);
    }
    (searched.found.map_or_else(|_| answer(searched.found), |row| (0, row)), searched.looked)
}

fn compare(first: &[u8], second: &[u8], [one, other, both]: [&mut [u32]; 3]) -> Compared {
    match snoekeldraf::compare(first, second, one, other, both) {
        Ok(lists) => {
            let counts = [lists.only_first, lists.only_second, lists.differ].map(|list| list.len() as u32);
            Compared { number: 0, file: 0, row: 0, counts }
        }
        Err(refused) => {
            let (number, file, row) = of_two(refused);
            Compared { number, file, row, counts: [0; 3] }
        }
    }
}

fn file_number(holder: Holder) -> u32 {
    match holder {
        Holder::Amendment => 1,
        Holder::Day => 2,
    }
}

fn amended(amendment: &[u8], day: &[u8], job: u32) -> Amended {
    match snoekeldraf::unverified_current(amendment, day, job) {
        Ok(current) => {
            let file = file_number(current.holder);
            let at = place(current.unverified_ad, if file == 1 { amendment } else { day });
            Amended { number: 0, file, row: current.row, at, length: current.unverified_ad.len() }
        }
        Err(refused) => {
            let (number, file, row) = of_two(refused);
            Amended { number, file, row, at: 0, length: 0 }
        }
    }
}

fn open_current(amendment: &[u8], day: &[u8], ring: &[u8], job: u32, out: &mut [u8]) -> (u32, u32, u32) {
    let mut opened = || {
        let current = snoekeldraf::unverified_current(amendment, day, job).map_err(of_two)?;
        let Ok(ring) = Ring::try_from(ring) else { return Err((2, file_number(current.holder), 0)) };
        let opened = snoekeldraf::open_amended(amendment, day, &ring, job, out).map_err(of_two)?;
        assert_eq!((opened.0, opened.1.ad()), (current.holder, current.unverified_ad));
        Ok((0, file_number(opened.0), 0))
    };
    opened().unwrap_or_else(|refused| refused)
}

fn report(file: &[u8], ring: &[u8], jobs: &mut [u32], numbers: &mut [u8]) -> Report {
    let result = match Ring::try_from(ring) {
        Ok(ring) => snoekeldraf::report(file, &ring, jobs, numbers).map(|report| report.jobs.len()),
        Err(short) => match snoekeldraf::report(file, &Ring::from([0; 256]), &mut [], &mut []) {
            Ok(_) | Err(Refused { reason: Reason::OutputLength, .. }) => Err(short),
            Err(earlier) => Err(earlier),
        },
    };
    let (number, row) = answer(result);
    Report { number, row, count: result.unwrap_or(0) as u32 }
}

/// The crate. A session of the reference is a plain value, which the crate's is not: `sessions.rs` runs those.
pub const CRATE: Library = Library {
    seal,
    open,
    seal_in_place,
    open_in_place,
    verify,
    check,
    lookup,
    associated,
    entry,
    open_job,
    verified,
    seal_file,
    unseal_file: |file, ring, out| rewrite(snoekeldraf::unseal, file, ring, out),
    search,
    reseal: |file, ring, out| rewrite(snoekeldraf::reseal, file, ring, out),
    compare,
    moved_length: snoekeldraf::moved_len,
    to_edition2: |file, out| answer(snoekeldraf::to_edition2(file, out)),
    to_edition1: |file, out| answer(snoekeldraf::to_edition1(file, out)),
    amended,
    open_current,
    seal_counted,
    open_counted,
    report,
    ..REFERENCE
};

/// The crate's answer to a case is the reference's, and every byte that is written.
pub fn same<C: Case>(case: &C) {
    let (got, expected) = (case.answer(&CRATE), case.answer(&REFERENCE));
    assert!(
        got == expected,
        "the call {}\n the crate: {} the reference: {}",
        hex(&case.record()),
        case.lines(&CRATE),
        case.lines(&REFERENCE)
    );
}
