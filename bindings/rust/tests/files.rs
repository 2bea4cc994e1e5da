//! The shift file against the reference implementation: check, lookup, associated data, entry, opening, search, and all entries.

mod common;

use common::same;
use reference::data::{files, samples, searching};
use reference::random::Random;
use reference::report::Reader;
use reference::shift;
use reference::trials;
use snoekeldraf::ShiftFile;

/// The entries are those of the reference's reader, and those that looking each job up gives.
fn entries_are_the_rows(file: &[u8]) {
    let mut reader = Reader::new(file);
    let Ok(checked) = ShiftFile::check(file) else {
        assert!(reader.entry().is_none());
        return;
    };
    assert_eq!(checked.edition() as usize, shift::edition(file));
    let mut entries = checked.entries();
    while let Some((i, row)) = reader.entry() {
        assert_eq!(entries.len(), shift::count(file) - i);
        let entry = entries.next().unwrap();
        assert_eq!((entry.row as usize, entry.unverified_job, entry.unverified_station), (i, row.job, row.station));
        assert_eq!((entry.suite.number(), entry.key_number, entry.nonce), (row.suite, row.key, row.nonce()));
        let [ad, text, tag] = [row.associated(), row.text(), row.tag()].map(|range| &file[range]);
        assert_eq!((entry.unverified_ad, entry.text, entry.tag), (ad, text, tag));
        assert_eq!(entry.unverified_unit.number(), ad[4]);
        assert_eq!(checked.unverified_entry(row.job), Ok(entry));
        assert_eq!(checked.unverified_ad(row.job), Ok(entry.unverified_ad));
    }
    for _ in 0..3 {
        assert_eq!((entries.len(), entries.next()), (0, None));
    }
}

#[test]
fn calls_of_the_program_files() {
    let calls = files::calls();
    calls.iter().for_each(same);
    calls.iter().for_each(|call| entries_are_the_rows(&call.file));
    println!("{} cases: the calls of test_shift: check, lookup, opening", calls.len());
}

#[test]
fn every_damage_of_a_byte() {
    let mut count = 0;
    trials::single_bytes(|call| {
        same(call);
        entries_are_the_rows(&call.file);
        count += 1;
    });
    println!("{count} cases: every single-byte damage of three small files");
}

#[test]
fn random_files() {
    let mut count = 0;
    trials::shift_files(&mut Random::new(111), 60_000, |call| {
        same(call);
        entries_are_the_rows(&call.file);
        count += 1;
    });
    println!("{count} cases: random shift files, good and edited");
}

#[test]
fn long_files() {
    let mut count = 0;
    trials::long_files(&mut Random::new(112), |call| {
        same(call);
        count += 1;
    });
    println!("{count} cases: long shift files");
}

#[test]
fn entries_of_long_files() {
    for edition in [1, 2] {
        entries_are_the_rows(&files::many_rows_plan(40).in_edition(edition).file(&samples::ring()));
        entries_are_the_rows(&files::long_file(edition, shift::LONGEST));
    }
    let file = files::many_rows(512);
    let checked = ShiftFile::check(&file).unwrap();
    assert!(checked.entries().map(|entry| entry.unverified_job).eq(shift::rows(&file).iter().map(|row| row.job)));
}

#[test]
fn samples_are_read() {
    for (name, bytes) in samples::parts() {
        if name.ends_with(".shift") {
            entries_are_the_rows(&bytes);
            assert!(ShiftFile::check(&bytes).is_ok());
        }
    }
}

#[test]
fn searches() {
    let mut count = 0;
    let mut put = |call: &searching::SearchCall| {
        same(call);
        count += call.count;
    };
    searching::calls().iter().for_each(&mut put);
    searching::trials(&mut Random::new(113), 3_000, &mut put);
    searching::longest(&mut put);
    println!("{count} jobs looked for");
}
