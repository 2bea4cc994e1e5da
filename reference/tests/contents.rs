//! The table of contents by row number: the cases produce every status, and on good files it agrees with the reader.

use reference::calls::{Case, REFERENCE};
use reference::contents;
use reference::data::contents::{calls, trials};
use reference::random::Random;
use reference::report::Reader;
use reference::shift;
use std::collections::BTreeSet;

#[test]
fn contents_provoke_every_status() {
    let outcomes: Vec<_> = calls().iter().map(|call| call.answer(&REFERENCE)).collect();
    let headers: BTreeSet<u32> = outcomes.iter().map(|outcome| outcome.header.0).collect();
    let rows: BTreeSet<u32> = outcomes.iter().flat_map(|outcome| &outcome.rows).map(|(status, _)| *status).collect();
    assert_eq!(headers, [0].into_iter().chain(20..=24).collect());
    assert_eq!(rows, [0, 32].into_iter().chain(20..=24).collect());
}

/// On files that pass the check: the reader's rows in order, and 32 after the last.
#[test]
fn rows_are_the_readers() {
    let mut good = 0;
    trials(&mut Random::new(3), 2_000, |call| {
        if shift::check(&call.file).0 != 0 || call.first != 0 {
            return;
        }
        good += 1;
        let mut reader = Reader::new(&call.file);
        for row in 0..call.count as u32 {
            let (status, fields) = contents::row(&call.file, row);
            match reader.entry() {
                Some((i, entry)) => {
                    assert_eq!((status, i as u32), (0, row));
                    let [job, station, suite, key, nonce_at, _, _, text_at, _] = fields;
                    assert_eq!((job, station), (entry.job, entry.station));
                    assert_eq!((suite, key), (entry.suite.into(), entry.key.into()));
                    assert_eq!(call.file[nonce_at as usize..][..16], entry.nonce);
                    assert_eq!(text_at as usize, entry.text().start);
                }
                None => assert_eq!((status, fields), (32, [0; 9])),
            }
        }
    });
    assert!(good > 400, "{good} files pass the check");
}
